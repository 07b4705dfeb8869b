//! Fresh parts: the answer, the output and the work area; and of some that are mapped each tree by itself.

use crate::answer::Answer;
use crate::tally::Tally;
use reference::cover::{self, Cover, Pair};
use reference::generate::damage::damage_bytes;
use reference::generate::linked::damage::any_case;
use reference::generate::linked::kinds::name;
use reference::generate::linked::{chosen, sheets_alone, Case};
use reference::hex::hex;
use reference::operation::{Lent, Operation};
use reference::part::{self, Fault};
use reference::product::PRODUCT;
use reference::rng::Rng;
use reference::verdict::Verdict;

pub fn run(count: u64, seed: u64) -> Tally {
    let mut rng = Rng::new(seed);
    let mut tally = Tally::default();
    let known: Vec<Case> = chosen::all().into_iter().map(|row| row.case).collect();
    for _ in 0..count {
        let case = ask(&mut rng, &known);
        let before = Answer::junk(&mut rng, case.lent);
        compare(&mut rng, &mut tally, &case, before);
    }
    tally
}

/// A random part, now and then one made by hand with something changed. Most are lent more than enough.
fn ask(rng: &mut Rng, known: &[Case]) -> Case {
    let mut case = if rng.once_in(20) { known[rng.below(known.len())].clone() } else { any_case(rng) };
    if rng.once_in(40) {
        damage_bytes(rng, &mut case.part);
    }
    if case.lent == part::ENOUGH {
        case.lent.output += rng.below(40);
        case.lent.work += rng.below(40);
    }
    case
}

fn compare(rng: &mut Rng, tally: &mut Tally, case: &Case, before: Answer) {
    let mut actual = before.clone();
    actual.coded = PRODUCT.map_part(&case.library, &case.part, &mut actual.output, &mut actual.work);
    let result = case.answer();
    let mut expected = before;
    let clears = result.as_ref().err().is_none_or(Fault::clears);
    expected.take(result.clone().map_err(|fault| fault.coded()), clears);
    if actual != expected {
        return tally.disagree(|| story(case, &expected, &actual));
    }
    if let Ok(sheets) = &result {
        tally.meet_part(&case.part);
        if rng.once_in(4) {
            return compare_alone(tally, case, sheets);
        }
    }
    tally.agree(name(case, &result));
}

/// Each tree by itself with the arrivals stated for lower ones: both maps give its sheet, and the judge accepts it.
fn compare_alone(tally: &mut Tally, case: &Case, sheets: &[u8]) {
    let rows = cover::decode_row(sheets).expect("cover sheets");
    let part = part::decode(&case.part).expect("a mapped part");
    let covers: Vec<Cover> = rows.iter().map(|(cover, _)| cover.clone()).collect();
    for ((cover, sheet), tree) in rows.iter().zip(sheets_alone(&part, &covers)) {
        if let Err(what) = agrees_alone(&case.library, &tree, cover, sheet) {
            return tally.disagree(|| lone_story(case, &tree, sheet, what));
        }
    }
    tally.agree("mapped, and each tree by itself".to_string());
}

/// Says what does not agree.
fn agrees_alone(library: &[u8], tree: &[u8], cover: &Cover, sheet: &[u8]) -> Result<(), &'static str> {
    let Lent { output, work } = Lent::ENOUGH;
    let (mut output, mut work) = (vec![0; output], vec![0; work]);
    let length = PRODUCT.run(Operation::Map, library, tree, &mut output, &mut work) as usize;
    if output.get(..length) != Some(sheet) {
        return Err("the product's map");
    }
    if Operation::Map.run(Lent::ENOUGH, library, tree).as_deref() != Ok(sheet) {
        return Err("the reference's map");
    }
    let figures = Verdict::Cover(Pair { arrival: cover.arrival, area: cover.area });
    if PRODUCT.judge_cover(library, tree, sheet) != figures.coded() {
        return Err("the product's judge");
    }
    Ok(())
}

/// An answer in words: of a refusal number, place and tree.
fn words(coded: u64) -> String {
    match coded >> 32 {
        0 => format!("success {coded}"),
        high => format!("refused {} {} {}", high & 255, coded as u32, high >> 8),
    }
}

fn story(case: &Case, expected: &Answer, actual: &Answer) -> String {
    let Case { lent, library, part } = case;
    let mut lines = vec![
        format!("lent {} bytes and {} words", lent.output, lent.work),
        format!("library: {}", hex(library)),
        format!("part: {}", hex(part)),
        format!("reference: {}, output {}", words(expected.coded), hex(&expected.output)),
        format!("product: {}, output {}", words(actual.coded), hex(&actual.output)),
    ];
    lines.extend(expected.other_word(actual));
    indented(&lines)
}

fn lone_story(case: &Case, tree: &[u8], sheet: &[u8], what: &str) -> String {
    let lines = [
        format!("{what} does not agree with a tree of a part"),
        format!("library: {}", hex(&case.library)),
        format!("part: {}", hex(&case.part)),
        format!("tree by itself: {}", hex(tree)),
        format!("cover: {}", hex(sheet)),
    ];
    indented(&lines)
}

fn indented(lines: &[String]) -> String {
    lines.iter().map(|line| format!("  {line}")).collect::<Vec<_>>().join("\n")
}
