//! Fresh problems for map and list: the answer, the output and the work area.

use crate::answer::Answer;
use crate::tally::{key, words, Tally};
use reference::cover::{self, Cover};
use reference::generate::damage::{any_sheet, Kind};
use reference::generate::problem::{any_style, problem, varied, Problem};
use reference::generate::{chosen, heavy};
use reference::hex::hex;
use reference::operation::{Lent, Operation, LEAST_WORK};
use reference::product::PRODUCT;
use reference::refusal::{NO_COVER, OVERFULL};
use reference::rng::Rng;

struct Question {
    operation: Operation,
    lent: Lent,
    library: Vec<u8>,
    tree: Vec<u8>,
}

/// Problems made by hand, and those of the benchmark.
struct Known {
    chosen: Vec<Problem>,
    heavy: Vec<Problem>,
}

pub fn run(count: u64, seed: u64) -> Tally {
    let mut rng = Rng::new(seed);
    let mut tally = Tally::default();
    let known = Known {
        chosen: chosen::all().into_iter().map(|chosen| chosen.problem).collect(),
        heavy: heavy::all().into_iter().map(|(_, problem)| problem).collect(),
    };
    for _ in 0..count {
        let question = ask(&mut rng, &known);
        let before = Answer::junk(&mut rng, question.lent);
        compare(&mut tally, &question, before);
    }
    tally
}

/// A random problem, now and then one made by hand with something changed, and rarely one that takes long.
fn any_problem(rng: &mut Rng, known: &Known) -> Problem {
    let similar = match rng.below(1_000) {
        0 => &known.heavy,
        1..=80 => &known.chosen,
        _ => {
            let style = any_style(rng);
            return problem(rng, style);
        }
    };
    let number = rng.below(similar.len());
    varied(rng, &similar[number])
}

/// Mostly sound sheets; sometimes a damaged one, or too little lent.
fn ask(rng: &mut Rng, known: &Known) -> Question {
    let operation = rng.pick(&[Operation::Map, Operation::Map, Operation::List]);
    let problem = any_problem(rng, known);
    let mut question = Question {
        operation,
        lent: lent(rng, operation),
        library: problem.library_sheet(),
        tree: problem.tree_sheet(),
    };
    if rng.once_in(12) {
        question.library = any_sheet(rng, Kind::Library);
    }
    if rng.once_in(12) {
        question.tree = any_sheet(rng, Kind::Tree);
    }
    question
}

fn lent(rng: &mut Rng, operation: Operation) -> Lent {
    let mut lent = Lent { output: operation.least_output() + rng.below(40), work: LEAST_WORK + rng.below(40) };
    match rng.below(60) {
        0 => lent.output = rng.below(operation.least_output()),
        1 => lent.output = operation.least_output() - 1,
        2 => lent.work = rng.below(LEAST_WORK),
        3 => lent.work = LEAST_WORK - 1,
        _ => {}
    }
    lent
}

fn compare(tally: &mut Tally, question: &Question, before: Answer) {
    let mut actual = before.clone();
    actual.coded = by_product(question, &mut actual.output, &mut actual.work);
    let expected = by_reference(question, before);
    tally.meet(&question.tree);
    if actual == expected {
        tally.agree(key(name(question, &expected), expected.coded));
    } else {
        tally.disagree(|| story(question, &expected, &actual));
    }
}

/// How a success is counted: covers that exchange inputs by themselves.
fn name(question: &Question, answer: &Answer) -> &'static str {
    let sheet = answer.output.get(..answer.coded as usize);
    let cover = sheet.and_then(|sheet| cover::decode(sheet).ok());
    let exchanges = |cover: Cover| cover.matches.iter().any(|placed| placed.crossing != 0);
    match question.operation {
        Operation::List => "list",
        Operation::Map if cover.is_some_and(exchanges) => "map exchanged",
        Operation::Map => "map as drawn",
    }
}

fn by_product(question: &Question, output: &mut [u8], work: &mut [u64]) -> u64 {
    PRODUCT.run(question.operation, &question.library, &question.tree, output, work)
}

/// The stated effect of a call on what it was lent.
fn by_reference(question: &Question, mut lent: Answer) -> Answer {
    let result = question.operation.run(question.lent, &question.library, &question.tree);
    let clears = match &result {
        Ok(_) => true,
        Err(refusal) => [OVERFULL, NO_COVER].contains(&refusal.number),
    };
    lent.take(result.map_err(|refusal| refusal.coded()), clears);
    lent
}

fn story(question: &Question, expected: &Answer, actual: &Answer) -> String {
    let Question { operation, lent, library, tree } = question;
    let mut lines = vec![
        format!("{operation:?} lent {} bytes and {} words", lent.output, lent.work),
        format!("library: {}", hex(library)),
        format!("tree: {}", hex(tree)),
        format!("reference: {}, output {}", words(expected.coded), hex(&expected.output)),
        format!("product: {}, output {}", words(actual.coded), hex(&actual.output)),
    ];
    lines.extend(expected.other_word(actual));
    lines.iter().map(|line| format!("  {line}")).collect::<Vec<_>>().join("\n")
}
