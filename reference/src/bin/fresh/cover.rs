//! Fresh covers for their judge.

use crate::tally::{words, Tally};
use reference::generate::covers::damage::any_case;
use reference::generate::covers::Case;
use reference::hex::hex;
use reference::judging;
use reference::product::PRODUCT;
use reference::verdict::Verdict;

pub fn run(count: u64, seed: u64) -> Tally {
    Tally::of(count, seed, any_case, compare)
}

fn compare(tally: &mut Tally, case: &Case) {
    let judged = case.judged();
    let expected = Verdict::from(judged).coded();
    let actual = PRODUCT.judge_cover(&case.library, &case.tree, &case.cover);
    tally.meet(&case.tree);
    if actual == expected {
        tally.agree(judging::name(&judged));
    } else {
        tally.disagree(|| story(case, expected, actual));
    }
}

fn story(case: &Case, expected: u64, actual: u64) -> String {
    let lines = [
        format!("library: {}", hex(&case.library)),
        format!("tree: {}", hex(&case.tree)),
        format!("cover: {}", hex(&case.cover)),
        format!("reference: {}", words(expected)),
        format!("product: {}", words(actual)),
    ];
    lines.map(|line| format!("  {line}")).join("\n")
}
