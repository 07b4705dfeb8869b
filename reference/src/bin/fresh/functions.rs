//! Fresh libraries with function sheets: the product, the reference and `wordwise` must agree.

use crate::tally::{words, Tally};
use reference::generate::functions::damage::any_case;
use reference::generate::functions::kinds::name;
use reference::generate::functions::Case;
use reference::hex::hex;
use reference::product::PRODUCT;
use reference::wordwise;

pub fn run(count: u64, seed: u64) -> Tally {
    Tally::of(count, seed, any_case, compare)
}

fn compare(tally: &mut Tally, case: &Case) {
    let expected = case.judged().coded();
    let actual = PRODUCT.judge_functions(&case.library, &case.functions);
    let wordwise = wordwise::functions::judge(&case.library, &case.functions);
    if actual == expected && wordwise == expected {
        tally.agree(name(case));
    } else {
        tally.disagree(|| story(case, [expected, actual, wordwise]));
    }
}

fn story(case: &Case, verdicts: [u64; 3]) -> String {
    let [expected, actual, wordwise] = verdicts.map(words);
    let lines = [
        format!("library: {}", hex(&case.library)),
        format!("functions: {}", hex(&case.functions)),
        format!("reference: {expected}"),
        format!("product: {actual}"),
        format!("wordwise: {wordwise}"),
    ];
    lines.map(|line| format!("  {line}")).join("\n")
}
