//! Fresh sheets for the two judges: the product, the reference and `wordwise` must agree.

use crate::tally::{key, words, Tally};
use reference::generate::damage::{any_sheet, Kind};
use reference::hex::hex;
use reference::product::PRODUCT;
use reference::rng::Rng;
use reference::verdict::Verdict;
use reference::wordwise;

pub fn run(count: u64, seed: u64) -> Tally {
    let mut rng = Rng::new(seed);
    let mut tally = Tally::default();
    for _ in 0..count {
        let kind = if rng.once_in(3) { Kind::Tree } else { Kind::Library };
        compare(&mut tally, kind, &any_sheet(&mut rng, kind));
    }
    tally
}

fn compare(tally: &mut Tally, kind: Kind, sheet: &[u8]) {
    let expected = Verdict::of(kind, sheet).coded();
    let actual = PRODUCT.judge(kind, sheet);
    let wordwise = wordwise::judge(kind, sheet);
    if kind == Kind::Tree {
        tally.meet(sheet);
    }
    if actual == expected && wordwise == expected {
        tally.agree(key(&format!("{kind:?}").to_lowercase(), actual));
    } else {
        tally.disagree(|| story(kind, sheet, [expected, actual, wordwise]));
    }
}

fn story(kind: Kind, sheet: &[u8], verdicts: [u64; 3]) -> String {
    let [expected, actual, wordwise] = verdicts.map(words);
    let verdicts = format!("  reference: {expected}\n  product: {actual}\n  wordwise: {wordwise}");
    format!("  {kind:?} of {} bytes: {}\n{verdicts}", sheet.len(), hex(sheet))
}
