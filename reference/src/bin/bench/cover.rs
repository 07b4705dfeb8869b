//! Judging the covers that map hands over.

use crate::clock::{medians, print_times, Contestant};
use reference::generate::heavy;
use reference::judging;
use reference::operation::{Lent, Operation};
#[cfg(feature = "before")]
use reference::product::BEFORE;
use reference::product::PRODUCT;
use reference::verdict::Verdict;
use std::hint::black_box;

/// Answers as `Verdict::coded` does.
type Judge = fn(&[u8], &[u8], &[u8]) -> u64;

/// Who judges, and the word for it in `repeat`: the product first, then an earlier one, if it is linked, and the
/// reference.
const JUDGES: &[(&str, &str, Judge)] = &[
    ("product", "judge", |library, tree, cover| PRODUCT.judge_cover(library, tree, cover)),
    #[cfg(feature = "before")]
    ("before", "judge_before", |library, tree, cover| BEFORE.judge_cover(library, tree, cover)),
    ("reference", "judge_reference", |library, tree, cover| {
        Verdict::from(judging::judge(library, tree, cover)).coded()
    }),
];

/// How often each judges a cover in a round.
const CALLS: usize = 150;

/// The three sheets of one row.
struct Row {
    library: Vec<u8>,
    tree: Vec<u8>,
    cover: Vec<u8>,
}

pub fn run() {
    for name in heavy::all().iter().map(|(name, _)| name) {
        let row = Row::named(name).expect("a row");
        println!("judge the cover of {name}, {} bytes:", row.cover.len());
        let contestants = JUDGES.iter().map(|&(_, _, judge)| row.contestant(judge)).collect();
        let who: Vec<&str> = JUDGES.iter().map(|&(who, _, _)| who).collect();
        print_times(&who, &medians(CALLS, contestants));
    }
}

/// Some judgements of a row's cover by one of them, if the arguments ask for it.
pub fn repeat(arguments: &[String]) -> bool {
    let [word, count, who, name] = arguments else { return false };
    let judge = JUDGES.iter().find(|(_, word, _)| word == who);
    let ("repeat", Ok(count), Some((_, _, judge)), Some(row)) = (word.as_str(), count.parse(), judge, Row::named(name))
    else {
        return false;
    };
    let mut contestant = row.contestant(*judge);
    (0..count).for_each(|_: u32| contestant());
    true
}

impl Row {
    fn named(name: &str) -> Option<Row> {
        let (_, problem) = heavy::all().into_iter().find(|(row, _)| *row == name)?;
        let (library, tree) = (problem.library_sheet(), problem.tree_sheet());
        let cover = Operation::Map.run(Lent::ENOUGH, &library, &tree).expect("a cover");
        Some(Row { library, tree, cover })
    }

    fn contestant(&self, judge: Judge) -> Contestant<'_> {
        let expected = Verdict::from(judging::judge(&self.library, &self.tree, &self.cover)).coded();
        Box::new(move || assert_eq!(judge(black_box(&self.library), &self.tree, &self.cover), expected))
    }
}
