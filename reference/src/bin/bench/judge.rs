//! Judging the longest sound library, the longest sound tree, and the longest whose leaves are plain.

use crate::clock::{medians, print_times, Contestant};
use reference::form::Form;
use reference::generate::damage::Kind;
use reference::generate::longest;
#[cfg(feature = "before")]
use reference::product;
use reference::product::PRODUCT;
use reference::tree::Tree;
use reference::verdict::Verdict;
use reference::wordwise;
use std::hint::black_box;

/// Answers as `Verdict::coded` does.
type Judge = fn(Kind, &[u8]) -> u64;

const BEFORE: &str = "before";

/// Who judges: the product first, then an earlier one, if it is linked. It may refuse a tree with driven leaves.
const JUDGES: &[(&str, Judge)] = &[
    ("product", |kind, sheet| PRODUCT.judge(kind, sheet)),
    #[cfg(feature = "before")]
    (BEFORE, |kind, sheet| product::BEFORE.judge(kind, sheet)),
    ("reference", |kind, sheet| Verdict::of(kind, sheet).coded()),
    ("wordwise", wordwise::judge),
];

/// One sheet; in a round of the table everyone judges it `calls` times.
struct Row {
    name: &'static str,
    title: &'static str,
    kind: Kind,
    sheet: Vec<u8>,
    calls: usize,
}

pub fn run() {
    for row in rows() {
        println!("judge {}, {} bytes:", row.title, row.sheet.len());
        let judges = row.judges();
        let contestants = judges.iter().map(|&(_, judge)| row.contestant(judge)).collect();
        let who: Vec<&str> = judges.iter().map(|&(who, _)| who).collect();
        print_times(&who, &medians(row.calls, contestants));
    }
}

/// Some judgements of a row by one of them, if the arguments ask for it.
pub fn repeat(arguments: &[String]) -> bool {
    let [word, count, who, name] = arguments else { return false };
    let named = rows().into_iter().find(|row| row.name == name);
    let (Some(row), Ok(count), "repeat") = (named, count.parse(), word.as_str()) else { return false };
    let (_, judge) = JUDGES.iter().find(|(judge, _)| judge == who).expect("one of the judges");
    let mut contestant = row.contestant(*judge);
    (0..count).for_each(|_: u32| contestant());
    true
}

fn rows() -> [Row; 3] {
    let library = Form::of_library(&longest::library()).bytes();
    [
        Row {
            name: "longest_library",
            title: "the longest sound library",
            kind: Kind::Library,
            sheet: library,
            calls: 200,
        },
        Row::of_tree("longest_tree", "the longest sound tree", &longest::tree()),
        Row::of_tree("longest_plain_tree", "the longest sound tree with plain leaves", &longest::plain_tree()),
    ]
}

impl Row {
    fn of_tree(name: &'static str, title: &'static str, tree: &Tree) -> Row {
        Row { name, title, kind: Kind::Tree, sheet: Form::of_tree(tree).bytes(), calls: 10_000 }
    }

    /// All but an earlier product that refuses the sheet.
    fn judges(&self) -> Vec<(&'static str, Judge)> {
        let takes_part = |(who, judge): &(&str, Judge)| *who != BEFORE || judge(self.kind, &self.sheet) >> 32 == 0;
        JUDGES.iter().copied().filter(takes_part).collect()
    }

    fn contestant(&self, judge: Judge) -> Contestant<'_> {
        let expected = Verdict::of(self.kind, &self.sheet).coded();
        Box::new(move || assert_eq!(judge(self.kind, black_box(&self.sheet)), expected))
    }
}
