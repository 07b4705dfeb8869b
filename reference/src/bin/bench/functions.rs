//! Judging the functions of a library of the greatest length.

use crate::clock::{medians, print_times, Contestant};
use reference::generate::functions::{Case, Draft};
use reference::generate::longest;
#[cfg(feature = "before")]
use reference::product::BEFORE;
use reference::product::PRODUCT;
use reference::verdict::Verdict;
use reference::wordwise;
use std::hint::black_box;

/// Answers as `Verdict::coded` does.
type Judge = fn(&[u8], &[u8]) -> u64;

/// Who judges: the product first, then an earlier one, if it is linked; the reference, one setting after another; and by
/// hand, all settings at once.
const JUDGES: &[(&str, Judge)] = &[
    ("product", |library, functions| PRODUCT.judge_functions(library, functions)),
    #[cfg(feature = "before")]
    ("before", |library, functions| BEFORE.judge_functions(library, functions)),
    ("reference", |library, functions| Verdict::of_functions(library, functions).coded()),
    ("wordwise", wordwise::functions::judge),
];

/// The only row.
const NAME: &str = "longest_functions";

/// How often each judges in a round.
const CALLS: usize = 50;

pub fn run() {
    let case = longest_case();
    let Case { library, functions } = &case;
    println!(
        "judge the functions of the longest library whose drawings agree, {} and {} bytes:",
        library.len(),
        functions.len()
    );
    let contestants = JUDGES.iter().map(|&(_, judge)| contestant(&case, judge)).collect();
    let who: Vec<&str> = JUDGES.iter().map(|&(who, _)| who).collect();
    print_times(&who, &medians(CALLS, contestants));
}

/// Some judgements by one of them, if the arguments ask for it.
pub fn repeat(arguments: &[String]) -> bool {
    let [word, count, who, name] = arguments else { return false };
    let ("repeat", Ok(count), NAME) = (word.as_str(), count.parse(), name.as_str()) else { return false };
    let (_, judge) = JUDGES.iter().find(|(judge, _)| judge == who).expect("one of the judges");
    let case = longest_case();
    let mut contestant = contestant(&case, *judge);
    (0..count).for_each(|_: u32| contestant());
    true
}

fn longest_case() -> Case {
    Draft::of(longest::agreeing_library()).case()
}

fn contestant(case: &Case, judge: Judge) -> Contestant<'_> {
    let expected = case.judged().coded();
    Box::new(move || assert_eq!(judge(black_box(&case.library), &case.functions), expected))
}
