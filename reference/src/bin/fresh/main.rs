//! Runs fresh random sheets through the product and the reference and compares.
//!
//! `fresh judge [COUNT] [SEED]`: the two judges.
//! `fresh map [COUNT] [SEED]`: map and list.
//! `fresh cover [COUNT] [SEED]`: the judge of covers.
//! `fresh functions [COUNT] [SEED]`: the judge of functions.
//! `fresh part [COUNT] [SEED]`: map of parts.
//! `fresh bill [COUNT] [SEED]`: bill's text, by the program whose path is in `TREECOVER_CASES`.
//!
//! The exit status is 1 if anything disagrees.

mod answer;
mod bill;
mod cover;
mod functions;
mod judge;
mod map;
mod part;
mod tally;

use std::process::ExitCode;

fn main() -> ExitCode {
    let arguments: Vec<String> = std::env::args().skip(1).collect();
    let number = |position: usize, default: u64| match arguments.get(position) {
        Some(text) => text.parse().expect("a number"),
        None => default,
    };
    let tally = match arguments.first().map(String::as_str) {
        Some("judge") => judge::run(number(1, 100_000), number(2, 1)),
        Some("map") => map::run(number(1, 200_000), number(2, 1)),
        Some("cover") => cover::run(number(1, 200_000), number(2, 1)),
        Some("functions") => functions::run(number(1, 200_000), number(2, 1)),
        Some("part") => part::run(number(1, 200_000), number(2, 1)),
        Some("bill") => bill::run(number(1, 200_000), number(2, 1)),
        _ => {
            eprintln!("usage: fresh judge|map|cover|functions|part|bill [COUNT] [SEED]");
            return ExitCode::from(2);
        }
    };
    tally.print();
    ExitCode::from(!tally.all_agree() as u8)
}
