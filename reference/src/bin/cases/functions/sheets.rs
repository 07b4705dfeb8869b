//! Cases about the bytes of both sheets.

use super::plain_library;
use reference::functions::computed;
use reference::generate::damage::{flipped_at, Kind};
use reference::generate::functions::{Case, Draft};
use reference::generate::{limits, longest, sound, specimen};
use reference::library::Library;
use reference::rng::Rng;
use reference::verdict::Verdict;
use std::collections::BTreeMap;

pub fn cases() -> Vec<Case> {
    let mut cases = Vec::new();
    for library in [specimen::library(), specimen::example_library(), specimen::rich_library()] {
        cases.extend(flips(&Draft::of(library)));
    }
    for library in torn_libraries() {
        cases.extend(cuts(&library));
    }
    for pins in [&[1][..], &[1, 1], &[1, 1, 1], &[1, 1, 1, 1], &[3], &[6], &[5, 2, 1]] {
        cases.extend(tails(&plain_library(pins)));
    }
    cases.extend(flipped_library());
    cases.extend(unsound());
    cases.extend(every_refusal());
    cases.extend(long());
    cases
}

/// Every bit of a function sheet flipped, of its tail too, and every length cut.
fn flips(draft: &Draft) -> Vec<Case> {
    let case = draft.case();
    let sheet = &case.functions;
    let flipped = (0..sheet.len() * 8).map(|bit| flipped_at(sheet, bit));
    let cut = (0..=sheet.len()).map(|length| sheet[..length].to_vec());
    flipped.chain(cut).map(|functions| Case { functions, ..case.clone() }).collect()
}

/// Fields of all widths; those of 4 bits or more begin with a byte, or an inverter's 2 bits after it, so that they
/// straddle its end.
fn torn_libraries() -> Vec<Library> {
    let [ascending, descending] = [[1, 2, 3, 4, 5, 6], [6, 5, 4, 3, 2, 1]];
    let mixed = [1, 6, 1, 6, 2, 5, 1, 4, 3];
    let mut libraries = [&ascending[..], &descending, &mixed, &[6], &[6, 6], &[1; 30]].map(plain_library).to_vec();
    for (pins, count) in [(2, 12), (3, 6), (4, 4), (5, 3)] {
        libraries.push(plain_library(&vec![pins; count]));
        libraries.push(plain_library(&[vec![1], vec![pins; count]].concat()));
    }
    libraries
}

/// A sheet cut to every length, with its fields right, and with all of them wrong.
fn cuts(library: &Library) -> Vec<Case> {
    let right = Draft::of(library.clone());
    let mut wrong = right.clone();
    wrong.functions.iter_mut().flatten().for_each(|value| *value = !*value);
    let mut cases = Vec::new();
    for draft in [right, wrong] {
        let Case { library, functions } = draft.case();
        let cut = |length: usize| Case { library: library.clone(), functions: functions[..length].to_vec() };
        cases.extend((0..=functions.len()).map(cut));
    }
    cases
}

/// Each bit of the last byte's rest set, all of them, and bytes after it; with right fields and with a wrong one.
fn tails(library: &Library) -> Vec<Case> {
    let right = Draft::of(library.clone());
    let last = right.functions.len() - 1;
    let mut cases = Vec::new();
    for draft in [&right, &right.flipped(0, 0), &right.flipped(last, right.functions[last].len() - 1)] {
        let Case { library, functions } = draft.case();
        let rest = draft.end()..functions.len() * 8;
        let all = rest.clone().fold(functions.clone(), |sheet, bit| flipped_at(&sheet, bit));
        let set = rest.map(|bit| flipped_at(&functions, bit)).chain([functions.clone(), all.clone()]);
        let more = [&[0][..], &[1], &[128], &[255], &[0, 0], &[0, 9]].map(|more| [&functions, more].concat());
        let sheets = set.chain(more).chain([[&all[..], &[0]].concat()]);
        cases.extend(sheets.map(|functions| Case { library: library.clone(), functions }));
    }
    cases
}

/// The specimen library with every bit flipped and cut to every length: refused, drawn otherwise, held, or the same
/// to this judge.
fn flipped_library() -> Vec<Case> {
    let Case { library, functions } = Draft::of(specimen::library()).case();
    let flipped = (0..library.len() * 8).map(|bit| flipped_at(&library, bit));
    let cut = (0..library.len()).map(|length| library[..length].to_vec());
    flipped.chain(cut).map(|library| Case { library, functions: functions.clone() }).collect()
}

/// Library and function sheet each sound, torn, with a tail, or empty.
fn unsound() -> Vec<Case> {
    let Case { library, functions } = Draft::of(specimen::example_library()).case();
    let ways = |sheet: &[u8]| [sheet.to_vec(), sheet[..sheet.len() - 1].to_vec(), [sheet, &[0]].concat(), vec![]];
    let with_each = |library: Vec<u8>| ways(&functions).map(|functions| Case { library: library.clone(), functions });
    ways(&library).into_iter().flat_map(with_each).collect()
}

/// Some libraries of every refusal, with a function sheet that could be theirs, with noise and with none.
fn every_refusal() -> Vec<Case> {
    let mut cases = Vec::new();
    let mut counts = BTreeMap::new();
    for row in limits::rows().into_iter().filter(|row| row.kind == Kind::Library && row.bytes.len() <= 100) {
        let Verdict::Refused(refusal) = row.verdict else { continue };
        let count = counts.entry(refusal.number).or_insert(0);
        *count += 1;
        if *count <= 8 {
            let sheets = [&[0x80][..], &[0xae, 0x10], &[0xff, 0x55, 0x00], &[]];
            cases.extend(sheets.map(|sheet| Case { library: row.bytes.clone(), functions: sheet.to_vec() }));
        }
    }
    cases
}

/// The longest sheets, and faults at their very ends.
fn long() -> Vec<Case> {
    let mut rng = Rng::new(128);
    let right = Draft::of(longest::agreeing_library());
    let case = right.case();
    let Case { library, functions } = &case;
    let sheets = [&functions[..511], &functions[..504], &functions[..7], &[], &[&functions[..], &[0]].concat()];
    let mut cases = sheets.map(|sheet| Case { library: library.clone(), functions: sheet.to_vec() }).to_vec();
    cases.extend([case, right.flipped(0, 0).case(), right.flipped(31, 32).case(), right.flipped(63, 63).case()]);
    let mut last = right.clone();
    last.library.cells[63].patterns[1] = longest::library().cells[63].patterns[1].clone();
    cases.push(last.case());
    // The drawings of a cell of the longest library never agree: of each the first is right, or the second.
    let second = longest::library().cells.iter().map(|cell| computed(&cell.patterns[1])).collect();
    cases.push(Draft::of(longest::library()).case());
    cases.push(Draft { library: longest::library(), functions: second }.case());
    cases.push(Draft::of(sound::library(&mut rng, sound::MANY_PATTERNS)).case());
    cases
}
