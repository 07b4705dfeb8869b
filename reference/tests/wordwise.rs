//! The judges written for speed against the others.

use reference::form::Form;
use reference::generate::damage::{any_sheet, edge_values, flipped_at, Kind};
use reference::generate::functions::damage::any_case;
use reference::generate::functions::{Case, Draft};
use reference::generate::{limits, longest};
use reference::hex::hex;
use reference::rng::Rng;
use reference::verdict::Verdict;
use reference::wordwise::{functions, judge};
use reference::{bill, text};
use std::path::Path;

fn compare(kind: Kind, sheet: &[u8]) {
    let expected = Verdict::of(kind, sheet);
    assert_eq!(judge(kind, sheet), expected.coded(), "{kind:?} {}: {expected:?}", hex(sheet));
}

fn compare_functions(library: &[u8], sheet: &[u8]) -> Verdict {
    let expected = Verdict::of_functions(library, sheet);
    assert_eq!(functions::judge(library, sheet), expected.coded(), "{} {}: {expected:?}", hex(library), hex(sheet));
    expected
}

/// A file of the stored cases.
fn stored(name: &str) -> Vec<u8> {
    let path = Path::new(env!("CARGO_MANIFEST_DIR")).join("../cases").join(name);
    std::fs::read(path).expect("a stored case")
}

/// The longest library, the longest tree, and the longest with plain leaves.
fn longest_sheets() -> [(Kind, Vec<u8>); 3] {
    let plain = Form::of_tree(&longest::plain_tree()).bytes();
    [(Kind::Library, stored("longest.library")), (Kind::Tree, stored("longest.tree")), (Kind::Tree, plain)]
}

#[test]
fn the_longest_sheets_are_stored() {
    let [(_, library), (_, tree), (_, plain)] = longest_sheets();
    assert_eq!((library.len(), tree.len(), plain.len()), (2_302, 132, 100));
    assert_eq!(library, Form::of_library(&longest::library()).bytes());
    assert_eq!(tree, Form::of_tree(&longest::tree()).bytes());
    assert_eq!(judge(Kind::Library, &library), 64 * 256 + 128);
    assert_eq!(judge(Kind::Tree, &tree), 64);
    assert_eq!(judge(Kind::Tree, &plain), 64);
}

#[test]
fn limits_are_judged_as_stated() {
    for row in limits::rows() {
        assert_eq!(judge(row.kind, &row.bytes), row.verdict.coded(), "{}: {}", row.name, hex(&row.bytes));
    }
}

#[test]
fn longest_sheets_with_any_bit_changed() {
    for (kind, mut sheet) in longest_sheets() {
        for bit in 0..sheet.len() * 8 {
            let mask = 128 >> (bit % 8);
            sheet[bit / 8] ^= mask;
            compare(kind, &sheet);
            sheet[bit / 8] ^= mask;
        }
    }
}

#[test]
fn longest_sheets_cut_anywhere_or_followed_by_bytes() {
    for (kind, sheet) in longest_sheets() {
        (0..=sheet.len()).for_each(|length| compare(kind, &sheet[..length]));
        for more in [&[0][..], &[1], &[0; 7], &[0; 8], &[255; 9]] {
            compare(kind, &[&sheet, more].concat());
        }
    }
}

/// Of the trees every field, of the library every seventh.
#[test]
fn longest_sheets_with_fields_at_their_edges() {
    let library = Form::of_library(&longest::library());
    let trees = [longest::tree(), longest::plain_tree()].map(|tree| (Kind::Tree, Form::of_tree(&tree), 1));
    for (kind, form, step) in [(Kind::Library, library, 7)].into_iter().chain(trees) {
        for field in (0..form.fields.len()).step_by(step) {
            for value in edge_values(form.fields[field].role) {
                compare(kind, &form.with(field, value).bytes());
            }
        }
    }
}

#[test]
fn fresh_sheets() {
    let mut rng = Rng::new(64);
    for _ in 0..20_000 {
        compare(Kind::Library, &any_sheet(&mut rng, Kind::Library));
        compare(Kind::Tree, &any_sheet(&mut rng, Kind::Tree));
    }
}

/// Of the function sheet every bit, of the library every third.
#[test]
fn longest_functions_with_any_bit_changed() {
    let Case { library, functions } = Draft::of(longest::agreeing_library()).case();
    assert_eq!(compare_functions(&library, &functions).line(), "functions 64 128");
    for bit in 0..functions.len() * 8 {
        let line = compare_functions(&library, &flipped_at(&functions, bit)).line();
        assert_eq!(line, format!("refused 33 {}", bit / 64 * 2));
    }
    for bit in (0..library.len() * 8).step_by(3) {
        compare_functions(&flipped_at(&library, bit), &functions);
    }
}

#[test]
fn longest_functions_cut_anywhere_or_followed_by_bytes() {
    let Case { library, functions } = Draft::of(longest::agreeing_library()).case();
    for length in 0..functions.len() {
        let line = compare_functions(&library, &functions[..length]).line();
        assert_eq!(line, format!("refused 31 {}", length / 8 * 64));
    }
    for more in [&[0][..], &[1], &[0; 7], &[0; 8], &[255; 9]] {
        assert_eq!(compare_functions(&library, &[&functions, more].concat()).line(), "refused 32 4096");
    }
}

#[test]
fn fresh_functions() {
    let mut rng = Rng::new(65);
    for _ in 0..40_000 {
        let Case { library, functions } = any_case(&mut rng);
        compare_functions(&library, &functions);
    }
}

/// The cases of functions stand one after another, and so do their results.
#[test]
fn every_stored_function_sheet() {
    let file = stored("stored.bin");
    let of_functions = Records { rest: &file }.filter(|&(kind, _)| kind == 7);
    let lines: Vec<String> =
        of_functions.map(|(_, sheets)| compare_functions(sheets[0], sheets[1]).line() + "\n").collect();
    assert!(lines.len() > 2_000, "{} function sheets", lines.len());
    let expected = String::from_utf8(stored("stored.expected")).expect("text");
    assert!(expected.contains(&lines.concat()));
}

#[test]
fn every_stored_sheet() {
    let mut count = 0;
    for (kind, sheets) in (Records { rest: &stored("stored.bin") }) {
        for (kind, sheet) in libraries_and_trees(kind, &sheets) {
            compare(kind, sheet);
            count += 1;
        }
    }
    assert!(count > 10_000, "{count} sheets");
}

/// Records as `reference/README.md` has them, from the front.
struct Records<'a> {
    rest: &'a [u8],
}

impl<'a> Iterator for Records<'a> {
    type Item = (u8, Vec<&'a [u8]>);

    /// The kind of the next record, and its sheets; their lengths are the first among its numbers.
    fn next(&mut self) -> Option<Self::Item> {
        if self.rest.is_empty() {
            return None;
        }
        let kind = self.bytes(1)[0];
        let (sheets, numbers) = match kind {
            0 | 1 | 4 | 6 => (1, 1),
            2 | 3 | 8 => (2, 4),
            5 => (3, 3),
            7 => (2, 2),
            kind => panic!("kind {kind}"),
        };
        let numbers: Vec<usize> = (0..numbers).map(|_| self.number()).collect();
        Some((kind, numbers[..sheets].iter().map(|&length| self.bytes(length)).collect()))
    }
}

impl<'a> Records<'a> {
    fn number(&mut self) -> usize {
        let two = self.bytes(2);
        two[0] as usize * 256 + two[1] as usize
    }

    fn bytes(&mut self, count: usize) -> &'a [u8] {
        let (bytes, rest) = self.rest.split_at(count);
        self.rest = rest;
        bytes
    }
}

/// The libraries and trees of a record.
fn libraries_and_trees<'a>(kind: u8, sheets: &[&'a [u8]]) -> Vec<(Kind, &'a [u8])> {
    match kind {
        0 | 7 | 8 => vec![(Kind::Library, sheets[0])],
        1 => vec![(Kind::Tree, sheets[0])],
        2 | 3 | 5 => problem([sheets[0], sheets[1]]),
        4 => text::parts(sheets[0]).map_or(vec![], |(library, tree)| problem([library, tree])),
        6 => bill::sheets(sheets[0]).map_or(vec![], |[library, tree, _]| problem([library, tree])),
        kind => panic!("kind {kind}"),
    }
}

fn problem([library, tree]: [&[u8]; 2]) -> Vec<(Kind, &[u8])> {
    vec![(Kind::Library, library), (Kind::Tree, tree)]
}
