//! Cases with their results, and the files of both.

use crate::kinds::Kinds;
use reference::{bill, part, text, tree};
use std::io;
use std::path::Path;

/// The most bytes of a record's sheets: the program that runs the records reads all sheets of one into an array of
/// this length (`Input::SHEETS` in `crates/test_cases`).
const MOST_SHEETS: usize = 16_384;

/// How many records with driven leaves there must be of each kind that is asked for.
const LEAST_DRIVEN: usize = 100;

#[derive(Default)]
pub struct Stored {
    records: Vec<u8>,
    lines: Vec<String>,
    /// For every record whose tree is sound and has driven leaves, or whose part is and has, what it is of, and the
    /// number of a refusal.
    driven: Vec<String>,
}

impl Stored {
    /// Appends a record: the kind, each number in two bytes, high byte first, and the sheets.
    pub fn add(&mut self, kind: u8, numbers: &[usize], sheets: &[&[u8]], line: String) {
        let bytes = sheets.concat();
        assert!(bytes.len() <= MOST_SHEETS, "{}: {} bytes", word(kind), bytes.len());
        self.records.push(kind);
        for &number in numbers {
            let short = u16::try_from(number).expect("a number of two bytes");
            self.records.extend(short.to_be_bytes());
        }
        self.records.extend(bytes);
        if has_driven_leaves(kind, sheets) {
            self.driven.push(driven_kind(kind, &line));
        }
        self.lines.push(line);
    }

    /// Appends all records of a group.
    pub fn append(&mut self, group: Stored) {
        self.records.extend(group.records);
        self.lines.extend(group.lines);
        self.driven.extend(group.driven);
    }

    /// Writes both files and prints how much is in them.
    pub fn write(&self, directory: &Path, name: &str) -> io::Result<()> {
        std::fs::write(directory.join(format!("{name}.bin")), &self.records)?;
        let lines: String = self.lines.iter().map(|line| format!("{line}\n")).collect();
        std::fs::write(directory.join(format!("{name}.expected")), lines)?;
        self.print_size(name);
        Ok(())
    }

    pub fn print_size(&self, name: &str) {
        println!("{name}: {} cases, {} bytes", self.lines.len(), self.records.len());
    }

    /// Prints how many records with driven leaves there are of each kind; none of these is rare.
    pub fn check_driven(&self, kinds: &[&str]) {
        let driven = Kinds::of(self.driven.iter().cloned());
        driven.print();
        driven.check(kinds, LEAST_DRIVEN);
    }

    /// How many lines open with each word, refusals by their number.
    pub fn print_histogram(&self) {
        Kinds::of(self.lines.iter().map(|line| opening(line))).print();
    }
}

/// A line's first word, and of a refusal its number.
fn opening(line: &str) -> String {
    let words: Vec<&str> = line.split(' ').collect();
    if words[0] == "refused" {
        format!("refused {:>2}", words[1])
    } else {
        words[0].to_string()
    }
}

/// How a record with driven leaves is counted.
fn driven_kind(kind: u8, line: &str) -> String {
    let opening = opening(line);
    let answer = if opening.starts_with("refused") { &opening } else { "answered" };
    format!("driven leaves, {}: {answer}", word(kind))
}

/// What a record of a kind is of.
fn word(kind: u8) -> &'static str {
    let words =
        ["library", "tree", "map", "list", "treecover", "judge of covers", "bill", "judge of functions", "part"];
    words[kind as usize]
}

/// Whether the tree among what a record holds, or one of its part's, is sound and has driven leaves.
fn has_driven_leaves(kind: u8, sheets: &[&[u8]]) -> bool {
    if kind == 8 {
        let part = part::decode(sheets[1]);
        return part.is_ok_and(|part| part.trees.iter().any(tree::Tree::has_driven_leaves));
    }
    let tree = tree_of(kind, sheets).and_then(|tree| tree::decode(tree).ok());
    tree.is_some_and(|tree| tree.has_driven_leaves())
}

/// The tree among what a record holds, be it sound or not.
fn tree_of<'a>(kind: u8, sheets: &[&'a [u8]]) -> Option<&'a [u8]> {
    match kind {
        1 => Some(sheets[0]),
        2 | 3 | 5 => Some(sheets[1]),
        4 => text::parts(sheets[0]).map(|(_, tree)| tree),
        6 => bill::sheets(sheets[0]).ok().map(|[_, tree, _]| tree),
        _ => None,
    }
}
