//! What treecover reads and prints.

use crate::cover::{Cover, Placed};
use crate::library::{self, Library};
use crate::refusal::Refusal;
use crate::{merging, tree};

/// The longest input.
pub const MOST_INPUT: usize = 4096;

/// The library's length in two bytes, high byte first, the library and the tree.
pub fn input(library: &[u8], tree: &[u8]) -> Vec<u8> {
    let length = u16::try_from(library.len()).expect("a length of two bytes");
    [&length.to_be_bytes()[..], library, tree].concat()
}

/// The text for an input.
pub fn printed(input: &[u8]) -> String {
    match parts(input) {
        None => spoiled(),
        Some((library, tree)) => mapped(library, tree).unwrap_or_else(refused),
    }
}

/// The text for an input that is not of the right length.
pub(crate) fn spoiled() -> String {
    "spoiled\n".to_string()
}

/// The text in place of a result.
pub(crate) fn refused(refusal: Refusal) -> String {
    refusal.line() + "\n"
}

/// The library and the tree of an input of the right length.
pub fn parts(input: &[u8]) -> Option<(&[u8], &[u8])> {
    let (length, rest) = input.split_first_chunk()?;
    let length = u16::from_be_bytes(*length) as usize;
    (input.len() <= MOST_INPUT && length <= rest.len()).then(|| rest.split_at(length))
}

fn mapped(library: &[u8], tree: &[u8]) -> Result<String, Refusal> {
    let library = library::decode(library)?;
    let cover = merging::map(&library, &tree::decode(tree)?)?;
    Ok(cover_text(&library, &cover))
}

/// `cover`, area, arrival and match count, and a line of node, cell, pattern and crossing for each match.
fn cover_text(library: &Library, cover: &Cover) -> String {
    let cells = library.cell_numbers();
    let head = format!("cover {} {} {}\n", cover.area, cover.arrival, cover.matches.len());
    let line =
        |&Placed { node, pattern, crossing }: &Placed| format!("{node} {} {pattern} {crossing}\n", cells[pattern]);
    head + &cover.matches.iter().map(line).collect::<String>()
}
