//! Stored cases of the judge of functions. A record is a kind byte (7), the lengths of library and function sheet in
//! two bytes each, high byte first, the library, and the function sheet.

mod drawings;
mod sheets;
mod values;

use crate::kinds::{short, Kinds};
use crate::stored::Stored;
use reference::functions::{decode, settings};
use reference::generate::functions::damage::{any_case, any_draft, spoiled, Damage, OF_DRAWINGS, OF_SHEETS, OF_VALUES};
use reference::generate::functions::kinds::kinds;
use reference::generate::functions::{Case, Draft};
use reference::generate::parts::{cell, counted_comb, pin, INVERTER};
use reference::library::{self, Cell, Library};
use reference::rng::Rng;
use std::collections::{BTreeSet, HashSet};

/// How many cases there must be, of all kinds and of each, and the most bytes of their records.
const LEAST_CASES: usize = 2_000;
const LEAST_OF_A_KIND: usize = 20;
const MOST_BYTES: usize = 450_000;

/// The kinds of answers, as `kinds` has them, that must each occur.
const KINDS: [&str; 33] = [
    "accepted",
    "accepted with different drawings of a cell",
    "accepted with a held cell",
    "accepted with a cell of six pins",
    "refused  2",
    "refused  3",
    "refused  4",
    "refused  5",
    "refused  6",
    "refused 31 before a field",
    "refused 31 inside a field",
    "refused 31 in a field of 2 bits",
    "refused 31 in a field of 4 bits",
    "refused 31 in a field of 8 bits",
    "refused 31 in a field of 16 bits",
    "refused 31 in a field of 32 bits",
    "refused 31 in a field of 64 bits",
    "refused 31 with a drawing of another function before",
    "refused 32 by a bit",
    "refused 32 by a byte",
    "refused 32 with a drawing of another function before",
    "refused 33 at a first drawing",
    "refused 33 at a later drawing",
    "refused 33 in a cell of 1 pins",
    "refused 33 in a cell of 2 pins",
    "refused 33 in a cell of 3 pins",
    "refused 33 in a cell of 4 pins",
    "refused 33 in a cell of 5 pins",
    "refused 33 in a cell of 6 pins",
    "refused 33 in a held cell",
    "refused 33 and at another drawing of its cell",
    "refused 33 and in a later cell",
    "one wrong bit",
];

pub fn add_all(stored: &mut Stored) {
    let mut functions = Functions::default();
    let chosen = values::cases().into_iter().chain(drawings::cases()).chain(sheets::cases());
    chosen.for_each(|case| functions.add(case));
    functions.random();
    functions.print();
    functions.check();
    functions.cases.iter().for_each(|case| add(stored, case));
}

fn add(stored: &mut Stored, case: &Case) {
    let Case { library, functions } = case;
    stored.add(7, &[library.len(), functions.len()], &[library, functions], case.judged().line());
}

/// A cell that is drawn as a comb, in which no two pins but the last can be exchanged, or as an inverter.
fn plain_cell(pins: usize) -> Cell {
    match pins {
        1 => cell(1, 4, pin(0, 4, 2), INVERTER),
        _ => cell(pins as u32, 4, pin(0, 4, 2), &counted_comb(pins as u32)),
    }
}

/// A library of such cells.
fn plain_library(pins: &[usize]) -> Library {
    with_cells(pins.iter().map(|&pins| plain_cell(pins)).collect())
}

fn with_cells(cells: Vec<Cell>) -> Library {
    Library { bins: vec![3], cells }
}

fn held(cell: Cell) -> Cell {
    Cell { held: true, ..cell }
}

/// The cases so far.
#[derive(Default)]
struct Functions {
    cases: Vec<Case>,
    seen: HashSet<Case>,
}

impl Functions {
    /// Each case stands once.
    fn add(&mut self, case: Case) {
        if self.seen.insert(case.clone()) {
            self.cases.push(case);
        }
    }

    /// Every damage, and sheets with none.
    fn random(&mut self) {
        let mut rng = Rng::new(3_300);
        for damage in OF_VALUES.into_iter().chain(OF_DRAWINGS).chain(OF_SHEETS) {
            self.some(20, || damaged_case(&mut rng, &[damage]));
        }
        self.some(100, || damaged_case(&mut rng, &[]));
        self.some(150, || any_case(&mut rng));
    }

    fn some(&mut self, count: usize, make: impl FnMut() -> Case) {
        short(count, make, Case::length).into_iter().for_each(|case| self.add(case));
    }

    /// There are enough cases, of every kind, and not too many bytes; a bit at every place of a field is once the only
    /// wrong one, in a held cell and in one that is not.
    fn check(&self) {
        self.kinds().check(&KINDS, LEAST_OF_A_KIND);
        assert!(self.cases.len() >= LEAST_CASES && self.bytes() <= MOST_BYTES);
        let places: BTreeSet<Place> = self.cases.iter().filter_map(wrong_bit).collect();
        let all = (1..=6).map(|pins| 2 * settings(pins)).sum();
        assert_eq!(places.len(), all, "places of wrong bits");
    }

    fn kinds(&self) -> Kinds {
        let alone = self.cases.iter().filter_map(wrong_bit).map(|_| "one wrong bit".to_string());
        Kinds::of(self.cases.iter().flat_map(kinds).chain(alone))
    }

    /// The bytes of all records.
    fn bytes(&self) -> usize {
        self.cases.iter().map(|case| 5 + case.length()).sum()
    }

    fn print(&self) {
        println!("{} cases of functions, {} bytes", self.cases.len(), self.bytes());
        self.kinds().print();
    }
}

fn damaged_case(rng: &mut Rng, damages: &[Damage]) -> Case {
    let draft = any_draft(rng);
    spoiled(rng, draft, damages)
}

/// Where a wrong bit stands.
#[derive(PartialEq, Eq, PartialOrd, Ord)]
struct Place {
    pins: usize,
    setting: usize,
    held: bool,
}

/// The only bit of a whole sheet that is not as the first drawings of all cells have it.
fn wrong_bit(case: &Case) -> Option<Place> {
    let library = library::decode(&case.library).ok()?;
    let stated = decode(&library, &case.functions).ok()?;
    let right = Draft::of(library);
    let mut places = Vec::new();
    for (cell, (stated, computed)) in right.library.cells.iter().zip(stated.iter().zip(&right.functions)) {
        let wrong = (0..stated.len()).filter(|&setting| stated[setting] != computed[setting]);
        places.extend(wrong.map(|setting| Place { pins: cell.pins.len(), setting, held: cell.held }));
    }
    places.pop().filter(|_| places.is_empty())
}

#[cfg(test)]
mod tests {
    use super::*;

    /// `add_all` asserts that there are enough of every kind.
    #[test]
    fn every_kind_of_answer_is_stored() {
        add_all(&mut Stored::default());
    }
}
