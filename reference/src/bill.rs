//! What bill reads and prints: the cells of an accepted cover, counted one by one from its list.

use crate::cover::Placed;
use crate::judging;
use crate::library::Library;
use crate::refusal::Refusal;
use crate::text::{self, MOST_INPUT};
use std::cmp::Ordering;
use std::collections::BTreeMap;

/// The bytes of the three lengths.
pub const HEADING: usize = 6;

/// The lengths of the three sheets in two bytes each, high byte first, and the sheets.
pub fn input(library: &[u8], tree: &[u8], cover: &[u8]) -> Vec<u8> {
    let length = |sheet: &[u8]| u16::try_from(sheet.len()).expect("a length of two bytes").to_be_bytes();
    [&[library, tree, cover].map(length).concat()[..], library, tree, cover].concat()
}

/// The text for an input.
pub fn printed(input: &[u8]) -> String {
    Answer::of(input).text()
}

/// Why an input does not consist of three sheets.
#[derive(Clone, Copy, PartialEq, Eq, Debug)]
pub enum Spoiled {
    /// It ends before or inside the lengths.
    Short,
    /// It is longer than an input may be.
    Long,
    /// It ends before the sheets do.
    Missing,
    /// It goes on after the sheets.
    LeftOver,
}

impl Spoiled {
    fn word(self) -> &'static str {
        match self {
            Spoiled::Short => "under 6",
            Spoiled::Long => "over 4,096",
            Spoiled::Missing => "missing",
            Spoiled::LeftOver => "left over",
        }
    }
}

/// A line of a bill.
#[derive(Clone, Copy, PartialEq, Eq, Debug)]
pub struct Line {
    pub cell: usize,
    pub count: u32,
    pub amount: u32,
}

/// A line for each cell used, ascending by cell, their total, and the required time minus the arrival.
#[derive(Clone, PartialEq, Eq, Debug)]
pub struct Bill {
    pub lines: Vec<Line>,
    pub total: u32,
    pub margin: i64,
}

/// What is said of an input.
#[derive(Clone, PartialEq, Eq, Debug)]
pub enum Answer {
    Spoiled(Spoiled),
    Refused(Refusal),
    Accepted(Bill),
}

impl Answer {
    pub fn of(input: &[u8]) -> Answer {
        match sheets(input) {
            Err(spoiled) => Answer::Spoiled(spoiled),
            Ok([library, tree, cover]) => billed(library, tree, cover).map_or_else(Answer::Refused, Answer::Accepted),
        }
    }

    pub fn text(&self) -> String {
        match self {
            Answer::Spoiled(_) => text::spoiled(),
            Answer::Refused(refusal) => text::refused(*refusal),
            Answer::Accepted(bill) => bill.text(),
        }
    }

    /// How it is counted: bills by margin, refusals by number, spoiled inputs by what is wrong with their length.
    pub fn name(&self) -> String {
        match self {
            Answer::Spoiled(spoiled) => format!("spoiled: {}", spoiled.word()),
            Answer::Refused(refusal) => format!("refused {:>2}", refusal.number),
            Answer::Accepted(bill) => match bill.margin.cmp(&0) {
                Ordering::Greater => "accepted early".to_string(),
                Ordering::Equal => "accepted just in time".to_string(),
                Ordering::Less => "accepted late".to_string(),
            },
        }
    }
}

impl Bill {
    fn text(&self) -> String {
        let line = |Line { cell, count, amount }: &Line| format!("{cell} {count} {amount}\n");
        let lines: String = self.lines.iter().map(line).collect();
        format!("{lines}total {}\nmargin {}\n", self.total, self.margin)
    }
}

pub fn sheets(input: &[u8]) -> Result<[&[u8]; 3], Spoiled> {
    if input.len() > MOST_INPUT {
        return Err(Spoiled::Long);
    }
    let (heading, sheets) = input.split_first_chunk::<HEADING>().ok_or(Spoiled::Short)?;
    let length = |place: usize| u16::from_be_bytes([heading[place], heading[place + 1]]) as usize;
    let [library, tree, cover] = [0, 2, 4].map(length);
    match sheets.len().cmp(&(library + tree + cover)) {
        Ordering::Less => Err(Spoiled::Missing),
        Ordering::Greater => Err(Spoiled::LeftOver),
        Ordering::Equal => {
            let (library, rest) = sheets.split_at(library);
            let (tree, cover) = rest.split_at(tree);
            Ok([library, tree, cover])
        }
    }
}

/// The bill of a cover that its judge accepts.
fn billed(library: &[u8], tree: &[u8], cover: &[u8]) -> Result<Bill, Refusal> {
    let (library, tree, cover) = judging::decode(library, tree, cover).map_err(|fault| fault.refusal())?;
    let figures = judging::check(&library, &tree, &cover).map_err(|fault| fault.refusal())?;
    let lines = lines(&library, &cover.matches);
    let total = lines.iter().map(|line| line.amount).sum();
    debug_assert_eq!(total, cover.area);
    debug_assert_eq!(total, sum_over(&library, &cover.matches));
    Ok(Bill { lines, total, margin: i64::from(tree.required) - i64::from(figures.arrival) })
}

/// Counts the matches of each cell, whichever of its patterns they are of.
fn lines(library: &Library, matches: &[Placed]) -> Vec<Line> {
    let cells = library.cell_numbers();
    let mut counts = BTreeMap::new();
    for placed in matches {
        *counts.entry(cells[placed.pattern]).or_insert(0) += 1;
    }
    let line = |(cell, count): (usize, u32)| Line { cell, count, amount: count * library.cells[cell].area };
    counts.into_iter().map(line).collect()
}

/// The areas of the matches one after another.
fn sum_over(library: &Library, matches: &[Placed]) -> u32 {
    let areas: Vec<u32> = library.patterns().map(|(cell, _)| cell.area).collect();
    matches.iter().map(|placed| areas[placed.pattern]).sum()
}
