//! The judge of functions: a drawing is worked out while it is read, at all settings at once, 64 of them in a word.

use super::sheet::{Read, Sheet};
use super::{library, Met, MOST_CELLS, MOST_PINS};
use crate::library::{MOST_PATTERNS, MOST_PATTERN_NODES};
use crate::refusal::{Refusal, IN_FUNCTIONS, OTHER_FUNCTION, TRUNCATED};

/// A value at every setting, the first setting in the highest bit, as on the sheet. A function of fewer than six pins
/// stands in the first bits, since there the pins take turns in the same way.
type Column = u64;

/// What each pin is: the lower its number, the faster it changes.
const PINS: [Column; MOST_PINS] = [
    0x5555_5555_5555_5555,
    0x3333_3333_3333_3333,
    0x0f0f_0f0f_0f0f_0f0f,
    0x00ff_00ff_00ff_00ff,
    0x0000_ffff_0000_ffff,
    0x0000_0000_ffff_ffff,
];

/// The verdict, in the form of `Verdict::coded`.
pub fn judge(library: &[u8], functions: &[u8]) -> u64 {
    judged(library, functions).map_or_else(|refusal| refusal.coded(), |sizes| sizes as u64)
}

fn judged(library_sheet: &[u8], functions: &[u8]) -> Read<usize> {
    let mut drawings = Drawings::new();
    let sizes = library(library_sheet, &mut |met| drawings.meet(met))?;
    match drawings.first_other(Sheet::new(functions, IN_FUNCTIONS))? {
        Some(pattern) => Err(Refusal::new(OTHER_FUNCTION, pattern)),
        None => Ok(sizes),
    }
}

/// A gate whose branches are not all read. An inverter is a NAND of one branch.
#[derive(Clone, Copy)]
struct Gate {
    /// Where all branches read so far are 1.
    all: Column,
    waiting: usize,
}

/// The size of a cell.
#[derive(Clone, Copy)]
struct Cell {
    pins: usize,
    patterns: usize,
}

/// What the drawings of a library compute, and the gates above the next node, the root first.
struct Drawings {
    cells: [Cell; MOST_CELLS],
    cell_count: usize,
    computed: [Column; MOST_PATTERNS],
    pattern_count: usize,
    gates: [Gate; MOST_PATTERN_NODES],
    open: usize,
}

impl Drawings {
    fn new() -> Self {
        Drawings {
            cells: [Cell { pins: 0, patterns: 0 }; MOST_CELLS],
            cell_count: 0,
            computed: [0; MOST_PATTERNS],
            pattern_count: 0,
            gates: [Gate { all: 0, waiting: 0 }; MOST_PATTERN_NODES],
            open: 0,
        }
    }

    #[inline(always)]
    fn meet(&mut self, met: Met) {
        match met {
            Met::Gate(branches) => self.gate(branches),
            Met::Leaf(pin) => self.branch(PINS[pin]),
            Met::Cell { pins, patterns } => self.cell(pins, patterns),
        }
    }

    #[inline(always)]
    fn gate(&mut self, branches: usize) {
        self.gates[self.open] = Gate { all: Column::MAX, waiting: branches };
        self.open += 1;
    }

    /// A branch is whole: it may be the last of the gate above it, and that of the one above.
    #[inline(always)]
    fn branch(&mut self, mut value: Column) {
        while self.open > 0 {
            let gate = &mut self.gates[self.open - 1];
            gate.all &= value;
            gate.waiting -= 1;
            if gate.waiting > 0 {
                return;
            }
            value = !gate.all;
            self.open -= 1;
        }
        self.computed[self.pattern_count] = value;
        self.pattern_count += 1;
    }

    #[inline(always)]
    fn cell(&mut self, pins: usize, patterns: usize) {
        self.cells[self.cell_count] = Cell { pins, patterns };
        self.cell_count += 1;
    }

    /// The first pattern that computes another function than the sheet states; the sheet is read to its end.
    fn first_other(&self, mut sheet: Sheet) -> Read<Option<usize>> {
        let mut patterns = 0;
        let mut first = None;
        for cell in &self.cells[..self.cell_count] {
            let width = 1 << cell.pins;
            let stated = function(&mut sheet, width)?;
            let differs = |column: &Column| column >> (Column::BITS as usize - width) != stated;
            let other = self.computed[patterns..][..cell.patterns].iter().position(differs);
            first = first.or(other.map(|drawing| patterns + drawing));
            patterns += cell.patterns;
        }
        sheet.end()?;
        Ok(first)
    }
}

/// The next function, in the last bits of a word. It is one field, though that of six pins is read in two halves.
#[inline(always)]
fn function(sheet: &mut Sheet, width: usize) -> Read<Column> {
    const HALF: usize = 32;
    if !sheet.has(width) {
        return sheet.refuse(TRUNCATED, sheet.at);
    }
    if width <= HALF {
        return Ok(sheet.any(width)? as Column);
    }
    Ok((sheet.any(HALF)? << HALF | sheet.any(HALF)?) as Column)
}
