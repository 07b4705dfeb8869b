//! The judges once more, written by hand for speed: the yardstick of the benchmark for reading. Every field is taken
//! from one word of 64 bits and every rule is checked, but nothing of a sheet is kept that the judge does not need: a
//! shape is only the number of its branches that are still open, and the pins met in a pattern are a set of bits. The
//! judge of functions also keeps what each drawing computes. A place is divided for every field, which Paper 4 forbids
//! to the product.

pub mod functions;
mod sheet;

use crate::generate::damage::Kind;
use crate::library::{MOST_PATTERNS, MOST_PATTERN_NODES};
use crate::refusal::{DRAWING, IN_TREE, RANGE, SIZE};
use crate::tree::{LATEST_LEAF, MOST_TREE_NODES};
use sheet::{is_gate, Read, Sheet, CODE, DRIVEN, LEAF, MOST_BRANCHES};

/// The verdict, in the form of `Verdict::coded`.
pub fn judge(kind: Kind, sheet: &[u8]) -> u64 {
    let judged = match kind {
        Kind::Library => library(sheet, &mut |_| ()),
        Kind::Tree => tree(sheet),
    };
    judged.map_or_else(|refusal| refusal.coded(), |sizes| sizes as u64)
}

/// How many bits a field has.
mod width {
    pub const BIN_COUNT: usize = 3;
    pub const LOAD: usize = 8;
    pub const CELL_COUNT: usize = 7;
    pub const HOLD: usize = 1;
    pub const AREA: usize = 16;
    pub const PIN_COUNT: usize = 3;
    pub const BIN: usize = 2;
    pub const INTRINSIC: usize = 16;
    pub const DRIVE: usize = 8;
    pub const PATTERN_COUNT: usize = 3;
    pub const PIN: usize = 3;
    pub const REQUIRED: usize = 24;
    pub const ARRIVAL: usize = 20;
}

const MOST_BINS: usize = 4;
const MOST_LOAD: usize = 255;
const MOST_CELLS: usize = 64;
const MOST_AREA: usize = 65_535;
const MOST_PINS: usize = 6;

/// By how much a library's cell count stands above its pattern count in the verdict.
const CELLS: usize = 256;

/// What is met in a library, for those who keep something of it.
enum Met {
    /// A gate of a pattern, with so many branches.
    Gate(usize),
    /// A leaf of a pattern, with its pin.
    Leaf(usize),
    /// A cell's end.
    Cell { pins: usize, patterns: usize },
}

/// A library's cells and patterns, counted; `meet` is told what is met.
fn library(bytes: &[u8], meet: &mut impl FnMut(Met)) -> Read<usize> {
    let mut sheet = Sheet::new(bytes, 0);
    let bins = sheet.within(width::BIN_COUNT, 1..=MOST_BINS)?;
    let mut load = 0;
    for _ in 0..bins {
        load = sheet.within(width::LOAD, load + 1..=MOST_LOAD)?;
    }
    let cells = sheet.within(width::CELL_COUNT, 1..=MOST_CELLS)?;
    let mut patterns = 0;
    for _ in 0..cells {
        patterns += cell(&mut sheet, bins, MOST_PATTERNS - patterns, meet)?;
    }
    sheet.end()?;
    Ok(cells * CELLS + patterns)
}

/// A cell's fields; answers its pattern count, at most `room`.
#[inline(always)]
fn cell(sheet: &mut Sheet, bins: usize, room: usize, meet: &mut impl FnMut(Met)) -> Read<usize> {
    sheet.any(width::HOLD)?;
    sheet.within(width::AREA, 1..=MOST_AREA)?;
    sheet.any(width::LOAD)?;
    let pins = sheet.within(width::PIN_COUNT, 1..=MOST_PINS)?;
    for _ in 0..pins {
        sheet.within(width::BIN, 0..=bins - 1)?;
        sheet.any(width::INTRINSIC)?;
        sheet.any(width::DRIVE)?;
    }
    let count = pattern_count(sheet, room)?;
    for _ in 0..count {
        pattern(sheet, pins, meet)?;
    }
    meet(Met::Cell { pins, patterns: count });
    Ok(count)
}

#[inline(always)]
fn pattern_count(sheet: &mut Sheet, room: usize) -> Read<usize> {
    let place = sheet.at;
    let count = sheet.any(width::PATTERN_COUNT)?;
    if count > room {
        return sheet.refuse(SIZE, place);
    }
    if count == 0 {
        return sheet.refuse(RANGE, place);
    }
    Ok(count)
}

/// A gate opens as many branches as its code says.
#[inline(always)]
fn pattern(sheet: &mut Sheet, pins: usize, meet: &mut impl FnMut(Met)) -> Read<()> {
    let first = sheet.at;
    let opening = sheet.within(CODE, 0..=MOST_BRANCHES)?;
    if opening == LEAF {
        return sheet.refuse(DRAWING, first);
    }
    meet(Met::Gate(opening));
    let mut met = 0;
    sheet.branches(opening, 1, MOST_PATTERN_NODES, |sheet, code| {
        meet(if is_gate(code) { Met::Gate(code) } else { Met::Leaf(pin(sheet, code, pins, &mut met)?) });
        Ok(())
    })?;
    if met != (1 << pins) - 1 {
        return sheet.refuse(DRAWING, first);
    }
    Ok(())
}

/// The pin number of a leaf, whose bit joins those met before.
#[inline(always)]
fn pin(sheet: &mut Sheet, code: usize, pins: usize, met: &mut u32) -> Read<usize> {
    let place = sheet.at;
    if code == DRIVEN {
        return sheet.refuse(RANGE, place - CODE);
    }
    let pin = sheet.within(width::PIN, 0..=pins - 1)?;
    let bit = 1 << pin;
    if *met & bit != 0 {
        return sheet.refuse(DRAWING, place);
    }
    *met |= bit;
    Ok(pin)
}

fn tree(bytes: &[u8]) -> Read<usize> {
    let mut sheet = Sheet::new(bytes, IN_TREE);
    sheet.any(width::LOAD)?;
    sheet.any(width::REQUIRED)?;
    let nodes = sheet.branches(1, 0, MOST_TREE_NODES, tree_node)?;
    sheet.end()?;
    Ok(nodes)
}

/// Of a leaf the arrival and, if it is driven, its drive.
#[inline(always)]
fn tree_node(sheet: &mut Sheet, code: usize) -> Read<()> {
    if is_gate(code) {
        return Ok(());
    }
    sheet.within(width::ARRIVAL, 0..=LATEST_LEAF as usize)?;
    if code == DRIVEN {
        sheet.any(width::DRIVE)?;
    }
    Ok(())
}
