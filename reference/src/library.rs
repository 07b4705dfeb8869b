//! The library sheet.

use crate::refusal::{Refusal, DRAWING, RANGE, SIZE};
use crate::shape::Shape;
use crate::sheet::{Sheet, DRIVEN};

#[derive(Clone, Copy, PartialEq, Eq, Debug)]
pub struct Pin {
    pub bin: u32,
    pub intrinsic: u32,
    pub drive: u32,
}

#[derive(Clone, PartialEq, Eq, Debug)]
pub struct Cell {
    pub held: bool,
    pub area: u32,
    pub highest_load: u32,
    pub pins: Vec<Pin>,
    pub patterns: Vec<Shape>,
}

#[derive(Clone, PartialEq, Eq, Debug)]
pub struct Library {
    pub bins: Vec<u32>,
    pub cells: Vec<Cell>,
}

impl Library {
    pub fn pattern_count(&self) -> usize {
        self.cells.iter().map(|cell| cell.patterns.len()).sum()
    }

    /// Every pattern's cell and shape; a pattern's number is its position here.
    pub fn patterns(&self) -> impl Iterator<Item = (&Cell, &Shape)> {
        self.cells.iter().flat_map(|cell| cell.patterns.iter().map(move |shape| (cell, shape)))
    }

    /// The number of each pattern's cell, in the same order.
    pub fn cell_numbers(&self) -> Vec<usize> {
        self.cells.iter().enumerate().flat_map(|(number, cell)| vec![number; cell.patterns.len()]).collect()
    }
}

pub const MOST_PATTERNS: usize = 128;
pub const MOST_PATTERN_NODES: usize = 16;

/// The library that a sheet holds.
pub fn decode(bytes: &[u8]) -> Result<Library, Refusal> {
    let mut sheet = Sheet::new(bytes, 0);
    let bins = read_bins(&mut sheet)?;
    let mut library = Library { bins, cells: Vec::new() };
    let mut room = MOST_PATTERNS;
    for _ in 0..sheet.within(7, 1..=64)?.value {
        let cell = read_cell(&mut sheet, library.bins.len(), room)?;
        room -= cell.patterns.len();
        library.cells.push(cell);
    }
    sheet.end()?;
    Ok(library)
}

/// The numbers of cells and patterns of a sound library.
pub fn judge(bytes: &[u8]) -> Result<(usize, usize), Refusal> {
    decode(bytes).map(|library| (library.cells.len(), library.pattern_count()))
}

fn read_bins(sheet: &mut Sheet) -> Result<Vec<u32>, Refusal> {
    let mut bins = Vec::new();
    for _ in 0..sheet.within(3, 1..=4)?.value {
        let least = bins.last().map_or(1, |before| before + 1);
        let load = sheet.any(8)?;
        if load.value < least {
            return sheet.refuse(RANGE, load.place);
        }
        bins.push(load.value);
    }
    Ok(bins)
}

fn read_cell(sheet: &mut Sheet, bin_count: usize, pattern_room: usize) -> Result<Cell, Refusal> {
    let held = sheet.any(1)?.value == 1;
    let area = sheet.within(16, 1..=65_535)?.value;
    let highest_load = sheet.any(8)?.value;
    let pin_count = sheet.within(3, 1..=6)?.value;
    let mut pins = Vec::with_capacity(pin_count as usize);
    for _ in 0..pin_count {
        pins.push(read_pin(sheet, bin_count)?);
    }
    let mut patterns = Vec::new();
    for _ in 0..read_pattern_count(sheet, pattern_room)? {
        patterns.push(read_pattern(sheet, pins.len())?);
    }
    Ok(Cell { held, area, highest_load, pins, patterns })
}

fn read_pin(sheet: &mut Sheet, bin_count: usize) -> Result<Pin, Refusal> {
    let bin = sheet.within(2, 0..=bin_count as u32 - 1)?.value;
    let intrinsic = sheet.any(16)?.value;
    let drive = sheet.any(8)?.value;
    Ok(Pin { bin, intrinsic, drive })
}

fn read_pattern_count(sheet: &mut Sheet, room: usize) -> Result<u32, Refusal> {
    let count = sheet.any(3)?;
    if count.value as usize > room {
        return sheet.refuse(SIZE, count.place);
    }
    if count.value == 0 {
        return sheet.refuse(RANGE, count.place);
    }
    Ok(count.value)
}

fn read_pattern(sheet: &mut Sheet, pin_count: usize) -> Result<Shape, Refusal> {
    let first = sheet.at();
    let mut marks = [false; 6];
    let seen = &mut marks[..pin_count];
    let steps = sheet.nodes(MOST_PATTERN_NODES, |sheet, code| {
        if code.value == DRIVEN {
            return sheet.refuse(RANGE, code.place);
        }
        if code.place == first {
            return sheet.refuse(DRAWING, first);
        }
        read_pin_number(sheet, seen)
    })?;
    if seen.contains(&false) {
        return sheet.refuse(DRAWING, first);
    }
    Ok(Shape::from_steps(&steps))
}

fn read_pin_number(sheet: &mut Sheet, seen: &mut [bool]) -> Result<u32, Refusal> {
    let pin = sheet.within(3, 0..=seen.len() as u32 - 1)?;
    let mark = &mut seen[pin.value as usize];
    if *mark {
        return sheet.refuse(DRAWING, pin.place);
    }
    *mark = true;
    Ok(pin.value)
}
