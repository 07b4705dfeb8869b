//! Why an operation gives no result.

/// Output or work area below its least length (document 01: short tray).
pub const SHORT: u32 = 1;
/// The sheet ends before or inside a field (torn).
pub const TRUNCATED: u32 = 2;
/// Something after the last field (loose tail).
pub const TAIL: u32 = 3;
/// A value outside its range (off the scale).
pub const RANGE: u32 = 4;
/// A pattern's leaves are wrong (misdrawn).
pub const DRAWING: u32 = 5;
/// Too many nodes or patterns (overgrown).
pub const SIZE: u32 = 6;
/// More than 31 trade-offs (crowded).
pub const OVERFULL: u32 = 7;
/// No cover (arrives in time).
pub const NO_COVER: u32 = 8;
/// Added to a sheet's number when the sheet is a tree.
pub const IN_TREE: u32 = 10;
/// The cover sheet ends before or inside a field, or has something after the last one.
pub const COVER_SHEET: u32 = 22;
/// A match stands wrongly, or matches are lacking.
pub const COVER_MATCH: u32 = 23;
/// Area or arrival is not the cover's.
pub const COVER_FIGURES: u32 = 24;
/// Added to a sheet's number when the sheet is a function sheet: 31 if it is torn, 32 if it has a bad tail.
pub const IN_FUNCTIONS: u32 = 29;
/// A drawing computes another function than its cell's.
pub const OTHER_FUNCTION: u32 = 33;
/// A count or a link of a part is torn, out of range or followed by a set bit, or its leaf field names no free leaf.
pub const PART_FIELD: u32 = 41;
/// A driving tree is not lower than the reading one.
pub const PART_DRIVER: u32 = 42;
/// A linked arrival is later than a leaf's may be.
pub const LINKED_LATE: u32 = 43;

#[derive(Clone, Copy, PartialEq, Eq, Debug)]
pub struct Refusal {
    pub number: u32,
    pub place: u32,
}

impl Refusal {
    pub fn new(number: u32, place: usize) -> Self {
        Refusal { number, place: place as u32 }
    }

    /// As a line of a program's text and of the stored results.
    pub fn line(&self) -> String {
        format!("refused {} {}", self.number, self.place)
    }

    /// The form in which the C interface hands a refusal over.
    pub fn coded(&self) -> u64 {
        (self.number as u64) << 32 | self.place as u64
    }
}
