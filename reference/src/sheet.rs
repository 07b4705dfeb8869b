//! What a library and a tree have in common: fields in order, and a tail.

use crate::bits::Reader;
use crate::refusal::{Refusal, RANGE, SIZE, TAIL, TRUNCATED};
use crate::shape::Step;
use std::ops::RangeInclusive;

/// The codes of nodes.
pub const LEAF: u32 = 0;
pub const INV: u32 = 1;
pub const NAND: u32 = 2;
/// A leaf with a drive, in trees only.
pub const DRIVEN: u32 = 3;

/// A field's value and first bit.
#[derive(Clone, Copy)]
pub struct Taken {
    pub value: u32,
    pub place: usize,
}

/// A sheet being read; `base` is added to the number of every refusal.
pub struct Sheet<'a> {
    reader: Reader<'a>,
    base: u32,
}

impl<'a> Sheet<'a> {
    pub fn new(bytes: &'a [u8], base: u32) -> Self {
        Sheet { reader: Reader::new(bytes), base }
    }

    /// The first bit of the next field.
    pub fn at(&self) -> usize {
        self.reader.at()
    }

    pub fn refuse<T>(&self, number: u32, place: usize) -> Result<T, Refusal> {
        Err(Refusal::new(self.base + number, place))
    }

    /// The next field, any value.
    pub fn any(&mut self, width: usize) -> Result<Taken, Refusal> {
        let place = self.at();
        match self.reader.take(width) {
            Some(value) => Ok(Taken { value, place }),
            None => self.refuse(TRUNCATED, place),
        }
    }

    /// The next field, which must lie in `range`.
    pub fn within(&mut self, width: usize, range: RangeInclusive<u32>) -> Result<Taken, Refusal> {
        let field = self.any(width)?;
        if range.contains(&field.value) {
            Ok(field)
        } else {
            self.refuse(RANGE, field.place)
        }
    }

    /// The nodes of one shape in preorder, at most `most`. `leaf` is called after a code that is
    /// no gate's, with that code, and reads what stands at the leaf, if it is one.
    pub fn nodes<L, F>(&mut self, most: usize, mut leaf: F) -> Result<Vec<Step<L>>, Refusal>
    where
        F: FnMut(&mut Self, Taken) -> Result<L, Refusal>,
    {
        let mut steps = Vec::with_capacity(most);
        let mut open_branches = 1;
        while open_branches > 0 {
            let code = self.any(2)?;
            if steps.len() == most {
                return self.refuse(SIZE, code.place);
            }
            let step = match code.value {
                INV => Step::Inv,
                NAND => Step::Nand,
                _ => Step::Leaf(leaf(self, code)?),
            };
            open_branches = open_branches + step.branches() - 1;
            steps.push(step);
        }
        Ok(steps)
    }

    /// The rest of the byte is zero bits; other sheets may follow. Answers how many bytes this one takes.
    pub fn end_within(self) -> Result<usize, Refusal> {
        if self.reader.is_filled_up() {
            Ok(self.reader.begun())
        } else {
            self.refuse(TAIL, self.at())
        }
    }

    /// The rest of the last byte is zero bits, and no byte follows.
    pub fn end(self) -> Result<(), Refusal> {
        if self.reader.is_spent() {
            Ok(())
        } else {
            self.refuse(TAIL, self.at())
        }
    }
}
