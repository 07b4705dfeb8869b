//! A sheet read with a word of 64 bits for each field.

use crate::refusal::{Refusal, RANGE, SIZE, TAIL, TRUNCATED};
use std::ops::RangeInclusive;

/// A gate's code is the number of its branches: 1 or 2. Code 0 is a leaf; 3 is a driven one in a tree, and out of range
/// in a pattern.
pub const LEAF: usize = 0;
pub const MOST_BRANCHES: usize = 2;
pub const DRIVEN: usize = 3;

/// Bits of a node's code.
pub const CODE: usize = 2;

const BYTE: usize = 8;
/// Bytes of a word.
const WORD: usize = 8;

pub type Read<T> = Result<T, Refusal>;

/// A sheet and its first bit not yet read; `base` is added to the number of every refusal.
pub struct Sheet<'a> {
    bytes: &'a [u8],
    pub at: usize,
    base: u32,
}

// Everything that a field passes through is inlined, so that widths and limits are constants where they are used and
// the place stays in a register.
impl<'a> Sheet<'a> {
    pub fn new(bytes: &'a [u8], base: u32) -> Self {
        Sheet { bytes, at: 0, base }
    }

    #[inline(always)]
    pub fn refuse<T>(&self, number: u32, place: usize) -> Read<T> {
        Err(Refusal::new(self.base + number, place))
    }

    /// The next field of at most 57 bits, any value. Where eight bytes are left no field can be torn, so that one
    /// comparison is enough.
    #[inline(always)]
    pub fn any(&mut self, width: usize) -> Read<usize> {
        let first = self.at >> 3;
        let word = if let Some(eight) = self.bytes.get(first..first + WORD) {
            u64::from_be_bytes(eight.try_into().expect("eight bytes"))
        } else if self.has(width) {
            padded(&self.bytes[first..])
        } else {
            return self.refuse(TRUNCATED, self.at);
        };
        let value = word << (self.at & 7) >> (u64::BITS as usize - width);
        self.at += width;
        Ok(value as usize)
    }

    /// Whether so many bits are left.
    #[inline(always)]
    pub fn has(&self, width: usize) -> bool {
        self.at + width <= self.bytes.len() * BYTE
    }

    /// The next field, which must lie in `range`.
    #[inline(always)]
    pub fn within(&mut self, width: usize, range: RangeInclusive<usize>) -> Read<usize> {
        let place = self.at;
        let value = self.any(width)?;
        if !range.contains(&value) {
            return self.refuse(RANGE, place);
        }
        Ok(value)
    }

    /// The nodes of `open` branches in preorder, after `nodes` others of the shape; answers how many it has now. `node`
    /// is called after every code, with that code, and reads the rest of a leaf.
    /// No jump tells INV from NAND, because a processor can hardly foresee which of them comes.
    #[inline(always)]
    pub fn branches<F>(&mut self, mut open: usize, mut nodes: usize, most: usize, mut node: F) -> Read<usize>
    where
        F: FnMut(&mut Self, usize) -> Read<()>,
    {
        while open > 0 {
            let place = self.at;
            let code = self.any(CODE)?;
            if nodes == most {
                return self.refuse(SIZE, place);
            }
            nodes += 1;
            open -= 1;
            if is_gate(code) {
                open += code;
            }
            node(self, code)?;
        }
        Ok(nodes)
    }

    /// The rest of the last byte is zero bits, and no byte follows.
    pub fn end(&self) -> Read<()> {
        let left = self.bytes.len() * BYTE - self.at;
        if left == 0 || left < BYTE && self.bytes[self.at >> 3] << (self.at & 7) == 0 {
            return Ok(());
        }
        self.refuse(TAIL, self.at)
    }
}

#[inline(always)]
pub fn is_gate(code: usize) -> bool {
    (1..=MOST_BRANCHES).contains(&code)
}

/// The word of the last bytes, fewer than eight, with zeros after them.
#[cold]
#[inline(never)]
fn padded(rest: &[u8]) -> u64 {
    let mut eight = [0; WORD];
    eight[..rest.len()].copy_from_slice(rest);
    u64::from_be_bytes(eight)
}
