//! The matches at a node, found by walking a pattern and the tree together.

use super::compact::{Compact, Pattern, Subject};

/// A pattern under a crossing that stands at some node, with its inputs in the order of the tree.
#[derive(Clone, Copy)]
pub struct Match {
    pub pattern: u8,
    pub crossing: u8,
    pub cell: u8,
    count: u8,
    /// Pins and nodes.
    inputs: [(u8, u8); 6],
}

impl Match {
    pub fn inputs(&self) -> &[(u8, u8)] {
        &self.inputs[..self.count as usize]
    }
}

/// The crossings are the numbers of this many bits.
const BITS: u8 = 5;

/// The matches of one pattern at a node, ascending by crossing.
pub struct Crossings<'a> {
    number: u8,
    pattern: &'a Pattern,
    subject: &'a Subject,
    node: usize,
    /// The next crossing to be tried.
    next: u8,
}

impl<'a> Crossings<'a> {
    pub fn of(library: &'a Compact, number: usize, subject: &'a Subject, node: usize) -> Self {
        Crossings { number: number as u8, pattern: &library.patterns[number], subject, node, next: 0 }
    }
}

impl Iterator for Crossings<'_> {
    type Item = Match;

    /// Crossings that share the bits which led to a mismatch are passed over.
    fn next(&mut self) -> Option<Match> {
        while self.next < 1 << BITS {
            let crossing = self.next;
            match walk(self.pattern, crossing, self.subject, self.node) {
                Ok(found) => {
                    self.next = next_after(crossing, self.pattern.nands[0]);
                    return Some(Match { pattern: self.number, ..found });
                }
                Err(used) => self.next = next_after(crossing, used),
            }
        }
        None
    }
}

/// The lowest crossing above this one that differs from it in its first `used` bits.
fn next_after(crossing: u8, used: u8) -> u8 {
    let unread = BITS - used;
    ((crossing >> unread) + 1) << unread
}

/// Walks the redrawn pattern and the tree together in the tree's order, skipping what lies under
/// the pattern's leaves. On a mismatch, says how many of the crossing's first bits it has used.
fn walk(pattern: &Pattern, crossing: u8, subject: &Subject, node: usize) -> Result<Match, u8> {
    let mut found = Match { pattern: 0, crossing, cell: pattern.cell, count: 0, inputs: [(0, 0); 6] };
    let mut waiting = [(0, 0); BITS as usize];
    let (mut depth, mut used) = (0, 0);
    let (mut at, mut position, mut nand) = (node, 0, 0);
    loop {
        let code = pattern.codes[position];
        if code == 0 {
            found.inputs[found.count as usize] = (pattern.pins[position], at as u8);
            found.count += 1;
            if depth == 0 {
                return Ok(found);
            }
            depth -= 1;
            (position, nand) = waiting[depth];
            at += subject.sizes[at] as usize;
            continue;
        }
        if code != subject.codes[at] {
            return Err(used);
        }
        at += 1;
        position += 1;
        if code == 2 {
            let exchanged = crossing & (1 << (BITS - 1)) >> nand != 0;
            nand += 1;
            used = used.max(nand);
            let first = (position, nand);
            let second = (position + pattern.sizes[position] as usize, nand + pattern.nands[position]);
            let (now, later) = if exchanged { (second, first) } else { (first, second) };
            waiting[depth] = later;
            depth += 1;
            (position, nand) = now;
        }
    }
}
