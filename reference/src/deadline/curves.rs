//! The curves of all nodes in the work area: node × 4 bins × 32 words, latest point first, and
//! after the last point an absent one.

use super::compact::{Cell, Compact, Subject};
use super::finding::{Crossings, Match};
use super::Variant;
use crate::operation::LEAST_WORK;
use crate::refusal::{Refusal, OVERFULL};

const BINS: usize = 4;
const STRIDE: usize = 32;
const SLOTS: usize = LEAST_WORK / STRIDE;
/// Above every arrival, and the factor that packs a point into a word.
pub const TIMES: u64 = 1 << 24;
/// No point: above every word of a point, and before every bound.
pub const ABSENT: u64 = 1 << 63;

/// Library and tree, and the curves filled so far; the root's stands under bin 0.
pub struct Curves<'a> {
    pub library: &'a Compact,
    pub subject: &'a Subject,
    slots: &'a mut [[u64; STRIDE]; SLOTS],
}

/// A node's matches and, while a curve of it is filled, the last point of each.
struct Matches {
    found: Vec<Match>,
    last: Vec<u64>,
}

impl<'a> Curves<'a> {
    pub fn fill(
        variant: Variant,
        library: &'a Compact,
        subject: &'a Subject,
        work: &'a mut [u64; LEAST_WORK],
    ) -> Result<Self, Refusal> {
        let slots = work.as_chunks_mut().0.try_into().expect("as many slots as go into the work area");
        let mut curves = Curves { library, subject, slots };
        let mut matches = Matches { found: Vec::with_capacity(128), last: Vec::new() };
        for node in (0..subject.count).rev() {
            if subject.codes[node] == 0 {
                curves.fill_leaf(node);
            } else {
                curves.fill_node(variant, node, &mut matches)?;
            }
        }
        Ok(curves)
    }

    /// How many loads are considered at a node.
    fn load_count(&self, node: usize) -> usize {
        if node == 0 {
            1
        } else {
            self.library.bin_count
        }
    }

    /// One of them, by its position.
    fn load(&self, node: usize, bin: usize) -> u64 {
        if node == 0 {
            self.subject.root_load
        } else {
            self.library.bins[bin]
        }
    }

    fn fill_leaf(&mut self, node: usize) {
        for bin in 0..self.load_count(node) {
            let arrival = self.subject.arrival(node, self.load(node, bin));
            self.slots[slot(node, bin)][..2].copy_from_slice(&[arrival, ABSENT]);
        }
    }

    fn fill_node(&mut self, variant: Variant, node: usize, matches: &mut Matches) -> Result<(), Refusal> {
        self.find_matches(node, &mut matches.found);
        for bin in 0..self.load_count(node) {
            let load = self.load(node, bin);
            let has_ended = match variant {
                Variant::Plain => self.fill_plain(slot(node, bin), load, &matches.found),
                Variant::Kept => self.fill_kept(slot(node, bin), load, matches),
            };
            if !has_ended {
                return Err(Refusal::new(OVERFULL, node));
            }
        }
        Ok(())
    }

    /// Ascending by pattern and for each pattern by crossing.
    fn find_matches(&self, node: usize, found: &mut Vec<Match>) {
        found.clear();
        for (number, pattern) in self.library.patterns[..self.library.pattern_count].iter().enumerate() {
            if !self.library.cells[pattern.cell as usize].held {
                found.extend(Crossings::of(self.library, number, self.subject, node));
            }
        }
    }

    /// Finds the points of a curve, each the least before the one found last. Whether an absent one was reached.
    fn fill_plain(&mut self, slot: usize, load: u64, matches: &[Match]) -> bool {
        let mut bound = TIMES;
        for count in 0..STRIDE {
            let words = matches.iter().map(|found| self.reach(found, load, bound));
            let least = words.min().unwrap_or(ABSENT);
            self.slots[slot][count] = least;
            if least == ABSENT {
                return true;
            }
            bound = least % TIMES;
        }
        false
    }

    /// The same. A match whose last point still arrives before the bound keeps it: what is least
    /// before a time and arrives before an earlier one is least before that one too. A match whose
    /// last point is not below the least so far is passed over: its points only rise.
    fn fill_kept(&mut self, slot: usize, load: u64, matches: &mut Matches) -> bool {
        let Matches { found, last } = matches;
        last.clear();
        last.extend(found.iter().map(|found| self.reach(found, load, TIMES)));
        let mut bound = TIMES;
        for count in 0..STRIDE {
            let mut least = ABSENT;
            for (word, found) in last.iter_mut().zip(found.iter()) {
                if *word < least {
                    if *word % TIMES >= bound {
                        *word = self.reach(found, load, bound);
                    }
                    least = least.min(*word);
                }
            }
            self.slots[slot][count] = least;
            if least == ABSENT {
                return true;
            }
            bound = least % TIMES;
        }
        false
    }

    pub fn cell(&self, found: &Match) -> &Cell {
        &self.library.cells[found.cell as usize]
    }

    /// The least point of a match that arrives before `bound`; absent too if it may not drive the load.
    pub fn reach(&self, found: &Match, load: u64, bound: u64) -> u64 {
        let cell = self.cell(found);
        if load > cell.highest_load as u64 {
            return ABSENT;
        }
        let (mut area, mut arrival) = (cell.area as u64, 0);
        for &(pin, node) in found.inputs() {
            let pin = &cell.pins[pin as usize];
            let delay = pin.delay(load);
            if delay >= bound {
                return ABSENT;
            }
            let next = self.look_up(node as usize, pin.bin as usize, bound - delay);
            if next == ABSENT {
                return ABSENT;
            }
            area += next / TIMES;
            arrival = arrival.max(next % TIMES + delay);
        }
        area * TIMES + arrival
    }

    /// The first point of a curve that arrives before `bound`, which is not 0.
    pub fn look_up(&self, node: usize, bin: usize, bound: u64) -> u64 {
        let words = self.slots[slot(node, bin)].iter();
        words.copied().find(|word| word % TIMES < bound).unwrap_or(ABSENT)
    }

    /// The points of the root.
    pub fn root(&self) -> impl Iterator<Item = u64> + '_ {
        self.slots[0].iter().copied().take_while(|&word| word != ABSENT)
    }
}

fn slot(node: usize, bin: usize) -> usize {
    node * BINS + bin
}
