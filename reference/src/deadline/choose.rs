//! The matches of the cover that reaches a point.

use super::curves::{Curves, ABSENT, TIMES};
use super::finding::{Crossings, Match};
use crate::cover::Placed;

/// A node under a load, and the point to be reached there.
#[derive(Clone, Copy)]
pub struct Aim {
    pub node: usize,
    pub load: u64,
    pub point: u64,
}

/// Appends the matches, ascending by node.
pub fn follow(curves: &Curves, matches: &mut Vec<Placed>, aim: Aim) {
    if curves.subject.codes[aim.node] == 0 {
        return;
    }
    let Some(found) = first_to_reach(curves, aim) else { return };
    matches.push(Placed::new(aim.node, found.pattern as usize, found.crossing as u32));
    let cell = curves.cell(&found);
    for &(pin, node) in found.inputs() {
        let pin = &cell.pins[pin as usize];
        let (node, bin) = (node as usize, pin.bin as usize);
        let point = curves.look_up(node, bin, aim.point % TIMES + 1 - pin.delay(aim.load));
        if point != ABSENT {
            follow(curves, matches, Aim { node, load: curves.library.bins[bin], point });
        }
    }
}

/// The first match, by pattern and then by crossing, whose best before the next time is the point.
fn first_to_reach(curves: &Curves, aim: Aim) -> Option<Match> {
    let library = curves.library;
    for (number, pattern) in library.patterns[..library.pattern_count].iter().enumerate() {
        let cell = &library.cells[pattern.cell as usize];
        if cell.held || aim.load > cell.highest_load as u64 {
            continue;
        }
        let mut crossings = Crossings::of(library, number, curves.subject, aim.node);
        let reaches = |found: &Match| curves.reach(found, aim.load, aim.point % TIMES + 1) == aim.point;
        if let Some(found) = crossings.find(reaches) {
            return Some(found);
        }
    }
    None
}
