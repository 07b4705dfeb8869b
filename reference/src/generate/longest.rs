//! The longest sound sheets.

use super::functions::alike::restated;
use super::heavy::balanced;
use super::parts::{self, pin};
use super::sound;
use crate::library::{Cell, Library, MOST_PATTERN_NODES};
use crate::rng::Rng;
use crate::shape::{Shape, Step};
use crate::tree::{Tree, TreeLeaf, LATEST_LEAF, LATEST_REQUIRED, MOST_DRIVE};

/// 4 bins, 64 cells of 6 pins, 128 patterns of 16 nodes.
pub fn library() -> Library {
    let mut rng = Rng::new(64);
    let cells = (1..=64).map(|number| cell(&mut rng, number)).collect();
    Library { bins: vec![1, 3, 9, 27], cells }
}

fn cell(rng: &mut Rng, number: u32) -> Cell {
    Cell {
        held: false,
        area: number * 5,
        highest_load: 255,
        pins: (0..6).map(|place| pin(place % 4, number * 11 + place, 64 - number)).collect(),
        patterns: (0..2).map(|_| pattern(rng)).collect(),
    }
}

/// Six leaves and five NANDs leave room for five inverters.
fn pattern(rng: &mut Rng) -> Shape {
    let mut pins = [0, 1, 2, 3, 4, 5];
    rng.shuffle(&mut pins);
    sound::shape(rng, &pins, 5)
}

/// The same with other second drawings, which compute what the first do, so that there is a right function sheet. In
/// `library` the two drawings of a cell never compute the same.
pub fn agreeing_library() -> Library {
    let mut rng = Rng::new(66);
    let mut library = library();
    for cell in &mut library.cells {
        cell.patterns[1] = agreeing(&mut rng, &cell.patterns[0]);
    }
    library
}

/// Another drawing that is as large.
fn agreeing(rng: &mut Rng, drawing: &Shape) -> Shape {
    let suits = |other: &Shape| other.nodes.len() == MOST_PATTERN_NODES && other != drawing;
    std::iter::repeat_with(|| restated(rng, drawing)).find(suits).expect("another drawing")
}

/// An inverter over a full tree of 31 NANDs: of 64 nodes as many are leaves as can be, 32. All are driven, so that no
/// tree sheet is longer: 32 bits, 32 gates of 2 and 32 leaves of 30 are 1,056. The last arrives latest and has the
/// greatest drive.
pub fn tree() -> Tree {
    let mut rng = Rng::new(33);
    let mut drives: Vec<u32> = (0..31).map(|_| rng.value(0, MOST_DRIVE)).collect();
    drives.push(MOST_DRIVE);
    let mut drives = drives.into_iter();
    let mut tree = plain_tree();
    tree.shape.leaves_mut().for_each(|leaf| leaf.drive = drives.next());
    tree
}

/// The same with plain leaves, of 22 bits each: the longest tree sheet while no leaf could be driven.
pub fn plain_tree() -> Tree {
    let mut rng = Rng::new(32);
    let mut arrivals: Vec<u32> = (0..31).map(|_| rng.value(0, LATEST_LEAF)).collect();
    arrivals.push(LATEST_LEAF);
    let mut steps = vec![Step::Inv];
    balanced(5, &mut arrivals.into_iter().map(TreeLeaf::plain), &mut steps);
    parts::tree(5, LATEST_REQUIRED, &steps)
}
