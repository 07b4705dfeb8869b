//! Random sound libraries and trees, of many sizes and shapes.

use super::drivers::Drivers;
use crate::library::{Cell, Library, Pin, MOST_PATTERNS, MOST_PATTERN_NODES};
use crate::rng::Rng;
use crate::shape::{Shape, Step};
use crate::tree::{Tree, TreeLeaf, LATEST_LEAF, LATEST_REQUIRED, MOST_DRIVE, MOST_TREE_NODES};

/// How many cells, pins and patterns a library may have.
#[derive(Clone, Copy, Debug)]
pub struct Size {
    pub cells: usize,
    pub pins: usize,
    pub patterns: usize,
    /// The most inverters added to a pattern's leaves and NANDs.
    pub extra: usize,
}

pub const TINY: Size = Size { cells: 3, pins: 3, patterns: 2, extra: 3 };
pub const SMALL: Size = Size { cells: 8, pins: 6, patterns: 3, extra: 15 };
pub const WIDE: Size = Size { cells: 64, pins: 3, patterns: 2, extra: 2 };
pub const LARGE: Size = Size { cells: 64, pins: 6, patterns: 7, extra: 15 };
pub const MANY_PATTERNS: Size = Size { cells: 24, pins: 1, patterns: 7, extra: 2 };

/// Mostly small, so that many can be run and stored.
pub fn any_size(rng: &mut Rng) -> Size {
    match rng.below(20) {
        0 => LARGE,
        1 => WIDE,
        2 | 3 => MANY_PATTERNS,
        4..=10 => SMALL,
        _ => TINY,
    }
}

pub fn library(rng: &mut Rng, size: Size) -> Library {
    let bins = bins(rng);
    let mut library = Library { bins, cells: Vec::new() };
    let mut room = MOST_PATTERNS;
    for _ in 0..rng.between(1, size.cells) {
        if room == 0 {
            break;
        }
        let cell = cell(rng, size, library.bins.len(), room);
        room -= cell.patterns.len();
        library.cells.push(cell);
    }
    library
}

fn bins(rng: &mut Rng) -> Vec<u32> {
    let count = rng.between(1, 4);
    let most = rng.pick(&[4, 9, 255]);
    let mut bins: Vec<u32> = Vec::new();
    while bins.len() < count {
        let load = edge_or(rng, 1, most);
        if !bins.contains(&load) {
            bins.push(load);
        }
    }
    bins.sort();
    bins
}

/// A value in a range, often one of its ends.
fn edge_or(rng: &mut Rng, least: u32, most: u32) -> u32 {
    match rng.below(8) {
        0 => least,
        1 => most,
        _ => rng.value(least, most),
    }
}

fn cell(rng: &mut Rng, size: Size, bin_count: usize, room: usize) -> Cell {
    let pin_count = rng.between(1, size.pins);
    let pattern_count = rng.between(1, size.patterns.min(room));
    Cell {
        held: rng.once_in(6),
        area: edge_or(rng, 1, 65_535),
        highest_load: edge_or(rng, 0, 255),
        pins: (0..pin_count).map(|_| pin(rng, bin_count)).collect(),
        patterns: (0..pattern_count).map(|_| pattern(rng, pin_count, size.extra)).collect(),
    }
}

fn pin(rng: &mut Rng, bin_count: usize) -> Pin {
    Pin { bin: rng.below(bin_count) as u32, intrinsic: edge_or(rng, 0, 65_535), drive: edge_or(rng, 0, 255) }
}

/// A pattern in which every pin stands once, with up to `extra` inverters.
pub fn pattern(rng: &mut Rng, pin_count: usize, extra: usize) -> Shape {
    let most = extra.min(MOST_PATTERN_NODES - (2 * pin_count - 1));
    let least = (pin_count == 1) as usize;
    let inverters = rng.between(least, most.max(least));
    let mut pins: Vec<u32> = (0..pin_count as u32).collect();
    rng.shuffle(&mut pins);
    shape(rng, &pins, inverters)
}

/// A random shape with these leaves in drawn order and this many inverters.
pub fn shape<L: Copy>(rng: &mut Rng, leaves: &[L], inverters: usize) -> Shape<L> {
    let mut steps = Vec::new();
    grow(rng, leaves, inverters, &mut steps);
    Shape::from_steps(&steps)
}

fn grow<L: Copy>(rng: &mut Rng, leaves: &[L], inverters: usize, steps: &mut Vec<Step<L>>) {
    if leaves.len() == 1 {
        steps.extend(vec![Step::Inv; inverters]);
        steps.push(Step::Leaf(leaves[0]));
        return;
    }
    let above = if rng.once_in(2) { inverters.min(rng.below(3)) } else { 0 };
    let left = rng.between(0, inverters - above);
    let (first, second) = leaves.split_at(split(rng, leaves.len()));
    steps.extend(vec![Step::Inv; above]);
    steps.push(Step::Nand);
    grow(rng, first, left, steps);
    grow(rng, second, inverters - above - left, steps);
}

/// Where a NAND parts its leaves: anywhere, in the middle, or at either end.
fn split(rng: &mut Rng, leaves: usize) -> usize {
    match rng.below(6) {
        0 => 1,
        1 => leaves - 1,
        2 | 3 => leaves / 2,
        _ => rng.between(1, leaves - 1),
    }
}

/// A tree of at most `most` nodes.
pub fn tree(rng: &mut Rng, most: usize) -> Tree {
    let nodes = if rng.once_in(8) { most } else { rng.between(1, most) };
    let leaf_count = rng.between(1, nodes.div_ceil(2));
    let drivers = Drivers::any(rng);
    let leaf = |_| TreeLeaf { arrival: edge_or(rng, 0, LATEST_LEAF), drive: drivers.drive(rng, MOST_DRIVE) };
    let leaves: Vec<TreeLeaf> = (0..leaf_count).map(leaf).collect();
    Tree {
        root_load: edge_or(rng, 0, 255),
        required: edge_or(rng, 0, LATEST_REQUIRED),
        shape: shape(rng, &leaves, nodes - (2 * leaf_count - 1)),
    }
}

/// The most nodes of a random tree: mostly few.
pub fn any_node_limit(rng: &mut Rng) -> usize {
    rng.pick(&[4, 8, 16, MOST_TREE_NODES])
}
