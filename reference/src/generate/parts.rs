//! Small parts from which libraries and trees are put together by hand.

use crate::library::{Cell, Pin};
use crate::shape::{Shape, Step};
use crate::tree::{Tree, TreeLeaf};
use Step::{Inv, Leaf, Nand};

/// Drawings of cells; as trees, with plain leaves that arrive at 0 and 1.
pub const INVERTER: &[Step] = &[Inv, Leaf(0)];
pub const NAND: &[Step] = &[Nand, Leaf(0), Leaf(1)];
pub const AND: &[Step] = &[Inv, Nand, Leaf(0), Leaf(1)];
pub const OR: &[Step] = &[Nand, Inv, Leaf(0), Inv, Leaf(1)];
pub const NOR: &[Step] = &[Inv, Nand, Inv, Leaf(0), Inv, Leaf(1)];
pub const AOI21: &[Step] = &[Inv, Nand, Nand, Leaf(0), Leaf(1), Inv, Leaf(2)];
pub const AOI22: &[Step] = &[Inv, Nand, Nand, Leaf(0), Leaf(1), Nand, Leaf(2), Leaf(3)];

/// `count` inverters over `below`.
pub fn chain<L: Copy>(count: usize, below: &[Step<L>]) -> Vec<Step<L>> {
    let mut steps = vec![Inv; count];
    steps.extend(below);
    steps
}

/// NANDs whose first branches are the leaves but the last.
pub fn comb<L: Copy>(leaves: &[L]) -> Vec<Step<L>> {
    let (last, firsts) = leaves.split_last().unwrap();
    let mut steps: Vec<Step<L>> = firsts.iter().flat_map(|&leaf| [Nand, Leaf(leaf)]).collect();
    steps.push(Leaf(*last));
    steps
}

/// A comb whose leaves are `0..leaves`.
pub fn counted_comb(leaves: u32) -> Vec<Step> {
    comb(&(0..leaves).collect::<Vec<u32>>())
}

pub fn pin(bin: u32, intrinsic: u32, drive: u32) -> Pin {
    Pin { bin, intrinsic, drive }
}

/// A cell that is not held, whose pins are alike, with one pattern.
pub fn cell(area: u32, highest_load: u32, pin: Pin, steps: &[Step]) -> Cell {
    let pins = steps.iter().filter(|step| step.branches() == 0).map(|_| pin).collect();
    Cell { held: false, area, highest_load, pins, patterns: vec![Shape::from_steps(steps)] }
}

/// A tree; a leaf that is only a number is plain and arrives then.
pub fn tree<L: Copy + Into<TreeLeaf>>(root_load: u32, required: u32, steps: &[Step<L>]) -> Tree {
    let steps: Vec<Step<TreeLeaf>> = steps.iter().map(|step| step.map(L::into)).collect();
    Tree { root_load, required, shape: Shape::from_steps(&steps) }
}

/// Leaves of a tree that has both kinds.
pub fn leaf(arrival: u32) -> Step<TreeLeaf> {
    Leaf(TreeLeaf::plain(arrival))
}

pub fn driven(arrival: u32, drive: u32) -> Step<TreeLeaf> {
    Leaf(TreeLeaf::driven(arrival, drive))
}
