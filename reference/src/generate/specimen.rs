//! The library and the trees of document 01's specimen sheet, and the example of
//! source document 003.

use super::parts::{cell, chain, driven, leaf, pin, tree, AND, AOI21, AOI22, INVERTER, NAND, NOR, OR};
use crate::library::Library;
use crate::shape::{Shape, Step};
use crate::tree::{Tree, LATEST_LEAF, LATEST_REQUIRED};
use Step::{Inv, Leaf, Nand};

pub fn library() -> Library {
    let cells = vec![
        cell(1, 4, pin(0, 4, 2), INVERTER),
        cell(2, 8, pin(1, 4, 1), INVERTER),
        cell(2, 4, pin(0, 6, 2), NAND),
        cell(3, 4, pin(0, 8, 2), AND),
    ];
    Library { bins: vec![1, 2], cells }
}

/// The trees of cases a to l; l stands three times, under other loads and another time.
pub fn trees() -> Vec<Tree> {
    let and = chain(1, &[Nand, Leaf(0), Leaf(0)]);
    let two = chain(2, &[Leaf(0)]);
    vec![
        tree(1, 6, INVERTER),
        tree_b(),
        tree(1, 4, INVERTER),
        tree(4, 12, INVERTER),
        tree(5, 14, INVERTER),
        tree(9, LATEST_REQUIRED, INVERTER),
        tree(1, 14, &and),
        tree(8, 22, &and),
        tree(1, 12, &two),
        tree(1, 11, &two),
        tree(1, 11, &[Nand, Leaf(3), Leaf(0)]),
        tree(0, 7, &[Leaf(7)]),
        tree(255, 7, &[Leaf(7)]),
        tree(1, 6, &[Leaf(7)]),
    ]
}

pub fn tree_b() -> Tree {
    tree(1, 5, INVERTER)
}

/// Every kind of field but a drive; the last ends with its byte.
pub fn mixed_tree() -> Tree {
    tree(3, 70_000, &[Nand, Inv, Leaf(5), Nand, Leaf(LATEST_LEAF), Leaf(0)])
}

/// Driven leaves and a plain one, and bits left in the last byte.
pub fn driven_tree() -> Tree {
    tree(4, 2_000_000, &[Inv, Nand, Inv, driven(5, 9), Nand, leaf(7), driven(LATEST_LEAF, 255)])
}

/// Four bins, a held cell, and a cell with two patterns.
pub fn rich_library() -> Library {
    let mut held = cell(65_535, 255, pin(3, 65_535, 255), &[Inv, Inv, Leaf(0)]);
    held.held = true;
    let mut third = cell(9, 0, pin(2, 0, 0), &[Nand, Inv, Leaf(2), Nand, Leaf(0), Leaf(1)]);
    third.patterns.push(Shape::from_steps(&[Nand, Nand, Leaf(1), Leaf(2), Inv, Leaf(0)]));
    Library { bins: vec![1, 2, 200, 255], cells: vec![held, third] }
}

/// Intrinsics and drives doubled, highest loads 8, areas 1.
pub fn example_library() -> Library {
    let cell = |bin, intrinsic, drive, steps: &[Step]| cell(1, 8, pin(bin, intrinsic, drive), steps);
    let cells = vec![
        cell(0, 4, 2, INVERTER),
        cell(1, 4, 1, INVERTER),
        cell(0, 6, 2, NAND),
        cell(0, 8, 2, AND),
        cell(0, 6, 2, NOR),
        cell(0, 8, 2, OR),
        cell(0, 8, 2, AOI21),
        cell(0, 10, 2, AOI22),
    ];
    Library { bins: vec![1, 2], cells }
}

/// INV(NAND(INV(a), INV(NAND(NAND(d, INV(c)), NAND(d, INV(b)))))), root load 8.
pub fn example_tree(required: u32) -> Tree {
    let side = [Nand, Leaf(0), Inv, Leaf(0)];
    tree(8, required, &[&[Inv, Nand, Inv, Leaf(0), Inv, Nand][..], &side, &side].concat())
}
