//! Single points: the greatest, equal ones, and those of the smallest and largest trees.

use super::super::parts::{cell, chain, comb, pin, AND, INVERTER, NAND};
use super::{library, plain, Outcome, Table};
use crate::library::Cell;
use crate::shape::{Shape, Step};
use crate::tree::LATEST_LEAF;
use Step::{Inv, Leaf, Nand};

pub fn add(table: &mut Table) {
    greatest(table);
    twins(table);
    one_match_or_two(table);
    crossed_twins(table);
    sizes(table);
}

/// The bounds that document 01 states.
fn greatest(table: &mut Table) {
    let slowest = pin(0, 65_535, 255);
    let cells = library(&[255], vec![cell(65_535, 255, slowest, INVERTER)]);
    let steps = |arrival| chain(63, &[Leaf(arrival)]);
    table.add("both bounds", &cells, 255, &steps(LATEST_LEAF), Outcome::Single(9_225_280, 4_128_705));
    table.add("one before the bound", &cells, 255, &steps(LATEST_LEAF - 1), Outcome::Single(9_225_279, 4_128_705));
    table.add("a lower root load", &cells, 254, &steps(LATEST_LEAF), Outcome::Single(9_225_025, 4_128_705));
    let slow = cell(65_535, 255, slowest, NAND);
    let mut uneven = slow.clone();
    uneven.pins[0] = pin(0, 0, 0);
    let late = |delay| Outcome::Single(LATEST_LEAF + delay, 31 * 65_535);
    let steps = comb(&[LATEST_LEAF; 32]);
    table.add("a comb of the largest", &library(&[255], vec![slow]), 255, &steps, late(31 * 130_560));
    table.add("its NANDs on the fast pins", &library(&[255], vec![uneven]), 255, &steps, late(130_560));
}

/// Cells and patterns that are quite alike.
fn twins(table: &mut Table) {
    let cells = [vec![plain(INVERTER); 3], vec![plain(NAND); 2]].concat();
    table.add("twin cells", &library(&[1], cells), 1, &[Nand, Inv, Leaf(0), Leaf(1)], Outcome::Single(2, 2));
    let alike = Cell { patterns: vec![Shape::from_steps(AND); 2], ..plain(AND) };
    let cells = vec![cell(9, 255, pin(0, 9, 0), AND), alike];
    table.add("twin patterns", &library(&[1], cells), 1, AND, Outcome::Single(2, 1));
}

fn one_match_or_two(table: &mut Table) {
    let double = cell(2, 255, pin(0, 2, 0), AND);
    for cells in [vec![double.clone(), plain(INVERTER), plain(NAND)], vec![plain(INVERTER), plain(NAND), double]] {
        table.add("one match or two", &library(&[1], cells), 1, AND, Outcome::Single(3, 2));
    }
}

/// Two patterns of one cell that exchange its pins.
fn crossed_twins(table: &mut Table) {
    let crossed = Shape::from_steps(&[Nand, Leaf(1), Leaf(0)]);
    let cell = Cell {
        pins: vec![pin(0, 1, 0), pin(1, 3, 1)],
        patterns: vec![crossed, Shape::from_steps(NAND)],
        ..plain(NAND)
    };
    let cells = library(&[1, 2], vec![cell]);
    let steps = [Nand, Nand, Leaf(0), Leaf(0), Nand, Leaf(0), Leaf(0)];
    table.add("crossed twins", &cells, 1, &steps, Outcome::Single(9, 3));
    table.add("crossed, one branch late", &cells, 1, &[Nand, Leaf(4), Leaf(1)], Outcome::Single(5, 1));
}

fn sizes(table: &mut Table) {
    let cells = library(&[1, 2], vec![plain(INVERTER), plain(NAND)]);
    for arrival in [0, 1, LATEST_LEAF] {
        table.add("one leaf", &cells, 255, &[Leaf(arrival)], Outcome::Single(arrival, 0));
    }
    table.add("63 inverters", &cells, 1, &chain(63, &[Leaf(0)]), Outcome::Single(63, 63));
    table.add("a right comb", &cells, 1, &chain(1, &comb(&[0; 32])), Outcome::Single(32, 32));
    let left = [vec![Nand; 31], vec![Leaf(0); 32]].concat();
    table.add("a left comb", &cells, 1, &chain(1, &left), Outcome::Single(32, 32));
    table.add("a full tree", &cells, 1, &chain(1, &full(5)), Outcome::Single(6, 32));
}

/// A tree of NANDs of this depth, every branch alike.
fn full(depth: usize) -> Vec<Step> {
    if depth == 0 {
        return vec![Leaf(0)];
    }
    [&[Nand][..], &full(depth - 1), &full(depth - 1)].concat()
}
