//! Curves of just as many points as may be, and overfull at one node or one bin.

use super::super::parts::{cell, chain, pin, AND, INVERTER, NAND};
use super::{grades, library, plain, points_at, with, Outcome, Table};
use crate::library::{Cell, Pin};
use crate::refusal::{NO_COVER, OVERFULL};
use crate::shape::Step::{Inv, Leaf, Nand};

pub fn add(table: &mut Table) {
    curve_lengths(table);
    overfull_below(table);
    overfull_in_branches(table);
    overfull_in_vain(table);
    for crowd in [31, 32] {
        [0, 2, 3].into_iter().for_each(|used| at_load_two(table, crowd, used));
        at_lowest_bin(table, crowd);
        at_highest_bin(table, crowd);
    }
}

fn curve_lengths(table: &mut Table) {
    for count in [1, 2, 30, 31, 32, 33, 64] {
        let cells = library(&[1], grades(count, INVERTER));
        table.add("grades at the root", &cells, 1, INVERTER, points_at(0, count));
        let cells = library(&[1, 2], grades(count, NAND));
        table.add("NAND grades at the root", &cells, 7, &[Nand, Leaf(5), Leaf(0)], points_at(0, count));
    }
    for (above, below) in [(15, 16), (16, 16), (16, 17), (17, 16), (1, 31), (31, 1), (32, 1)] {
        let cells = library(&[1, 4], with(grades(above, INVERTER), grades(below, NAND)));
        table.add("grades over grades", &cells, 1, AND, points_at(0, above + below - 1));
    }
    for length in [2, 3, 5, 6, 10, 15] {
        let steps = 30 / length;
        let cells = library(&[3], grades(1 + steps, INVERTER));
        table.add("a chain of grades", &cells, 3, &chain(length, &[Leaf(9)]), Outcome::Points(steps * length + 1));
    }
}

/// One node overfull, with nodes above it that would be so too.
fn overfull_below(table: &mut Table) {
    let cells = library(&[1, 2], with(vec![plain(INVERTER)], grades(32, NAND)));
    for above in [0, 1, 2, 7, 30, 61] {
        table.add("overfull NAND", &cells, 1, &chain(above, NAND), Outcome::Refused(OVERFULL, above as u32));
    }
    for (count, node) in [(31, 7), (17, 7), (16, 6), (11, 5), (9, 5), (8, 4)] {
        let cells = library(&[5], grades(count, INVERTER));
        let outcome = Outcome::Refused(OVERFULL, node);
        table.add("overfull above the leaf", &cells, 5, &chain(9, &[Leaf(0)]), outcome);
    }
}

fn overfull_in_branches(table: &mut Table) {
    let cells = library(&[1, 2], with(vec![plain(INVERTER)], grades(32, NAND)));
    let side = [Inv, Nand, Leaf(0), Leaf(0)];
    let both = [&[Nand][..], &side, &side].concat();
    table.add("overfull on both sides", &cells, 1, &both, Outcome::Refused(OVERFULL, 6));
    let left = [&[Nand][..], &side, INVERTER].concat();
    table.add("overfull on the left", &cells, 1, &left, Outcome::Refused(OVERFULL, 2));
    let right = [&[Nand, Leaf(0)][..], &side].concat();
    table.add("overfull on the right", &cells, 1, &right, Outcome::Refused(OVERFULL, 3));
}

/// Overfull is said though no cover of the root uses the node, or the root has none.
fn overfull_in_vain(table: &mut Table) {
    let inside = |count| library(&[1], with(vec![plain(AND)], grades(count, NAND)));
    table.add("overfull inside the only match", &inside(32), 1, AND, Outcome::Refused(OVERFULL, 1));
    table.add("nearly overfull inside it", &inside(31), 1, AND, Outcome::Single(2, 1));
    let below = |count| library(&[1], grades(count, NAND));
    table.add("overfull under a root without cover", &below(32), 1, AND, Outcome::Refused(OVERFULL, 1));
    table.add("nearly overfull under it", &below(31), 1, AND, Outcome::Refused(NO_COVER, 0));
    let weak = |cell| Cell { highest_load: 4, ..cell };
    let shut = library(&[1], grades(32, INVERTER).into_iter().map(weak).collect());
    table.add("the root's load shuts all out", &shut, 5, INVERTER, Outcome::Refused(NO_COVER, 0));
    table.add("the root's load shuts none out", &shut, 4, INVERTER, Outcome::Refused(OVERFULL, 0));
}

/// Equal delays under load 1, and under load 2 the larger the faster.
fn steep_pin(bin: u32, grade: u32) -> Pin {
    pin(bin, 3 * grade, 200 - 3 * grade)
}

/// Overfull under load 2 only: under load 1 just the smallest counts, and higher loads shut out.
fn at_load_two(table: &mut Table, crowd: u32, used: u32) {
    let mut cells: Vec<Cell> = (0..crowd).map(|grade| cell(grade + 1, 2, steep_pin(used, grade), INVERTER)).collect();
    cells.push(cell(crowd + 1, 255, steep_pin(used, 0), INVERTER));
    let library = library(&[1, 2, 3, 4], cells);
    let outcome = if crowd > 31 { Outcome::Refused(OVERFULL, 1) } else { Outcome::Points(1) };
    table.add("overfull at load 2 of 4", &library, 3, &chain(2, &[Leaf(0)]), outcome);
}

/// All pins use bin 1, whose load shuts all but four out.
fn at_lowest_bin(table: &mut Table, crowd: u32) {
    let mut cells = grades(crowd as usize, INVERTER);
    for (grade, cell) in cells.iter_mut().enumerate() {
        cell.pins[0].bin = 1;
        cell.highest_load = if grade < 4 { 2 } else { 1 };
    }
    let library = library(&[1, 2], cells);
    let outcome = if crowd > 31 { Outcome::Refused(OVERFULL, 1) } else { Outcome::Points(7) };
    table.add("overfull at the lowest bin", &library, 2, &chain(2, &[Leaf(0)]), outcome);
    table.add("the root is not under that bin", &library, 2, INVERTER, Outcome::Points(4));
}

/// All pins use bin 0.
fn at_highest_bin(table: &mut Table, crowd: u32) {
    let cells = (0..crowd).map(|grade| cell(grade + 1, 255, steep_pin(0, grade), INVERTER)).collect();
    let library = library(&[1, 2], cells);
    let outcome = if crowd > 31 { Outcome::Refused(OVERFULL, 1) } else { Outcome::Single(400, 2) };
    table.add("overfull at the highest bin", &library, 1, &chain(2, &[Leaf(0)]), outcome);
    table.add("the root is not under that bin", &library, 1, INVERTER, Outcome::Single(200, 1));
    table.add("the root under that bin's load", &library, 2, INVERTER, points_at(0, crowd as usize));
}
