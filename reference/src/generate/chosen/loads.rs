//! Held cells, and cells that a load shuts out.

use super::super::parts::{cell, chain, pin, INVERTER};
use super::{grades, library, points_at, Outcome, Table};
use crate::library::Cell;
use crate::refusal::NO_COVER;
use crate::shape::Step::Leaf;

pub fn add(table: &mut Table) {
    held_grades(table);
    held_best(table);
    held_twins(table);
    shut_out(table);
    shut_out_at_root(table);
}

fn held_grades(table: &mut Table) {
    for count in [31, 32, 33] {
        for held in [0, 15, count - 1] {
            let mut cells = grades(count, INVERTER);
            cells[held].held = true;
            table.add("one grade held", &library(&[1], cells), 1, INVERTER, points_at(0, count - 1));
        }
    }
}

fn held_best(table: &mut Table) {
    let held = Cell { held: true, ..cell(1, 255, pin(0, 0, 0), INVERTER) };
    let only = library(&[1], vec![held.clone(); 3]);
    table.add("all held", &only, 1, INVERTER, Outcome::Refused(NO_COVER, 0));
    let better = library(&[1], vec![held.clone(), cell(9, 255, pin(0, 9, 0), INVERTER), held]);
    table.add("better ones held", &better, 1, INVERTER, Outcome::Single(9, 9));
    table.add("better ones held twice", &better, 1, &chain(2, &[Leaf(1)]), Outcome::Single(19, 18));
}

/// Held cells that would reach the same point and stand before the free one.
fn held_twins(table: &mut Table) {
    let free = cell(1, 255, pin(0, 0, 0), INVERTER);
    let held = Cell { held: true, ..free.clone() };
    for cells in [vec![held.clone(), free.clone()], vec![held.clone(), held.clone(), free.clone(), held.clone()]] {
        let twins = library(&[1, 2], cells);
        for length in [1, 2, 5] {
            let outcome = Outcome::Single(3, length as u32);
            table.add("held twins", &twins, 1, &chain(length, &[Leaf(3)]), outcome);
        }
    }
}

/// A good cell up to some load, and a poor one for every load, above and below.
fn shut_out(table: &mut Table) {
    let poor = cell(5, 255, pin(0, 50, 1), INVERTER);
    for highest in [0, 1, 2, 3, 9, 10, 11, 254, 255] {
        let cells = library(&[1, 3], vec![cell(1, highest, pin(0, 5, 0), INVERTER), poor.clone()]);
        for root_load in [0, 1, 2, 10, 255] {
            let figures = |load| if load <= highest { (5, 1) } else { (50 + load, 5) };
            let (above, below) = (figures(root_load), figures(1));
            let outcome = Outcome::Single(above.0 + below.0, above.1 + below.1);
            table.add("shut out by a load", &cells, root_load, &chain(2, &[Leaf(0)]), outcome);
        }
    }
}

fn shut_out_at_root(table: &mut Table) {
    let cells = library(&[1, 7], vec![cell(2, 7, pin(0, 1, 1), INVERTER)]);
    let steps = chain(3, &[Leaf(0)]);
    table.add("shut out at the root only", &cells, 8, &steps, Outcome::Refused(NO_COVER, 0));
    table.add("at its highest load", &cells, 7, &steps, Outcome::Single(12, 6));
}
