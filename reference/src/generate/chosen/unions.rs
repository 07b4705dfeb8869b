//! Some of the matches have more than 31 points together, all of them need not.

use super::super::parts::{cell, pin, INVERTER, NAND, OR};
use super::{grades, library, plain, points_at, with, Table};
use crate::shape::Step::{Inv, Leaf, Nand};

pub fn add(table: &mut Table) {
    for (area, points) in [(1, 1), (10, 10), (31, 31), (32, 32), (40, 40)] {
        [0, 20, 40].into_iter().for_each(|position| cut_union(table, area, points, position));
    }
    long_join(table);
}

/// 40 grades and one cell that is faster than all: it improves on those of its area and more.
fn cut_union(table: &mut Table, area: u32, points: usize, position: usize) {
    let mut cells = grades(40, INVERTER);
    cells.insert(position, cell(area, 255, pin(0, 1, 0), INVERTER));
    table.add("a union cut down", &library(&[6], cells.clone()), 6, INVERTER, points_at(0, points));
    let with_nand = library(&[6], with(cells, vec![plain(NAND)]));
    table.add("the same below", &with_nand, 6, &[Nand, Inv, Leaf(0), Leaf(0)], points_at(1, points));
}

/// A join of two curves with 39 points, of areas 3 to 41, and another match that
/// improves on those of its own area and more.
fn long_join(table: &mut Table) {
    let steps = [Nand, Inv, Leaf(0), Inv, Leaf(5)];
    let cells = with(grades(20, INVERTER), vec![plain(NAND)]);
    table.add("a join of two curves", &library(&[1], cells.clone()), 1, &steps, points_at(0, 39));
    for (area, points) in [(1, 1), (8, 6), (33, 31), (34, 32)] {
        for position in [0, 21] {
            let mut improved = cells.clone();
            improved.insert(position, cell(area, 255, pin(0, 2, 0), OR));
            table.add("a join improved on", &library(&[1], improved), 1, &steps, points_at(0, points));
        }
    }
}
