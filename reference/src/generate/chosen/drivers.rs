//! Driven leaves: the loads that they drive, what they change in a choice and in a curve, and the greatest arrival.

use super::super::parts::{cell, chain, comb, driven, leaf, pin, AND, INVERTER, NAND};
use super::super::{longest, specimen};
use super::{grades, library, plain, points_at, with, Outcome, Table};
use crate::library::Cell;
use crate::refusal::{NO_COVER, OVERFULL};
use crate::shape::Step::{self, Inv, Leaf, Nand};
use crate::tree::{TreeLeaf, LATEST_LEAF};

pub fn add(table: &mut Table) {
    roots(table);
    two_loads(table);
    charged_loads(table);
    greatest(table);
    larger_cells(table);
    larger_cells_below(table);
    exchanged(table);
    equal_in_all(table);
    one_point_more(table);
    one_point_less(table);
    where_patterns_stand(table);
    specimens(table);
    largest_trees(table);
}

/// A driven leaf that is the root drives the root load.
fn roots(table: &mut Table) {
    let cells = library(&[3], vec![plain(INVERTER)]);
    for (arrival, drive) in [(0, 0), (7, 1), (7, 255), (LATEST_LEAF, 255)] {
        for load in [0, 1, 2, 254, 255] {
            let outcome = Outcome::Single(arrival + drive * load, 0);
            table.add("a driven root", &cells, load, &[driven(arrival, drive)], outcome);
        }
    }
}

/// The same leaf under a pin of load 1 and under one of load 255, in two trees and in one.
fn two_loads(table: &mut Table) {
    let light = cell(1, 255, pin(0, 3, 0), INVERTER);
    let heavy = cell(1, 255, pin(1, 5, 0), NAND);
    let cells = library(&[1, 255], vec![light, heavy]);
    for (drive, at_one, at_255) in [(0, 10, 10), (1, 11, 265), (255, 265, 65_035)] {
        let same = driven(10, drive);
        table.add_cover("under load 1", &cells, &[Inv, same], (at_one + 3, 1), &[(0, 0, 0)]);
        table.add_cover("under load 255", &cells, &[Nand, same, leaf(0)], (at_255 + 5, 1), &[(0, 1, 0)]);
        table.add_cover("and on the right", &cells, &[Nand, leaf(0), same], (at_255 + 5, 1), &[(0, 1, 0)]);
        let latest = at_255.max(at_one + 3) + 5;
        let both = [Nand, Inv, same, same];
        table.add_cover("under both", &cells, &both, (latest, 2), &[(0, 1, 0), (1, 0, 0)]);
    }
}

/// The leaf drives the pin's load, 4; not the load of another bin, nor the one that the match drives.
fn charged_loads(table: &mut Table) {
    let cells = library(&[1, 4, 6], vec![cell(1, 255, pin(1, 3, 2), INVERTER)]);
    let steps = |count| chain(count, &[driven(100, 7)]);
    for (root_load, arrival) in [(0, 131), (1, 133), (4, 139), (9, 149), (255, 641)] {
        table.add("100 + 7 × 4 + 3 + 2 × load", &cells, root_load, &steps(1), Outcome::Single(arrival, 1));
        table.add("the same below", &cells, root_load, &steps(2), Outcome::Single(arrival + 11, 2));
    }
}

/// No arrival is greater than the first.
fn greatest(table: &mut Table) {
    let slowest = cell(65_535, 255, pin(0, 65_535, 255), INVERTER);
    let cells = library(&[255], vec![slowest.clone()]);
    let single = |arrival| Outcome::Single(arrival, 4_128_705);
    let steps = |arrival, drive| chain(63, &[driven(arrival, drive)]);
    table.add("the bound of arrivals", &cells, 255, &steps(LATEST_LEAF, 255), single(9_290_305));
    table.add("one before the bound", &cells, 255, &steps(LATEST_LEAF - 1, 255), single(9_290_304));
    table.add("a lower drive", &cells, 255, &steps(LATEST_LEAF, 254), single(9_290_050));
    table.add("drive 1", &cells, 255, &steps(LATEST_LEAF, 1), single(9_225_535));
    table.add("drive 0", &cells, 255, &steps(LATEST_LEAF, 0), single(9_225_280));
    table.add("a lower root load", &cells, 254, &steps(LATEST_LEAF, 255), single(9_290_050));
    let lighter = library(&[254], vec![slowest]);
    table.add("a lower pin load", &lighter, 255, &steps(LATEST_LEAF, 255), single(9_274_240));
}

/// A small inverter with a heavy pin, and a large one with a light pin.
fn small_and_large() -> Vec<Cell> {
    vec![cell(1, 255, pin(1, 1, 0), INVERTER), cell(9, 255, pin(0, 2, 0), INVERTER)]
}

/// The small one takes 1 + 4 × drive, the large one 2 + drive: a slow driver makes the large one the faster.
fn larger_cells(table: &mut Table) {
    let cells = library(&[1, 4], small_and_large());
    table.add_cover("no driver", &cells, &[Inv, Leaf(0)], (1, 1), &[(0, 0, 0)]);
    table.add_cover("drive 0", &cells, &[Inv, driven(0, 0)], (1, 1), &[(0, 0, 0)]);
    for drive in [1, 10, 255] {
        table.add("a slow driver", &cells, 1, &[Inv, driven(0, drive)], Outcome::Points(2));
    }
    let mut one_size = small_and_large();
    one_size[1].area = 1;
    let cells = library(&[1, 4], one_size);
    table.add_cover("only the light pin tells", &cells, &[Inv, driven(0, 10)], (12, 1), &[(0, 1, 0)]);
}

/// The same under other cells: the time left decides.
fn larger_cells_below(table: &mut Table) {
    let cells = library(&[1, 4], with(small_and_large(), vec![plain(NAND)]));
    table.add("a slow driver below", &cells, 1, &[Inv, Inv, driven(0, 10)], Outcome::Points(2));
    table.add("beside a late leaf", &cells, 1, &[Nand, Inv, driven(0, 10), leaf(20)], Outcome::Points(2));
    let late = [Nand, Inv, driven(0, 10), leaf(500)];
    table.add_cover("beside a very late leaf", &cells, &late, (501, 2), &[(0, 2, 0), (1, 0, 0)]);
    let slow = [Nand, Inv, driven(0, 10), driven(0, 41)];
    table.add_cover("beside a slower driver", &cells, &slow, (42, 2), &[(0, 2, 0), (1, 0, 0)]);
}

/// A NAND with a light pin and a heavy one: the slow driver takes the light pin.
fn exchanged(table: &mut Table) {
    let nand = Cell { pins: vec![pin(0, 5, 0), pin(1, 5, 0)], ..plain(NAND) };
    let cells = library(&[1, 4], vec![nand]);
    let (slow, fast) = (driven(0, 10), driven(0, 1));
    table.add_cover("slow on the light pin", &cells, &[Nand, slow, fast], (15, 1), &[(0, 0, 0)]);
    table.add_cover("and exchanged", &cells, &[Nand, fast, slow], (15, 1), &[(0, 0, 16)]);
    table.add_cover("both slow", &cells, &[Nand, slow, slow], (45, 1), &[(0, 0, 0)]);
    table.add_cover("slow beside 39", &cells, &[Nand, leaf(39), slow], (44, 1), &[(0, 0, 16)]);
    table.add_cover("slow beside 40", &cells, &[Nand, leaf(40), slow], (45, 1), &[(0, 0, 0)]);
    table.add_cover("drive 0 beside 40", &cells, &[Nand, leaf(40), driven(40, 0)], (45, 1), &[(0, 0, 0)]);
}

/// One inverter takes 5 + drive, the other 3 + 3 × drive: at drive 1 the lower pattern is taken.
fn equal_in_all(table: &mut Table) {
    let (light, heavy) = (cell(1, 255, pin(0, 5, 0), INVERTER), cell(1, 255, pin(1, 3, 0), INVERTER));
    for (cells, light_number) in [(vec![light.clone(), heavy.clone()], 0), (vec![heavy, light], 1)] {
        let cells = library(&[1, 3], cells);
        let covers = [(0, 3, 1 - light_number), (1, 6, 0), (2, 7, light_number)];
        for (drive, arrival, pattern) in covers {
            let steps = [Inv, driven(0, drive)];
            table.add_cover("equal at drive 1", &cells, &steps, (arrival, 1), &[(0, pattern, 0)]);
        }
    }
}

/// 31 grades with pins of load 2, and one more cell with a light pin: a drive of more than 5 makes it the fastest.
fn one_point_more(table: &mut Table) {
    let mut cells = grades(31, INVERTER);
    cells.iter_mut().for_each(|cell| cell.pins[0].bin = 1);
    let fastest = cell(40, 255, pin(0, 15, 0), INVERTER);
    let cells = library(&[1, 2], with(cells, vec![fastest, plain(NAND)]));
    for (drive, points) in [(5, 31), (6, 32), (255, 32)] {
        table.add("one point by a driver", &cells, 1, &[Inv, driven(0, drive)], points_at(0, points));
    }
    let below = [Nand, leaf(0), Inv, driven(0, 6)];
    table.add("one point by a driver below", &cells, 1, &below, Outcome::Refused(OVERFULL, 2));
}

/// 32 grades, of which only the fastest has a heavy pin: a drive of 10 or more takes its point away.
fn one_point_less(table: &mut Table) {
    let mut cells = grades(32, INVERTER);
    cells[31].pins[0].bin = 1;
    let cells = library(&[1, 2], cells);
    table.add("32 grades, no driver", &cells, 1, INVERTER, points_at(0, 32));
    for (drive, points) in [(0, 32), (9, 32), (10, 31)] {
        table.add("no point by a driver", &cells, 1, &[Inv, driven(0, drive)], points_at(0, points));
    }
}

/// A pattern's leaf stands on a driven leaf, and no gate does.
fn where_patterns_stand(table: &mut Table) {
    let none = Outcome::Refused(NO_COVER, 0);
    let two = library(&[2], vec![plain(&[Inv, Inv, Leaf(0)])]);
    table.add("no inverter to stand on", &two, 1, &[Inv, driven(4, 3)], none);
    table.add("nothing to cover", &two, 1, &[driven(4, 3)], Outcome::Single(7, 0));
    table.add_cover("its leaf on a driven leaf", &two, &[Inv, Inv, driven(4, 3)], (11, 1), &[(0, 0, 0)]);
    let inverted = library(&[2], vec![plain(&[Nand, Inv, Leaf(0), Leaf(1)])]);
    table.add("no inverter on either side", &inverted, 1, &[Nand, driven(4, 3), driven(4, 3)], none);
    let steps = [Nand, driven(4, 3), Inv, driven(9, 0)];
    table.add_cover("an inverter on one side", &inverted, &steps, (11, 1), &[(0, 0, 16)]);
    let and = library(&[2], vec![plain(AND)]);
    let steps = [Inv, Nand, driven(1, 1), driven(1, 2)];
    table.add_cover("both its leaves on driven leaves", &and, &steps, (6, 1), &[(0, 0, 0)]);
}

/// Document 01's library. A driver of 1 or more makes its fast inverter, whose pin has load 2, no faster than the other.
fn specimens(table: &mut Table) {
    let cells = specimen::library();
    table.add("both inverters", &cells, 1, &[Inv, driven(0, 0)], Outcome::Points(2));
    table.add_cover("equally fast", &cells, &[Inv, driven(0, 1)], (7, 1), &[(0, 0, 0)]);
    table.add_cover("the fast one slower", &cells, &[Inv, driven(0, 3)], (9, 1), &[(0, 0, 0)]);
    table.add("only the fast one drives 5", &cells, 5, &[Inv, driven(0, 3)], Outcome::Single(15, 2));
    let and = [Inv, Nand, driven(0, 3), leaf(0)];
    table.add_cover("an AND", &cells, &and, (13, 3), &[(0, 3, 0)]);
    table.add("a fast inverter over a NAND", &cells, 8, &and, Outcome::Single(25, 4));
    // The last leaf: 1,000,000 + 255 × 1, the NAND over it 6 + 2 × 1, the AND over that 8 + 2 × 4.
    table.add("both kinds of leaves", &cells, 4, &specimen::driven_tree().shape.steps(), Outcome::Single(1_000_279, 6));
}

/// All leaves driven: the longest tree, the same without its inverter, and combs.
fn largest_trees(table: &mut Table) {
    let cells = library(&[2], vec![plain(INVERTER), plain(NAND)]);
    let longest: Vec<Step<TreeLeaf>> = longest::tree().shape.steps();
    table.add("64 nodes, all leaves driven", &cells, 1, &longest, Outcome::Single(1_000_516, 32));
    table.add("63 nodes, all leaves driven", &cells, 1, &longest[1..], Outcome::Single(1_000_515, 31));
    let leaves = [TreeLeaf::driven(0, 3); 32];
    table.add("a right comb, driven", &cells, 1, &chain(1, &comb(&leaves)), Outcome::Single(38, 32));
    let left = [vec![Nand; 31], leaves.map(Leaf).to_vec()].concat();
    table.add("a left comb, driven", &cells, 1, &chain(1, &left), Outcome::Single(38, 32));
    table.add("63 inverters, driven", &cells, 1, &chain(63, &[driven(0, 255)]), Outcome::Single(573, 63));
}
