//! Exchanged inputs: where only an exchange matches or is fast, which of equal crossings is chosen,
//! and what exchanges add to a curve.

use super::super::parts::{cell, chain, pin, AND, INVERTER, NAND};
use super::{grades, library, plain, points_at, with, Outcome, Table};
use crate::crossing::{crossings, redrawn};
use crate::library::{Cell, Library, Pin};
use crate::refusal::{NO_COVER, OVERFULL};
use crate::shape::{Shape, Step};
use Step::{Inv, Leaf, Nand};

const INVERTED_FIRST: &[Step] = &[Nand, Inv, Leaf(0), Leaf(1)];
const INVERTED_SECOND: &[Step] = &[Nand, Leaf(0), Inv, Leaf(1)];
const NAND_FIRST: &[Step] = &[Nand, Nand, Leaf(0), Leaf(1), Leaf(2)];
const BALANCED: &[Step] = &[Nand, Nand, Leaf(0), Leaf(1), Nand, Leaf(2), Leaf(3)];

/// Five NANDs: side by side as far as they can be, one under the other, and with as many inverters as fit.
const FIVE: [&[Step]; 3] = [
    &[Nand, Nand, Leaf(3), Nand, Leaf(0), Leaf(5), Nand, Nand, Leaf(1), Leaf(4), Leaf(2)],
    &[Nand, Leaf(2), Nand, Nand, Leaf(5), Nand, Nand, Leaf(1), Leaf(0), Leaf(4), Leaf(3)],
    &[Nand, Inv, Nand, Leaf(3), Inv, Nand, Inv, Leaf(0), Leaf(5), Nand, Inv, Nand, Leaf(1), Leaf(4), Inv, Leaf(2)],
];

pub fn add(table: &mut Table) {
    late_branches(table);
    only_exchanged(table);
    every_crossing(table);
    equal_crossings(table);
    equal_below(table);
    patterns_first(table);
    loads_below(table);
    one_point_more(table);
    not_matched(table);
}

/// A cell of area 1 whose pins have these delays.
fn uneven(delays: &[u32], steps: &[Step]) -> Cell {
    Cell { pins: delays.iter().map(|&delay| pin(0, delay, 0)).collect(), ..plain(steps) }
}

/// The late branch takes the fast pin, at the root and below it, in time or not.
fn late_branches(table: &mut Table) {
    let cells = library(&[1], vec![uneven(&[1, 9], NAND)]);
    table.add_cover("late and drawn so", &cells, &[Nand, Leaf(10), Leaf(0)], (11, 1), &[(0, 0, 0)]);
    table.add_cover("late and exchanged", &cells, &[Nand, Leaf(0), Leaf(10)], (11, 1), &[(0, 0, 16)]);
    let left = [Nand, Nand, Leaf(0), Leaf(10), Leaf(2)];
    table.add_cover("late on the left", &cells, &left, (12, 2), &[(0, 0, 0), (1, 0, 16)]);
    let right = [Nand, Leaf(3), Nand, Leaf(0), Leaf(10)];
    table.add_cover("late on the right", &cells, &right, (12, 2), &[(0, 0, 16), (2, 0, 16)]);
    let idle = [Nand, Nand, Leaf(0), Leaf(10), Leaf(500)];
    table.add_cover("early also where nothing asks for it", &cells, &idle, (501, 2), &[(0, 0, 16), (1, 0, 16)]);
}

/// A drawing that stands at the root only when it is redrawn.
fn only_exchanged(table: &mut Table) {
    for (first, second) in [(INVERTED_FIRST, INVERTED_SECOND), (INVERTED_SECOND, INVERTED_FIRST)] {
        let cells = library(&[1], vec![plain(first)]);
        table.add_cover("drawn as the tree", &cells, first, (2, 1), &[(0, 0, 0)]);
        table.add_cover("drawn the other way", &cells, second, (2, 1), &[(0, 0, 16)]);
    }
    let three = library(&[1], vec![plain(&[Nand, Inv, Leaf(0), Nand, Inv, Leaf(1), Leaf(2)])]);
    let steps = [Nand, Nand, Leaf(0), Inv, Leaf(0), Inv, Leaf(0)];
    table.add_cover("exchanged twice", &three, &steps, (1, 1), &[(0, 0, 24)]);
    let steps = [Nand, Nand, Inv, Leaf(0), Leaf(0), Inv, Leaf(0)];
    table.add_cover("exchanged above", &three, &steps, (1, 1), &[(0, 0, 16)]);
    let steps = [Nand, Inv, Leaf(0), Nand, Leaf(0), Inv, Leaf(0)];
    table.add_cover("exchanged below", &three, &steps, (1, 1), &[(0, 0, 8)]);
    let and = library(&[1], vec![plain(&[Inv, Nand, Inv, Leaf(0), Leaf(1)]), plain(INVERTER)]);
    let steps = chain(2, &[Inv, Nand, Leaf(0), Inv, Leaf(0)]);
    table.add_cover("exchanged under inverters", &and, &steps, (3, 3), &[(0, 1, 0), (1, 1, 0), (2, 0, 16)]);
}

/// The tree is a drawing under each of its crossings, and each leaf arrives just in time for the pin that stands
/// there. Other crossings that match are late.
fn every_crossing(table: &mut Table) {
    for steps in FIVE.into_iter().chain([BALANCED, NAND_FIRST]) {
        let shape = Shape::from_steps(steps);
        let cells = library(&[1], vec![uneven(&[7, 1, 32, 4, 16, 2][..leaves(steps)], steps)]);
        for crossing in crossings(&shape) {
            let in_time = in_time(&cells, &redrawn(&shape, crossing));
            table.add_cover("one crossing in time", &cells, &in_time, (40, 1), &[(0, 0, crossing)]);
        }
    }
}

fn leaves(steps: &[Step]) -> usize {
    steps.iter().filter(|step| step.branches() == 0).count()
}

/// The shape with leaves from which the only cell's pins arrive at 40.
fn in_time(library: &Library, shape: &Shape) -> Vec<Step> {
    let arrival = |pin: u32| 40 - library.cells[0].pins[pin as usize].intrinsic;
    let steps = shape.steps().into_iter();
    steps.map(|step| if let Leaf(pin) = step { Leaf(arrival(pin)) } else { step }).collect()
}

/// The lowest of several crossings that reach the point; not always as drawn.
fn equal_crossings(table: &mut Table) {
    let alike = library(&[1], vec![plain(NAND)]);
    table.add_cover("pins alike", &alike, NAND, (2, 1), &[(0, 0, 0)]);
    let uneven_nand = library(&[1], vec![uneven(&[1, 3], NAND)]);
    table.add_cover("leaves alike", &uneven_nand, &[Nand, Leaf(5), Leaf(5)], (8, 1), &[(0, 0, 0)]);
    for steps in FIVE {
        let five = library(&[1], vec![plain(steps)]);
        table.add_cover("six pins alike", &five, steps, (6, 1), &[(0, 0, 0)]);
    }
    for (delays, place, crossing) in ONE_LATE {
        let four = library(&[1], vec![uneven(&delays, BALANCED)]);
        table.add_cover("one leaf late", &four, &late_at(place), (12, 1), &[(0, 0, crossing)]);
    }
}

/// Delays of four pins, the place of the late leaf, and the lowest crossing that gives it a fast pin.
const ONE_LATE: [([u32; 4], u32, u32); 8] = [
    ([2, 8, 2, 8], 0, 0),
    ([2, 8, 2, 8], 1, 8),
    ([2, 8, 2, 8], 2, 0),
    ([2, 8, 2, 8], 3, 4),
    ([8, 8, 2, 8], 0, 16),
    ([8, 8, 2, 8], 1, 20),
    ([8, 8, 8, 2], 2, 4),
    ([8, 2, 8, 8], 2, 24),
];

/// A balanced tree whose leaf at a place arrives at 10, and the others at 0.
fn late_at(place: u32) -> Vec<Step> {
    let steps = BALANCED.iter();
    steps.map(|&step| if let Leaf(leaf) = step { Leaf(if leaf == place { 10 } else { 0 }) } else { step }).collect()
}

/// The same choice below the root, under the time that the match above leaves.
fn equal_below(table: &mut Table) {
    let cells = library(&[1], vec![plain(INVERTER), uneven(&[1, 3], NAND)]);
    table.add_cover("leaves alike below", &cells, &[Inv, Nand, Leaf(5), Leaf(5)], (9, 2), &[(0, 0, 0), (1, 1, 0)]);
    let steps = chain(1, &[Nand, Nand, Leaf(0), Leaf(2), Nand, Leaf(2), Leaf(0)]);
    let chosen = [(0, 0, 0), (1, 1, 0), (2, 1, 16), (5, 1, 0)];
    table.add_cover("one exchanged below", &cells, &steps, (7, 4), &chosen);
    for (delays, place, crossing) in ONE_LATE {
        let four = library(&[1], vec![plain(INVERTER), uneven(&delays, BALANCED)]);
        let steps = chain(1, &late_at(place));
        table.add_cover("one leaf late below", &four, &steps, (13, 2), &[(0, 0, 0), (1, 1, crossing)]);
    }
    let five = library(&[1], vec![plain(INVERTER), plain(FIVE[0])]);
    table.add_cover(
        "six pins alike below",
        &five,
        &chain(3, FIVE[0]),
        (9, 4),
        &[(0, 0, 0), (1, 0, 0), (2, 0, 0), (3, 1, 0)],
    );
}

/// A lower pattern under a high crossing comes before a higher pattern as drawn.
fn patterns_first(table: &mut Table) {
    let turned = Cell {
        patterns: vec![Shape::from_steps(NAND), Shape::from_steps(&[Nand, Leaf(1), Leaf(0)])],
        ..uneven(&[1, 9], NAND)
    };
    let cells = library(&[1], vec![turned]);
    table.add_cover("the lower pattern exchanged", &cells, &[Nand, Leaf(0), Leaf(10)], (11, 1), &[(0, 0, 16)]);
    table.add_cover("the lower pattern as drawn", &cells, &[Nand, Leaf(10), Leaf(0)], (11, 1), &[(0, 0, 0)]);
    let cells = library(&[1], vec![plain(INVERTED_FIRST), plain(INVERTED_SECOND), plain(NAND), plain(INVERTER)]);
    table.add_cover("the lower cell exchanged", &cells, INVERTED_SECOND, (2, 1), &[(0, 0, 16)]);
    let slow = cell(1, 255, pin(0, 2, 0), INVERTED_FIRST);
    let cells = library(&[1], vec![slow, plain(INVERTED_SECOND)]);
    table.add_cover("the higher cell is faster", &cells, INVERTED_FIRST, (2, 1), &[(0, 1, 16)]);
}

/// One pin is fast and heavy, so that an exchange gives the inverter below another load.
fn loads_below(table: &mut Table) {
    let pins: Vec<Pin> = vec![pin(1, 1, 0), pin(0, 9, 0)];
    let nand = Cell { pins, ..plain(NAND) };
    let (small, large) = (cell(1, 1, pin(0, 2, 0), INVERTER), cell(5, 4, pin(0, 2, 0), INVERTER));
    let cells = library(&[1, 4], vec![nand.clone(), small.clone(), large]);
    for steps in [&[Nand, Inv, Leaf(0), Leaf(0)][..], &[Nand, Leaf(0), Inv, Leaf(0)]] {
        table.add("both crossings are trade-offs", &cells, 1, steps, Outcome::Points(2));
    }
    let cells = library(&[1, 4], vec![nand, small]);
    table.add_cover(
        "only the light pin is driven",
        &cells,
        &[Nand, Inv, Leaf(0), Leaf(0)],
        (11, 2),
        &[(0, 0, 16), (1, 1, 0)],
    );
    table.add_cover("and as drawn", &cells, &[Nand, Leaf(0), Inv, Leaf(0)], (11, 2), &[(0, 0, 0), (2, 1, 0)]);
    let both = [Nand, Inv, Leaf(0), Inv, Leaf(0)];
    table.add("neither crossing is driven", &cells, 1, &both, Outcome::Refused(NO_COVER, 0));
}

/// An exchange adds one point to a curve that is full, or nearly.
fn one_point_more(table: &mut Table) {
    for (count, above) in [(30, 0), (31, 0), (30, 1), (31, 1)] {
        let fastest = cell(99, 255, pin(0, 1, 0), INVERTED_FIRST);
        let cells = with(vec![plain(INVERTER), fastest], grades(count, NAND));
        let steps = chain(above, INVERTED_SECOND);
        table.add("one point by an exchange", &library(&[1], cells), 1, &steps, points_at(above as u32, count + 1));
    }
    let drawn = with(vec![plain(INVERTER)], grades(31, NAND));
    table.add("no point by an exchange", &library(&[1], drawn), 1, INVERTED_SECOND, Outcome::Points(31));
    let mut cells = grades(32, INVERTED_FIRST);
    table.add(
        "all points by exchanges",
        &library(&[1], cells.clone()),
        1,
        INVERTED_SECOND,
        Outcome::Refused(OVERFULL, 0),
    );
    cells[7].held = true;
    table.add("all but one", &library(&[1], cells), 1, INVERTED_SECOND, Outcome::Points(31));
}

/// What no exchange brings about: other shapes, held cells and higher loads.
fn not_matched(table: &mut Table) {
    let none = Outcome::Refused(NO_COVER, 0);
    let inverted = library(&[1], vec![plain(INVERTED_FIRST)]);
    table.add("no inverter on either side", &inverted, 1, NAND, none);
    let and = library(&[1], vec![plain(AND)]);
    table.add("an inverter too many", &and, 1, NAND, none);
    let balanced = library(&[1], vec![plain(BALANCED)]);
    table.add("a NAND too few", &balanced, 1, NAND_FIRST, none);
    let held = Cell { held: true, ..plain(INVERTED_FIRST) };
    table.add("held and exchanged", &library(&[1], vec![held]), 1, INVERTED_SECOND, none);
    let weak = library(&[1], vec![Cell { highest_load: 1, ..plain(INVERTED_FIRST) }]);
    table.add("shut out and exchanged", &weak, 2, INVERTED_SECOND, none);
    table.add("not shut out", &weak, 1, INVERTED_SECOND, Outcome::Single(2, 1));
}
