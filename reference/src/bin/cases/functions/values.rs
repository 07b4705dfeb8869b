//! Cases about the values that a sheet states.

use super::{held, plain_cell, plain_library, with_cells};
use reference::functions::{settings, Function};
use reference::generate::functions::alike::restated;
use reference::generate::functions::damage::with_pins_reversed;
use reference::generate::functions::{Case, Draft};
use reference::generate::parts::{cell, chain, pin, AND, NAND, NOR, OR};
use reference::library::Cell;
use reference::rng::Rng;
use reference::shape::Step;
use reference::shape::Step::{Inv, Leaf, Nand};

pub fn cases() -> Vec<Case> {
    let mut cases = Vec::new();
    (1..=6).for_each(|pins| cases.extend(wrong_bits(pins)));
    for drawing in small_drawings() {
        cases.extend(every_function(&drawing));
    }
    (1..=6).for_each(|pins| cases.extend(other_orders(pins)));
    cases
}

/// Every bit of a field wrong by itself: the only cell's, that of the first, the middle and the last of three, and a
/// held one's. The cell has two drawings, and others have too, so that patterns are numbered apart from cells.
fn wrong_bits(pins: usize) -> Vec<Case> {
    let mut rng = Rng::new(pins as u64);
    let mut drawn_twice = |pins| {
        let mut cell = plain_cell(pins);
        cell.patterns.push(restated(&mut rng, &cell.patterns[0]));
        cell
    };
    let [cell, one, other] = [drawn_twice(pins), drawn_twice(2), held(drawn_twice(1))];
    let (one, other) = (&one, &other);
    let rows: [(&[&Cell], usize); 5] = [
        (&[&cell], 0),
        (&[&cell, one, other], 0),
        (&[one, &cell, other], 1),
        (&[other, one, &cell], 2),
        (&[one, &held(cell.clone())], 1),
    ];
    let mut cases = Vec::new();
    for (cells, wrong) in rows {
        let right = Draft::of(with_cells(cells.iter().map(|&cell| cell.clone()).collect()));
        cases.push(right.case());
        cases.extend((0..settings(pins)).map(|setting| right.flipped(wrong, setting).case()));
    }
    cases
}

/// All kinds of drawings of one pin and of two.
fn small_drawings() -> Vec<Vec<Step>> {
    let inverters = (1..=3).map(|count| chain(count, &[Leaf(0)]));
    let first = [Nand, Inv, Leaf(0), Leaf(1)];
    let second = [Nand, Leaf(0), Inv, Leaf(1)];
    let nands = [NAND, AND, OR, NOR, &first, &second, &chain(1, &first), &chain(1, &second)].map(<[Step]>::to_vec);
    inverters.chain(nands).collect()
}

/// A drawing under every function of its pins, of which it computes one.
fn every_function(drawing: &[Step]) -> Vec<Case> {
    let right = Draft::of(with_cells(vec![cell(1, 4, pin(0, 4, 2), drawing)]));
    let bits = right.functions[0].len();
    let function = |number: usize| (0..bits).map(|bit| number >> bit & 1 == 1).collect();
    (0..1 << bits).map(|number| Draft { functions: vec![function(number)], ..right.clone() }.case()).collect()
}

/// A function with its values in other orders, turned, and constant; before and after the cell stands an inverter.
fn other_orders(pins: usize) -> Vec<Case> {
    let right = Draft::of(plain_library(&[1, pins, 1]));
    let function = &right.functions[1];
    let back_to_front = || function.iter().rev().copied();
    let others: [Function; 6] = [
        back_to_front().collect(),
        back_to_front().map(|value| !value).collect(),
        with_pins_reversed(function),
        function.iter().map(|value| !value).collect(),
        vec![false; function.len()],
        vec![true; function.len()],
    ];
    let with = |other: Function| {
        let mut changed = right.clone();
        changed.functions[1] = other;
        changed.case()
    };
    others.map(with).to_vec()
}
