//! Cases about drawings: right ones of many forms, and ones that compute another function than their cell's.

use super::{held, plain_cell, with_cells};
use reference::functions::computed;
use reference::generate::functions::alike::{restated, with_pins, with_pins_exchanged};
use reference::generate::functions::{Case, Draft};
use reference::generate::parts::{cell, comb, counted_comb, pin, AND, AOI21, AOI22, NAND, NOR, OR};
use reference::generate::sound;
use reference::library::Cell;
use reference::rng::Rng;
use reference::shape::Step::{Inv, Leaf, Nand};
use reference::shape::{Shape, Step};

pub fn cases() -> Vec<Case> {
    let mut rng = Rng::new(33);
    let mut cases = Vec::new();
    exchangeable().iter().for_each(|drawing| cases.extend(exchanged_pins(drawing)));
    cases.extend(permuted_pins(AOI21));
    (1..=6).for_each(|pins| cases.extend(wrong_drawings(&mut rng, pins)));
    cases.extend(wrong_cells(&mut rng));
    cases
}

/// Drawings of which all pins, some or none can be exchanged with others.
fn exchangeable() -> Vec<Vec<Step>> {
    let three = [Nand, Inv, Nand, Leaf(0), Leaf(1), Leaf(2)];
    let six = [Nand, Inv, Nand, Leaf(5), Leaf(3), Inv, Nand, Inv, Nand, Leaf(0), Leaf(4), Inv, Nand, Leaf(2), Leaf(1)];
    let uneven = [Nand, Inv, Leaf(0), Nand, Nand, Leaf(1), Leaf(2), Inv, Nand, Leaf(3), Inv, Leaf(4)];
    let known: [&[Step]; 9] = [NAND, AND, OR, NOR, AOI21, AOI22, &three, &six, &uneven];
    let combs = (3..=6).map(counted_comb);
    known.map(<[Step]>::to_vec).into_iter().chain(combs).chain([comb(&[3, 5, 1, 0, 4, 2])]).collect()
}

/// Every two pins of a drawing exchanged: in its second drawing, and in its only one.
fn exchanged_pins(drawing: &[Step]) -> Vec<Case> {
    let right = Draft::of(with_cells(vec![cell(1, 4, pin(0, 4, 2), drawing)]));
    let shape = Shape::from_steps(drawing);
    let pins = shape.leaves().count() as u32;
    let mut cases = Vec::new();
    for (one, other) in (0..pins).flat_map(|other| (0..other).map(move |one| (one, other))) {
        let exchanged = with_pins_exchanged(&shape, one, other);
        cases.push(with_drawings(&right, 0, vec![exchanged.clone()]));
        cases.push(with_drawings(&right, 0, vec![shape.clone(), exchanged]));
    }
    cases
}

/// The pins of a drawing of three in every order.
fn permuted_pins(drawing: &[Step]) -> Vec<Case> {
    let right = Draft::of(with_cells(vec![cell(1, 4, pin(0, 4, 2), drawing)]));
    let shape = Shape::from_steps(drawing);
    let orders = [[0, 1, 2], [0, 2, 1], [1, 0, 2], [1, 2, 0], [2, 0, 1], [2, 1, 0]];
    orders.map(|order| with_drawings(&right, 0, vec![with_pins(&shape, |pin| order[pin as usize])])).to_vec()
}

/// The same functions with other drawings of one cell.
fn with_drawings(right: &Draft, cell: usize, drawings: Vec<Shape>) -> Case {
    let mut changed = right.clone();
    changed.library.cells[cell].patterns = drawings;
    changed.case()
}

/// A cell of seven drawings that agree, and then with every one of them another; of one pin, three and six every two.
fn wrong_drawings(rng: &mut Rng, pins: usize) -> Vec<Case> {
    let right = Draft::of(with_cells(vec![plain_cell(1), drawn(rng, pins, 7)]));
    let agreeing = &right.library.cells[1].patterns;
    let mut cases = vec![right.case()];
    for first in 0..7 {
        let end = if [1, 3, 6].contains(&pins) { 7 } else { first + 1 };
        for last in first..end {
            let mut drawings = agreeing.clone();
            for number in [first, last] {
                drawings[number] = another(rng, &agreeing[number]);
            }
            cases.push(with_drawings(&right, 1, drawings));
        }
    }
    cases
}

/// A cell with so many drawings that compute the same.
fn drawn(rng: &mut Rng, pins: usize, count: usize) -> Cell {
    let first = sound::pattern(rng, pins, 5);
    let mut cell = cell(7, 4, pin(0, 4, 2), &first.steps());
    cell.patterns.extend((1..count).map(|_| restated(rng, &first)));
    cell
}

/// A drawing of the same pins that computes another function.
fn another(rng: &mut Rng, drawing: &Shape) -> Shape {
    let pins = drawing.leaves().count();
    let differs = |other: &Shape| computed(other) != computed(drawing);
    std::iter::repeat_with(|| sound::pattern(rng, pins, 5)).find(differs).expect("another function")
}

/// Five cells of two drawings, some held: in every set of them a wrong bit, and a wrong second drawing.
fn wrong_cells(rng: &mut Rng) -> Vec<Case> {
    let [one, two, three, four, six] = [1, 2, 3, 4, 6].map(|pins| drawn(rng, pins, 2));
    let right = Draft::of(with_cells(vec![one, held(two), three, held(four), six]));
    let mut cases = Vec::new();
    for set in 0..1 << 5 {
        let (mut values, mut drawings) = (right.clone(), right.clone());
        for cell in (0..5).filter(|cell| set >> cell & 1 == 1) {
            values = values.flipped(cell, rng.below(right.functions[cell].len()));
            let patterns = &mut drawings.library.cells[cell].patterns;
            patterns[1] = another(rng, &patterns[1]);
        }
        cases.extend([values.case(), drawings.case()]);
    }
    cases
}
