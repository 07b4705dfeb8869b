//! Problems for the benchmark: a typical one, two that take long, one that goes deep, two with many crossings, one
//! with driven leaves, and two parts.

use super::linked::{Draft, Triple};
use super::parts::{cell, chain, comb, counted_comb, pin, tree, AND, AOI21, AOI22, INVERTER, NAND, NOR, OR};
use super::problem::Problem;
use super::sound;
use crate::crossing::{redrawn, CROSSINGS};
use crate::library::{Cell, Library};
use crate::part::MOST_TREES;
use crate::rng::Rng;
use crate::shape::{Shape, Step};
use crate::tree::{Tree, LATEST_REQUIRED};
use Step::{Inv, Leaf, Nand};

/// Name and problem of every row of the benchmark.
pub fn all() -> Vec<(&'static str, Problem)> {
    vec![
        ("typical", typical()),
        ("chain", worst_chain()),
        ("comb", worst_comb()),
        ("deep", deepest()),
        ("full", full()),
        ("crosscomb", crossed_comb()),
        ("driven", driven()),
    ]
}

const AOI21_TURNED: &[Step] = &[Inv, Nand, Inv, Leaf(2), Nand, Leaf(0), Leaf(1)];
const OAI21: &[Step] = &[Nand, Nand, Leaf(0), Leaf(1), Inv, Leaf(2)];
const OAI21_TURNED: &[Step] = &[Nand, Inv, Leaf(2), Nand, Leaf(0), Leaf(1)];
const NAND3: &[Step] = &[Nand, Inv, Nand, Leaf(0), Leaf(1), Leaf(2)];
const NAND3_TURNED: &[Step] = &[Nand, Leaf(2), Inv, Nand, Leaf(0), Leaf(1)];

/// Usual gates in up to three strengths, and a tree of 48 nodes.
pub fn typical() -> Problem {
    let mut cells = Vec::new();
    for (strength, bin) in [(1, 0), (2, 1), (4, 2)] {
        cells.push(gate(2, 4, strength, bin, &[INVERTER]));
        cells.push(gate(3, 6, strength, bin, &[NAND]));
    }
    for (strength, bin) in [(1, 0), (2, 1)] {
        cells.push(gate(4, 9, strength, bin, &[AND]));
        cells.push(gate(4, 10, strength, bin, &[OR]));
        cells.push(gate(3, 8, strength, bin, &[NOR]));
    }
    cells.push(gate(4, 9, 1, 0, &[NAND3, NAND3_TURNED]));
    cells.push(gate(5, 10, 1, 0, &[AOI21, AOI21_TURNED]));
    cells.push(gate(5, 9, 1, 0, &[OAI21, OAI21_TURNED]));
    cells.push(gate(6, 11, 1, 0, &[AOI22]));
    Problem { library: Library { bins: vec![1, 2, 4], cells }, tree: typical_tree() }
}

fn gate(area: u32, intrinsic: u32, strength: u32, bin: u32, drawings: &[&[Step]]) -> Cell {
    let first = cell(2 * area + strength - 1, 8 * strength, pin(bin, intrinsic, 8 / strength), drawings[0]);
    Cell { patterns: drawings.iter().map(|steps| Shape::from_steps(steps)).collect(), ..first }
}

fn typical_tree() -> Tree {
    typical_like(&mut Rng::new(30))
}

/// A tree of 16 leaves, 15 NANDs and 17 inverters.
fn typical_like(rng: &mut Rng) -> Tree {
    let leaves: Vec<u32> = (0..16).map(|_| rng.value(0, 12)).collect();
    tree(4, LATEST_REQUIRED, &sound::shape(rng, &leaves, 17).steps())
}

/// 16 trees of the typical kind under its library. Each but the first reads the one before it at its first leaf, and an
/// earlier one at its last.
pub fn typical_part() -> Draft {
    let Problem { library, .. } = typical();
    let mut rng = Rng::new(31);
    let trees: Vec<Tree> = (0..MOST_TREES).map(|_| typical_like(&mut rng)).collect();
    let mut links = Vec::new();
    for (reading, tree) in trees.iter().enumerate().skip(1) {
        let leaves: Vec<usize> = (0..tree.shape.nodes.len()).filter(|&node| tree.shape.is_leaf(node)).collect();
        links.push((reading, leaves[0], reading - 1));
        links.push((reading, leaves[leaves.len() - 1], rng.below(reading)));
    }
    Draft::new(library, trees, &links)
}

/// 16 trees of 63 inverters, each covered by itself, and each tree read by the next.
pub fn deepest_part() -> Draft {
    let Problem { library, tree } = deepest();
    let links: Vec<Triple> = (1..MOST_TREES).map(|tree| (tree, 63, tree - 1)).collect();
    Draft::new(library, vec![tree; MOST_TREES], &links)
}

/// The typical problem with all leaves driven, as strongly as by its larger gates.
pub fn driven() -> Problem {
    let mut rng = Rng::new(3);
    let Problem { library, mut tree } = typical();
    tree.shape.leaves_mut().for_each(|leaf| leaf.drive = Some(rng.value(1, 4)));
    Problem { library, tree }
}

/// 63 inverters under 128 patterns of inverters, of up to 15: nearly all match everywhere.
/// Short patterns do not pay, so that a curve grows slowly and ends at 31 points.
pub fn worst_chain() -> Problem {
    let inverters = |length| chain(length, &[Leaf(0)]);
    let cell = |number: u32| {
        let grade = number % 7;
        let mut cell = cell(100 + grade, 255, pin(number % 4, 106 - grade, 0), &inverters(15));
        cell.patterns.push(Shape::from_steps(&inverters(number as usize * 7 % 15 + 1)));
        cell
    };
    let library = Library { bins: vec![1, 2, 3, 4], cells: (0..64).map(cell).collect() };
    Problem { library, tree: tree(1, LATEST_REQUIRED, &inverters(63)) }
}

/// 63 inverters under one cell of one inverter: the choice of a cover goes 63 calls deep.
pub fn deepest() -> Problem {
    let library = Library { bins: vec![1], cells: vec![cell(1, 255, pin(0, 1, 1), INVERTER)] };
    Problem { library, tree: tree(1, LATEST_REQUIRED, &chain(63, &[Leaf(0)])) }
}

/// A comb of 31 NANDs under 126 combs of 2 to 5. The leaves arrive so late towards the
/// root that every curve stays just below the limit; the times were found by search.
pub fn worst_comb() -> Problem {
    let mut rng = Rng::new(1);
    let mut cells: Vec<Cell> = (0..63).map(|number| comb_cell(&mut rng, number)).collect();
    cells.push(cell(1, 255, pin(0, 1, 0), INVERTER));
    let steps = chain(1, &comb(&COMB_ARRIVALS));
    Problem { library: Library { bins: vec![1, 2, 3, 4], cells }, tree: tree(1, LATEST_REQUIRED, &steps) }
}

const COMB_ARRIVALS: [u32; 32] = [
    1310, 1120, 1120, 1120, 1120, 1080, 890, 890, 890, 890, 850, 660, 660, 660, 660, 620, 430, 430, 430, 430, 390, 0,
    0, 0, 0, 0, 0, 0, 0, 0, 0, 0,
];

fn comb_cell(rng: &mut Rng, number: u32) -> Cell {
    let nands = 2 + number % 4;
    let grade = number / 4;
    let mut pins: Vec<u32> = (0..=nands).collect();
    let mut pattern = || {
        rng.shuffle(&mut pins);
        Shape::from_steps(&comb(&pins))
    };
    Cell {
        held: false,
        area: 10 * nands + grade,
        highest_load: 255,
        patterns: vec![pattern(), pattern()],
        pins: (0..=nands).map(|place| pin((number + place) % 4, 40 * nands + 2 * (15 - grade), 0)).collect(),
    }
}

/// A full tree of 31 NANDs under drawings of five: at the upper three levels the bushy ones match under all their
/// crossings, at the root the combs too. The times were found by search, so that curves are long and none too long.
pub fn full() -> Problem {
    let mut arrivals = FULL_ARRIVALS.into_iter();
    let mut steps = Vec::new();
    balanced(5, &mut arrivals, &mut steps);
    Problem { library: crossed_library(), tree: tree(1, LATEST_REQUIRED, &steps) }
}

/// A NAND tree of this depth, every branch alike.
pub(super) fn balanced<L>(depth: usize, leaves: &mut impl Iterator<Item = L>, steps: &mut Vec<Step<L>>) {
    if depth == 0 {
        steps.push(Leaf(leaves.next().expect("enough leaves")));
        return;
    }
    steps.push(Nand);
    balanced(depth - 1, leaves, steps);
    balanced(depth - 1, leaves, steps);
}

/// A comb of 31 NANDs under the same library: each comb of five matches under two of its crossings, whichever way
/// its NANDs are turned. These times too were found by search.
pub fn crossed_comb() -> Problem {
    Problem { library: crossed_library(), tree: tree(1, LATEST_REQUIRED, &comb(&CROSSED_ARRIVALS)) }
}

const FULL_ARRIVALS: [u32; 32] = [
    80, 120, 290, 90, 350, 330, 60, 330, 0, 10, 270, 240, 0, 130, 320, 290, 390, 370, 150, 90, 310, 290, 0, 260, 180,
    390, 130, 100, 170, 350, 370, 120,
];

const CROSSED_ARRIVALS: [u32; 32] = [
    27, 502, 461, 437, 415, 33, 401, 356, 333, 310, 297, 276, 258, 234, 214, 22, 203, 27, 3, 9, 5, 32, 9, 3, 8, 39, 11,
    8, 21, 11, 30, 15,
];

/// 63 cells of six uneven pins, each drawn once bushy and once as a comb, and one NAND.
pub fn crossed_library() -> Library {
    let mut rng = Rng::new(2);
    let mut cells: Vec<Cell> = (0..63).map(|number| crossed_cell(&mut rng, number)).collect();
    let nand = Cell { pins: vec![pin(0, 20, 1), pin(1, 24, 1)], ..cell(10, 255, pin(0, 0, 0), NAND) };
    cells.push(nand);
    Library { bins: vec![1, 2, 4, 7], cells }
}

fn crossed_cell(rng: &mut Rng, number: u32) -> Cell {
    let grade = number % 16;
    let slowest = 60 + 4 * (15 - grade);
    let uneven = |_| pin(rng.value(0, 3), slowest - rng.value(0, 20), rng.value(0, 2));
    let pins = (0..6).map(uneven).collect();
    let bushy = [Nand, Nand, Nand, Leaf(0), Leaf(1), Nand, Leaf(2), Leaf(3), Nand, Leaf(4), Leaf(5)];
    let patterns = vec![turned(rng, &bushy), turned(rng, &counted_comb(6))];
    Cell { held: false, area: 40 + grade, highest_load: 255, pins, patterns }
}

/// A drawing with its pins in another order and its NANDs turned at random.
fn turned(rng: &mut Rng, steps: &[Step]) -> Shape {
    let mut pins = [0, 1, 2, 3, 4, 5];
    rng.shuffle(&mut pins);
    let repin = |&step: &Step| if let Leaf(pin) = step { Leaf(pins[pin as usize]) } else { step };
    let steps: Vec<Step> = steps.iter().map(repin).collect();
    redrawn(&Shape::from_steps(&steps), rng.value(0, CROSSINGS - 1))
}
