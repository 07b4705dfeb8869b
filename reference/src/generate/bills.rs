//! Inputs of bill: the sheets of any cover, legal covers about their required times, and lengths that are wrong.

use super::covers::damage::any_case;
use super::covers::draw::Draw;
use super::covers::{Case, Draft};
use super::damage::{damage_bytes, damaged, Kind};
use super::drivers::Drivers;
use super::parts::{cell, chain, pin, tree};
use super::problem::{any_style, problem, Problem};
use super::specimen;
use crate::bill::{self, HEADING};
use crate::cover::Placed;
use crate::library::{Cell, Library};
use crate::rng::Rng;
use crate::shape::Shape;
use crate::shape::Step::{Inv, Leaf, Nand};
use crate::text::MOST_INPUT;
use crate::tree::{TreeLeaf, LATEST_LEAF, LATEST_REQUIRED, MOST_DRIVE, MOST_TREE_NODES};

/// A fresh input of any kind.
pub fn any_input(rng: &mut Rng) -> Vec<u8> {
    match rng.below(20) {
        0..=7 => whole(&any_case(rng)),
        8..=14 => whole(&legal_case(rng)),
        15 => whole(&unsound_case(rng)),
        16..=18 => misstated(rng),
        _ => about_the_limits(rng),
    }
}

/// The input that three sheets make.
pub fn whole(case: &Case) -> Vec<u8> {
    bill::input(&case.library, &case.tree, &case.cover)
}

/// Bytes under any three lengths.
pub fn stating(lengths: [u16; 3], sheets: &[u8]) -> Vec<u8> {
    [&lengths.map(u16::to_be_bytes).concat()[..], sheets].concat()
}

/// The lengths of a case's sheets.
pub fn lengths(case: &Case) -> [u16; 3] {
    [&case.library, &case.tree, &case.cover].map(|sheet| sheet.len() as u16)
}

/// The sheets of a case without their lengths.
pub fn sheets(case: &Case) -> Vec<u8> {
    [case.library.as_slice(), &case.tree, &case.cover].concat()
}

/// A case whose whole input has this length: zero bytes follow one of its sheets.
pub fn padded(case: &Case, sheet: usize, length: usize) -> Case {
    let more = vec![0; length - HEADING - case.length()];
    let mut padded = case.clone();
    [&mut padded.library, &mut padded.tree, &mut padded.cover][sheet].extend(more);
    padded
}

/// A cover of a chain of inverters: these patterns, which are chains, from the root on, as far as there is room.
pub fn chained(library: &Library, root_load: u32, leaf: impl Into<TreeLeaf>, patterns: &[usize]) -> Draft {
    let lengths: Vec<usize> = library.patterns().map(|(_, shape)| shape.nodes.len() - 1).collect();
    let mut matches = Vec::new();
    let mut node = 0;
    for &pattern in patterns {
        if node + lengths[pattern] < MOST_TREE_NODES {
            matches.push(Placed::new(node, pattern, 0));
            node += lengths[pattern];
        }
    }
    let tree = tree(root_load, LATEST_REQUIRED, &chain(node, &[Leaf(leaf.into())]));
    Draft::legal(Problem { library: library.clone(), tree }, matches)
}

/// All four cells of the specimen library, one of them twice, on INV(NAND(INV(INV), INV(NAND))): three units late.
pub fn shipped() -> Draft {
    let steps = [Inv, Nand, Inv, Inv, Leaf(0), Inv, Nand, Leaf(0), Leaf(0)];
    let problem = Problem { library: specimen::library(), tree: tree(5, 28, &steps) };
    let matches = [(0, 1), (1, 2), (2, 0), (3, 0), (5, 3)];
    Draft::legal(problem, matches.map(|(node, pattern)| Placed::new(node, pattern, 0)).to_vec())
}

/// A legal cover that is early, just in time or late, often one with a cell many times or many cells once.
pub fn legal_case(rng: &mut Rng) -> Case {
    let draft = if rng.once_in(2) { any_chain(rng) } else { drawn(rng) };
    in_any_time(rng, &draft).case()
}

/// A legal cover of a random problem.
fn drawn(rng: &mut Rng) -> Draft {
    loop {
        let style = any_style(rng);
        let problem = problem(rng, style);
        if let Some(cover) = Draw::new(&problem).cover(rng) {
            return Draft::new(problem, cover);
        }
    }
}

/// The same cover in time to the unit, or early or late, by one, by little, or by much.
fn in_any_time(rng: &mut Rng, draft: &Draft) -> Draft {
    let arrival = draft.cover.arrival;
    let most = rng.pick(&[9, 99, 9_999, LATEST_REQUIRED]);
    let by = rng.value(1, most);
    let early = (arrival + by).min(LATEST_REQUIRED);
    let late = arrival.saturating_sub(by);
    let times = [arrival, arrival, arrival + 1, arrival.saturating_sub(1), early, late, late, 0, LATEST_REQUIRED];
    draft.due(rng.pick(&times))
}

/// A chain of inverters under one or two cells again and again, or under every cell at most once.
fn any_chain(rng: &mut Rng) -> Draft {
    let count = rng.pick(&[1, 2, 4, 8, 16, 64]);
    let library = Library { bins: vec![1, 3, 200], cells: (0..count).map(|_| inverters(rng)).collect() };
    let mut cells: Vec<usize> = (0..count).collect();
    rng.shuffle(&mut cells);
    if rng.once_in(2) {
        cells.truncate(rng.between(1, 2));
        cells = (0..MOST_TREE_NODES).map(|_| rng.pick(&cells)).collect();
    }
    let most = rng.pick(&[1, 3, 12, 30, 63]);
    cells.truncate(most);
    let patterns: Vec<usize> = cells.iter().map(|&cell| any_pattern(rng, &library, cell)).collect();
    let arrival = rng.value(0, LATEST_LEAF);
    let drive = Drivers::any(rng).drive(rng, MOST_DRIVE);
    chained(&library, rng.value(0, 255), TreeLeaf { arrival: rng.pick(&[0, 7, arrival]), drive }, &patterns)
}

/// A cell with one drawing or two, of one to three inverters.
fn inverters(rng: &mut Rng) -> Cell {
    let area = rng.value(1, 65_535);
    let pin = pin(rng.value(0, 2), rng.value(0, 65_535), rng.value(0, 255));
    let drawing = |rng: &mut Rng| chain(rng.pick(&[1, 1, 1, 2, 3]), &[Leaf(0)]);
    let mut cell = cell(rng.pick(&[1, 9, 10, area, area, 65_535]), 255, pin, &drawing(rng));
    if rng.once_in(2) {
        cell.patterns.push(Shape::from_steps(&drawing(rng)));
    }
    cell
}

fn any_pattern(rng: &mut Rng, library: &Library, cell: usize) -> usize {
    let cells = library.cell_numbers();
    let patterns: Vec<usize> = (0..cells.len()).filter(|&pattern| cells[pattern] == cell).collect();
    rng.pick(&patterns)
}

/// A legal cover with a damaged library or tree of another.
fn unsound_case(rng: &mut Rng) -> Case {
    let mut case = drawn(rng).case();
    if rng.once_in(2) {
        case.library = damaged(rng, Kind::Library, 1);
    } else {
        case.tree = damaged(rng, Kind::Tree, 1);
    }
    case
}

/// A legal cover's sheets under other lengths, or damaged under their own.
fn misstated(rng: &mut Rng) -> Vec<u8> {
    let case = drawn(rng).case();
    let mut lengths = lengths(&case);
    let mut sheets = sheets(&case);
    if rng.once_in(3) {
        damage_bytes(rng, &mut sheets);
    } else {
        misstate(rng, &mut lengths);
    }
    stating(lengths, &sheets)
}

/// Changes one length, or two so that their sum stays the same, or stays the same but for 65,536.
fn misstate(rng: &mut Rng, lengths: &mut [u16; 3]) {
    let one = rng.below(3);
    let other = (one + rng.between(1, 2)) % 3;
    match rng.below(9) {
        0 => lengths[one] = lengths[one].wrapping_add(1),
        1 => lengths[one] = lengths[one].wrapping_sub(1),
        2 => lengths[one] ^= 1 << rng.below(16),
        3 => lengths[one] = lengths[one].swap_bytes(),
        4 => lengths[one] = rng.pick(&[0, 4_090, 4_096, u16::MAX]),
        5 => *lengths = [u16::MAX; 3],
        6 => lengths.swap(one, other),
        7 => {
            lengths[one] = lengths[one].wrapping_add(1);
            lengths[other] = lengths[other].wrapping_sub(1);
        }
        _ => {
            lengths[one] ^= 1 << 15;
            lengths[other] ^= 1 << 15;
        }
    }
}

/// An input of a length about the least or the most.
fn about_the_limits(rng: &mut Rng) -> Vec<u8> {
    let case = drawn(rng).case();
    let length = rng.pick(&[MOST_INPUT - 1, MOST_INPUT, MOST_INPUT + 1, MOST_INPUT + 100]);
    match rng.below(6) {
        0 => whole(&padded(&case, rng.below(3), length)),
        1 => resized(whole(&case), length),
        2 => vec![0; rng.between(0, HEADING + 1)],
        _ => resized(whole(&case), rng.between(0, HEADING)),
    }
}

/// The bytes cut, or followed by zero bytes.
pub fn resized(mut bytes: Vec<u8>, length: usize) -> Vec<u8> {
    bytes.resize(length, 0);
    bytes
}
