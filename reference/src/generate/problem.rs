//! Random libraries and trees made for each other, so that many patterns match.

use super::drivers::Drivers;
use super::parts::{AND, AOI21, INVERTER, NAND, NOR, OR};
use super::sound;
use crate::crossing::{redrawn, CROSSINGS};
use crate::form::Form;
use crate::library::{Cell, Library, Pin};
use crate::merging;
use crate::rng::Rng;
use crate::shape::{Shape, Step};
use crate::tree::{Tree, TreeLeaf, LATEST_LEAF, LATEST_REQUIRED, MOST_DRIVE};
use Step::{Inv, Leaf, Nand};

#[derive(Clone, Debug)]
pub struct Problem {
    pub library: Library,
    pub tree: Tree,
}

impl Problem {
    pub fn library_sheet(&self) -> Vec<u8> {
        Form::of_library(&self.library).bytes()
    }

    pub fn tree_sheet(&self) -> Vec<u8> {
        Form::of_tree(&self.tree).bytes()
    }
}

/// How large a problem is and how its values lie.
#[derive(Clone, Copy, Debug)]
pub struct Style {
    pub cells: usize,
    pub nodes: usize,
    /// The most area and intrinsic of a cell, drive of a cell and usually of a leaf, load and leaf arrival.
    pub area: u32,
    pub intrinsic: u32,
    pub drive: u32,
    pub load: u32,
    pub arrival: u32,
    /// Whether larger cells are faster.
    pub graded: bool,
    /// Whether most drawings have several NANDs, and the tree is put together from redrawn ones.
    pub crossed: bool,
}

const SMALL: Style =
    Style { cells: 8, nodes: 12, area: 6, intrinsic: 8, drive: 3, load: 6, arrival: 12, graded: false, crossed: false };
const GRADED: Style =
    Style { cells: 12, nodes: 10, area: 12, intrinsic: 24, drive: 2, load: 5, arrival: 9, graded: true, ..SMALL };
const STEEP: Style =
    Style { cells: 64, nodes: 4, area: 90, intrinsic: 360, drive: 1, load: 4, arrival: 5, graded: true, ..SMALL };
const FULL: Style = Style { area: 65_535, intrinsic: 65_535, drive: 255, load: 255, arrival: LATEST_LEAF, ..SMALL };
const LARGE: Style = Style { cells: 30, nodes: 64, ..SMALL };
const LONG: Style = Style { cells: 3, nodes: 64, ..GRADED };
const FULL_LONG: Style = Style { cells: 4, nodes: 64, ..FULL };
const CROSSED: Style = Style { cells: 5, nodes: 20, crossed: true, ..SMALL };
const CROSSED_FULL: Style = Style { nodes: 64, crossed: true, ..FULL };

pub fn any_style(rng: &mut Rng) -> Style {
    let styles = [SMALL, SMALL, SMALL, GRADED, GRADED, STEEP, FULL, LARGE, LONG, FULL_LONG];
    let crossed = [CROSSED, CROSSED, CROSSED_FULL];
    if rng.once_in(4) {
        rng.pick(&crossed)
    } else {
        rng.pick(&styles)
    }
}

/// A style whose covers can be listed one by one.
pub fn small_style(rng: &mut Rng) -> Style {
    let style = rng.pick(&[SMALL, SMALL, GRADED, STEEP, FULL, CROSSED, CROSSED_FULL]);
    let nodes = if style.crossed { [4, 7, 11, 13, 15] } else { [2, 3, 5, 8, 10] };
    Style { nodes: rng.pick(&nodes), ..style }
}

/// A problem whose required time is often one of the root's arrivals, or next to one.
pub fn problem(rng: &mut Rng, style: Style) -> Problem {
    let library = library(rng, style);
    let tree = tree(rng, style, &library);
    let mut problem = Problem { library, tree };
    problem.tree.required = required(rng, &problem);
    problem
}

/// The same problem with another required time and, more than half the times, one value or all drives changed.
pub fn varied(rng: &mut Rng, problem: &Problem) -> Problem {
    let mut varied = problem.clone();
    let number = rng.below(varied.library.cells.len());
    let cell = &mut varied.library.cells[number];
    match rng.below(8) {
        0 => cell.area = rng.value(1, 40),
        1 => cell.pins[0].intrinsic = rng.value(0, 40),
        2 => cell.held = !cell.held,
        3 => varied.tree.root_load = rng.value(0, 8),
        4 => set_drives(rng, &mut varied.tree, MOST_DRIVE),
        _ => {}
    }
    varied.tree.required = required(rng, &varied);
    varied
}

pub fn required(rng: &mut Rng, problem: &Problem) -> u32 {
    let anything = rng.value(0, LATEST_REQUIRED);
    match merging::list(&problem.library, &problem.tree) {
        Ok(pairs) if !rng.once_in(5) => {
            let point = rng.pick(&pairs).arrival;
            rng.pick(&[point, point, point + 1, point.saturating_sub(1)])
        }
        _ => rng.pick(&[0, LATEST_REQUIRED, LATEST_REQUIRED, anything]),
    }
}

/// Shapes that occur in libraries; pins are numbered in drawn order.
const GATES: [&[Step]; 12] = [
    INVERTER,
    NAND,
    &[Inv, Inv, Leaf(0)],
    AND,
    OR,
    NOR,
    &[Nand, Inv, Leaf(0), Leaf(1)],
    &[Nand, Leaf(0), Inv, Leaf(1)],
    &[Nand, Inv, Nand, Leaf(0), Leaf(1), Leaf(2)],
    &[Nand, Leaf(0), Inv, Nand, Leaf(1), Leaf(2)],
    AOI21,
    &[Nand, Nand, Leaf(0), Leaf(1), Nand, Leaf(2), Leaf(3)],
];

pub fn library(rng: &mut Rng, style: Style) -> Library {
    let bins = bins(rng, style.load);
    let mut gates: Vec<Shape> = GATES.iter().map(|steps| Shape::from_steps(steps)).collect();
    gates.truncate(if style.graded { rng.pick(&[1, 2, 2, 4]) } else { rng.pick(&[2, 2, 4, 8, 12]) });
    let mut library = Library { bins, cells: Vec::new() };
    for number in 0..rng.between(2, style.cells) {
        let shape = match number {
            0 | 1 => gates[number % gates.len()].clone(),
            _ if style.crossed && !rng.once_in(4) => crossable_gate(rng, style),
            _ if rng.once_in(8) => any_gate(rng),
            _ => gates[rng.below(gates.len())].clone(),
        };
        let cell = cell(rng, style, library.bins.len(), shape);
        library.cells.push(cell);
    }
    if !rng.once_in(4) {
        open_up(&mut library, style);
    }
    if rng.once_in(3) {
        rng.shuffle(&mut library.cells);
    }
    library
}

/// Makes one inverter and one NAND good for every load of the style, so that all trees have covers.
fn open_up(library: &mut Library, style: Style) {
    for steps in &GATES[..2] {
        let shape = Shape::from_steps(steps);
        if let Some(cell) = library.cells.iter_mut().find(|cell| cell.patterns[0] == shape) {
            cell.held = false;
            cell.highest_load = (2 * style.load).min(255);
        }
    }
}

fn any_gate(rng: &mut Rng) -> Shape {
    let pins = rng.between(1, 4);
    sound::pattern(rng, pins, 3)
}

/// A drawing with several NANDs, often with five, if the tree has room for it.
fn crossable_gate(rng: &mut Rng, style: Style) -> Shape {
    let most = 6.min(style.nodes.div_ceil(2));
    let pins = rng.pick(&[2, 3, 4, 5, 6, 6, 6, 6]).min(most);
    let inverters = rng.pick(&[0, 0, 1, 2]);
    sound::pattern(rng, pins, inverters)
}

fn bins(rng: &mut Rng, most: u32) -> Vec<u32> {
    let count = rng.between(1, 4);
    let mut bins: Vec<u32> = (0..count).map(|_| rng.value(1, most)).collect();
    bins.sort();
    bins.dedup();
    bins
}

/// The pins are all alike, of two kinds, or all different, so that many crossings cost the same and many do not.
fn cell(rng: &mut Rng, style: Style, bin_count: usize, shape: Shape) -> Cell {
    let area = rng.value(1, style.area);
    let fastest = if style.graded { (style.area - area) * style.intrinsic / style.area } else { 0 };
    let slowest = if style.graded { fastest + rng.value(0, 2) } else { style.intrinsic };
    let leaves = shape.leaves().count();
    let kinds = if style.graded { 1 } else { rng.pick(&[1, 2, 2, leaves, leaves]) };
    let kinds: Vec<Pin> = (0..kinds).map(|_| pin(rng, style, bin_count, fastest, slowest)).collect();
    let pins = (0..leaves).map(|number| if kinds.len() < leaves { rng.pick(&kinds) } else { kinds[number] }).collect();
    let mut patterns = vec![shape];
    while rng.once_in(5) && patterns.len() < 2 {
        patterns.push(sound::pattern(rng, leaves, 2));
    }
    if rng.once_in(6) {
        patterns.reverse();
    }
    Cell { held: rng.once_in(12), area, highest_load: highest_load(rng, style.load), pins, patterns }
}

fn highest_load(rng: &mut Rng, load: u32) -> u32 {
    match rng.below(6) {
        0 => rng.value(0, load),
        1 => load,
        _ => (2 * load).min(255),
    }
}

fn pin(rng: &mut Rng, style: Style, bin_count: usize, fastest: u32, slowest: u32) -> Pin {
    Pin {
        bin: rng.below(bin_count) as u32,
        intrinsic: rng.value(fastest, slowest.max(fastest)),
        drive: rng.value(0, style.drive),
    }
}

/// A random tree of the style; its root load is often a bin, or just above one.
pub fn tree(rng: &mut Rng, style: Style, library: &Library) -> Tree {
    let mut tree = sound::tree(rng, style.nodes);
    if style.crossed {
        let (mut room, mut steps) = (style.nodes - 1, Vec::new());
        grow(rng, library, &mut room, &mut steps);
        tree.shape = Shape::from_steps(&steps);
    }
    let bin = rng.pick(&library.bins);
    tree.root_load = rng.pick(&[0, bin, bin, (bin + 1).min(255), style.load, (2 * style.load).min(255)]);
    for leaf in tree.shape.leaves_mut() {
        leaf.arrival = if rng.once_in(2) { 0 } else { rng.value(0, style.arrival) };
    }
    set_drives(rng, &mut tree, style.drive);
    tree
}

/// Decides anew which leaves of a tree are driven, and with what drive.
fn set_drives(rng: &mut Rng, tree: &mut Tree, usual: u32) {
    let drivers = Drivers::any(rng);
    tree.shape.leaves_mut().for_each(|leaf| leaf.drive = drivers.drive(rng, usual));
}

/// A drawing redrawn at random, with others at its leaves as far as there is room for more nodes.
fn grow(rng: &mut Rng, library: &Library, room: &mut usize, steps: &mut Vec<Step<TreeLeaf>>) {
    let shapes = library.patterns().map(|(_, shape)| shape);
    let fitting: Vec<&Shape> = shapes.filter(|shape| shape.nodes.len() <= *room + 1).collect();
    if fitting.is_empty() {
        steps.push(Leaf(TreeLeaf::plain(0)));
        return;
    }
    let shape = redrawn(rng.pick(&fitting), rng.value(0, CROSSINGS - 1));
    *room -= shape.nodes.len() - 1;
    for step in shape.steps() {
        match step {
            Leaf(_) if !rng.once_in(3) => grow(rng, library, room, steps),
            _ => steps.push(step.map(TreeLeaf::plain)),
        }
    }
}
