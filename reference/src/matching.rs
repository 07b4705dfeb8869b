//! Where patterns stand on the subject tree: every redrawing of every pattern is written out as
//! a shape of its own, and matches as drawn.

use crate::cover::Placed;
use crate::crossing::{crossings, redrawn};
use crate::library::{Cell, Library};
use crate::shape::{Node, Shape};
use crate::tree::TreeLeaf;

/// An input: the node under a pattern's leaf, and the pin that stands there.
#[derive(Clone, Copy, PartialEq, Eq, Debug)]
pub struct Input {
    pub pin: usize,
    pub node: usize,
}

/// A pattern of a cell that is not held, as it is under one of its crossings.
pub struct Redrawing<'a> {
    pub pattern: usize,
    pub crossing: u32,
    pub cell: &'a Cell,
    pub shape: Shape,
}

/// A redrawing that stands at some node, with its inputs in the order of the tree.
pub struct Match<'a> {
    pub pattern: usize,
    pub crossing: u32,
    pub cell: &'a Cell,
    pub inputs: Vec<Input>,
}

impl Match<'_> {
    /// Whether the match may drive a load; held cells are never matched.
    pub fn is_legal(&self, load: u32) -> bool {
        load <= self.cell.highest_load
    }

    /// The time from an input's arrival to the output's, under the load that the match drives.
    pub fn delay(&self, input: &Input, load: u32) -> u32 {
        let pin = &self.cell.pins[input.pin];
        pin.intrinsic + pin.drive * load
    }

    /// The load bin of the pin at an input.
    pub fn bin(&self, input: &Input) -> usize {
        self.cell.pins[input.pin].bin as usize
    }

    pub fn placed(&self, node: usize) -> Placed {
        Placed { node, pattern: self.pattern, crossing: self.crossing }
    }
}

/// Every redrawing, ascending by pattern and for each pattern by crossing.
pub fn redrawings(library: &Library) -> Vec<Redrawing<'_>> {
    let mut redrawings = Vec::new();
    for (pattern, (cell, shape)) in library.patterns().enumerate().filter(|(_, (cell, _))| !cell.held) {
        let redraw = |crossing| Redrawing { pattern, crossing, cell, shape: redrawn(shape, crossing) };
        redrawings.extend(crossings(shape).map(redraw));
    }
    redrawings
}

/// Every match by node, each node's in the order of the redrawings.
pub fn matches_by_node<'a>(redrawings: &[Redrawing<'a>], tree: &Shape<TreeLeaf>) -> Vec<Vec<Match<'a>>> {
    (0..tree.nodes.len()).map(|node| matches_at(redrawings, tree, node)).collect()
}

fn matches_at<'a>(redrawings: &[Redrawing<'a>], tree: &Shape<TreeLeaf>, node: usize) -> Vec<Match<'a>> {
    let stand = |&Redrawing { pattern, crossing, cell, ref shape }: &Redrawing<'a>| {
        inputs_at(shape, tree, node).map(|inputs| Match { pattern, crossing, cell, inputs })
    };
    redrawings.iter().filter_map(stand).collect()
}

/// The inputs of a shape that stands at a node, in drawn order; `None` if it does not stand there.
pub fn inputs_at(shape: &Shape, tree: &Shape<TreeLeaf>, node: usize) -> Option<Vec<Input>> {
    let mut inputs = Vec::new();
    stands(shape, 0, tree, node, &mut inputs).then_some(inputs)
}

/// Whether the pattern from one of its nodes on has the tree's shape from `node` on.
fn stands(pattern: &Shape, at: usize, tree: &Shape<TreeLeaf>, node: usize, inputs: &mut Vec<Input>) -> bool {
    match (pattern.nodes[at], tree.nodes[node]) {
        (Node::Leaf(pin), _) => {
            inputs.push(Input { pin: pin as usize, node });
            true
        }
        (Node::Inv(below), Node::Inv(branch)) => stands(pattern, below, tree, branch, inputs),
        (Node::Nand(left, right), Node::Nand(first, second)) => {
            stands(pattern, left, tree, first, inputs) && stands(pattern, right, tree, second, inputs)
        }
        _ => false,
    }
}
