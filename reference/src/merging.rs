//! Map and list by merging whole curves, from the highest node to the root.

use crate::cover::{Cover, Pair, Placed};
use crate::curve::{Curve, Point};
use crate::library::Library;
use crate::matching::{matches_by_node, redrawings, Input, Match, Redrawing};
use crate::refusal::{Refusal, NO_COVER, OVERFULL};
use crate::shape::{Node, Shape};
use crate::tree::{Tree, TreeLeaf};

/// The most trade-offs of a node under one load.
pub const MOST_TRADE_OFFS: usize = 31;

pub fn map(library: &Library, tree: &Tree) -> Result<Cover, Refusal> {
    map_among(&redrawings(library), library, tree)
}

/// Map as it is if only some redrawings may be matched.
pub fn map_among(redrawings: &[Redrawing], library: &Library, tree: &Tree) -> Result<Cover, Refusal> {
    let curves = Curves::of(redrawings, library, tree)?;
    let Some(point) = curves.root.at(tree.required) else {
        return Err(Refusal::new(NO_COVER, 0));
    };
    let mut matches = Vec::new();
    curves.follow(0, tree.root_load, point, &mut matches);
    matches.sort();
    Ok(Cover { area: point.pair.area, arrival: point.pair.arrival, matches })
}

pub fn list(library: &Library, tree: &Tree) -> Result<Vec<Pair>, Refusal> {
    match Curves::of(&redrawings(library), library, tree)?.root.pairs() {
        pairs if pairs.is_empty() => Err(Refusal::new(NO_COVER, 0)),
        pairs => Ok(pairs),
    }
}

/// How much there is to find.
#[derive(Clone, Copy, PartialEq, Eq, Debug)]
pub struct Extent {
    /// Over all nodes.
    pub matches: usize,
    /// Of a node under a load considered there.
    pub most_trade_offs: usize,
}

pub fn extent(library: &Library, tree: &Tree) -> Result<Extent, Refusal> {
    let curves = Curves::of(&redrawings(library), library, tree)?;
    let every = curves.below.iter().flatten().chain([&curves.root]);
    let most_trade_offs = every.map(|curve| curve.points.len()).max().unwrap_or(0);
    Ok(Extent { matches: curves.matches.iter().map(Vec::len).sum(), most_trade_offs })
}

/// The curves of every node below the root by bin, and the root's.
struct Curves<'a> {
    library: &'a Library,
    shape: &'a Shape<TreeLeaf>,
    /// By node.
    matches: Vec<Vec<Match<'a>>>,
    /// By node and bin; filled from the highest node down.
    below: Vec<Vec<Curve>>,
    root: Curve,
}

impl<'a> Curves<'a> {
    fn of(redrawings: &[Redrawing<'a>], library: &'a Library, tree: &'a Tree) -> Result<Self, Refusal> {
        let shape = &tree.shape;
        let count = shape.nodes.len();
        let matches = matches_by_node(redrawings, shape);
        let mut curves = Curves { library, shape, matches, below: vec![Vec::new(); count], root: Curve::default() };
        for node in (1..count).rev() {
            let by_bin = |&load: &u32| curves.checked(node, load);
            curves.below[node] = library.bins.iter().map(by_bin).collect::<Result<_, _>>()?;
        }
        curves.root = curves.checked(0, tree.root_load)?;
        Ok(curves)
    }

    fn checked(&self, node: usize, load: u32) -> Result<Curve, Refusal> {
        let curve = self.curve(node, load);
        if curve.points.len() > MOST_TRADE_OFFS {
            return Err(Refusal::new(OVERFULL, node));
        }
        Ok(curve)
    }

    fn curve(&self, node: usize, load: u32) -> Curve {
        if let Node::Leaf(leaf) = self.shape.nodes[node] {
            return Curve::single(leaf.arrival_under(load), 0, 0);
        }
        let mut curve = Curve::default();
        for (position, found) in self.matches[node].iter().enumerate().filter(|(_, found)| found.is_legal(load)) {
            curve.unite(self.of_match(position, found, load));
        }
        curve
    }

    /// The covers that begin with one match, which has this position among those of its node.
    fn of_match(&self, position: usize, found: &Match, load: u32) -> Curve {
        let cell = Curve::single(0, found.cell.area, position);
        found.inputs.iter().fold(cell, |joined, input| joined.join(self.input(found, input), found.delay(input, load)))
    }

    fn input(&self, found: &Match, input: &Input) -> &Curve {
        &self.below[input.node][found.bin(input)]
    }

    /// Lists the matches of the cover that reaches a point.
    fn follow(&self, node: usize, load: u32, point: &Point, matches: &mut Vec<Placed>) {
        if self.shape.is_leaf(node) {
            return;
        }
        let found = &self.matches[node][point.first];
        matches.push(found.placed(node));
        for input in &found.inputs {
            let time = point.pair.arrival - found.delay(input, load);
            let next = self.input(found, input).at(time).expect("the point is reached through this input");
            self.follow(input.node, self.library.bins[found.bin(input)], next, matches);
        }
    }
}
