//! Map and list by listing every legal cover one by one: for small trees only.

use crate::cover::{Cover, Pair, Placed};
use crate::library::Library;
use crate::matching::{matches_by_node, redrawings, Match};
use crate::merging::MOST_TRADE_OFFS;
use crate::refusal::{Refusal, NO_COVER, OVERFULL};
use crate::shape::Node;
use crate::tree::Tree;

/// What is known of a node under each load considered there, in the order of the loads.
type ByLoad<T> = Vec<Vec<T>>;

/// Every cover of every node under every load considered there.
pub struct Listing<'a> {
    library: &'a Library,
    tree: &'a Tree,
    matches: Vec<Vec<Match<'a>>>,
    covers: ByLoad<Vec<Cover>>,
}

impl<'a> Listing<'a> {
    /// `None` if a node has more than `most` covers under some load.
    pub fn new(library: &'a Library, tree: &'a Tree, most: u64) -> Option<Self> {
        let count = tree.shape.nodes.len();
        let matches = matches_by_node(&redrawings(library), &tree.shape);
        let mut listing = Listing { library, tree, matches, covers: vec![Vec::new(); count] };
        if listing.counts().iter().flatten().any(|&covers| covers > most) {
            return None;
        }
        for node in (0..count).rev() {
            listing.covers[node] =
                listing.loads(node).into_iter().map(|load| listing.list_covers(node, load)).collect();
        }
        Some(listing)
    }

    pub fn map(&self) -> Result<Cover, Refusal> {
        self.refuse_overfull()?;
        self.choose(0, 0, self.tree.required).ok_or(Refusal::new(NO_COVER, 0))
    }

    pub fn list(&self) -> Result<Vec<Pair>, Refusal> {
        self.refuse_overfull()?;
        match trade_offs(&self.covers[0][0]) {
            pairs if pairs.is_empty() => Err(Refusal::new(NO_COVER, 0)),
            pairs => Ok(pairs),
        }
    }

    /// Every legal cover of the root under the root load.
    pub fn covers(&self) -> &[Cover] {
        &self.covers[0][0]
    }

    /// Whether every node has a cover under every load considered there.
    pub fn has_all_covers(&self) -> bool {
        self.covers.iter().flatten().all(|covers| !covers.is_empty())
    }

    /// The loads considered at a node.
    fn loads(&self, node: usize) -> Vec<u32> {
        if node == 0 {
            vec![self.tree.root_load]
        } else {
            self.library.bins.clone()
        }
    }

    fn legal_matches(&self, node: usize, load: u32) -> impl Iterator<Item = &Match<'a>> {
        self.matches[node].iter().filter(move |found| found.is_legal(load))
    }

    /// How many covers there are, without listing them.
    fn counts(&self) -> ByLoad<u64> {
        let mut counts: ByLoad<u64> = vec![Vec::new(); self.matches.len()];
        for node in (0..counts.len()).rev() {
            let count = |load| self.count(node, load, &counts);
            counts[node] = self.loads(node).into_iter().map(count).collect();
        }
        counts
    }

    fn count(&self, node: usize, load: u32, counts: &ByLoad<u64>) -> u64 {
        if self.tree.shape.is_leaf(node) {
            return 1;
        }
        let of_match = |found: &Match| {
            let inputs = found.inputs.iter().map(|input| counts[input.node][found.bin(input)]);
            inputs.fold(1, u64::saturating_mul)
        };
        self.legal_matches(node, load).map(of_match).fold(0, u64::saturating_add)
    }

    fn list_covers(&self, node: usize, load: u32) -> Vec<Cover> {
        if let Node::Leaf(leaf) = self.tree.shape.nodes[node] {
            return vec![Cover::of_leaf(leaf, load)];
        }
        self.legal_matches(node, load).flat_map(|found| self.covers_from(node, load, found)).collect()
    }

    /// Every cover that begins with one match.
    fn covers_from(&self, node: usize, load: u32, found: &Match) -> Vec<Cover> {
        let mut covers = vec![Cover { area: found.cell.area, arrival: 0, matches: vec![found.placed(node)] }];
        for input in &found.inputs {
            let choices = &self.covers[input.node][found.bin(input)];
            let delay = found.delay(input, load);
            covers = covers.iter().flat_map(|cover| choices.iter().map(|choice| cover.beside(choice, delay))).collect();
        }
        covers
    }

    fn refuse_overfull(&self) -> Result<(), Refusal> {
        let overfull =
            |&node: &usize| self.covers[node].iter().any(|covers| trade_offs(covers).len() > MOST_TRADE_OFFS);
        match (0..self.covers.len()).rev().find(overfull) {
            Some(node) => Err(Refusal::new(OVERFULL, node)),
            None => Ok(()),
        }
    }

    /// Document 01's choice, sentence by sentence, and of a pattern's crossings the lowest, under a load
    /// given by its position.
    fn choose(&self, node: usize, load: usize, time: u32) -> Option<Cover> {
        let mut covers: Vec<&Cover> = self.covers[node][load].iter().filter(|cover| cover.arrival <= time).collect();
        let area = covers.iter().map(|cover| cover.area).min()?;
        covers.retain(|cover| cover.area == area);
        let arrival = covers.iter().map(|cover| cover.arrival).min()?;
        covers.retain(|cover| cover.arrival == arrival);
        let mut matches = Vec::new();
        if !self.tree.shape.is_leaf(node) {
            let pattern = covers.iter().map(|cover| cover.matches[0].pattern).min()?;
            covers.retain(|cover| cover.matches[0].pattern == pattern);
            let crossing = covers.iter().map(|cover| cover.matches[0].crossing).min()?;
            matches = self.choose_inputs(load, arrival, Placed { node, pattern, crossing })?;
        }
        Some(Cover { area, arrival, matches })
    }

    /// A match and the matches chosen for its inputs, ascending by node.
    fn choose_inputs(&self, load: usize, arrival: u32, placed: Placed) -> Option<Vec<Placed>> {
        let mut matches = vec![placed];
        let found = self.matches[placed.node].iter().find(|found| found.placed(placed.node) == placed)?;
        for input in &found.inputs {
            let time = arrival.checked_sub(found.delay(input, self.loads(placed.node)[load]))?;
            matches.extend(self.choose(input.node, found.bin(input), time)?.matches);
        }
        matches.sort();
        Some(matches)
    }
}

/// The pairs of some covers that no other pair improves on, earliest first.
fn trade_offs(covers: &[Cover]) -> Vec<Pair> {
    let pair = |cover: &Cover| Pair { arrival: cover.arrival, area: cover.area };
    let mut pairs: Vec<Pair> = covers.iter().map(pair).collect();
    pairs.sort();
    pairs.dedup();
    let improved = |pair: &Pair| {
        pairs.iter().any(|other| other != pair && other.arrival <= pair.arrival && other.area <= pair.area)
    };
    pairs.iter().filter(|pair| !improved(pair)).copied().collect()
}
