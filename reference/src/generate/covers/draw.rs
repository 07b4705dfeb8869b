//! Random legal covers, most of which map would not choose.

use crate::cover::Cover;
use crate::generate::problem::Problem;
use crate::library::Library;
use crate::matching::{matches_by_node, redrawings, Match};
use crate::merging;
use crate::rng::Rng;
use crate::shape::Node;
use crate::tree::Tree;

/// What is needed to draw covers of one problem.
pub struct Draw<'a> {
    library: &'a Library,
    tree: &'a Tree,
    /// By node.
    matches: Vec<Vec<Match<'a>>>,
    /// By node and bin, whether there is a cover; filled from the highest node down.
    has_cover: Vec<Vec<bool>>,
}

impl<'a> Draw<'a> {
    pub fn new(problem: &'a Problem) -> Self {
        let Problem { library, tree } = problem;
        let count = tree.shape.nodes.len();
        let matches = matches_by_node(&redrawings(library), &tree.shape);
        let mut draw = Draw { library, tree, matches, has_cover: vec![Vec::new(); count] };
        for node in (0..count).rev() {
            let has_cover = |&load: &u32| tree.shape.is_leaf(node) || !draw.choices(node, load).is_empty();
            draw.has_cover[node] = library.bins.iter().map(has_cover).collect();
        }
        draw
    }

    /// A legal cover of the root, if there is one.
    pub fn cover(&self, rng: &mut Rng) -> Option<Cover> {
        self.cover_of(rng, 0, self.tree.root_load)
    }

    fn cover_of(&self, rng: &mut Rng, node: usize, load: u32) -> Option<Cover> {
        if let Node::Leaf(leaf) = self.tree.shape.nodes[node] {
            return Some(Cover::of_leaf(leaf, load));
        }
        let choices = self.choices(node, load);
        if choices.is_empty() {
            return None;
        }
        let found = rng.pick(&choices);
        let mut cover = Cover { area: found.cell.area, arrival: 0, matches: vec![found.placed(node)] };
        for input in &found.inputs {
            let below = self.cover_of(rng, input.node, self.library.bins[found.bin(input)])?;
            cover = cover.beside(&below, found.delay(input, load));
        }
        Some(cover)
    }

    /// The legal matches at a node whose inputs all have covers.
    fn choices(&self, node: usize, load: u32) -> Vec<&Match<'a>> {
        let leads_on = |found: &&Match| found.inputs.iter().all(|input| self.has_cover[input.node][found.bin(input)]);
        self.matches[node].iter().filter(|found| found.is_legal(load)).filter(leads_on).collect()
    }
}

/// The cover that map hands over, a legal one, or one of which only the loads and hold marks may be wrong.
pub fn any_cover(rng: &mut Rng, problem: &Problem) -> Cover {
    let mapped = || merging::map(&problem.library, &problem.tree).ok();
    let cover = match rng.below(8) {
        0 | 1 => mapped(),
        2 => loose_cover(rng, problem),
        _ => Draw::new(problem).cover(rng),
    };
    let cover = cover.or_else(|| loose_cover(rng, problem));
    cover.unwrap_or(Cover { area: 0, arrival: 0, matches: vec![] })
}

/// A cover that is legal if nothing is held and every cell drives any load.
pub fn loose_cover(rng: &mut Rng, problem: &Problem) -> Option<Cover> {
    let mut loose = problem.clone();
    for cell in &mut loose.library.cells {
        cell.held = false;
        cell.highest_load = 255;
    }
    Draw::new(&loose).cover(rng)
}
