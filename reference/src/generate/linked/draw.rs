//! Random parts whose sheets are sound. Most of them can be mapped.

use super::Draft;
use crate::generate::parts::{self, driven, leaf};
use crate::generate::problem::{self, any_style, required, small_style, Problem, Style};
use crate::library::Library;
use crate::merging;
use crate::part::{Link, Part, MOST_LINKS, MOST_TREES};
use crate::rng::Rng;
use crate::tree::{Tree, LATEST_LEAF, LATEST_REQUIRED};

/// How many leaves of the later trees are linked, and by which trees they are driven.
#[derive(Clone, Copy)]
struct Wiring {
    share: Share,
    drivers: Drivers,
}

#[derive(Clone, Copy)]
enum Share {
    None,
    Few,
    Half,
    All,
}

#[derive(Clone, Copy)]
enum Drivers {
    Any,
    /// The tree just before.
    Before,
    First,
}

impl Wiring {
    fn any(rng: &mut Rng) -> Wiring {
        Wiring {
            share: rng.pick(&[Share::None, Share::Few, Share::Few, Share::Half, Share::Half, Share::All]),
            drivers: rng.pick(&[Drivers::Any, Drivers::Any, Drivers::Before, Drivers::First]),
        }
    }

    fn takes(self, rng: &mut Rng) -> bool {
        match self.share {
            Share::None => false,
            Share::Few => rng.once_in(4),
            Share::Half => rng.once_in(2),
            Share::All => true,
        }
    }

    /// The links of a tree's leaves, by lower trees.
    fn links(self, rng: &mut Rng, reading: usize, tree: &Tree) -> Vec<Link> {
        let mut links = Vec::new();
        for node in (0..tree.shape.nodes.len()).filter(|&node| reading > 0 && tree.shape.is_leaf(node)) {
            if self.takes(rng) {
                let driving = match self.drivers {
                    Drivers::Any => rng.below(reading),
                    Drivers::Before => reading - 1,
                    Drivers::First => 0,
                };
                links.push(Link::new(reading, node, driving));
            }
        }
        links
    }
}

/// A part of any size; of large trees there are few.
pub fn any_draft(rng: &mut Rng) -> Draft {
    let style = any_style(rng);
    let count = rng.pick(&[1, 2, 2, 3, 3, 4, 5, 8, MOST_TREES]);
    draft(rng, style, if style.nodes > 30 { count.min(3) } else { count })
}

/// A part of a few trees whose covers can be listed one by one.
pub fn small_draft(rng: &mut Rng) -> Draft {
    let style = small_style(rng);
    let count = rng.between(1, 4);
    draft(rng, style, count)
}

/// A part of so many trees.
pub fn draft(rng: &mut Rng, style: Style, count: usize) -> Draft {
    let library = problem::library(rng, style);
    let wiring = Wiring::any(rng);
    let mut part = Part { trees: Vec::new(), links: Vec::new() };
    let mut arrivals = Vec::new();
    for number in 0..count {
        let tree = if rng.once_in(10) { late_leaf(rng) } else { problem::tree(rng, style, &library) };
        part.links.extend(wiring.links(rng, number, &tree));
        part.links.truncate(MOST_LINKS);
        part.trees.push(tree);
        if arrivals.len() == number {
            arrivals.extend(set_required(rng, &library, &mut part, &arrivals, count));
        }
    }
    if rng.once_in(2) {
        rng.shuffle(&mut part.links);
    }
    Draft { library, part }
}

/// Gives the last tree a required time, and answers when its cover arrives, if it has one. Of a part of many trees each
/// is seldom too late, so that many parts are mapped.
fn set_required(rng: &mut Rng, library: &Library, part: &mut Part, arrivals: &[u32], count: usize) -> Option<u32> {
    let last = part.trees.len() - 1;
    let known = part.as_known(last, arrivals);
    if known.shape.leaves().any(|leaf| leaf.arrival > LATEST_LEAF) {
        return None;
    }
    let mut problem = Problem { library: library.clone(), tree: known };
    problem.tree.required = match merging::list(library, &problem.tree) {
        Ok(pairs) if !rng.once_in(count + 1) => {
            let point = rng.pick(&pairs).arrival;
            rng.pick(&[point, point, LATEST_REQUIRED])
        }
        _ => required(rng, &problem),
    };
    part.trees[last].required = problem.tree.required;
    merging::map(library, &problem.tree).ok().map(|cover| cover.arrival)
}

/// A tree that is one leaf and arrives about when a linked leaf may at the latest.
fn late_leaf(rng: &mut Rng) -> Tree {
    let (drive, load) = (rng.value(0, 3), rng.value(0, 4));
    let arrival = rng.value(LATEST_LEAF - 1, LATEST_LEAF + 1) - drive * load;
    let arrival = arrival.min(LATEST_LEAF);
    let root = if drive == 0 { leaf(arrival) } else { driven(arrival, drive) };
    parts::tree(load, LATEST_REQUIRED, &[root])
}
