//! Covers of trees with driven leaves.

use super::{greatest, mapped, Covers};
use reference::cover::Placed;
use reference::generate::chosen;
use reference::generate::covers::Draft;
use reference::generate::parts::{cell, driven, leaf, pin, tree, INVERTER, NAND};
use reference::generate::problem::Problem;
use reference::generate::{longest, specimen};
use reference::library::{Cell, Library};
use reference::merging;
use reference::shape::Step::{Inv, Nand};
use reference::tree::{Tree, TreeLeaf, LATEST_LEAF, LATEST_REQUIRED};

/// Drafts that are damaged in every way.
pub fn chosen() -> Vec<Draft> {
    let specimen = Problem { library: specimen::library(), tree: specimen::driven_tree() };
    vec![mapped(specimen).expect("a cover"), larger_cell(), exchanged()]
}

/// The larger of two inverters, because its pin is light and the driver slow: 10 × 1 + 2, not 10 × 4 + 1.
fn larger_cell() -> Draft {
    let cells = vec![cell(1, 255, pin(1, 1, 0), INVERTER), cell(9, 255, pin(0, 2, 0), INVERTER)];
    let tree = tree(3, 20, &[Inv, driven(0, 10)]);
    let problem = Problem { library: Library { bins: vec![1, 4], cells }, tree };
    Draft::legal(problem, vec![Placed::new(0, 1, 0)])
}

/// A NAND whose heavy pin is its first, exchanged so that the slow driver has the light one.
fn exchanged() -> Draft {
    let nand = Cell { pins: vec![pin(1, 5, 1), pin(0, 6, 2)], ..cell(4, 7, pin(0, 0, 0), NAND) };
    let cells = vec![cell(1, 7, pin(1, 4, 5), INVERTER), nand];
    let tree = tree(2, 0, &[Nand, driven(3, 50), Inv, Nand, leaf(9), driven(0, 20)]);
    let problem = Problem { library: Library { bins: vec![1, 7], cells }, tree };
    let matches = [(0, 1, 16), (2, 0, 0), (3, 1, 0)];
    Draft::legal(problem, matches.map(|(node, pattern, crossing)| Placed { node, pattern, crossing }).to_vec())
}

pub(super) fn add_all(covers: &mut Covers) {
    for draft in chosen_problems().iter().chain(&chosen()) {
        charged(covers, draft);
    }
    for draft in [greatest(TreeLeaf::driven(LATEST_LEAF, 255)), longest_tree(), without_inverter()] {
        charged(covers, &draft);
        covers.figures(&draft);
    }
    for draft in super::chosen() {
        zero_drives(covers, draft);
    }
}

/// A cover as it is, and with the arrival that it has if no driver counts, or if all are charged one load.
fn charged(covers: &mut Covers, draft: &Draft) {
    let Problem { library, tree } = &draft.problem;
    covers.add(draft.case());
    for load in [0, tree.root_load].iter().chain(&library.bins) {
        covers.add(draft.charged(*load).case());
    }
}

/// A cover of a tree with driven leaves of drive 0, which is judged as that of the tree with plain leaves.
fn zero_drives(covers: &mut Covers, mut draft: Draft) {
    if !draft.problem.tree.has_driven_leaves() {
        draft.problem.tree = draft.problem.tree.with_drive(Some(0));
        covers.add(draft.case());
        covers.figures(&draft);
    }
}

/// What map hands over for the chosen problems with driven leaves, at the first and the last of their trade-offs.
fn chosen_problems() -> Vec<Draft> {
    let problems = chosen::all().into_iter().map(|chosen| chosen.problem);
    problems.filter(|problem| problem.tree.has_driven_leaves()).flat_map(at_both_ends).collect()
}

fn at_both_ends(problem: Problem) -> Vec<Draft> {
    let pairs = merging::list(&problem.library, &problem.tree).unwrap_or_default();
    let times = [pairs.first(), pairs.last()].into_iter().flatten();
    times.filter_map(|pair| mapped(due(&problem, pair.arrival))).collect()
}

fn due(problem: &Problem, required: u32) -> Problem {
    Problem { library: problem.library.clone(), tree: Tree { required, ..problem.tree.clone() } }
}

/// The longest tree sheet, of 64 nodes.
fn longest_tree() -> Draft {
    mapped(Problem { library: specimen::library(), tree: longest::tree() }).expect("a cover")
}

/// The same without its inverter: 63 nodes. The library's NAND drives no more than 4.
fn without_inverter() -> Draft {
    let tree = tree(4, LATEST_REQUIRED, &longest::tree().shape.steps()[1..]);
    mapped(Problem { library: specimen::library(), tree }).expect("a cover")
}
