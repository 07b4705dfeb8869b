//! Parts that are mapped. Figures of inverters: 4 + 2 × 1 and area 1, or 4 + 1 × 1 and area 2; of a NAND: 6 + 2 × 1 and
//! area 2.

use super::{at_leisure, inverter, nand, only, part, Case, Draft, Table, Triple};
use crate::generate::parts::{cell, chain, comb, driven, leaf, pin, tree, INVERTER, NAND};
use crate::generate::specimen;
use crate::library::Library;
use crate::operation::{Lent, LEAST_WORK};
use crate::part::{LEAST_OUTPUT, MOST_TREES};
use crate::shape::Step::{Inv, Nand};
use crate::tree::{TreeLeaf, LATEST_LEAF, LATEST_REQUIRED};

pub fn add(table: &mut Table) {
    without_links(table);
    pairs(table);
    chains(table);
    several(table);
    driven_leaves(table);
    roots(table);
    many_links(table);
    lent(table);
}

fn without_links(table: &mut Table) {
    table.mapped("one tree", part(vec![inverter()], &[]).case(), &[(1, 6)]);
    table.mapped("two trees", part(vec![inverter(), nand()], &[]).case(), &[(1, 6), (2, 8)]);
    let mut specimens = specimen::trees();
    // Cases c, f and the last have no cover in time.
    [13, 5, 2].into_iter().for_each(|case| drop(specimens.remove(case)));
    let figures = [(1, 6), (2, 5), (1, 12), (2, 9), (3, 10), (4, 22), (2, 12), (3, 11), (2, 11), (0, 7), (0, 7)];
    table.mapped("the specimens that have covers", part(specimens, &[]).case(), &figures);
    let sixteen = part(vec![nand(); MOST_TREES], &[]);
    table.mapped("16 trees", sixteen.case(), &[(2, 8); MOST_TREES]);
    let lone = part(vec![only(leaf(7)), only(driven(7, 3)), only(leaf(LATEST_LEAF))], &[]);
    table.mapped("trees of one leaf", lone.case(), &[(0, 7), (0, 10), (0, LATEST_LEAF)]);
}

/// One tree and one that reads it.
fn pairs(table: &mut Table) {
    let reader = |required, stated| tree(1, required, &[Inv, leaf(stated)]);
    for stated in [0, 6, 7, LATEST_LEAF] {
        for (required, figures) in [(LATEST_REQUIRED, (1, 12)), (12, (1, 12)), (11, (2, 11))] {
            let case = part(vec![inverter(), reader(required, stated)], &[(1, 1, 0)]).case();
            table.mapped("a linked inverter", case, &[(1, 6), figures]);
        }
        let case = part(vec![inverter(), reader(10, stated)], &[(1, 1, 0)]).case();
        table.refused("a linked inverter too late", case, 8, 0, 1);
    }
    for (load, required, figures) in [(4, 12, (1, 12)), (4, 11, (2, 8)), (5, 9, (2, 9)), (8, 12, (2, 12))] {
        let driver = tree(load, required, &[Inv, leaf(0)]);
        let case = part(vec![driver, inverter()], &[(1, 1, 0)]).case();
        table.mapped("a driver keeps its load and time", case, &[figures, (1, figures.1 + 6)]);
    }
    let and = at_leisure(&[Inv, Nand, leaf(3), leaf(LATEST_LEAF)]);
    let case = part(vec![nand(), and], &[(1, 3, 0)]).case();
    table.mapped("one leaf of two", case, &[(2, 8), (3, 18)]);
}

fn chains(table: &mut Table) {
    for count in [3, 8, MOST_TREES] {
        let links: Vec<Triple> = (1..count).map(|tree| (tree, 1, tree - 1)).collect();
        let figures: Vec<(u32, u32)> = (1..=count as u32).map(|tree| (1, 6 * tree)).collect();
        let descending: Vec<_> = links.iter().rev().copied().collect();
        for links in [&links, &descending] {
            table.mapped("a chain of trees", part(vec![inverter(); count], links).case(), &figures);
        }
    }
    // Where a chain of two is hurried, the one before keeps its slow inverter.
    let hurried = tree(1, 17, &[Inv, leaf(0)]);
    let case = part(vec![inverter(), inverter(), hurried], &[(2, 1, 1), (1, 1, 0)]).case();
    table.mapped("only the last is hurried", case, &[(1, 6), (1, 12), (2, 17)]);
}

/// Trees that drive several leaves.
fn several(table: &mut Table) {
    let case = part(vec![inverter(), nand()], &[(1, 2, 0), (1, 1, 0)]).case();
    table.mapped("two leaves of a tree", case, &[(1, 6), (2, 14)]);
    let links = [(3, 2, 0), (1, 1, 0), (2, 1, 0)];
    let case = part(vec![inverter(), inverter(), nand(), nand()], &links).case();
    table.mapped("leaves of three trees", case, &[(1, 6), (1, 12), (2, 14), (2, 14)]);
    let links = [(2, 2, 1), (2, 1, 0)];
    let case = part(vec![inverter(), nand(), nand()], &links).case();
    table.mapped("two drivers of a tree", case, &[(1, 6), (2, 8), (2, 16)]);
    let links = [(3, 1, 1), (3, 2, 2), (2, 1, 0), (1, 1, 0)];
    let case = part(vec![nand(), inverter(), nand(), nand()], &links).case();
    table.mapped("two ways from one tree to another", case, &[(2, 8), (1, 14), (2, 16), (2, 24)]);
}

/// A linked leaf keeps its drive: under the slow inverter's pin it is charged 1, under the fast one's 2.
fn driven_leaves(table: &mut Table) {
    for (drive, figures) in [(0, (1, 12)), (7, (1, 19)), (255, (1, 267))] {
        for stated in [0, 500, LATEST_LEAF] {
            let reader = at_leisure(&[Inv, driven(stated, drive)]);
            let case = part(vec![inverter(), reader], &[(1, 1, 0)]).case();
            table.mapped("a linked driven inverter", case, &[(1, 6), figures]);
        }
    }
    // Exchanged, the NAND gives the linked weak driver its light pin: 6 + 10 × 1 + 5, not 6 + 10 × 4 + 5.
    let mut heavy = cell(2, 9, pin(0, 5, 0), NAND);
    heavy.pins[0].bin = 1;
    let library = Library { bins: vec![1, 4], cells: vec![heavy, cell(1, 9, pin(0, 6, 0), INVERTER)] };
    let trees = vec![inverter(), at_leisure(&[Nand, driven(0, 10), driven(3, 1)])];
    for (links, last) in [(&[(1, 1, 0)][..], 21), (&[(1, 2, 0)], 15), (&[(1, 1, 0), (1, 2, 0)], 21)] {
        let case = Draft::new(library.clone(), trees.clone(), links).case();
        table.mapped("a linked weak driver", case, &[(1, 6), (2, last)]);
    }
}

/// Trees that are a linked leaf.
fn roots(table: &mut Table) {
    for (root, arrival) in [(leaf(999), 6), (driven(999, 0), 6), (driven(999, 3), 21), (driven(0, 255), 1_281)] {
        for (required, is_late) in [(arrival, false), (arrival + 1, false), (arrival - 1, true)] {
            let reader = tree(5, required, &[root]);
            let draft = part(vec![inverter(), reader, nand()], &[(1, 0, 0), (2, 2, 1)]);
            if is_late {
                table.refused("a linked root too late", draft.case(), 8, 0, 1);
            } else {
                table.mapped("a linked root", draft.case(), &[(1, 6), (0, arrival), (2, arrival + 8)]);
            }
        }
    }
    let roots = part(vec![only(leaf(41)); MOST_TREES], &chain_of_roots());
    table.mapped("roots that drive roots", roots.case(), &[(0, 41); MOST_TREES]);
    let mut weak = part(vec![only(driven(41, 2)); MOST_TREES], &chain_of_roots());
    weak.part.links.reverse();
    let figures: Vec<(u32, u32)> = (0..MOST_TREES as u32).map(|tree| (0, 41 + 2 * (tree + 1))).collect();
    table.mapped("weak roots that drive roots", weak.case(), &figures);
}

fn chain_of_roots() -> Vec<Triple> {
    (1..MOST_TREES).map(|tree| (tree, 0, tree - 1)).collect()
}

/// All 17 leaves of 15 combs. A comb of 16 NANDs takes 16 × 8.
fn many_links(table: &mut Table) {
    let leaves = [TreeLeaf::plain(LATEST_LEAF); 17];
    let first = at_leisure(&chain(1, &[leaf(0)]));
    let trees = [vec![first], vec![at_leisure(&comb(&leaves)); 15]].concat();
    // A comb's leaves are the nodes 1, 3, ... and the last.
    let nodes = || (0..16).map(|nand| 2 * nand + 1).chain([32]);
    let before: Vec<_> = (1..MOST_TREES).flat_map(|tree| nodes().map(move |node| (tree, node, tree - 1))).collect();
    let figures: Vec<(u32, u32)> = (0..15).map(|tree| (32, 6 + 128 * (tree + 1))).collect();
    let figures = [vec![(1, 6)], figures].concat();
    table.mapped("255 links from tree to tree", part(trees.clone(), &before).case(), &figures);
    let descending: Vec<_> = (1..MOST_TREES).rev().flat_map(|tree| nodes().map(move |node| (tree, node, 0))).collect();
    let figures = [vec![(1, 6)], vec![(32, 134); 15]].concat();
    table.mapped("255 links from the first tree", part(trees, &descending).case(), &figures);
}

fn lent(table: &mut Table) {
    let case = part(vec![inverter(), nand()], &[(1, 2, 0)]).case();
    for output in [0, 1, 149, 298, LEAST_OUTPUT - 1, LEAST_OUTPUT, LEAST_OUTPUT + 1, 4_000] {
        for work in [0, 1, LEAST_WORK - 1, LEAST_WORK, LEAST_WORK + 1, 12_345] {
            let lent = Case { lent: Lent { output, work }, ..case.clone() };
            if output < LEAST_OUTPUT || work < LEAST_WORK {
                table.refused("too little lent", lent, 1, 0, 0);
            } else {
                table.mapped("enough lent", lent, &[(1, 6), (2, 14)]);
            }
        }
    }
}
