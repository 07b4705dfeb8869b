//! Links whose leaf field names no free leaf, and drivers that are not lower.

use super::{at_leisure, inverter, nand, only, part, Table, Triple};
use crate::generate::parts::{comb, leaf};
use crate::part::{leaf_place, MOST_TREES};
use crate::shape::Step::{Inv, Nand};
use crate::tree::{Tree, TreeLeaf};

pub fn add(table: &mut Table) {
    leaves(table);
    taken(table);
    drivers(table);
    both(table);
    last_of_many(table);
}

/// INV(NAND(a, INV(b))): the leaves are 2 and 4.
fn mixed() -> Tree {
    at_leisure(&[Inv, Nand, leaf(0), Inv, leaf(0)])
}

/// Every node that a leaf field can name.
fn leaves(table: &mut Table) {
    for node in 0..64 {
        let case = part(vec![inverter(), mixed()], &[(1, node, 0)]).case();
        match node {
            // INV(NAND(6, INV 0)) is 3 for the AND and 1 for the inverter, 10 after the later of 6 and 6.
            2 => table.mapped("a leaf", case, &[(1, 6), (4, 16)]),
            4 => table.mapped("the other leaf", case, &[(1, 6), (4, 22)]),
            0..=4 => table.refused("a gate", case, 41, 17, 0),
            _ => table.refused("no node", case, 41, 17, 0),
        }
    }
    for (node, is_leaf) in [(0, true), (1, false), (63, false)] {
        let case = part(vec![inverter(), only(leaf(0))], &[(1, node, 0)]).case();
        if is_leaf {
            table.mapped("the only leaf", case, &[(1, 6), (0, 6)]);
        } else {
            table.refused("no node beside it", case, 41, 17, 0);
        }
    }
    // 64 nodes leave no number free: the last leaf is 63.
    let full = at_leisure(&[vec![Inv], comb(&[TreeLeaf::plain(0); 32])].concat());
    let case = |node| part(vec![inverter(), full.clone()], &[(1, node, 0)]).case();
    table.mapped("the last of 64 nodes", case(63), &[(1, 6), (63, 256)]);
    table.refused("the last NAND of 64 nodes", case(61), 41, 17, 0);
    // The nodes are those of the reading tree, not of the driving one.
    let case = part(vec![mixed(), inverter()], &[(1, 4, 0)]).case();
    table.refused("a leaf of the driving tree", case, 41, 17, 0);
    let case = part(vec![mixed(), inverter(), mixed()], &[(2, 2, 1), (1, 2, 0)]).case();
    table.refused("the second link", case, 41, leaf_place(1), 0);
}

fn taken(table: &mut Table) {
    let trees = || vec![inverter(), nand(), nand()];
    let rows: [(&[Triple], usize); 5] = [
        (&[(1, 1, 0), (1, 1, 0)], 1),
        (&[(2, 1, 0), (2, 1, 1)], 1),
        (&[(2, 1, 1), (2, 2, 1), (2, 1, 0)], 2),
        (&[(2, 1, 1), (1, 1, 0), (2, 2, 0), (1, 2, 0), (1, 1, 0)], 4),
        (&[(2, 1, 1), (2, 1, 0), (2, 1, 1)], 1),
    ];
    for (links, link) in rows {
        table.refused("a leaf linked twice", part(trees(), links).case(), 41, leaf_place(link), 0);
    }
    let case = part(trees(), &[(2, 1, 0), (1, 1, 0)]).case();
    table.mapped("the same leaf of two trees", case, &[(1, 6), (2, 14), (2, 14)]);
}

fn drivers(table: &mut Table) {
    for count in [1, 2, 3, MOST_TREES] {
        for reading in [0, count / 2, count - 1] {
            for driving in [reading, (reading + 1).min(count - 1), count - 1] {
                let case = part(vec![nand(); count], &[(reading, 1, driving)]).case();
                table.refused("a driver not lower", case, 42, 0, 0);
            }
        }
    }
    for reading in 0..15 {
        let links = [(15, 1, reading), (reading, 2, reading + 1), (reading, 2, 0)];
        let case = part(vec![nand(); MOST_TREES], &links).case();
        table.refused("the next tree drives", case, 42, 1, 0);
        let links = [(15, 1, reading), (15, 1, 15 - reading % 3)];
        let case = part(vec![nand(); MOST_TREES], &links).case();
        table.refused("the leaf is taken, whoever drives", case, 41, leaf_place(1), 0);
    }
    let trees = || vec![inverter(), nand(), nand()];
    let rows: [(&[Triple], usize); 5] = [
        (&[(1, 1, 0), (0, 1, 0)], 1),
        (&[(1, 1, 0), (2, 2, 2), (1, 2, 1)], 1),
        (&[(2, 1, 0), (2, 2, 1), (1, 1, 2)], 2),
        (&[(1, 1, 2), (2, 1, 1)], 0),
        (&[(2, 1, 1), (1, 1, 2)], 1),
    ];
    for (links, position) in rows {
        table.refused("a driver not lower", part(trees(), links).case(), 42, position, 0);
    }
}

/// The leaf field and the driver of one link, and faults of several links: the first link decides, and in it the leaf.
fn both(table: &mut Table) {
    let trees = || vec![inverter(), nand(), nand()];
    for (node, driving) in [(0, 1), (0, 2), (3, 1), (63, 2)] {
        let case = part(trees(), &[(1, node, driving)]).case();
        table.refused("no leaf and no lower driver", case, 41, 17, 0);
        let case = part(trees(), &[(2, 2, 0), (1, node, driving)]).case();
        table.refused("both in the second link", case, 41, 31, 0);
        let case = part(trees(), &[(2, 2, 2), (1, node, driving)]).case();
        table.refused("a driver, then no leaf", case, 42, 0, 0);
        let case = part(trees(), &[(1, node, 0), (2, 2, driving.max(2))]).case();
        table.refused("no leaf, then a driver", case, 41, 17, 0);
    }
    let case = part(trees(), &[(1, 1, 0), (1, 1, 1)]).case();
    table.refused("taken, with a driver not lower", case, 41, 31, 0);
    let case = part(trees(), &[(1, 1, 1), (1, 1, 0)]).case();
    table.refused("a driver not lower, then taken", case, 42, 0, 0);
    let case = part(trees(), &[(2, 1, 0), (1, 2, 1), (2, 1, 0), (2, 9, 0)]).case();
    table.refused("the second of several", case, 42, 1, 0);
}

/// A fault in the last of 255 links.
fn last_of_many(table: &mut Table) {
    let combs = at_leisure(&comb(&[TreeLeaf::plain(0); 17]));
    let nodes = || (0..16).map(|nand| 2 * nand + 1).chain([32]);
    let links: Vec<_> = (1..MOST_TREES).flat_map(|tree| nodes().map(move |node| (tree, node, 0))).collect();
    let trees = vec![combs; MOST_TREES];
    let with_last = |last| part(trees.clone(), &[&links[..254], &[last]].concat()).case();
    table.refused("the last of 255 links to a gate", with_last((15, 0, 0)), 41, leaf_place(254), 0);
    table.refused("the last of 255 links taken", with_last((1, 1, 0)), 41, leaf_place(254), 0);
    table.refused("the last of 255 links by its own tree", with_last((15, 32, 15)), 42, 254, 0);
}
