//! Refusals in mapping: 43 for linked arrivals, 7 and 8, each with its tree.

use super::{at_leisure, inverter, nand, only, part, Draft, Table, Triple};
use crate::generate::parts::{cell, chain, driven, leaf, pin, tree, INVERTER, NAND};
use crate::library::Library;
use crate::part::MOST_TREES;
use crate::shape::Step::{Inv, Nand};
use crate::tree::{Tree, LATEST_LEAF, LATEST_REQUIRED};

pub fn add(table: &mut Table) {
    limits(table);
    several_late(table);
    late_and_more(table);
    late_trees(table);
    late_readers(table);
    overfull(table);
    overfull_trees(table);
    overfull_by_arrival(table);
}

/// A tree that is one leaf and arrives then.
fn arriving(arrival: u32) -> Tree {
    let over = arrival.saturating_sub(LATEST_LEAF);
    if over == 0 {
        only(leaf(arrival))
    } else {
        tree(over, LATEST_REQUIRED, &[driven(LATEST_LEAF, 1)])
    }
}

/// Just as late as a linked leaf may be, and later.
fn limits(table: &mut Table) {
    for arrival in [LATEST_LEAF - 1, LATEST_LEAF, LATEST_LEAF + 1, LATEST_LEAF + 255] {
        for reader in [inverter(), at_leisure(&[Inv, driven(0, 1)]), only(leaf(3)), only(driven(3, 255))] {
            let node = reader.shape.nodes.len() - 1;
            let draft = part(vec![arriving(arrival), reader.clone()], &[(1, node, 0)]);
            if arrival > LATEST_LEAF {
                table.refused("a linked leaf too late", draft.case(), 43, node, 1);
            } else {
                let drive = reader.shape.leaves().next().and_then(|leaf| leaf.drive).unwrap_or(0);
                let figures = if node == 0 { (0, arrival + drive) } else { (1, arrival + drive + 6) };
                table.mapped("a linked leaf in time", draft.case(), &[(0, arrival), figures]);
            }
        }
    }
    // The stated arrival of a leaf that is linked does not matter, and its own drive comes later.
    let trees = vec![arriving(LATEST_LEAF), only(driven(LATEST_LEAF, 255)), inverter()];
    let case = part(trees.clone(), &[(1, 0, 0)]).case();
    table.mapped("a weak driver after the limit", case, &[(0, LATEST_LEAF), (0, LATEST_LEAF + 255), (1, 6)]);
    let case = part(trees, &[(1, 0, 0), (2, 1, 1)]).case();
    table.refused("a reader of it", case, 43, 1, 2);
    let trees = vec![inverter(), at_leisure(&[Inv, leaf(LATEST_LEAF)]), inverter()];
    table.refused("a stated leaf that is late", part(trees.clone(), &[(2, 1, 1)]).case(), 43, 1, 2);
    let case = part(trees, &[(2, 1, 1), (1, 1, 0)]).case();
    table.mapped("linked, it is not", case, &[(1, 6), (1, 12), (1, 18)]);
}

/// NAND(NAND(1, 1), NAND(1, 1)) has the leaves 2, 3, 5 and 6.
fn four() -> Tree {
    at_leisure(&[Nand, Nand, leaf(0), leaf(0), Nand, leaf(0), leaf(0)])
}

/// The lowest late leaf is named, wherever its link stands.
fn several_late(table: &mut Table) {
    let (early, late) = (0, 1);
    let trees = |reader: Tree| vec![inverter(), arriving(LATEST_LEAF + 9), reader];
    let rows: [(&[(usize, usize)], usize); 8] = [
        (&[(2, late), (3, late), (5, late), (6, late)], 2),
        (&[(6, late), (5, late), (3, late), (2, late)], 2),
        (&[(6, late), (5, late), (3, late)], 3),
        (&[(6, late), (5, late), (3, late), (2, early)], 3),
        (&[(2, early), (6, late), (3, early), (5, late)], 5),
        (&[(6, late), (2, early), (3, early), (5, early)], 6),
        (&[(6, late), (2, late)], 2),
        (&[(5, early), (6, late)], 6),
    ];
    for (leaves, place) in rows {
        let links: Vec<Triple> = leaves.iter().map(|&(leaf, driving)| (2, leaf, driving)).collect();
        table.refused("several late leaves", part(trees(four()), &links).case(), 43, place, 2);
    }
    let all = [(2, 2, early), (2, 3, early), (2, 5, early), (2, 6, early)];
    let figures = [(1, 6), (0, LATEST_LEAF + 9), (6, 22)];
    table.mapped("none of them late", part(trees(four()), &all).case(), &figures);
}

/// 43 comes before 7 and 8 of its tree, and after those of lower trees.
fn late_and_more(table: &mut Table) {
    let hopeless = || tree(1, 0, &[Inv, leaf(0)]);
    let unloaded = || tree(9, LATEST_REQUIRED, &[Inv, leaf(0)]);
    for reader in [hopeless(), unloaded()] {
        let case = part(vec![arriving(LATEST_LEAF + 1), reader.clone()], &[(1, 1, 0)]).case();
        table.refused("late, and no cover", case, 43, 1, 1);
        let case = part(vec![arriving(LATEST_LEAF), reader.clone()], &[(1, 1, 0)]).case();
        table.refused("no cover of a reader", case, 8, 0, 1);
        let case = part(vec![arriving(LATEST_LEAF + 1), inverter(), reader.clone()], &[(1, 1, 0)]).case();
        table.refused("late, and no cover of a later tree", case, 43, 1, 1);
        let case = part(vec![reader.clone(), arriving(LATEST_LEAF + 1), inverter()], &[(2, 1, 1)]).case();
        table.refused("no cover, and a later tree late", case, 8, 0, 0);
        let case = part(vec![arriving(LATEST_LEAF + 1), reader, inverter()], &[(2, 1, 0)]).case();
        table.refused("no cover, and a later reader late", case, 8, 0, 1);
    }
    let twice = part(vec![arriving(LATEST_LEAF + 1), nand(), inverter()], &[(2, 1, 0), (1, 2, 0)]).case();
    table.refused("two late readers", twice, 43, 2, 1);
}

/// Each of 16 trees refused after those before it were mapped.
fn late_trees(table: &mut Table) {
    let links: Vec<Triple> = (1..MOST_TREES).map(|tree| (tree, 1, tree - 1)).collect();
    for number in 0..MOST_TREES {
        let mut draft = part(vec![inverter(); MOST_TREES], &links);
        draft.part.trees[number].required = 6 * number as u32 + 4;
        table.refused("one of 16 trees too late", draft.case(), 8, 0, number);
        draft.part.trees[number].required += 1;
        let arrival = |tree: usize| 6 * (tree as u32 + 1) - (tree >= number) as u32;
        let figures: Vec<(u32, u32)> =
            (0..MOST_TREES).map(|tree| (1 + (tree == number) as u32, arrival(tree))).collect();
        table.mapped("one of 16 trees hurried", draft.case(), &figures);
        draft.part.trees[number] = nand();
        draft.part.trees[number].root_load = 5;
        table.refused("one of 16 trees without cover", draft.case(), 8, 0, number);
    }
}

/// Each of the later trees of 16 reads a late one, at one leaf or at both.
fn late_readers(table: &mut Table) {
    for number in 1..MOST_TREES {
        let mut trees = vec![nand(); MOST_TREES];
        trees[number / 2] = arriving(LATEST_LEAF + 1);
        let other = if number == 1 { 0 } else { number - 1 };
        let links = [(number, 2, number / 2), (number, 1, other)];
        let place = if other == number / 2 { 1 } else { 2 };
        table.refused("a late reader among 16 trees", part(trees, &links).case(), 43, place, number);
    }
}

/// So many NANDs of which each larger one is faster, and a plain inverter.
fn crowded(count: u32) -> Library {
    let grade = |grade: u32| cell(grade + 1, 255, pin(0, 10 * (count - grade), 0), NAND);
    let inverter = cell(1, 255, pin(0, 6, 0), INVERTER);
    Library { bins: vec![1], cells: (0..count).map(grade).chain([inverter]).collect() }
}

fn overfull(table: &mut Table) {
    let draft = |trees, links: &[Triple]| Draft::new(crowded(32), trees, links);
    let over = || at_leisure(&[Inv, Nand, leaf(0), leaf(0)]);
    table.refused("overfull", draft(vec![nand()], &[]).case(), 7, 0, 0);
    table.refused("overfull below the root", draft(vec![inverter(), over()], &[(1, 2, 0)]).case(), 7, 1, 1);
    let late = draft(vec![arriving(LATEST_LEAF + 1), over()], &[(1, 3, 0), (1, 2, 0)]);
    table.refused("late, and overfull", late.case(), 43, 2, 1);
    let in_vain = tree(1, 0, &[Inv, Nand, leaf(0), leaf(0)]);
    let case = draft(vec![inverter(), in_vain], &[(1, 3, 0)]).case();
    table.refused("overfull, and no cover in time", case, 7, 1, 1);
    let before = draft(vec![tree(1, 0, &[Inv, leaf(0)]), over()], &[(1, 3, 0)]);
    table.refused("no cover, and a later tree overfull", before.case(), 8, 0, 0);
    let last = draft([vec![inverter(); 15], vec![over()]].concat(), &[(15, 2, 14)]);
    table.refused("the last of 16 trees overfull", last.case(), 7, 1, 15);
    let full = Draft::new(crowded(31), vec![inverter(), nand()], &[(1, 2, 0)]);
    table.mapped("just not overfull", full.case(), &[(1, 6), (1, 316)]);
}

/// Eight inverters of which each larger one is faster: four in a row have 29 trade-offs, five have 36.
fn graded() -> Library {
    let grade = |grade: u32| cell(grade + 1, 255, pin(0, 10 * (8 - grade), 0), INVERTER);
    Library { bins: vec![1], cells: (0..8).map(grade).collect() }
}

/// A row of inverters is overfull at its fifth from below, which of nine is node 4, whatever its leaf is linked to.
fn overfull_trees(table: &mut Table) {
    let row = |count, required| tree(1, required, &chain(count, &[leaf(0)]));
    for number in 0..MOST_TREES {
        for required in [LATEST_REQUIRED, 0] {
            let mut trees = vec![row(1, LATEST_REQUIRED); number + 1];
            trees[number] = row(9, required);
            let leaf = |reading| if reading == number { 9 } else { 1 };
            let links: Vec<Triple> = (1..=number).map(|reading| (reading, leaf(reading), reading - 1)).collect();
            for links in [&links[..], &[]] {
                let case = Draft::new(graded(), trees.clone(), links).case();
                table.refused("the last of some trees overfull", case, 7, 4, number);
            }
        }
    }
    for number in [1, 2, 9, 15] {
        let mut trees = vec![row(1, LATEST_REQUIRED); number + 1];
        trees[0] = arriving(LATEST_LEAF + 7);
        trees[number] = row(9, LATEST_REQUIRED);
        let case = Draft::new(graded(), trees.clone(), &[(number, 9, 0)]).case();
        table.refused("late, and overfull", case, 43, 9, number);
        trees[number] = row(4, 4 * 10 + LATEST_LEAF);
        trees[0] = arriving(LATEST_LEAF);
        let case = Draft::new(graded(), trees, &[(number, 4, 0)]).case();
        let figures = [vec![(0, LATEST_LEAF)], vec![(1, 80); number - 1], vec![(32, LATEST_LEAF + 40)]].concat();
        table.mapped("nearly overfull, and just in time", case, &figures);
    }
}

/// A NAND of two rows of four inverters has as many trade-offs as each while their leaves arrive at once, or so far apart
/// that one row never matters; 5 apart, it has 57.
fn overfull_by_arrival(table: &mut Table) {
    let mut library = graded();
    library.cells.push(cell(1, 255, pin(0, 1, 0), NAND));
    for stated in [0, 5, 1_000] {
        let rows = [chain(4, &[leaf(0)]), chain(4, &[leaf(stated)])].concat();
        let pair = at_leisure(&[vec![Nand], rows].concat());
        for (arrival, is_overfull) in [(0, false), (5, true), (1_000, false)] {
            let case = Draft::new(library.clone(), vec![only(leaf(arrival)), pair.clone()], &[(1, 10, 0)]).case();
            if is_overfull {
                table.refused("overfull by a linked arrival", case, 7, 0, 1);
            } else {
                table.mapped("not overfull by a linked arrival", case, &[(0, arrival), (9, arrival + 321)]);
            }
        }
    }
}
