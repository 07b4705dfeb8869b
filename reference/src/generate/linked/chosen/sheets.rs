//! Trees of a part that are torn, have a tail, a value out of range, or too many nodes.

use super::{at_leisure, inverter, nand, only, part, Case, Draft, Table, Triple};
use crate::form::{Form, Role};
use crate::generate::damage::flipped_at;
use crate::generate::parts::{chain, driven, leaf};
use crate::part::MOST_TREES;
use crate::shape::Step::Nand;
use crate::tree::{LATEST_LEAF, MOST_TREE_NODES};

pub fn add(table: &mut Table) {
    for count in [1, 2, 3, MOST_TREES] {
        let draft = part(vec![nand(); count], &links(count));
        let mut numbers = vec![0, count / 2, count - 1];
        numbers.dedup();
        for number in numbers {
            values(table, &draft, number);
            nodes(table, &draft, number);
            tails(table, &draft, number);
            torn(table, &draft, number);
        }
        bytes_after(table, &draft);
    }
    bytes_between(table);
    empty_tails(table);
}

/// Each tree drives the next.
fn links(count: usize) -> Vec<Triple> {
    (1..count).map(|tree| (tree, 2, tree - 1)).collect()
}

fn values(table: &mut Table, draft: &Draft, number: usize) {
    let form = Form::of_tree(&draft.part.trees[number]);
    for (field, place) in form.find(Role::Arrival).into_iter().zip([36, 58]) {
        for arrival in [LATEST_LEAF + 1, (1 << 20) - 1] {
            let case = draft.with_tree(number, form.with(field, arrival).bytes());
            table.refused("a late leaf of a tree", case, 14, place, number);
        }
    }
    let weak = Form::of_tree(&at_leisure(&[Nand, leaf(0), driven(LATEST_LEAF + 1, 9)]));
    table.refused("a late driven leaf", draft.with_tree(number, weak.bytes()), 14, 58, number);
}

fn nodes(table: &mut Table, draft: &Draft, number: usize) {
    // One inverter too many: the 65th node's code stands at 32 + 2 × 64.
    let long = Form::of_tree(&at_leisure(&chain(MOST_TREE_NODES, &[leaf(0)])));
    table.refused("65 nodes", draft.with_tree(number, long.bytes()), 16, 160, number);
}

fn tails(table: &mut Table, draft: &Draft, number: usize) {
    let sheet = Form::of_tree(&draft.part.trees[number]).bytes();
    for bit in 78..80 {
        table.refused("a bit after a tree", draft.with_tree(number, flipped_at(&sheet, bit)), 13, 78, number);
    }
}

/// The part ends inside a tree, before it, or inside its last field.
fn torn(table: &mut Table, draft: &Draft, number: usize) {
    let sheets = draft.tree_sheets();
    let begin = draft.head().bytes().len() + sheets[..number].concat().len();
    let case = draft.case();
    for (length, place) in [(0, 0), (1, 8), (3, 8), (4, 32), (5, 36), (7, 56), (8, 58), (9, 58)] {
        let part = case.part[..begin + length].to_vec();
        table.refused("torn in a tree", Case { part, ..case.clone() }, 12, place, number);
    }
}

/// No byte may follow the last tree, whatever it is.
fn bytes_after(table: &mut Table, draft: &Draft) {
    let last = draft.part.trees.len() - 1;
    let case = draft.case();
    for more in [&[0][..], &[1], &[255], &[0, 0], &[0, 9], &draft.tree_sheets()[last]] {
        let part = [&case.part, more].concat();
        table.refused("bytes after the last tree", Case { part, ..case.clone() }, 13, 78, last);
    }
}

/// A zero byte between trees is the beginning of the next. The sheet of `inverter` is 01 ff ff ff 40 00 00; after a zero
/// byte it is load 0, required time 01 ff ff, and code 3: arrival f4000, drive 0.
fn bytes_between(table: &mut Table) {
    let zero = |sheet: Vec<u8>| [sheet, vec![0]].concat();
    let sheet = Form::of_tree(&inverter()).bytes();
    assert_eq!(sheet, [0x01, 0xff, 0xff, 0xff, 0x40, 0x00, 0x00]);
    let draft = part(vec![inverter(); 3], &[]);
    for number in [0, 1] {
        let case = draft.with_tree(number, zero(sheet.clone()));
        table.refused("a zero byte after a tree", case, 14, 34, number + 1);
    }
    // Four zero bytes are a load and a time, and what follows is a leaf: code 0, arrival 07fff, and two set bits.
    let four = draft.with_tree(0, [sheet.clone(), vec![0; 4]].concat());
    table.refused("four zero bytes after a tree", four, 13, 54, 1);
    // Seven of them are a whole tree, a leaf at 0.
    let seven = Draft::new(draft.library.clone(), draft.part.trees[..2].to_vec(), &[]);
    let case = seven.with_bytes(&draft.head().bytes(), &[sheet.clone(), vec![0; 7], sheet]);
    table.mapped("seven zero bytes are a tree", case, &[(1, 6), (0, 0), (1, 6)]);
}

/// Trees whose last field ends with its byte have no tail at all.
fn empty_tails(table: &mut Table) {
    let filled = Form::of_tree(&inverter());
    assert_eq!(filled.place(filled.fields.len()), 56);
    let draft = part(vec![inverter(), inverter()], &[(1, 1, 0)]);
    table.mapped("trees without a tail", draft.case(), &[(1, 6), (1, 12)]);
    let case = draft.case();
    let part = [&case.part[..], &[0]].concat();
    table.refused("a byte after such a tree", Case { part, ..case }, 13, 56, 1);
    let lone = super::part(vec![only(leaf(5)), only(driven(5, 1))], &[]);
    table.mapped("tails of two bits", lone.case(), &[(0, 5), (0, 6)]);
    for (number, place) in [(0, 54), (1, 62)] {
        let sheet = &lone.tree_sheets()[number];
        for bit in place..sheet.len() * 8 {
            table.refused("a bit after a leaf", lone.with_tree(number, flipped_at(sheet, bit)), 13, place, number);
        }
    }
}
