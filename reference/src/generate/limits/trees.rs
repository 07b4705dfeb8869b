//! Trees.

use super::super::parts::{self, chain, counted_comb, driven, leaf};
use super::{followed_by, Table};
use crate::form::{Field, Form, Role};
use crate::generate::longest;
use crate::shape::Step::{self, Inv, Leaf, Nand};
use crate::tree::{TreeLeaf, LATEST_LEAF};
use crate::verdict::Verdict;

pub fn add(table: &mut Table) {
    values(table);
    driven_values(table);
    code_three(table);
    nodes(table);
    driven_nodes(table);
    tails(table);
    truncated(table);
    truncated_drives(table);
    first_of_two(table);
    first_of_two_when_driven(table);
}

fn tree<L: Copy + Into<TreeLeaf>>(steps: &[Step<L>]) -> Form {
    Form::of_tree(&parts::tree(1, 5, steps))
}

fn values(table: &mut Table) {
    let form = tree(&[Nand, Leaf(3), Leaf(0)]);
    for load in [0, 1, 255] {
        table.tree("root load", &form.with(0, load), 3);
    }
    for required in [0, 1, 16_777_215] {
        table.tree("required time", &form.with(1, required), 3);
    }
    arrivals(table, &form, 3);
}

/// Every arrival of a form about its limits.
fn arrivals(table: &mut Table, form: &Form, nodes: usize) {
    for field in form.find(Role::Arrival) {
        for arrival in [0, 1, 999_999, 1_000_000] {
            table.tree("arrival", &form.with(field, arrival), nodes);
        }
        for arrival in [1_000_001, 1_048_575] {
            table.value_refused("arrival", form, field, arrival, 14);
        }
    }
}

/// A drive has no limit but its width.
fn driven_values(table: &mut Table) {
    for steps in [&[driven(3, 2)][..], &[Nand, driven(3, 2), leaf(0)], &[Nand, Inv, leaf(9), driven(3, 2)]] {
        let form = tree(steps);
        arrivals(table, &form, steps.len());
        for field in form.find(Role::Drive) {
            for drive in [0, 1, 2, 127, 128, 254, 255] {
                table.tree("drive", &form.with(field, drive), steps.len());
            }
        }
    }
}

/// A leaf's code becomes 3: its drive is what comes next, and is lacking at the end. A gate's becomes 3: the codes and
/// numbers below it are an arrival and a drive.
fn code_three(table: &mut Table) {
    let form = tree(&[Nand, Leaf(3), Leaf(0)]);
    let codes = form.find(Role::Code);
    table.refused("last leaf of code 3", form.with(codes[2], 3).bytes(), 12, 78);
    table.refused("a tree of one leaf of code 3", tree(&[Leaf(7)]).with(2, 3).bytes(), 12, 54);
    table.refused("root of code 3, then more", form.with(codes[0], 3).bytes(), 13, 62);
    // The second leaf's code and its first six bits are the drive; the code after it is 0 and its arrival is torn.
    table.refused("first leaf of code 3", form.with(codes[1], 3).bytes(), 12, 66);
}

fn nodes(table: &mut Table) {
    table.tree("one leaf", &tree(&[Leaf(7)]), 1);
    table.tree("63 nodes", &tree(&counted_comb(32)), 63);
    table.tree("64 nodes in a chain", &tree(&chain(63, &[Leaf(9)])), 64);
    table.tree("64 nodes", &tree(&chain(1, &counted_comb(32))), 64);
    for steps in [chain(64, &[Leaf(0)]), counted_comb(33), chain(2, &counted_comb(32)), chain(70, &counted_comb(4))] {
        let form = tree(&steps);
        let code = form.find(Role::Code)[64];
        for value in 0..4 {
            table.value_refused("65 nodes", &form, code, value, 16);
        }
    }
    let form = tree(&chain(64, &[Leaf(0)]));
    table.refused("65th node truncated", form.bytes()[..20].to_vec(), 12, 160);
    table.refused("64th node of code 3", form.with(form.find(Role::Code)[63], 3).bytes(), 12, 180);
}

/// One node too many comes before all that there is to say of its code.
fn driven_nodes(table: &mut Table) {
    let comb = |leaves: usize| parts::comb(&vec![TreeLeaf::driven(LATEST_LEAF, 255); leaves]);
    table.tree("63 nodes, all leaves driven", &tree(&comb(32)), 63);
    table.tree("64 nodes, all leaves driven", &tree(&chain(1, &comb(32))), 64);
    table.tree("the longest tree", &Form::of_tree(&longest::tree()), 64);
    table.tree("64 nodes, the last driven", &tree(&chain(63, &[driven(9, 9)])), 64);
    for steps in [chain(64, &[driven(0, 0)]), comb(33), chain(2, &comb(32)), chain(64, &[driven(1_000_001, 255)])] {
        let form = tree(&steps);
        table.refused_at("65th node driven", &form, form.find(Role::Code)[64], 16);
    }
    let form = tree(&chain(64, &[driven(0, 0)]));
    table.refused("65th node driven, then truncated", form.bytes()[..21].to_vec(), 16, 160);
    table.refused("before the 65th node", form.bytes()[..20].to_vec(), 12, 160);
}

fn tails(table: &mut Table) {
    let wide = [Nand, Inv, Leaf(1), Nand, Leaf(2), Leaf(3)];
    for steps in [&[Leaf(7)][..], &[Inv, Leaf(0)], &[Nand, Leaf(0), Leaf(1)], &[Inv, Inv, Leaf(0)], &wide] {
        table.tails(&tree(steps), 13, Verdict::Tree { nodes: steps.len() });
    }
    for inverters in 0..4 {
        let steps = chain(inverters, &[driven(7, 255)]);
        table.tails(&tree(&steps), 13, Verdict::Tree { nodes: steps.len() });
    }
}

fn truncated(table: &mut Table) {
    table.refused("empty tree", vec![], 12, 0);
    for (length, place) in [(1, 8), (2, 8), (3, 8), (4, 32), (5, 34), (6, 34)] {
        table.refused("truncated tree", vec![0; length], 12, place);
    }
}

/// Sheets that end before a drive and inside it. A drive begins at an even place, as every field before it has an even
/// width: of its bits 0, 2, 4 or 6 are there.
fn truncated_drives(table: &mut Table) {
    for (inverters, length, place) in [(0, 7, 54), (1, 7, 56), (2, 8, 58), (3, 8, 60), (4, 8, 62), (5, 8, 64)] {
        for leaf in [driven(0, 0), driven(LATEST_LEAF, 255), driven(3, 192)] {
            let bytes = tree(&chain(inverters, &[leaf])).bytes();
            table.refused("torn before or inside a drive", bytes[..length].to_vec(), 12, place);
            table.refused("torn inside its arrival", bytes[..6].to_vec(), 12, 34 + 2 * inverters);
        }
    }
    for (inverters, first, second) in [(0, 56_usize, 86), (1, 58, 88), (2, 60, 90), (3, 62, 92)] {
        let bytes = tree(&chain(inverters, &[Nand, driven(7, 255), driven(8, 255)])).bytes();
        for place in [first, second] {
            table.refused("torn in either drive", bytes[..place.div_ceil(8)].to_vec(), 12, place);
        }
    }
}

fn first_of_two(table: &mut Table) {
    let form = tree(&[Nand, Leaf(1_000_001), Leaf(0)]);
    let arrival = form.find(Role::Arrival)[0];
    let place = form.place(arrival);
    table.refused("late leaf, then truncated", form.bytes()[..7].to_vec(), 14, place);
    table.refused("late leaf, then a tail", followed_by(&form.bytes(), &[7]), 14, place);
    table.refused_at("late leaf, then code 3", &form.with(form.find(Role::Code)[2], 3), arrival, 14);
    let mut long = tree(&chain(64, &[Leaf(0)]));
    long.fields.push(Field { role: Role::Area, value: 65_535 });
    table.refused("65 nodes and a tail", long.bytes(), 16, 160);
}

fn first_of_two_when_driven(table: &mut Table) {
    let form = tree(&[Inv, driven(1_000_001, 255)]);
    let arrival = form.find(Role::Arrival)[0];
    table.refused("late driven leaf, its drive torn", form.bytes()[..7].to_vec(), 14, form.place(arrival));
    table.refused("late driven leaf, then a tail", followed_by(&form.bytes(), &[1]), 14, form.place(arrival));
    let form = tree(&[Nand, driven(0, 255), driven(1_000_001, 0)]);
    let arrival = form.find(Role::Arrival)[1];
    table.refused_at("second driven leaf late", &form, arrival, 14);
    table.refused("second driven leaf late and torn", form.bytes()[..11].to_vec(), 14, form.place(arrival));
    table.refused("second driven leaf torn before it is late", form.bytes()[..10].to_vec(), 12, form.place(arrival));
}
