//! Pattern counts, nodes and leaves.

use super::super::parts::{cell, chain, counted_comb, pin, AOI22, INVERTER, NAND};
use super::{drawn, inverter, last, nand, with_cells, Table};
use crate::form::{Field, Form, Role};
use crate::library::Cell;
use crate::shape::{Shape, Step};
use Step::{Leaf, Nand};

pub fn add(table: &mut Table) {
    counts(table);
    totals(table);
    nodes(table);
    code_three(table);
    opening_leaves(table);
    pin_numbers(table);
    (2..=6).for_each(|pins| lacking_pins(table, pins));
}

/// Inverter cells with these pattern counts.
fn counted(counts: &[usize]) -> Form {
    let cell = |&count: &usize| Cell { patterns: vec![Shape::from_steps(INVERTER); count], ..inverter() };
    with_cells(counts.iter().map(cell).collect())
}

/// The same after 18 cells with 126 patterns.
fn counted_late(counts: &[usize]) -> Form {
    counted(&[&[7; 18], counts].concat())
}

fn counts(table: &mut Table) {
    for count in 1..=7 {
        table.library("patterns", &counted(&[count]), 1, count);
    }
    let form = counted(&[1]);
    table.value_refused("no patterns", &form, last(&form, Role::PatternCount), 0, 4);
}

fn totals(table: &mut Table) {
    table.library("126 patterns", &counted_late(&[]), 18, 126);
    table.library("128 patterns", &counted_late(&[2]), 19, 128);
    table.library("127 patterns and one", &counted_late(&[1, 1]), 20, 128);
    for counts in [&[3][..], &[7], &[2, 1], &[1, 2], &[2, 7]] {
        let form = counted_late(counts);
        table.refused_at("too many patterns", &form, last(&form, Role::PatternCount), 6);
    }
    let form = counted_late(&[2, 1]);
    table.value_refused("none after 128", &form, last(&form, Role::PatternCount), 0, 4);
}

fn nodes(table: &mut Table) {
    table.library("16 nodes in a chain", &drawn(1, &chain(15, &[Leaf(0)])), 1, 1);
    table.library("16 nodes, six pins", &drawn(6, &chain(5, &counted_comb(6))), 1, 1);
    for steps in [chain(16, &[Leaf(0)]), chain(20, &[Leaf(0)]), chain(6, &counted_comb(6)), chain(15, NAND)] {
        let form = drawn(6, &steps);
        table.refused_at("17 nodes", &form, form.find(Role::Code)[16], 6);
    }
    let form = drawn(1, &chain(16, &[Leaf(0)]));
    let codes = form.find(Role::Code);
    table.value_refused("17th node of code 3", &form, codes[16], 3, 6);
    table.value_refused("17th node NAND", &form, codes[16], 2, 6);
    table.value_refused("16th node of code 3", &form, codes[15], 3, 4);
}

/// No leaf of a pattern is driven: at every node, in every pattern, whatever follows.
fn code_three(table: &mut Table) {
    let form = drawn(4, AOI22);
    for code in form.find(Role::Code) {
        table.value_refused("code 3 in a pattern", &form, code, 3, 4);
        table.refused("code 3, then truncated", cut_after(&form.with(code, 3), code), 4, form.place(code));
        table.refused_at("code 3 with arrival and drive", &with_driven_leaf(&form, code), code, 4);
    }
    let form = with_cells(vec![inverter(), nand()]);
    for code in form.find(Role::Code) {
        table.value_refused("code 3 in either pattern", &form, code, 3, 4);
    }
    for steps in [chain(16, &[Leaf(0)]), chain(6, &counted_comb(6))] {
        let form = drawn(6, &steps);
        let code = form.find(Role::Code)[16];
        table.refused_at("17th node driven", &with_driven_leaf(&form, code), code, 6);
    }
}

/// The sheet up to the byte in which a field ends.
fn cut_after(form: &Form, field: usize) -> Vec<u8> {
    form.bytes()[..form.place(field + 1).div_ceil(8)].to_vec()
}

/// The form with a driven leaf, as a tree has them, in place of a node's code.
fn with_driven_leaf(form: &Form, code: usize) -> Form {
    let mut driven = form.clone();
    let fields = [(Role::Code, 3), (Role::Arrival, 5), (Role::Drive, 7)].map(|(role, value)| Field { role, value });
    driven.fields.splice(code..=code, fields);
    driven
}

fn opening_leaves(table: &mut Table) {
    for pin in [0, 1, 7] {
        let form = drawn(1, &[Leaf(pin)]);
        table.refused_at("opening leaf", &form, last(&form, Role::Code), 5);
    }
}

fn pin_numbers(table: &mut Table) {
    for (pins, value) in [(1, 1), (1, 7), (2, 2), (3, 3), (6, 6), (6, 7)] {
        let form = drawn(pins, &chain(1, &counted_comb(pins as u32)));
        table.value_refused("pin out of range", &form, last(&form, Role::PinNumber), value, 4);
    }
    for pins in 2..=6 {
        let form = drawn(pins, &counted_comb(pins as u32));
        let field = last(&form, Role::PinNumber);
        table.value_refused("pin repeated", &form, field, pins as u32 - 2, 5);
        table.value_refused("first pin repeated", &form, field, 0, 5);
    }
    let form = drawn(3, &[Nand, Leaf(1), Nand, Leaf(1), Leaf(3)]);
    table.refused_at("repeated, then out of range", &form, form.find(Role::PinNumber)[1], 5);
}

/// A pattern with a pin too few, as the first and as a later one.
fn lacking_pins(table: &mut Table, pins: usize) {
    let whole = counted_comb(pins as u32);
    let lacking = chain(1, &counted_comb(pins as u32 - 1));
    let form = drawn(pins, &lacking);
    table.refused_at("pin lacking", &form, form.find(Role::Code)[0], 5);
    let mut cell = cell(1, 4, pin(0, 4, 2), &whole);
    cell.patterns.push(Shape::from_steps(&lacking));
    let form = with_cells(vec![cell]);
    table.refused_at("pin lacking later", &form, form.find(Role::Code)[whole.len()], 5);
}
