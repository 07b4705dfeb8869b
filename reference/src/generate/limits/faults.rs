//! Tails of libraries, and several faults at once.

use super::super::parts::{cell, chain, counted_comb, pin, AND};
use super::super::specimen;
use super::{drawn, followed_by, inverter, last, nand, Table};
use crate::form::{Form, Role};
use crate::library::Library;
use crate::shape::Step::{Inv, Leaf};
use crate::verdict::Verdict;

pub fn add(table: &mut Table) {
    tails(table);
    first_of_two(table);
    truncated(table);
    (1..=6).for_each(|pins| ends_after_sixteen(table, pins));
    lacking_and_more(table);
}

fn tails(table: &mut Table) {
    for bin_count in 1..=4 {
        for first in [inverter(), nand(), cell(3, 4, pin(0, 8, 2), AND)] {
            let library = Library { bins: (1..=bin_count).collect(), cells: vec![first, inverter()] };
            table.tails(&Form::of_library(&library), 3, Verdict::Library { cells: 2, patterns: 2 });
        }
    }
    table.tails(&byte_filled(), 3, Verdict::Library { cells: 1, patterns: 1 });
}

/// A library whose last field ends with its byte.
fn byte_filled() -> Form {
    let drawings = (2..=6).flat_map(|pins| (0..5).map(move |count| (pins, chain(count, &counted_comb(pins)))));
    let mut forms = drawings.map(|(pins, steps)| drawn(pins as usize, &steps));
    forms.find(|form| form.place(form.fields.len()) % 8 == 0).expect("some library fills its bytes")
}

fn first_of_two(table: &mut Table) {
    let form = Form::of_library(&specimen::library());
    let areas = form.find(Role::Area);
    let codes = form.find(Role::Code);
    table.refused_at("two areas 0", &form.with(areas[1], 0).with(areas[0], 0), areas[0], 4);
    table.refused_at("code 3, then area 0", &form.with(codes[0], 3).with(areas[3], 0), codes[0], 4);
    let bytes = form.with(areas[1], 0).bytes();
    table.refused("area 0, then truncated", bytes[..bytes.len() - 1].to_vec(), 4, form.place(areas[1]));
    table.refused("area 0, then a tail", followed_by(&bytes, &[1]), 4, form.place(areas[1]));
}

fn truncated(table: &mut Table) {
    table.refused("empty library", vec![], 2, 0);
    let form = drawn(1, &[Leaf(0)]);
    let code = form.place(last(&form, Role::Code));
    let length = (code + 2).div_ceil(8);
    table.refused("opening leaf, its pin truncated", form.bytes()[..length].to_vec(), 5, code);
}

/// A sheet that stops after a pattern's 16th node, with bits for one more code or without.
fn ends_after_sixteen(table: &mut Table, pins: usize) {
    let mut form = drawn(pins, &chain(16, &[Leaf(0)]));
    form.fields.truncate(form.find(Role::Code)[16]);
    let bytes = form.bytes();
    let end = form.place(form.fields.len());
    let number = if bytes.len() * 8 < end + 2 { 2 } else { 6 };
    table.refused("sheet ends after the 16th node", bytes, number, end);
}

fn lacking_and_more(table: &mut Table) {
    let form = drawn(2, &[Inv, Leaf(0)]);
    let first = form.find(Role::Code)[0];
    table.refused("pin lacking, then a tail", followed_by(&form.bytes(), &[1]), 5, form.place(first));
    table.refused_at("pin lacking, then truncated", &form.with(last(&form, Role::PatternCount), 2), first, 5);
    table.value_refused("pin out of range, one lacking", &form, last(&form, Role::PinNumber), 2, 4);
}
