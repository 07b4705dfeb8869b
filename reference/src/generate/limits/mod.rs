//! Sheets on both sides of every limit, each with the verdict it must get.

mod faults;
mod head;
mod patterns;
mod trees;

use super::damage::Kind;
use super::parts::{cell, pin, INVERTER, NAND};
use crate::form::{Form, Role};
use crate::library::{Cell, Library};
use crate::refusal::{Refusal, IN_TREE};
use crate::shape::Step;
use crate::verdict::Verdict;

pub struct Row {
    pub name: String,
    pub kind: Kind,
    pub bytes: Vec<u8>,
    pub verdict: Verdict,
}

pub fn rows() -> Vec<Row> {
    let mut table = Table { rows: Vec::new() };
    head::add(&mut table);
    patterns::add(&mut table);
    faults::add(&mut table);
    trees::add(&mut table);
    table.rows
}

struct Table {
    rows: Vec<Row>,
}

impl Table {
    fn row(&mut self, name: &str, kind: Kind, bytes: Vec<u8>, verdict: Verdict) {
        self.rows.push(Row { name: name.to_string(), kind, bytes, verdict });
    }

    fn library(&mut self, name: &str, form: &Form, cells: usize, patterns: usize) {
        self.row(name, Kind::Library, form.bytes(), Verdict::Library { cells, patterns });
    }

    fn tree(&mut self, name: &str, form: &Form, nodes: usize) {
        self.row(name, Kind::Tree, form.bytes(), Verdict::Tree { nodes });
    }

    fn refused(&mut self, name: &str, bytes: Vec<u8>, number: u32, place: usize) {
        self.row(name, kind_of(number), bytes, Verdict::Refused(Refusal::new(number, place)));
    }

    /// A form refused at one of its fields.
    fn refused_at(&mut self, name: &str, form: &Form, field: usize, number: u32) {
        self.refused(name, form.bytes(), number, form.place(field));
    }

    /// One value of a form is changed, and refused at its own field.
    fn value_refused(&mut self, name: &str, form: &Form, field: usize, value: u32, number: u32) {
        self.refused_at(name, &form.with(field, value), field, number);
    }

    /// A sound form, and then with each bit of the last byte's rest set, and with bytes after it.
    fn tails(&mut self, form: &Form, number: u32, verdict: Verdict) {
        let bytes = form.bytes();
        let end = form.place(form.fields.len());
        self.row("sound tail", kind_of(number), bytes.clone(), verdict);
        for bit in end..bytes.len() * 8 {
            let mut tailed = bytes.clone();
            tailed[bit / 8] |= 128 >> (bit % 8);
            self.refused("bit in the tail", tailed, number, end);
        }
        for more in [&[0][..], &[1], &[255], &[0, 0], &[0, 9]] {
            self.refused("bytes after the tail", followed_by(&bytes, more), number, end);
        }
    }
}

/// The kind of sheet whose refusal has this number.
fn kind_of(number: u32) -> Kind {
    if number > IN_TREE {
        Kind::Tree
    } else {
        Kind::Library
    }
}

fn followed_by(bytes: &[u8], more: &[u8]) -> Vec<u8> {
    [bytes, more].concat()
}

fn inverter() -> Cell {
    cell(1, 4, pin(0, 4, 2), INVERTER)
}

fn nand() -> Cell {
    cell(2, 4, pin(0, 6, 2), NAND)
}

fn with_cells(cells: Vec<Cell>) -> Form {
    Form::of_library(&Library { bins: vec![1, 2], cells })
}

/// One cell with `pin_count` pins and one pattern, which need not be sound.
fn drawn(pin_count: usize, steps: &[Step]) -> Form {
    let drawing = cell(1, 4, pin(0, 4, 2), steps);
    with_cells(vec![Cell { pins: vec![pin(0, 4, 2); pin_count], ..drawing }])
}

/// The last field of a role.
fn last(form: &Form, role: Role) -> usize {
    *form.find(role).last().unwrap()
}
