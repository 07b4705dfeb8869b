//! Parts made by hand, each with what map must say of it.

mod covers;
mod heads;
mod links;
mod order;
mod sheets;
mod times;

use super::{Case, Draft, Triple};
use crate::generate::parts::{leaf, tree};
use crate::generate::specimen;
use crate::shape::Step::{self, Inv, Nand};
use crate::tree::{Tree, TreeLeaf, LATEST_REQUIRED};

#[derive(Clone, PartialEq, Eq, Debug)]
pub enum Outcome {
    /// Area and arrival of each tree's cover.
    Mapped(Vec<(u32, u32)>),
    Refused {
        number: u32,
        place: usize,
        tree: usize,
    },
}

pub struct Row {
    pub name: String,
    pub case: Case,
    pub outcome: Outcome,
}

pub fn all() -> Vec<Row> {
    let mut table = Table { rows: Vec::new() };
    covers::add(&mut table);
    times::add(&mut table);
    heads::add(&mut table);
    sheets::add(&mut table);
    links::add(&mut table);
    order::add(&mut table);
    table.rows
}

struct Table {
    rows: Vec<Row>,
}

impl Table {
    fn mapped(&mut self, name: &str, case: Case, figures: &[(u32, u32)]) {
        self.rows.push(Row { name: name.to_string(), case, outcome: Outcome::Mapped(figures.to_vec()) });
    }

    /// Refused with a number and place, in a tree (0 if it is none of the trees').
    fn refused(&mut self, name: &str, case: Case, number: u32, place: usize, tree: usize) {
        self.rows.push(Row { name: name.to_string(), case, outcome: Outcome::Refused { number, place, tree } });
    }
}

/// A part under document 01's library.
fn part(trees: Vec<Tree>, links: &[Triple]) -> Draft {
    Draft::new(specimen::library(), trees, links)
}

/// A tree under load 1 that may arrive at any time.
fn at_leisure(steps: &[Step<TreeLeaf>]) -> Tree {
    tree(1, LATEST_REQUIRED, steps)
}

/// An inverter over a leaf at 0, seven bytes: area 1, arrival 6. Node 1 is the leaf.
fn inverter() -> Tree {
    at_leisure(&[Inv, leaf(0)])
}

/// A NAND of leaves at 0, ten bytes with two bits left: area 2, arrival 8. Nodes 1 and 2 are the leaves.
fn nand() -> Tree {
    at_leisure(&[Nand, leaf(0), leaf(0)])
}

/// A leaf and nothing else, seven bytes with two bits left.
fn only(root: Step<TreeLeaf>) -> Tree {
    at_leisure(&[root])
}
