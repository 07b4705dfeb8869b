//! Problems made by hand, each with what its list of trade-offs must be.

mod crossings;
mod drivers;
mod loads;
mod overfull;
mod points;
mod unions;

use super::parts::{cell, pin, tree};
use super::problem::Problem;
use crate::cover::Placed;
use crate::library::{Cell, Library};
use crate::refusal::OVERFULL;
use crate::shape::Step;
use crate::tree::TreeLeaf;

/// What the list operation says.
#[derive(Clone, Copy, PartialEq, Eq, Debug)]
pub enum Outcome {
    /// So many trade-offs.
    Points(usize),
    /// One trade-off, of this arrival and area.
    Single(u32, u32),
    Refused(u32, u32),
}

pub struct Chosen {
    pub name: String,
    pub problem: Problem,
    pub outcome: Outcome,
    /// Where it is stated, what map hands over at the latest required time.
    pub matches: Option<Vec<Placed>>,
}

pub fn all() -> Vec<Chosen> {
    let mut table = Table { rows: Vec::new() };
    overfull::add(&mut table);
    unions::add(&mut table);
    loads::add(&mut table);
    points::add(&mut table);
    crossings::add(&mut table);
    drivers::add(&mut table);
    table.rows
}

struct Table {
    rows: Vec<Chosen>,
}

impl Table {
    fn add<L: Copy + Into<TreeLeaf>>(
        &mut self,
        name: &str,
        library: &Library,
        root_load: u32,
        steps: &[Step<L>],
        outcome: Outcome,
    ) {
        let problem = Problem { library: library.clone(), tree: tree(root_load, 0, steps) };
        self.rows.push(Chosen { name: name.to_string(), problem, outcome, matches: None });
    }

    /// One trade-off under root load 1, and the cover that reaches it, as nodes, patterns and crossings.
    fn add_cover<L: Copy + Into<TreeLeaf>>(
        &mut self,
        name: &str,
        library: &Library,
        steps: &[Step<L>],
        (arrival, area): (u32, u32),
        matches: &[(usize, usize, u32)],
    ) {
        self.add(name, library, 1, steps, Outcome::Single(arrival, area));
        let placed = matches.iter().map(|&(node, pattern, crossing)| Placed { node, pattern, crossing });
        self.rows.last_mut().expect("the row just added").matches = Some(placed.collect());
    }
}

/// More than 31 points are overfull at `node`; else there are so many.
fn points_at(node: u32, points: usize) -> Outcome {
    if points > 31 {
        Outcome::Refused(OVERFULL, node)
    } else {
        Outcome::Points(points)
    }
}

/// Cells of one drawing, each larger and faster than the one before; no two are equal.
fn grades(count: usize, steps: &[Step]) -> Vec<Cell> {
    let count = count as u32;
    (0..count).map(|grade| cell(grade + 1, 255, pin(0, 10 * (count - grade), 0), steps)).collect()
}

/// One cell, of area 1 and delay 1.
fn plain(steps: &[Step]) -> Cell {
    cell(1, 255, pin(0, 1, 0), steps)
}

fn library(bins: &[u32], cells: Vec<Cell>) -> Library {
    Library { bins: bins.to_vec(), cells }
}

/// Cells before or after others.
fn with(mut cells: Vec<Cell>, more: Vec<Cell>) -> Vec<Cell> {
    cells.extend(more);
    cells
}
