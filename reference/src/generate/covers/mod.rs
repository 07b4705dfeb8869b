//! Covers for the judge of covers: legal ones, drawn at random, and ones with something wrong.

pub mod damage;
pub mod draw;
mod others;

use super::problem::Problem;
use crate::cover::{Cover, Pair, Placed};
use crate::form::{Form, Role};
use crate::judging::{self, Judged};

/// Three sheets.
#[derive(Clone, PartialEq, Eq, Hash, Debug)]
pub struct Case {
    pub library: Vec<u8>,
    pub tree: Vec<u8>,
    pub cover: Vec<u8>,
}

impl Case {
    pub fn new(problem: &Problem, cover: &Form) -> Case {
        Case { library: problem.library_sheet(), tree: problem.tree_sheet(), cover: cover.bytes() }
    }

    pub fn judged(&self) -> Judged {
        judging::judge(&self.library, &self.tree, &self.cover)
    }

    /// The bytes of the sheets.
    pub fn length(&self) -> usize {
        self.library.len() + self.tree.len() + self.cover.len()
    }
}

/// A problem, a cover of it, and the match count that its sheet is to state: to be edited.
#[derive(Clone, Debug)]
pub struct Draft {
    pub problem: Problem,
    pub cover: Cover,
    pub count: usize,
}

impl Draft {
    pub fn new(problem: Problem, cover: Cover) -> Draft {
        let count = cover.matches.len();
        Draft { problem, cover, count }
    }

    /// The legal cover that these matches are, with its figures.
    pub fn legal(problem: Problem, matches: Vec<Placed>) -> Draft {
        let figures = judging::figures(&problem.library, &problem.tree, &matches);
        let Pair { arrival, area } = figures.expect("a legal cover");
        Draft::new(problem, Cover { area, arrival, matches })
    }

    /// The cover sheet's fields; of the count only what its field holds.
    pub fn form(&self) -> Form {
        let form = Form::of_cover(&self.cover);
        let field = form.find(Role::MatchCount)[0];
        form.with(field, self.count as u32 % 64)
    }

    pub fn case(&self) -> Case {
        Case::new(&self.problem, &self.form())
    }

    /// The same with other matches and their number.
    pub fn with_matches(&self, matches: Vec<Placed>) -> Draft {
        Draft::new(self.problem.clone(), Cover { matches, ..self.cover.clone() })
    }

    /// The same with the arrival as it would be if every leaf drove one load; as it is, if the cover is not legal.
    pub fn charged(&self, load: u32) -> Draft {
        let tree = self.problem.tree.charged(load);
        let figures = judging::figures(&self.problem.library, &tree, &self.cover.matches);
        let mut charged = self.clone();
        charged.cover.arrival = figures.map_or(self.cover.arrival, |pair| pair.arrival);
        charged
    }

    /// The same with another required time.
    pub fn due(&self, required: u32) -> Draft {
        let mut due = self.clone();
        due.problem.tree.required = required;
        due
    }
}
