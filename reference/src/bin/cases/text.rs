//! Stored cases of treecover's text. A record is a kind byte (4), the input's length in two
//! bytes, high byte first, and the input; its result is one or more lines.

use crate::map::any_problem;
use crate::stored::Stored;
use reference::form::Form;
use reference::generate::chosen::{self, Chosen};
use reference::generate::damage::{damaged, Kind};
use reference::generate::specimen;
use reference::rng::Rng;
use reference::text::{input, printed, MOST_INPUT};
use reference::tree::LATEST_REQUIRED;

pub fn add_all(stored: &mut Stored) {
    let library = Form::of_library(&specimen::library()).bytes();
    let zero = specimen::trees().into_iter().map(|tree| tree.with_drive(Some(0)));
    for tree in specimen::trees().into_iter().chain(zero).chain([specimen::driven_tree()]) {
        add(stored, &input(&library, &Form::of_tree(&tree).bytes()));
    }
    driven(stored);
    spoiled(stored, &library);
    let mut rng = Rng::new(404);
    for _ in 0..120 {
        let problem = any_problem(&mut rng);
        add(stored, &input(&problem.library_sheet(), &problem.tree_sheet()));
    }
    for _ in 0..40 {
        let problem = any_problem(&mut rng);
        add(stored, &input(&problem.library_sheet(), &damaged(&mut rng, Kind::Tree, 1)));
        add(stored, &input(&damaged(&mut rng, Kind::Library, 1), &problem.tree_sheet()));
    }
}

fn add(stored: &mut Stored, input: &[u8]) {
    let text = printed(input);
    stored.add(4, &[input.len()], &[input], text.trim_end().to_string());
}

/// The chosen problems with driven leaves whose covers are stated, at the latest required time.
fn driven(stored: &mut Stored) {
    for Chosen { mut problem, .. } in chosen::all().into_iter().filter(|chosen| chosen.matches.is_some()) {
        if problem.tree.has_driven_leaves() {
            problem.tree.required = LATEST_REQUIRED;
            add(stored, &input(&problem.library_sheet(), &problem.tree_sheet()));
        }
    }
}

/// Every length about the limits: of the input, and of what its own length says.
fn spoiled(stored: &mut Stored, library: &[u8]) {
    let whole = input(library, &Form::of_tree(&specimen::tree_b()).bytes());
    for length in 0..=whole.len() {
        add(stored, &whole[..length]);
    }
    for length in [MOST_INPUT - 1, MOST_INPUT, MOST_INPUT + 1] {
        let mut long = whole.clone();
        long.resize(length, 0);
        add(stored, &long);
    }
}
