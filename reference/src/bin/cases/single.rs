//! Single problems as files of their own: the input of a program and what it is to print.

use reference::form::Form;
use reference::generate::functions::{Case, Draft};
use reference::generate::parts::{leaf, tree};
use reference::generate::problem::Problem;
use reference::generate::{bills, linked, longest, specimen};
use reference::shape::Step::Inv;
use reference::{bill, merging, text};
use std::io;
use std::path::Path;

pub fn write(directory: &Path) -> io::Result<()> {
    let put = |name: &str, bytes: &[u8]| std::fs::write(directory.join(name), bytes);
    put("longest.library", &Form::of_library(&longest::library()).bytes())?;
    put("longest.tree", &Form::of_tree(&longest::tree()).bytes())?;
    let Case { library, functions } = Draft::of(specimen::library()).case();
    put("specimen.library", &library)?;
    put("specimen.functions", &functions)?;
    put("specimen.part", &chain_of_two().case().part)?;
    let Case { library, functions } = Draft::of(longest::agreeing_library()).case();
    put("longest_functions.library", &library)?;
    put("longest_functions.functions", &functions)?;
    let specimen = input(&Problem { library: specimen::library(), tree: specimen::tree_b() });
    put("specimen.input", &specimen)?;
    put("specimen.expected", text::printed(&specimen).as_bytes())?;
    let example = Problem { library: specimen::example_library(), tree: specimen::example_tree(39) };
    put("example003.input", &input(&example))?;
    put("example003.expected", list_text(&example).as_bytes())?;
    let billed = bills::whole(&bills::shipped().case());
    put("bill.input", &billed)?;
    put("bill.expected", bill::printed(&billed).as_bytes())
}

/// Two inverters; the leaf of the second, stated at 100, takes the arrival of the first.
fn chain_of_two() -> linked::Draft {
    let trees = vec![tree(1, 6, &[Inv, leaf(0)]), tree(1, 12, &[Inv, leaf(100)])];
    linked::Draft::new(specimen::library(), trees, &[(1, 1, 0)])
}

fn input(problem: &Problem) -> Vec<u8> {
    text::input(&problem.library_sheet(), &problem.tree_sheet())
}

/// `list` and the count, and a line of arrival and area for each trade-off.
fn list_text(problem: &Problem) -> String {
    let pairs = merging::list(&problem.library, &problem.tree).expect("a list");
    let lines: String = pairs.iter().map(|pair| format!("{} {}\n", pair.arrival, pair.area)).collect();
    format!("list {}\n{lines}", pairs.len())
}
