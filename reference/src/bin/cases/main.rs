//! Writes the stored cases and their expected results into a directory
//! (the first argument; `cases` if there is none).
//!
//! The cases are made in groups, which are counted and checked each by itself and stand in one file one after another.

mod bill;
mod cover;
mod functions;
mod judge;
mod kinds;
mod map;
mod part;
mod single;
mod stored;
mod text;

use std::io;
use std::path::PathBuf;
use stored::Stored;

/// The kinds of cases with driven leaves, as `Stored` counts them, that must not be rare.
const DRIVEN_OPERATIONS: [&str; 5] = [
    "driven leaves, tree: answered",
    "driven leaves, map: answered",
    "driven leaves, map: refused  8",
    "driven leaves, list: answered",
    "driven leaves, treecover: answered",
];
const DRIVEN_COVERS: [&str; 3] = [
    "driven leaves, judge of covers: answered",
    "driven leaves, judge of covers: refused 23",
    "driven leaves, judge of covers: refused 24",
];

fn main() -> io::Result<()> {
    let directory = std::env::args().nth(1).map_or_else(|| PathBuf::from("cases"), PathBuf::from);
    std::fs::create_dir_all(&directory)?;
    single::write(&directory)?;
    let mut stored = operations();
    [covers(), bills(), functions(), parts()].into_iter().for_each(|group| stored.append(group));
    stored.write(&directory, "stored")
}

/// The judges of sheets, map, list and treecover.
fn operations() -> Stored {
    let mut operations = Stored::default();
    judge::add_all(&mut operations);
    map::add_all(&mut operations);
    text::add_all(&mut operations);
    operations.print_size("judges of sheets, map, list and treecover");
    operations.print_histogram();
    operations.check_driven(&DRIVEN_OPERATIONS);
    operations
}

fn covers() -> Stored {
    let mut covers = Stored::default();
    cover::add_all(&mut covers);
    covers.print_size("covers");
    covers.print_histogram();
    covers.check_driven(&DRIVEN_COVERS);
    covers
}

fn bills() -> Stored {
    let mut bills = Stored::default();
    bill::add_all(&mut bills);
    bills.print_size("bills");
    bills.check_driven(&["driven leaves, bill: answered"]);
    bills
}

fn functions() -> Stored {
    let mut functions = Stored::default();
    functions::add_all(&mut functions);
    functions.print_size("functions");
    functions
}

fn parts() -> Stored {
    let mut parts = Stored::default();
    part::add_all(&mut parts);
    parts.print_size("parts");
    parts.print_histogram();
    parts.check_driven(&["driven leaves, part: answered"]);
    parts
}
