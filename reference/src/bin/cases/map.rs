//! Stored cases of map and list. A record is a kind byte (2 map, 3 list), the lengths of
//! library, tree, output (bytes) and work area (words) in two bytes each, high byte first,
//! the library, and the tree.

use crate::stored::Stored;
use reference::generate::chosen::{self, Outcome};
use reference::generate::damage::{damaged, Kind};
use reference::generate::problem::{any_style, problem, Problem};
use reference::generate::{heavy, specimen};
use reference::hex::hex;
use reference::library::Library;
use reference::merging;
use reference::operation::{Lent, Operation, LEAST_WORK};
use reference::rng::Rng;
use reference::tree::{Tree, LATEST_REQUIRED};

const BOTH: [Operation; 2] = [Operation::Map, Operation::List];

/// Random problems, with all times that tell and with one: as many as the file has room for.
const SWEEPS: usize = 32;
const RANDOM: usize = 560;

pub fn add_all(stored: &mut Stored) {
    specimens(stored);
    for chosen in chosen::all() {
        match chosen.outcome {
            Outcome::Single(arrival, _) if chosen.matches.is_some() => at_its_point(stored, &chosen.problem, arrival),
            _ => sweep(stored, &chosen.problem, if is_small(&chosen.problem.library) { 3 } else { 2 }),
        }
    }
    for (_, problem) in heavy::all() {
        if problem.library_sheet().len() < 2_000 {
            sweep(stored, &problem, 2);
        } else {
            at_three_times(stored, &problem);
        }
    }
    zero_drives(stored);
    lent_lengths(stored);
    order_of_refusals(stored);
    damaged_sheets(stored, 200);
    let mut rng = Rng::new(88);
    for _ in 0..SWEEPS {
        sweep(stored, &any_problem(&mut rng), 4);
    }
    for _ in 0..RANDOM {
        random(stored, &mut rng);
    }
}

fn add(stored: &mut Stored, operation: Operation, lent: Lent, library: &[u8], tree: &[u8]) {
    let kind = if operation == Operation::Map { 2 } else { 3 };
    let numbers = [library.len(), tree.len(), lent.output, lent.work];
    stored.add(kind, &numbers, &[library, tree], line(operation, lent, library, tree));
}

/// A result as a line: the refusal, or the sheet's length and bytes.
pub fn line(operation: Operation, lent: Lent, library: &[u8], tree: &[u8]) -> String {
    let word = if operation == Operation::Map { "cover" } else { "list" };
    match operation.run(lent, library, tree) {
        Err(refusal) => refusal.line(),
        Ok(sheet) => format!("{word} {} {}", sheet.len(), hex(&sheet)),
    }
}

fn ask(stored: &mut Stored, operation: Operation, problem: &Problem) {
    add(stored, operation, Lent::ENOUGH, &problem.library_sheet(), &problem.tree_sheet());
}

fn map_by(stored: &mut Stored, problem: &Problem, required: u32) {
    let tree = Tree { required, ..problem.tree.clone() };
    ask(stored, Operation::Map, &Problem { library: problem.library.clone(), tree });
}

/// The list, and map at the times that tell.
fn sweep(stored: &mut Stored, problem: &Problem, most: usize) {
    ask(stored, Operation::List, problem);
    telling_times(problem, most).into_iter().for_each(|required| map_by(stored, problem, required));
}

/// Map at the arrival of the only trade-off, and just before; if leaves are driven, the list too.
fn at_its_point(stored: &mut Stored, problem: &Problem, arrival: u32) {
    map_by(stored, problem, arrival);
    map_by(stored, problem, arrival - 1);
    if problem.tree.has_driven_leaves() {
        ask(stored, Operation::List, problem);
    }
}

/// The list, and map at the latest time, in the middle of the list, and just before its beginning.
fn at_three_times(stored: &mut Stored, problem: &Problem) {
    ask(stored, Operation::List, problem);
    let pairs = merging::list(&problem.library, &problem.tree).expect("a list");
    for required in [LATEST_REQUIRED, pairs[pairs.len() / 2].arrival, pairs[0].arrival - 1] {
        map_by(stored, problem, required);
    }
}

/// The ends of the scale, and some of the list's arrivals with the times just before; if the library is small, also
/// with those just after.
fn telling_times(problem: &Problem, most: usize) -> Vec<u32> {
    let mut times = vec![0, LATEST_REQUIRED];
    let after = is_small(&problem.library) as u32;
    if let Ok(pairs) = merging::list(&problem.library, &problem.tree) {
        let arrivals = pairs.iter().step_by(pairs.len().div_ceil(most)).chain(pairs.last());
        times.extend(arrivals.flat_map(|pair| pair.arrival.saturating_sub(1)..=pair.arrival + after));
    }
    times.sort();
    times.dedup();
    times
}

fn is_small(library: &Library) -> bool {
    library.cells.len() < 10
}

/// With plain leaves, and with driven leaves of drive 0, which change nothing.
fn specimens(stored: &mut Stored) {
    for drive in [None, Some(0)] {
        for tree in specimen::trees() {
            let problem = Problem { library: specimen::library(), tree: tree.with_drive(drive) };
            BOTH.iter().for_each(|&operation| ask(stored, operation, &problem));
        }
        let tree = specimen::example_tree(39).with_drive(drive);
        sweep(stored, &Problem { library: specimen::example_library(), tree }, 31);
    }
}

/// Problems of many kinds with driven leaves of drive 0 in place of their plain leaves, which stand in the file too.
fn zero_drives(stored: &mut Stored) {
    let few_cells = |chosen: &chosen::Chosen| chosen.problem.library.cells.len() < 4;
    let plain = |chosen: &chosen::Chosen| !chosen.problem.tree.has_driven_leaves();
    for chosen in chosen::all().into_iter().filter(plain).filter(few_cells).step_by(9) {
        let Problem { library, tree } = chosen.problem;
        sweep(stored, &Problem { library, tree: tree.with_drive(Some(0)) }, 3);
    }
    let Problem { library, tree } = heavy::typical();
    at_three_times(stored, &Problem { library, tree: tree.with_drive(Some(0)) });
}

/// Outputs and work areas short by one, just long enough, and longer, for the longest of covers.
fn lent_lengths(stored: &mut Stored) {
    let problem = heavy::deepest();
    let (library, tree) = (problem.library_sheet(), problem.tree_sheet());
    for operation in BOTH {
        for output in [0, 1, 108, 109, 148, 149, 150, 178, 179, 180, 1_000] {
            for work in [0, 1, LEAST_WORK - 1, LEAST_WORK, LEAST_WORK + 1, 12_345] {
                add(stored, operation, Lent { output, work }, &library, &tree);
            }
        }
    }
}

/// Inputs at fault in several ways, of which the first in order is said.
fn order_of_refusals(stored: &mut Stored) {
    let is_overfull = |chosen: &chosen::Chosen| chosen.name == "overfull under a root without cover";
    let overfull = chosen::all().into_iter().find(is_overfull).expect("that problem").problem;
    let (library, tree) = (overfull.library_sheet(), overfull.tree_sheet());
    for lent in [Lent::ENOUGH, Lent { output: 148, work: LEAST_WORK }, Lent { output: 200, work: LEAST_WORK - 1 }] {
        for library in [&library[..], &library[1..], &[]] {
            for tree in [&tree[..], &tree[..tree.len() - 1], &[]] {
                BOTH.iter().for_each(|&operation| add(stored, operation, lent, library, tree));
            }
        }
    }
}

fn damaged_sheets(stored: &mut Stored, count: usize) {
    let mut rng = Rng::new(77);
    let good = Problem { library: specimen::library(), tree: specimen::driven_tree() };
    for _ in 0..count {
        let mut library = if rng.once_in(2) { good.library_sheet() } else { damaged(&mut rng, Kind::Library, 1) };
        let tree = if rng.once_in(3) { good.tree_sheet() } else { damaged(&mut rng, Kind::Tree, 1) };
        library.truncate(300);
        add(stored, rng.pick(&BOTH), Lent::ENOUGH, &library, &tree);
    }
}

pub fn any_problem(rng: &mut Rng) -> Problem {
    let style = any_style(rng);
    problem(rng, style)
}

fn random(stored: &mut Stored, rng: &mut Rng) {
    let problem = any_problem(rng);
    let operation = rng.pick(&[Operation::Map, Operation::Map, Operation::List]);
    let lent = Lent { output: operation.least_output() + rng.below(30), work: LEAST_WORK + rng.below(20) };
    add(stored, operation, lent, &problem.library_sheet(), &problem.tree_sheet());
}
