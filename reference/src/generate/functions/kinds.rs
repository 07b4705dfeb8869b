//! How the cases of the judge of functions are counted.

use super::Case;
use crate::functions::{others, settings, whole_fields};
use crate::library::{self, Cell, Library};
use crate::refusal::{Refusal, IN_FUNCTIONS, OTHER_FUNCTION, TAIL, TRUNCATED};
use crate::verdict::Verdict;

const TORN: u32 = IN_FUNCTIONS + TRUNCATED;
const LOOSE: u32 = IN_FUNCTIONS + TAIL;

/// By what a case is counted: its answer, and that of the function sheet more closely.
pub fn name(case: &Case) -> String {
    let Verdict::Refused(refusal) = case.judged() else { return "accepted".to_string() };
    let closely = library::decode(&case.library).map(|library| closely(&library, &case.functions, refusal));
    format!("refused {:>2}{}", refusal.number, closely.unwrap_or_default())
}

/// The same, and whatever else tells in it.
pub fn kinds(case: &Case) -> Vec<String> {
    let mut kinds = vec![name(case)];
    if let Ok(library) = library::decode(&case.library) {
        kinds.extend(match case.judged() {
            Verdict::Refused(refusal) => of_refused(&library, &case.functions, refusal),
            _ => of_accepted(&library),
        });
    }
    kinds
}

/// What is wrong with the function sheet of a sound library.
fn closely(library: &Library, sheet: &[u8], refusal: Refusal) -> &'static str {
    let place = refusal.place as usize;
    let bits = sheet.len() * 8;
    match refusal.number {
        OTHER_FUNCTION if is_first_drawing(library, place) => " at a first drawing",
        OTHER_FUNCTION => " at a later drawing",
        LOOSE if bits - place < 8 => " by a bit",
        LOOSE => " by a byte",
        _ if bits == place => " before a field",
        _ => " inside a field",
    }
}

fn is_first_drawing(library: &Library, pattern: usize) -> bool {
    let cells = library.cell_numbers();
    pattern == 0 || cells[pattern - 1] != cells[pattern]
}

fn of_accepted(library: &Library) -> Vec<String> {
    let has = |test: fn(&Cell) -> bool| library.cells.iter().any(test);
    let found = [
        ("different drawings of a cell", has(|cell| cell.patterns.iter().any(|drawing| *drawing != cell.patterns[0]))),
        ("a held cell", has(|cell| cell.held)),
        ("a cell of six pins", has(|cell| cell.pins.len() == 6)),
    ];
    found.into_iter().filter(|(_, found)| *found).map(|(kind, _)| format!("accepted with {kind}")).collect()
}

fn of_refused(library: &Library, sheet: &[u8], refusal: Refusal) -> Vec<String> {
    let functions = whole_fields(library, sheet);
    let others: Vec<usize> = others(library, &functions).collect();
    let mut kinds = Vec::new();
    match refusal.number {
        OTHER_FUNCTION => kinds = of_others(library, &others),
        TORN => kinds.push(format!("in a field of {} bits", settings(library.cells[functions.len()].pins.len()))),
        _ => {}
    }
    if refusal.number != OTHER_FUNCTION && !others.is_empty() {
        kinds.push("with a drawing of another function before".to_string());
    }
    kinds.iter().map(|kind| format!("refused {:>2} {kind}", refusal.number)).collect()
}

/// Of the first of some drawings that compute other functions.
fn of_others(library: &Library, others: &[usize]) -> Vec<String> {
    let numbers = library.cell_numbers();
    let [first, last] = [others[0], others[others.len() - 1]].map(|pattern| numbers[pattern]);
    let cell = &library.cells[first];
    let found = [
        ("in a held cell", cell.held),
        ("and at another drawing of its cell", others.len() > 1 && numbers[others[1]] == first),
        ("and in a later cell", last > first),
    ];
    let pins = format!("in a cell of {} pins", cell.pins.len());
    let more = found.into_iter().filter(|(_, found)| *found).map(|(kind, _)| kind.to_string());
    [pins].into_iter().chain(more).collect()
}
