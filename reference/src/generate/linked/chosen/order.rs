//! Faults of several kinds at once: too little lent, the library, the counts and links, the trees, the links' leaves and
//! drivers, and the mapping, in this order.

use super::{at_leisure, inverter, nand, part, Case, Table};
use crate::form::{Form, Role};
use crate::generate::damage::flipped_at;
use crate::generate::parts::{chain, leaf, tree};
use crate::operation::{Lent, LEAST_WORK};
use crate::part::LEAST_OUTPUT;
use crate::shape::Step::Inv;
use crate::tree::{LATEST_LEAF, MOST_TREE_NODES};

/// Number, place and tree.
type Said = (u32, usize, usize);

/// The faults by rank, as they are made in a part of three trees.
const FAULTS: [(Fault, Said); 8] = [
    (Fault::Lent, (1, 0, 0)),
    (Fault::Library, (2, 343, 0)),
    (Fault::Number, (41, 13, 0)),
    (Fault::Tail, (41, 69, 0)),
    (Fault::Middle, (13, 78, 1)),
    (Fault::Last, (13, 78, 2)),
    (Fault::Leaf, (41, 31, 0)),
    (Fault::Driver, (42, 2, 0)),
];

#[derive(Clone, Copy, PartialEq)]
enum Fault {
    Lent,
    /// A byte is missing.
    Library,
    /// The first link's reading tree.
    Number,
    /// After the links.
    Tail,
    /// Sheets of trees.
    Middle,
    Last,
    /// Of the second link.
    Leaf,
    /// Of the third link.
    Driver,
}

pub fn add(table: &mut Table) {
    for chosen in 0..1 << FAULTS.len() {
        let faults = FAULTS.iter().enumerate().filter(|(rank, _)| chosen >> rank & 1 == 1).map(|(_, fault)| *fault);
        let faults: Vec<(Fault, Said)> = faults.collect();
        let case = case(|fault| faults.iter().any(|(other, _)| *other == fault));
        let (number, place, tree) = faults.first().map_or((8, 0, 0), |(_, said)| *said);
        table.refused("several faults", case, number, place, tree);
    }
    trees_and_links(table);
    library_and_part(table);
}

/// A tree's fault, wherever it is, comes before those of a link that could be seen without it.
fn trees_and_links(table: &mut Table) {
    let form = Form::of_tree(&nand());
    let sheet = form.bytes();
    let long = Form::of_tree(&at_leisure(&chain(MOST_TREE_NODES, &[leaf(0)]))).bytes();
    let late = form.with(form.find(Role::Arrival)[0], LATEST_LEAF + 1).bytes();
    let faults = [(13, 78, flipped_at(&sheet, 79)), (14, 36, late), (16, 160, long)];
    let links = [(1, 0, 0), (1, 9, 0), (2, 1, 0), (1, 1, 1), (1, 1, 2), (0, 1, 0), (1, 0, 2)];
    for link in links {
        let draft = part(vec![nand(); 3], &[(2, 1, 1), link]);
        for number in 0..3 {
            for (refusal, place, sheet) in &faults {
                let case = draft.with_tree(number, sheet.clone());
                table.refused("a tree and a link", case, *refusal, *place, number);
            }
            let case = draft.case();
            let end = draft.head().bytes().len() + number * sheet.len() + 8;
            let part = case.part[..end].to_vec();
            table.refused("a torn tree and a link", Case { part, ..case }, 12, 58, number);
        }
    }
}

/// A part with four links whose first tree has no cover in time.
fn case(has: impl Fn(Fault) -> bool) -> Case {
    let hopeless = tree(1, 0, &[Inv, leaf(0)]);
    let reading = if has(Fault::Number) { 3 } else { 1 };
    let leaf = if has(Fault::Leaf) { 0 } else { 2 };
    let driving = if has(Fault::Driver) { 2 } else { 1 };
    let links = [(reading, 1, 0), (1, leaf, 0), (2, 1, driving), (2, 2, 0)];
    let draft = part(vec![hopeless, nand(), nand()], &links);
    let mut head = draft.head().bytes();
    if has(Fault::Tail) {
        head = flipped_at(&head, 69);
    }
    let mut trees = draft.tree_sheets();
    for (fault, tree) in [(Fault::Middle, 1), (Fault::Last, 2)] {
        if has(fault) {
            trees[tree] = flipped_at(&trees[tree], 79);
        }
    }
    let mut case = draft.with_bytes(&head, &trees);
    if has(Fault::Library) {
        case.library.pop();
    }
    if has(Fault::Lent) {
        case.lent.output -= 1;
    }
    case
}

/// Library and part each sound, torn, with a tail, or empty, with enough lent and with too little.
fn library_and_part(table: &mut Table) {
    let draft = part(vec![inverter(), nand()], &[(1, 2, 0)]);
    let sound = draft.case();
    let libraries = [(0, sound.library.clone()), (1, cut(&sound.library)), (2, more(&sound.library)), (3, vec![])];
    let parts = [(0, sound.part.clone()), (1, cut(&sound.part)), (2, more(&sound.part)), (3, vec![])];
    let end = Form::of_library(&draft.library);
    let end = end.place(end.fields.len());
    for (library_fault, library) in libraries {
        for (part_fault, part) in &parts {
            let case = Case { library: library.clone(), part: part.clone(), ..sound.clone() };
            too_little(table, &case);
            match (library_fault, part_fault) {
                (1, _) => table.refused("a torn library", case, 2, LAST_FIELD, 0),
                (2, _) => table.refused("a byte after the library", case, 3, end, 0),
                (3, _) => table.refused("no library", case, 2, 0, 0),
                (_, 0) => table.mapped("both sound", case, &[(1, 6), (2, 14)]),
                (_, 1) => table.refused("a torn part", case, 12, 58, 1),
                (_, 2) => table.refused("a byte after the part", case, 13, 78, 1),
                _ => table.refused("no part", case, 41, 0, 0),
            }
        }
    }
}

/// Where the last field of the specimen library begins that is torn without its last byte.
const LAST_FIELD: usize = 343;

fn cut(sheet: &[u8]) -> Vec<u8> {
    sheet[..sheet.len() - 1].to_vec()
}

fn more(sheet: &[u8]) -> Vec<u8> {
    [sheet, &[0]].concat()
}

fn too_little(table: &mut Table, case: &Case) {
    for (output, work) in [(LEAST_OUTPUT - 1, LEAST_WORK), (LEAST_OUTPUT, LEAST_WORK - 1)] {
        let lent = Lent { output, work };
        table.refused("too little lent", Case { lent, ..case.clone() }, 1, 0, 0);
    }
}
