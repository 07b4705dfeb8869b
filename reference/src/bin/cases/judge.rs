//! Stored cases of the two judges. A record is a kind byte (0 library, 1 tree),
//! the sheet's length in two bytes, high byte first, and the sheet.

use crate::stored::Stored;
use reference::form::{Field, Form, Role};
use reference::generate::damage::{any_form, any_sheet, damaged, edge_values, flipped_at, torn_in, Kind};
use reference::generate::{limits, longest, sound, specimen};
use reference::rng::Rng;
use reference::verdict::Verdict;

pub fn add_all(stored: &mut Stored) {
    for (kind, form) in originals() {
        flips(stored, kind, &form);
        cuts(stored, kind, &form);
        edges(stored, kind, &form);
    }
    for row in limits::rows() {
        add(stored, row.kind, &row.bytes);
    }
    long_ends(stored);
    edges(stored, Kind::Library, &Form::of_library(&specimen::rich_library()));
    too_large(stored);
    truncated_fields(stored);
    large(stored);
    random(stored, 160, |rng, kind| any_form(rng, kind).bytes());
    random(stored, 360, |rng, kind| damaged(rng, kind, 1));
    random(stored, 361, |rng, kind| damaged(rng, kind, 3));
    random(stored, 120, any_sheet);
}

fn add(stored: &mut Stored, kind: Kind, sheet: &[u8]) {
    stored.add((kind == Kind::Tree) as u8, &[sheet.len()], &[sheet], Verdict::of(kind, sheet).line());
}

/// The sheets of which every bit is flipped and every length cut.
fn originals() -> Vec<(Kind, Form)> {
    vec![
        (Kind::Library, Form::of_library(&specimen::library())),
        (Kind::Tree, Form::of_tree(&specimen::tree_b())),
        (Kind::Tree, Form::of_tree(&specimen::mixed_tree())),
        (Kind::Tree, Form::of_tree(&specimen::driven_tree())),
    ]
}

fn flips(stored: &mut Stored, kind: Kind, form: &Form) {
    let bytes = form.bytes();
    (0..bytes.len() * 8).for_each(|bit| add(stored, kind, &flipped_at(&bytes, bit)));
}

fn cuts(stored: &mut Stored, kind: Kind, form: &Form) {
    let bytes = form.bytes();
    (0..=bytes.len()).for_each(|length| add(stored, kind, &bytes[..length]));
}

/// Every field at and just past the ends of its range.
fn edges(stored: &mut Stored, kind: Kind, form: &Form) {
    for (number, field) in form.fields.iter().enumerate() {
        for value in edge_values(field.role).into_iter().filter(|&value| value != field.value) {
            add(stored, kind, &form.with(number, value).bytes());
        }
    }
}

/// The longest sound sheets, and faults at their very ends.
fn long_ends(stored: &mut Stored) {
    let trees = [longest::tree(), longest::plain_tree()].map(|tree| (Kind::Tree, Form::of_tree(&tree), 5));
    for (kind, form, most_cut) in [(Kind::Library, Form::of_library(&longest::library()), 1)].into_iter().chain(trees) {
        let bytes = form.bytes();
        (0..=most_cut).for_each(|cut| add(stored, kind, &bytes[..bytes.len() - cut]));
        add(stored, kind, &[bytes.as_slice(), &[0]].concat());
        let last = form.fields.len() - 1;
        for value in edge_values(form.fields[last].role) {
            add(stored, kind, &form.with(last, value).bytes());
        }
    }
}

/// Inverters put before each node, so that the whole is below, at and above the limit.
fn too_large(stored: &mut Stored) {
    let library = Form::of_library(&specimen::rich_library());
    let tree = Form::of_tree(&specimen::mixed_tree());
    let driven = Form::of_tree(&specimen::driven_tree());
    for (kind, form, counts) in
        [(Kind::Library, library, 8..=14), (Kind::Tree, tree, 57..=60), (Kind::Tree, driven, 56..=59)]
    {
        for code in form.find(Role::Code) {
            counts.clone().for_each(|count| add(stored, kind, &with_inverters(&form, code, count).bytes()));
        }
    }
}

/// The same form with inverters before the node whose code is the field `code`.
fn with_inverters(form: &Form, code: usize, count: usize) -> Form {
    let mut grown = form.clone();
    grown.fields.splice(code..code, vec![Field { role: Role::Code, value: 1 }; count]);
    grown
}

/// Each kind of field truncated, five times.
fn truncated_fields(stored: &mut Stored) {
    let mut rng = Rng::new(2);
    let of_library = Role::OF_LIBRARY.map(|role| (Kind::Library, role));
    let of_tree = Role::OF_TREE.map(|role| (Kind::Tree, role));
    for (kind, role) in of_library.into_iter().chain(of_tree) {
        for _ in 0..5 {
            let torn = std::iter::repeat_with(|| {
                let form = any_form(&mut rng, kind);
                torn_in(&mut rng, &form, role)
            });
            let mut short = torn.flatten().filter(|sheet| sheet.len() < 200);
            add(stored, kind, &short.next().expect("a sheet truncated there"));
        }
    }
}

fn large(stored: &mut Stored) {
    let mut rng = Rng::new(1);
    for size in [sound::LARGE, sound::LARGE, sound::WIDE, sound::WIDE, sound::MANY_PATTERNS] {
        add(stored, Kind::Library, &Form::of_library(&sound::library(&mut rng, size)).bytes());
    }
}

/// Sheets made by `make`, three libraries to a tree; none is long, so that the file stays small.
fn random(stored: &mut Stored, count: usize, make: impl Fn(&mut Rng, Kind) -> Vec<u8>) {
    let mut rng = Rng::new(count as u64);
    for number in 0..count {
        let kind = if number % 4 == 3 { Kind::Tree } else { Kind::Library };
        let mut sheets = std::iter::repeat_with(|| make(&mut rng, kind));
        let short = sheets.find(|sheet| sheet.len() <= 600).expect("a short sheet");
        add(stored, kind, &short);
    }
}
