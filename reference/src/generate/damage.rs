//! Sheets with random faults. What is wrong with them is for the judges to say.

use super::sound;
use crate::form::{Field, Form, Role};
use crate::rng::Rng;

/// The two kinds of sheet.
#[derive(Clone, Copy, PartialEq, Eq, Debug)]
pub enum Kind {
    Library,
    Tree,
}

/// A random sheet: sound, damaged in one or more ways, torn in a field of some role, or plain noise.
pub fn any_sheet(rng: &mut Rng, kind: Kind) -> Vec<u8> {
    match rng.below(20) {
        0 => noise(rng),
        1..=3 => any_form(rng, kind).bytes(),
        4 => torn(rng, kind),
        5..=14 => damaged(rng, kind, 1),
        _ => {
            let faults = rng.between(2, 5);
            damaged(rng, kind, faults)
        }
    }
}

pub fn any_form(rng: &mut Rng, kind: Kind) -> Form {
    match kind {
        Kind::Library => {
            let size = sound::any_size(rng);
            Form::of_library(&sound::library(rng, size))
        }
        Kind::Tree => {
            let most = sound::any_node_limit(rng);
            Form::of_tree(&sound::tree(rng, most))
        }
    }
}

/// A sound sheet with that many faults, each in a field or in the bytes.
pub fn damaged(rng: &mut Rng, kind: Kind, faults: usize) -> Vec<u8> {
    let mut form = any_form(rng, kind);
    let in_bytes = (0..faults).filter(|_| rng.once_in(3)).count();
    for _ in in_bytes..faults {
        damage_form(rng, kind, &mut form);
    }
    let mut bytes = form.bytes();
    for _ in 0..in_bytes {
        damage_bytes(rng, &mut bytes);
    }
    bytes
}

pub fn noise(rng: &mut Rng) -> Vec<u8> {
    let length = rng.below(40);
    (0..length).map(|_| rng.word() as u8).collect()
}

/// A sheet torn in a field of a role picked first, if it has one where that can be.
fn torn(rng: &mut Rng, kind: Kind) -> Vec<u8> {
    let form = any_form(rng, kind);
    let role = match kind {
        Kind::Library => rng.pick(&Role::OF_LIBRARY),
        Kind::Tree => rng.pick(&Role::OF_TREE),
    };
    torn_in(rng, &form, role).unwrap_or_else(|| form.bytes())
}

/// The sheet cut after some byte so that the first field not whole is of this role.
pub fn torn_in(rng: &mut Rng, form: &Form, role: Role) -> Option<Vec<u8>> {
    let length = |field: usize| (form.place(field + 1) - 1) / 8;
    let can_be_torn = |&field: &usize| length(field) * 8 >= form.place(field);
    let fields: Vec<usize> = form.find(role).into_iter().filter(can_be_torn).collect();
    (!fields.is_empty()).then(|| form.bytes()[..length(rng.pick(&fields))].to_vec())
}

pub fn damage_form(rng: &mut Rng, kind: Kind, form: &mut Form) {
    if form.fields.is_empty() {
        return;
    }
    let field = chosen_field(rng, kind, form);
    match rng.below(12) {
        0 => drop(form.fields.remove(field)),
        1 => form.fields.insert(field, form.fields[field]),
        2 => form.fields.truncate(field),
        3 => swap_alike(rng, form, field),
        4 => insert_chain(rng, form, field),
        5 => form.fields[field].value = rng.value(0, (1 << form.fields[field].role.width()) - 1),
        _ => form.fields[field].value = rng.pick(&edge_values(form.fields[field].role)),
    }
}

/// Any field, or one among those of a role picked first, so that rare roles get their share.
fn chosen_field(rng: &mut Rng, kind: Kind, form: &Form) -> usize {
    let any = rng.below(form.fields.len());
    if rng.once_in(2) {
        return any;
    }
    let alike = form.find(match kind {
        Kind::Library => rng.pick(&TELLING_IN_LIBRARY),
        Kind::Tree => rng.pick(&TELLING_IN_TREE),
    });
    if alike.is_empty() {
        any
    } else {
        rng.pick(&alike)
    }
}

/// Roles of which some value is out of range or changes what follows; and drives, of which none does, but which may be
/// lacking.
const TELLING_IN_LIBRARY: [Role; 7] =
    [Role::BinCount, Role::BinLoad, Role::CellCount, Role::PinCount, Role::PatternCount, Role::Code, Role::PinNumber];
const TELLING_IN_TREE: [Role; 3] = [Role::Code, Role::Arrival, Role::Drive];

/// Gives a field the value of another field of its role: a repeated pin, an equal bin.
fn swap_alike(rng: &mut Rng, form: &mut Form, field: usize) {
    let alike = form.find(form.fields[field].role);
    form.fields[field].value = form.fields[rng.pick(&alike)].value;
}

/// Inverters before a node, up to more than a pattern or a tree may hold.
fn insert_chain(rng: &mut Rng, form: &mut Form, field: usize) {
    let codes = form.find(Role::Code);
    let Some(&at) = codes.iter().find(|&&code| code >= field) else { return };
    let inverter = Field { role: Role::Code, value: 1 };
    let count = rng.pick(&[1, 2, 8, 13, 14, 15, 16, 17, 30, 61, 62, 63, 64, 65]);
    form.fields.splice(at..at, vec![inverter; count]);
}

/// Values at and just past the ends of a role's range.
pub fn edge_values(role: Role) -> Vec<u32> {
    let top = (1u32 << role.width()) - 1;
    let mut values = match role {
        Role::BinCount => vec![0, 1, 2, 3, 4, 5, 6, 7],
        Role::CellCount => vec![0, 1, 2, 63, 64, 65, top],
        Role::PinCount | Role::PatternCount | Role::PinNumber => (0..8).collect(),
        Role::Code | Role::PinBin => vec![0, 1, 2, 3],
        Role::Hold => vec![0, 1],
        Role::Arrival => vec![0, 1, 999_999, 1_000_000, 1_000_001, top],
        _ => vec![0, 1, top - 1, top],
    };
    values.dedup();
    values
}

/// Cuts the bytes, adds to them, or changes a bit.
pub fn damage_bytes(rng: &mut Rng, bytes: &mut Vec<u8>) {
    match rng.below(7) {
        0 | 1 => bytes.truncate(rng.below(bytes.len() + 1)),
        2 => bytes.push(0),
        3 => bytes.push(rng.pick(&[1, 128, 255])),
        4 => set_late_bit(rng, bytes),
        _ => flip_bit(rng, bytes),
    }
}

/// Sets one of the last eight bits: often one that belongs to no field.
fn set_late_bit(rng: &mut Rng, bytes: &mut [u8]) {
    if let Some(last) = bytes.last_mut() {
        *last |= 1 << rng.below(8);
    }
}

fn flip_bit(rng: &mut Rng, bytes: &mut [u8]) {
    if !bytes.is_empty() {
        let bit = rng.below(bytes.len() * 8);
        bytes[bit / 8] ^= 128 >> (bit % 8);
    }
}

/// The same bytes with one bit changed.
pub fn flipped_at(bytes: &[u8], bit: usize) -> Vec<u8> {
    let mut flipped = bytes.to_vec();
    flipped[bit / 8] ^= 128 >> (bit % 8);
    flipped
}
