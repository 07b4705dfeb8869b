//! One thing wrong with a function sheet or with the library that it is for. What the judge says then is for it to say:
//! a drawing with two pins exchanged may compute the same.

use super::alike::{alike, turned, with_pins_exchanged};
use super::{Case, Draft};
use crate::functions::{settings, Function};
use crate::generate::damage::{damage_bytes, damaged, Kind};
use crate::generate::{longest, sound};
use crate::rng::Rng;
use crate::shape::Shape;

#[derive(Clone, Copy, PartialEq, Eq, Debug)]
pub enum Damage {
    /// One bit of one field, or several of several.
    Bit,
    Bits,
    /// A function's values back to front, for the pins the other way round, or all of them turned.
    BackToFront,
    PinsReversed,
    AllTurned,
    /// The functions of two cells exchanged, one left out, one more.
    Exchanged,
    LeftOut,
    Added,
    /// A drawing with two pins exchanged, of the contrary, and any other.
    Pins,
    Turned,
    Drawing,
    /// Some bytes gone, something after the last field, any damage to the bytes, and none of them left as it was.
    Torn,
    Tail,
    Bytes,
    Noise,
    /// The library's bytes.
    Library,
}

/// Other values, on a sheet that is whole.
pub const OF_VALUES: [Damage; 5] =
    [Damage::Bit, Damage::Bits, Damage::BackToFront, Damage::PinsReversed, Damage::AllTurned];

/// Other drawings in the library.
pub const OF_DRAWINGS: [Damage; 3] = [Damage::Pins, Damage::Turned, Damage::Drawing];

/// All others.
pub const OF_SHEETS: [Damage; 8] = [
    Damage::Exchanged,
    Damage::LeftOut,
    Damage::Added,
    Damage::Torn,
    Damage::Tail,
    Damage::Bytes,
    Damage::Noise,
    Damage::Library,
];

/// A fresh case of any kind, with up to three damages.
pub fn any_case(rng: &mut Rng) -> Case {
    let draft = any_draft(rng);
    let count = rng.pick(&[0, 0, 1, 1, 1, 1, 2, 3]);
    let damages: Vec<Damage> = (0..count).map(|_| any_damage(rng)).collect();
    spoiled(rng, draft, &damages)
}

/// A library whose drawings agree, seldom one whose drawings may not, with the functions of the first ones.
pub fn any_draft(rng: &mut Rng) -> Draft {
    let size = sound::any_size(rng);
    let library = if rng.once_in(100) { longest::library() } else { sound::library(rng, size) };
    let agrees = !rng.once_in(8);
    Draft::of(if agrees { alike(rng, &library) } else { library })
}

fn any_damage(rng: &mut Rng) -> Damage {
    match rng.below(4) {
        0 => rng.pick(&OF_VALUES),
        1 => rng.pick(&OF_DRAWINGS),
        _ => rng.pick(&OF_SHEETS),
    }
}

/// The sheets of a draft, damaged in each of these ways.
pub fn spoiled(rng: &mut Rng, mut draft: Draft, damages: &[Damage]) -> Case {
    damages.iter().for_each(|&damage| draft.damage(rng, damage));
    let mut case = draft.case();
    let rest = case.functions.len() * 8 - draft.end();
    damages.iter().for_each(|&damage| case.damage(rng, damage, rest));
    case
}

impl Draft {
    /// The damages that can be done before the sheets are written.
    fn damage(&mut self, rng: &mut Rng, damage: Damage) {
        if self.functions.is_empty() {
            return;
        }
        let cell = any_place(rng, self.functions.len());
        let other = rng.below(self.functions.len());
        match damage {
            Damage::Bits => (0..rng.between(2, 6)).for_each(|_| self.damage(rng, Damage::Bit)),
            Damage::Exchanged => self.functions.swap(cell, other),
            Damage::LeftOut => drop(self.functions.remove(cell)),
            Damage::Added => self.functions.insert(cell, self.functions[other].clone()),
            Damage::Pins | Damage::Turned | Damage::Drawing => self.redraw(rng, damage),
            _ => damage_function(rng, damage, &mut self.functions[cell]),
        }
    }

    /// Another drawing in the place of one.
    fn redraw(&mut self, rng: &mut Rng, damage: Damage) {
        let cell = any_place(rng, self.library.cells.len());
        let drawings = &mut self.library.cells[cell].patterns;
        let number = any_place(rng, drawings.len());
        drawings[number] = redrawn(rng, damage, &drawings[number]);
    }
}

/// Any number below a count, often the first or the last.
fn any_place(rng: &mut Rng, count: usize) -> usize {
    let any = rng.below(count);
    rng.pick(&[0, count - 1, any, any])
}

fn damage_function(rng: &mut Rng, damage: Damage, function: &mut Function) {
    match damage {
        Damage::Bit => {
            let setting = any_place(rng, function.len());
            function[setting] ^= true;
        }
        Damage::BackToFront => function.reverse(),
        Damage::PinsReversed => *function = with_pins_reversed(function),
        Damage::AllTurned => function.iter_mut().for_each(|value| *value = !*value),
        _ => {}
    }
}

/// The values of a function with the first pin changing slowest.
pub fn with_pins_reversed(function: &Function) -> Function {
    let pins = function.len().ilog2();
    let reversed = |setting: usize| (0..pins).fold(0, |sum, pin| sum << 1 | setting >> pin & 1);
    (0..settings(pins as usize)).map(|setting| function[reversed(setting)]).collect()
}

fn redrawn(rng: &mut Rng, damage: Damage, drawing: &Shape) -> Shape {
    let pins = drawing.leaves().count();
    match damage {
        Damage::Pins => with_pins_exchanged(drawing, rng.below(pins) as u32, rng.below(pins) as u32),
        Damage::Turned => turned(drawing).unwrap_or_else(|| drawing.clone()),
        _ => sound::pattern(rng, pins, 15),
    }
}

impl Case {
    /// The damages that are done to the bytes, of which the last had so many bits after the last field.
    fn damage(&mut self, rng: &mut Rng, damage: Damage, rest: usize) {
        let sheet = &mut self.functions;
        match damage {
            Damage::Torn => sheet.truncate(any_place(rng, sheet.len().max(1))),
            Damage::Tail => add_tail(rng, sheet, rest),
            Damage::Bytes => damage_bytes(rng, sheet),
            Damage::Noise => *sheet = noise(rng, sheet.len()),
            Damage::Library if rng.once_in(2) => damage_bytes(rng, &mut self.library),
            Damage::Library => self.library = damaged(rng, Kind::Library, 1),
            _ => {}
        }
    }
}

/// A set bit in the last byte's rest, if it has one, or bytes after it.
fn add_tail(rng: &mut Rng, sheet: &mut Vec<u8>, rest: usize) {
    match sheet.last_mut() {
        Some(last) if rest > 0 && rng.once_in(2) => *last |= 1 << rng.below(rest),
        _ => {
            let more: [&[u8]; 5] = [&[0], &[1], &[255], &[0, 0], &[0, 9]];
            sheet.extend(rng.pick(&more));
        }
    }
}

/// Random bytes, often as many as there were.
fn noise(rng: &mut Rng, length: usize) -> Vec<u8> {
    let any = rng.below(40);
    let length = rng.pick(&[length, length, any]);
    (0..length).map(|_| rng.word() as u8).collect()
}
