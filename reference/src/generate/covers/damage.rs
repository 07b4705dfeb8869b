//! One thing wrong with a cover, with its sheet, or with what it is judged by. Whether
//! the cover is then still accepted is for the judge to say.

use super::draw::any_cover;
use super::{Case, Draft};
use crate::cover::Placed;
use crate::generate::damage::{damage_bytes, damaged, Kind};
use crate::generate::problem::{any_style, problem, Problem};
use crate::library::Cell;
use crate::rng::Rng;

#[derive(Clone, Copy, PartialEq, Eq, Debug)]
pub enum Damage {
    Area,
    Arrival,
    Charged,
    LeftOut,
    Added,
    AddedLast,
    Moved,
    Exchanged,
    Pattern,
    PatternThatStands,
    Crossing,
    CrossingThatStands,
    CrossingThatDoesNot,
    UnusedBit,
    Node,
    Count,
    Held,
    Load,
    Bytes,
    Library,
    Tree,
}

/// Other figures and matches, on a sheet that is whole.
pub const IN_COVER: [Damage; 15] = [
    Damage::Area,
    Damage::Arrival,
    Damage::Charged,
    Damage::LeftOut,
    Damage::Added,
    Damage::AddedLast,
    Damage::Moved,
    Damage::Exchanged,
    Damage::Pattern,
    Damage::PatternThatStands,
    Damage::Crossing,
    Damage::CrossingThatStands,
    Damage::CrossingThatDoesNot,
    Damage::UnusedBit,
    Damage::Node,
];

/// Those of them that change nothing but a crossing, and not at random; the last can be done to few covers.
const OF_CROSSING: [Damage; 4] =
    [Damage::CrossingThatStands, Damage::UnusedBit, Damage::CrossingThatDoesNot, Damage::CrossingThatDoesNot];

/// All others: the match count alone, a cell of the cover, and the bytes of the sheets.
pub const ELSEWHERE: [Damage; 6] =
    [Damage::Count, Damage::Held, Damage::Load, Damage::Bytes, Damage::Library, Damage::Tree];

/// A fresh case of any kind, with up to two damages.
pub fn any_case(rng: &mut Rng) -> Case {
    let style = any_style(rng);
    let problem = problem(rng, style);
    let cover = any_cover(rng, &problem);
    let count = rng.pick(&[0, 1, 1, 1, 1, 2]);
    let damages: Vec<Damage> = (0..count).map(|_| any_damage(rng)).collect();
    spoiled(rng, Draft::new(problem, cover), &damages)
}

fn any_damage(rng: &mut Rng) -> Damage {
    match rng.below(6) {
        0 | 1 => rng.pick(&ELSEWHERE),
        2 => rng.pick(&OF_CROSSING),
        _ => rng.pick(&IN_COVER),
    }
}

/// The sheets of a draft, damaged in each of these ways.
pub fn spoiled(rng: &mut Rng, mut draft: Draft, damages: &[Damage]) -> Case {
    damages.iter().for_each(|&damage| draft.damage(rng, damage));
    let mut case = draft.case();
    damages.iter().for_each(|&damage| case.damage(rng, damage));
    case
}

impl Draft {
    /// The damages that can be done before the sheets are written.
    fn damage(&mut self, rng: &mut Rng, damage: Damage) {
        match damage {
            Damage::Area => self.cover.area = beside(rng, self.cover.area, 22),
            Damage::Arrival => self.cover.arrival = beside(rng, self.cover.arrival, 24),
            Damage::Charged => {
                let load = any_load(rng, &self.problem);
                *self = self.charged(rng.pick(&[0, load]));
            }
            Damage::Count => self.count = beside(rng, self.count as u32, 6) as usize,
            Damage::Held | Damage::Load => self.damage_cell(rng, damage),
            Damage::Bytes | Damage::Library | Damage::Tree => {}
            _ => self.damage_matches(rng, damage),
        }
    }

    fn damage_matches(&mut self, rng: &mut Rng, damage: Damage) {
        let any = self.any_match(rng);
        let matches = &mut self.cover.matches;
        match damage {
            Damage::Added => matches.insert(rng.below(matches.len() + 1), any),
            Damage::AddedLast => matches.push(any),
            _ if matches.is_empty() => {}
            _ => self.damage_one(rng, damage),
        }
        self.count = self.cover.matches.len();
    }

    /// Damages of a list that has matches.
    fn damage_one(&mut self, rng: &mut Rng, damage: Damage) {
        let position = rng.below(self.cover.matches.len());
        let (changed, other) = self.another(rng, damage, position);
        let matches = &mut self.cover.matches;
        match damage {
            Damage::LeftOut if rng.once_in(2) => drop(matches.pop()),
            Damage::LeftOut => drop(matches.remove(position)),
            Damage::Moved => {
                let moved = matches.remove(position);
                matches.insert(rng.below(matches.len() + 1), moved);
            }
            Damage::Exchanged => matches.swap(position.saturating_sub(1), position),
            _ => matches[changed] = other,
        }
    }

    /// Holds a cell of the cover, or sets its highest load to one of the loads, or just below.
    fn damage_cell(&mut self, rng: &mut Rng, damage: Damage) {
        let load = any_load(rng, &self.problem).saturating_sub(rng.below(2) as u32);
        let Some(cell) = self.any_cell(rng) else { return };
        match damage {
            Damage::Held => cell.held = true,
            _ => cell.highest_load = load,
        }
    }

    /// The cell of some match.
    fn any_cell(&mut self, rng: &mut Rng) -> Option<&mut Cell> {
        if self.cover.matches.is_empty() {
            return None;
        }
        let Placed { pattern, .. } = rng.pick(&self.cover.matches);
        let number = *self.problem.library.cell_numbers().get(pattern)?;
        Some(&mut self.problem.library.cells[number])
    }
}

impl Case {
    /// The damages that are done to the bytes.
    fn damage(&mut self, rng: &mut Rng, damage: Damage) {
        match damage {
            Damage::Bytes => damage_bytes(rng, &mut self.cover),
            Damage::Library if rng.once_in(2) => damage_bytes(rng, &mut self.library),
            Damage::Library => self.library = damaged(rng, Kind::Library, 1),
            Damage::Tree if rng.once_in(2) => damage_bytes(rng, &mut self.tree),
            Damage::Tree => self.tree = damaged(rng, Kind::Tree, 1),
            _ => {}
        }
    }
}

/// The root load or a bin's.
fn any_load(rng: &mut Rng, problem: &Problem) -> u32 {
    let loads = [problem.library.bins.as_slice(), &[problem.tree.root_load]].concat();
    rng.pick(&loads)
}

/// A value one off, or now and then any other of the width.
fn beside(rng: &mut Rng, value: u32, width: u32) -> u32 {
    let top = (1 << width) - 1;
    let any = rng.value(0, top);
    rng.pick(&[value.saturating_sub(1), value.saturating_sub(1), value + 1, value + 1, any]).min(top)
}
