//! Stored cases of parts. A record is a kind byte (8), the lengths of library, part, output (bytes) and work area
//! (words) in two bytes each, high byte first, the library, and the part.

use crate::kinds::Kinds;
use crate::stored::Stored;
use reference::generate::damage::{flipped_at, Kind};
use reference::generate::linked::chosen::{self, Row};
use reference::generate::linked::damage::{any_case, spoiled, Damage, OF_BYTES, OF_HEAD, OF_LINKS, OF_TREES};
use reference::generate::linked::draw::{any_draft, draft};
use reference::generate::linked::kinds::kinds;
use reference::generate::linked::{Case, Draft};
use reference::generate::parts::{driven, leaf, tree};
use reference::generate::problem::small_style;
use reference::generate::{heavy, limits, longest, specimen};
use reference::hex::hex;
use reference::part::{LEAST_OUTPUT, MOST_TREES};
use reference::rng::Rng;
use reference::shape::Step::{Inv, Nand};
use reference::verdict::Verdict;
use std::collections::{BTreeMap, HashSet};

/// How many cases there must be, of all kinds and of each, and the most bytes of their records.
const LEAST_CASES: usize = 3_000;
const LEAST_OF_A_KIND: usize = 12;
const A_FEW: usize = 2;
const MOST_BYTES: usize = 450_000;

/// The longest case that is taken from random ones.
const SHORT: usize = 260;

/// The kinds of answers, as `kinds` has them, that must each occur often.
const KINDS: [&str; 71] = [
    "mapped",
    "mapped of one tree",
    "mapped of 16 trees",
    "mapped without links",
    "mapped with links",
    "mapped with a chain of trees",
    "mapped with two links from a tree to another",
    "mapped with two readers of a tree",
    "mapped with links out of order",
    "mapped with a linked leaf that is driven",
    "mapped with a linked root",
    "mapped with a linked root that is driven",
    "mapped with a linked arrival of 1000000",
    "mapped with a linked leaf stated earlier",
    "mapped with a linked leaf stated later",
    "mapped with other matches than without its links",
    "mapped with more lent",
    "refused  1 by the output",
    "refused  1 by the work area",
    "refused  1 and otherwise too",
    "refused  2",
    "refused  3",
    "refused  4",
    "refused  5",
    "refused  6",
    "refused  2 with an unsound part",
    "refused  3 with an unsound part",
    "refused  4 with an unsound part",
    "refused  5 with an unsound part",
    "refused  6 with an unsound part",
    "refused  7 in tree 1 to 7",
    "refused  7 in tree 8 to 15",
    "refused  8 in tree 0",
    "refused  8 in tree 1 to 7",
    "refused  8 in tree 8 to 15",
    "refused 12 in the first tree",
    "refused 12 in the last tree",
    "refused 12 in a middle tree",
    "refused 13 in the first tree",
    "refused 13 in the last tree",
    "refused 13 in a middle tree",
    "refused 14 in the first tree",
    "refused 14 in the last tree",
    "refused 14 in a middle tree",
    "refused 16 in the first tree",
    "refused 16 in the last tree",
    "refused 16 in a middle tree",
    "refused 13 in the last tree by a byte",
    "refused 13 in the last tree by a bit",
    "refused 13 in the only tree by a byte",
    "refused 41 torn in a link count",
    "refused 41 torn in a reading tree",
    "refused 41 torn in a leaf",
    "refused 41 torn in a driving tree",
    "refused 41 out of range, a tree count",
    "refused 41 out of range, a reading tree",
    "refused 41 out of range, a driving tree",
    "refused 41 tail",
    "refused 41 names no node",
    "refused 41 names a gate",
    "refused 41 names a leaf again",
    "refused 41 names no node with a driver not lower",
    "refused 41 names a gate with a driver not lower",
    "refused 42 driver equal",
    "refused 42 driver higher",
    "refused 42 driver higher with a wrong leaf in a later link",
    "refused 43 in tree 1 to 7",
    "refused 43 in tree 1 to 7 with several late leaves",
    "refused 43 in tree 1 to 7 with a later leaf linked first",
    "refused 43 in tree 1 to 7 by one",
    "refused 43 in tree 1 to 7 and no cover in time",
];

/// Those of which a few are enough.
const RARE: [&str; 22] = [
    "mapped with 255 links",
    "refused  7 in tree 0",
    "refused 41 torn in a tree count",
    "refused 41 names a leaf again with a driver not lower",
    "refused 42 driver equal with a wrong leaf in a later link",
    "refused 43 in tree 1 to 7 and overfull",
    "refused 43 in tree 8 to 15",
    "refused 12 in the first tree with a driver not lower",
    "refused 12 in a middle tree with a driver not lower",
    "refused 12 in the last tree with a driver not lower",
    "refused 12 in the only tree",
    "refused 13 in the first tree with a driver not lower",
    "refused 13 in a middle tree with a driver not lower",
    "refused 13 in the last tree with a driver not lower",
    "refused 13 in the only tree",
    "refused 14 in the first tree with a driver not lower",
    "refused 14 in a middle tree with a driver not lower",
    "refused 14 in the last tree with a driver not lower",
    "refused 14 in the only tree",
    "refused 16 in the first tree with a driver not lower",
    "refused 16 in a middle tree with a driver not lower",
    "refused 16 in the last tree with a driver not lower",
];

pub fn add_all(stored: &mut Stored) {
    let mut parts = Parts::default();
    chosen::all().into_iter().for_each(|Row { case, .. }| parts.add(case));
    parts.swept();
    parts.unsound();
    parts.long();
    parts.random();
    parts.print();
    parts.check();
    parts.cases.iter().for_each(|case| add(stored, case));
}

fn add(stored: &mut Stored, case: &Case) {
    let Case { lent, library, part } = case;
    let numbers = [library.len(), part.len(), lent.output, lent.work];
    stored.add(8, &numbers, &[library, part], line(case));
}

/// A result as a line: the refusal with its tree, or the sheets' length and bytes.
fn line(case: &Case) -> String {
    match case.answer() {
        Err(fault) => fault.line(),
        Ok(sheets) => format!("part {} {}", sheets.len(), hex(&sheets)),
    }
}

/// The cases so far.
#[derive(Default)]
struct Parts {
    cases: Vec<Case>,
    seen: HashSet<Case>,
}

impl Parts {
    /// Each case stands once.
    fn add(&mut self, case: Case) {
        if self.seen.insert(case.clone()) {
            self.cases.push(case);
        }
    }

    fn add_part(&mut self, case: &Case, part: Vec<u8>) {
        self.add(Case { part, ..case.clone() });
    }

    /// A part of three linked trees with every bit flipped and cut to every length.
    fn swept(&mut self) {
        let case = mixed().case();
        (0..case.part.len() * 8).for_each(|bit| self.add_part(&case, flipped_at(&case.part, bit)));
        (0..=case.part.len()).for_each(|length| self.add_part(&case, case.part[..length].to_vec()));
    }

    /// Some sheets of every refusal of a library, and of a tree in every place.
    fn unsound(&mut self) {
        let draft = mixed();
        let mut counts = BTreeMap::new();
        for row in limits::rows().into_iter().filter(|row| row.bytes.len() <= 100) {
            let Verdict::Refused(refusal) = row.verdict else { continue };
            let count = counts.entry(refusal.number).or_insert(0);
            *count += 1;
            match row.kind {
                Kind::Library if *count <= 10 => self.with_library(&draft, row.bytes),
                Kind::Tree if *count <= 20 => {
                    (0..3).for_each(|tree| self.add(draft.with_tree(tree, row.bytes.clone())))
                }
                _ => {}
            }
        }
    }

    /// A library with a sound part, with one that is torn in a tree, and with one that has a bad link.
    fn with_library(&mut self, draft: &Draft, library: Vec<u8>) {
        let case = Case { library, ..draft.case() };
        let torn = case.part[..case.part.len() - 3].to_vec();
        let mut unlinked = draft.clone();
        unlinked.part.links[1].driving = 2;
        [torn, unlinked.case().part].into_iter().for_each(|part| self.add_part(&case, part));
        self.add(case);
    }

    /// The longest trees, the most matches, and a usual library.
    fn long(&mut self) {
        let all_driven = Draft::new(specimen::library(), vec![longest::tree(); MOST_TREES], &[]);
        self.add(all_driven.case());
        let linked = Draft::new(specimen::library(), vec![longest::tree(); 2], &[(1, 63, 0)]);
        self.add(linked.case());
        let deep = heavy::deepest_part();
        let sheets = deep.case().answer().expect("covers");
        assert_eq!(sheets.len(), LEAST_OUTPUT, "no part has longer cover sheets");
        self.add(deep.case());
        let mut usual = heavy::typical_part();
        self.add(usual.case());
        usual.part.trees.truncate(3);
        usual.part.links.retain(|link| link.reading < 3);
        self.add(usual.case());
    }

    /// Every damage, and parts with none.
    fn random(&mut self) {
        let mut rng = Rng::new(4_300);
        for damage in OF_LINKS.into_iter().chain(OF_HEAD).chain(OF_TREES).chain(OF_BYTES) {
            self.some(30, SHORT, || damaged_case(&mut rng, &[damage]));
        }
        self.some(240, SHORT, || damaged_case(&mut rng, &[]));
        self.some(300, SHORT, || any_case(&mut rng));
        self.some(30, 3 * SHORT, || sixteen(&mut rng));
    }

    /// So many cases, none of them long.
    fn some(&mut self, count: usize, most: usize, make: impl FnMut() -> Case) {
        let cases = std::iter::repeat_with(make).filter(|case| case.length() <= most);
        cases.take(count).for_each(|case| self.add(case));
    }

    /// There are enough cases, of every kind, and not too many bytes.
    fn check(&self) {
        self.kinds().check(&KINDS, LEAST_OF_A_KIND);
        self.kinds().check(&RARE, A_FEW);
        assert!(self.cases.len() >= LEAST_CASES && self.bytes() <= MOST_BYTES);
    }

    fn kinds(&self) -> Kinds {
        Kinds::of(self.cases.iter().flat_map(kinds))
    }

    /// The bytes of all records.
    fn bytes(&self) -> usize {
        self.cases.iter().map(|case| 9 + case.length()).sum()
    }

    fn print(&self) {
        println!("{} cases of parts, {} bytes", self.cases.len(), self.bytes());
        self.kinds().print();
    }
}

/// Three trees with leaves of both kinds; two of the three linked leaves are driven by the first.
fn mixed() -> Draft {
    let trees = vec![
        tree(2, 20, &[Inv, leaf(3)]),
        tree(1, 40, &[Nand, driven(5, 2), leaf(9)]),
        tree(4, 99, &[Nand, Inv, leaf(7), driven(1, 3)]),
    ];
    Draft::new(specimen::library(), trees, &[(1, 2, 0), (2, 3, 0), (2, 2, 1)])
}

fn damaged_case(rng: &mut Rng, damages: &[Damage]) -> Case {
    let draft = any_draft(rng);
    spoiled(rng, draft, damages)
}

/// A part of 16 small trees.
fn sixteen(rng: &mut Rng) -> Case {
    let style = small_style(rng);
    draft(rng, style, MOST_TREES).case()
}

#[cfg(test)]
mod tests {
    use super::*;

    /// `add_all` asserts that there are enough of every kind.
    #[test]
    fn every_kind_of_answer_is_stored() {
        add_all(&mut Stored::default());
    }
}
