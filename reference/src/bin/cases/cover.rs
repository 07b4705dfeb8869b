//! Stored cases of the judge of covers. A record is a kind byte (5), the lengths of library, tree
//! and cover sheet in two bytes each, high byte first, the library, the tree, and the cover sheet.

pub mod drivers;

use crate::kinds::{short, Kinds};
use crate::stored::Stored;
use reference::cover::{Cover, Placed};
use reference::crossing::{bit, crossings, redrawn, CROSSINGS};
use reference::form::Role;
use reference::generate::covers::damage::{any_case, spoiled, Damage, ELSEWHERE, IN_COVER};
use reference::generate::covers::draw::{any_cover, loose_cover, Draw};
use reference::generate::covers::{Case, Draft};
use reference::generate::damage::{edge_values, flipped_at, Kind};
use reference::generate::parts::{cell, chain, pin, tree, INVERTER, NAND};
use reference::generate::problem::{problem, small_style, Problem};
use reference::generate::{heavy, limits, longest, specimen};
use reference::judging;
use reference::library::Library;
use reference::merging;
use reference::rng::Rng;
use reference::shape::Step::{Inv, Leaf, Nand};
use reference::shape::{Shape, Step};
use reference::tree::{self, Tree, TreeLeaf, LATEST_LEAF, LATEST_REQUIRED};
use reference::verdict::Verdict;
use std::collections::{BTreeMap, HashSet};

/// How many cases there must be, of all kinds and of each.
const LEAST_CASES: usize = 1_500;
const LEAST_OF_A_KIND: usize = 20;

/// Every field at its highest.
const LAST: Placed = Placed { node: 63, pattern: 127, crossing: CROSSINGS - 1 };

/// The kinds of answers, as `kind` has them, that must each occur.
const KINDS: [&str; 23] = [
    "accepted",
    "accepted late",
    "refused 22 torn",
    "refused 22 tail",
    "refused 23 at 0: node",
    "refused 23 at 0: number",
    "refused 23 at 0: shape",
    "refused 23 at 0: held",
    "refused 23 at 0: load",
    "refused 23 at 0: crossing",
    "refused 23 at 0: unused bit",
    "refused 23 later: node",
    "refused 23 later: number",
    "refused 23 later: shape",
    "refused 23 later: held",
    "refused 23 later: load",
    "refused 23 later: crossing",
    "refused 23 later: unused bit",
    "refused 23 without matches",
    "refused 23 at the match count",
    "refused 24 area",
    "refused 24 arrival",
    "refused 24 area and arrival",
];

pub fn add_all(stored: &mut Stored) {
    let mut covers = Covers::default();
    for draft in chosen().iter().chain(&drivers::chosen()) {
        covers.sorts(draft);
    }
    drivers::add_all(&mut covers);
    for draft in flipped() {
        covers.flips_and_cuts(&draft);
    }
    (0..=8).for_each(|count| covers.tails(&inverters(count)));
    covers.largest();
    covers.large_libraries();
    unsound().into_iter().for_each(|case| covers.add(case));
    every_refusal().into_iter().for_each(|case| covers.add(case));
    covers.random();
    covers.print();
    covers.check();
    covers.cases.iter().for_each(|case| add(stored, case));
}

fn add(stored: &mut Stored, case: &Case) {
    let Case { library, tree, cover } = case;
    let line = Verdict::from(case.judged()).line();
    stored.add(5, &[library.len(), tree.len(), cover.len()], &[library, tree, cover], line);
}

/// Drafts that are damaged in every way.
fn chosen() -> Vec<Draft> {
    let mut rng = Rng::new(23);
    let specimen = |tree| Problem { library: specimen::library(), tree };
    let specimens = specimen::trees().into_iter().filter_map(|tree| mapped(specimen(tree)));
    let mut drafts: Vec<Draft> = specimens.collect();
    let example = Problem { library: specimen::example_library(), tree: specimen::example_tree(0) };
    drafts.push(mapped(example_in_time()).expect("a cover in time"));
    for problem in [specimen(specimen::mixed_tree()), rich(0), rich(1), example, crossed(), crossed()] {
        let cover = Draw::new(&problem).cover(&mut rng).or_else(|| loose_cover(&mut rng, &problem));
        drafts.push(Draft::new(problem, cover.expect("a cover, be it legal or not")));
    }
    drafts.extend(recrossed().into_iter().filter_map(mapped));
    drafts
}

/// Problems whose covers exchange inputs, at the root and below it.
fn recrossed() -> Vec<Problem> {
    let five = [Nand, Inv, Nand, Leaf(3), Inv, Nand, Inv, Leaf(0), Leaf(5), Nand, Nand, Leaf(1), Inv, Leaf(4), Leaf(2)];
    let mut cells =
        vec![cell(1, 7, pin(1, 4, 5), INVERTER), cell(4, 7, pin(0, 6, 2), NAND), cell(9, 7, pin(0, 10, 1), &five)];
    cells[1].pins[0] = pin(2, 1, 1);
    for (number, pin) in cells[2].pins.iter_mut().enumerate() {
        pin.intrinsic += 1 << number;
    }
    let library = Library { bins: vec![1, 3, 7], cells };
    let shape = Shape::from_steps(&five);
    let tree_under = |crossing, above: &[Step]| {
        let steps = redrawn(&shape, crossing).steps();
        Problem { library: library.clone(), tree: tree(2, LATEST_REQUIRED, &[above, &steps].concat()) }
    };
    vec![tree_under(22, &[]), tree_under(9, &[Inv]), tree_under(31, &[Nand, Leaf(40)])]
}

/// Drafts of whose sheets every bit is flipped and every length cut.
fn flipped() -> Vec<Draft> {
    let specimens = specimen::trees().into_iter().map(|tree| Problem { library: specimen::library(), tree });
    let covered: Vec<Draft> = specimens.filter_map(mapped).collect();
    let by_count = |count: usize| covered.iter().rfind(|draft| draft.count == count).cloned();
    (0..3).filter_map(by_count).chain(mapped(example_in_time())).collect()
}

pub fn example_in_time() -> Problem {
    Problem { library: specimen::example_library(), tree: specimen::example_tree(39) }
}

/// A tree that one pattern covers, of a cell whose highest load is 0.
fn rich(root_load: u32) -> Problem {
    let steps = [Nand, Inv, Leaf(7), Nand, Leaf(900), Leaf(80)];
    Problem { library: specimen::rich_library(), tree: tree(root_load, 800, &steps) }
}

/// A cell whose pins are all different and stand in another order in each of its patterns, over inverters.
fn crossed() -> Problem {
    let inverter = cell(1, 7, pin(1, 4, 5), INVERTER);
    let nand = cell(4, 7, pin(0, 6, 2), NAND);
    let mut three = cell(9, 7, pin(0, 10, 1), &[Nand, Inv, Leaf(2), Nand, Leaf(0), Leaf(1)]);
    three.pins = vec![pin(0, 10, 1), pin(1, 200, 2), pin(2, 3_000, 3)];
    three.patterns.push(Shape::from_steps(&[Nand, Inv, Leaf(1), Nand, Leaf(2), Leaf(0)]));
    three.patterns.push(Shape::from_steps(&[Nand, Inv, Leaf(0), Nand, Leaf(1), Leaf(2)]));
    let steps = [Nand, Inv, Inv, Leaf(2_000), Nand, Inv, Leaf(1_500), Nand, Leaf(7), Leaf(1_000)];
    Problem { library: Library { bins: vec![1, 3, 7], cells: vec![inverter, nand, three] }, tree: tree(2, 0, &steps) }
}

/// 63 inverters of the greatest area and delay over a leaf.
pub fn greatest(leaf: impl Into<TreeLeaf>) -> Draft {
    let inverter = cell(65_535, 255, pin(0, 65_535, 255), INVERTER);
    let library = Library { bins: vec![255], cells: vec![inverter] };
    let tree = tree(255, LATEST_REQUIRED, &chain(63, &[Leaf(leaf.into())]));
    mapped(Problem { library, tree }).expect("a cover")
}

/// The cover that map hands over.
pub fn mapped(problem: Problem) -> Option<Draft> {
    let cover = merging::map(&problem.library, &problem.tree).ok()?;
    Some(Draft::new(problem, cover))
}

/// So many inverters over a leaf, each covered by itself.
fn inverters(count: usize) -> Draft {
    let tree = tree(1, LATEST_REQUIRED, &chain(count, &[Leaf(5)]));
    mapped(Problem { library: specimen::library(), tree }).expect("a cover")
}

/// The cases so far.
#[derive(Default)]
struct Covers {
    cases: Vec<Case>,
    seen: HashSet<Case>,
}

impl Covers {
    /// Each case stands once.
    fn add(&mut self, case: Case) {
        if self.seen.insert(case.clone()) {
            self.cases.push(case);
        }
    }

    fn add_sheet(&mut self, draft: &Draft, cover: Vec<u8>) {
        self.add(Case { cover, ..draft.case() });
    }

    /// A draft as it is, and with one thing wrong in every way.
    fn sorts(&mut self, draft: &Draft) {
        self.add(draft.case());
        self.figures(draft);
        self.counts(draft);
        (0..=draft.count).for_each(|position| self.additions(draft, position));
        (0..draft.count).for_each(|position| self.changes(draft, position));
        (0..draft.count).for_each(|count| self.add(draft.with_matches(draft.cover.matches[..count].to_vec()).case()));
        (0..draft.problem.library.cells.len()).for_each(|cell| self.cells(draft, cell));
    }

    /// Both figures one off and at the ends of their fields.
    fn figures(&mut self, draft: &Draft) {
        let form = draft.form();
        for (field, role) in [Role::CoverArea, Role::CoverArrival].into_iter().enumerate() {
            let stated = form.fields[field].value;
            let mut values = edge_values(role);
            values.extend([stated.saturating_sub(1), stated + 1]);
            values.iter().for_each(|&value| self.add_sheet(draft, form.with(field, value).bytes()));
        }
        let Cover { area, arrival, .. } = draft.cover;
        self.add_sheet(draft, form.with(0, area + 1).with(1, arrival + 1).bytes());
    }

    /// Every count about the true one, with the same fields after it.
    fn counts(&mut self, draft: &Draft) {
        let counts = (0..draft.count + 3).chain([62, 63]);
        counts.for_each(|count| self.add(Draft { count, ..draft.clone() }.case()));
    }

    /// A match more, before the one at a position or after them all.
    fn additions(&mut self, draft: &Draft, position: usize) {
        let nodes = draft.problem.tree.shape.nodes.len();
        let listed = draft.cover.matches.iter().copied().take(3);
        let others = [Placed::new(0, 0, 0), Placed::new(nodes - 1, 0, 16), Placed::new(nodes, 1, 0), LAST];
        for added in listed.chain(others) {
            let mut matches = draft.cover.matches.clone();
            matches.insert(position, added);
            self.add(draft.with_matches(matches).case());
        }
    }

    /// The match at a position left out, moved, given another node, pattern or crossing.
    fn changes(&mut self, draft: &Draft, position: usize) {
        let matches = &draft.cover.matches;
        let mut others = matches.clone();
        let taken = others.remove(position);
        self.add(draft.with_matches(others.clone()).case());
        for place in 0..matches.len() {
            let mut moved = others.clone();
            moved.insert(place, taken);
            self.add(draft.with_matches(moved).case());
        }
        let nodes = (0..=draft.problem.tree.shape.nodes.len()).chain([63]);
        let patterns = (0..=draft.problem.library.pattern_count()).chain([127]);
        let nodes = nodes.map(|node| Placed { node, ..taken });
        let patterns = patterns.map(|pattern| Placed { pattern, ..taken });
        let crossings = telling_crossings(&draft.problem.library, taken);
        let crossings = crossings.into_iter().map(|crossing| Placed { crossing, ..taken });
        for another in nodes.chain(patterns).chain(crossings) {
            let mut changed = matches.clone();
            changed[position] = another;
            self.add(draft.with_matches(changed).case());
        }
    }

    /// One cell held, and its highest load at each of the loads and just below.
    fn cells(&mut self, draft: &Draft, number: usize) {
        let Problem { library, tree } = &draft.problem;
        let mut held = draft.clone();
        held.problem.library.cells[number].held ^= true;
        self.add(held.case());
        for load in library.bins.iter().copied().chain([tree.root_load]) {
            for highest in [load, load.saturating_sub(1)] {
                let mut limited = draft.clone();
                limited.problem.library.cells[number].highest_load = highest;
                self.add(limited.case());
            }
        }
    }

    fn flips_and_cuts(&mut self, draft: &Draft) {
        let bytes = draft.form().bytes();
        (0..bytes.len() * 8).for_each(|bit| self.add_sheet(draft, flipped_at(&bytes, bit)));
        (0..=bytes.len()).for_each(|length| self.add_sheet(draft, bytes[..length].to_vec()));
    }

    /// Each bit of the last byte's rest set, and bytes after it.
    fn tails(&mut self, draft: &Draft) {
        let form = draft.form();
        let bytes = form.bytes();
        self.add(draft.case());
        let rest = form.place(form.fields.len())..bytes.len() * 8;
        rest.for_each(|bit| self.add_sheet(draft, flipped_at(&bytes, bit)));
        for more in [&[0][..], &[1], &[128], &[255], &[0, 0], &[0, 9]] {
            self.add_sheet(draft, [&bytes, more].concat());
        }
    }

    /// The largest list: 63 matches. A match more cannot be counted.
    fn largest(&mut self) {
        let draft = greatest(LATEST_LEAF);
        self.add(draft.case());
        self.figures(&draft);
        let draft = inverters(63);
        self.tails(&draft);
        self.figures(&draft);
        for length in [6, 7, 8, 9, 147, 148] {
            self.add_sheet(&draft, draft.form().bytes()[..length].to_vec());
        }
        [0, 1, 62].into_iter().for_each(|count| self.add(Draft { count, ..draft.clone() }.case()));
        for position in [0, 1, 31, 61, 62] {
            for (node, pattern, crossing) in
                [(63, 0, 0), (position, 4, 0), (position, 127, 0), (position, 2, 0), (position, 1, 0), (position, 0, 1)]
            {
                let mut matches = draft.cover.matches.clone();
                matches[position] = Placed { node, pattern, crossing };
                self.add(draft.with_matches(matches).case());
            }
            let mut fewer = draft.cover.matches.clone();
            fewer.remove(position);
            self.add(draft.with_matches(fewer).case());
            self.add(draft.with_matches(draft.cover.matches[..position].to_vec()).case());
        }
        let more = [draft.cover.matches.as_slice(), &[Placed::new(63, 0, 0)]].concat();
        self.add(draft.with_matches(more).case());
    }

    /// The problems of the benchmark, and a library of 128 patterns on a tree that two of them cover.
    fn large_libraries(&mut self) {
        let mut rng = Rng::new(128);
        for (_, problem) in heavy::all() {
            self.of_large(&mut rng, problem);
        }
        let library = longest::library();
        let steps = library.cells[63].patterns[1].steps();
        self.of_large(&mut rng, Problem { library, tree: tree(9, 0, &steps) });
    }

    /// What map and chance cover, and the same with a pattern changed.
    fn of_large(&mut self, rng: &mut Rng, problem: Problem) {
        self.mapped(&problem);
        let cover = Draw::new(&problem).cover(rng).expect("a cover");
        let draft = Draft::new(problem, cover);
        self.add(draft.case());
        for damage in [Damage::Pattern, Damage::PatternThatStands, Damage::Area] {
            self.add(spoiled(rng, draft.clone(), &[damage]));
        }
    }

    /// The cover that map hands over at the latest required time, if there is one.
    fn mapped(&mut self, problem: &Problem) {
        let tree = Tree { required: LATEST_REQUIRED, ..problem.tree.clone() };
        let draft = mapped(Problem { library: problem.library.clone(), tree });
        draft.iter().for_each(|draft| self.add(draft.case()));
    }

    /// Small problems with every damage, and covers with none.
    fn random(&mut self) {
        let mut rng = Rng::new(2_400);
        for damage in IN_COVER {
            self.some(50, || damaged_case(&mut rng, &[damage]));
        }
        for damage in ELSEWHERE.into_iter().chain([Damage::Held, Damage::Load]) {
            self.some(70, || damaged_case(&mut rng, &[damage]));
        }
        self.some(160, || damaged_case(&mut rng, &[]));
        self.some(60, || late_case(&mut rng));
        self.some(120, || any_case(&mut rng));
    }

    fn some(&mut self, count: usize, make: impl FnMut() -> Case) {
        short(count, make, Case::length).into_iter().for_each(|case| self.add(case));
    }

    /// There are enough cases, of every kind.
    fn check(&self) {
        self.kinds().check(&KINDS, LEAST_OF_A_KIND);
        assert!(self.cases.len() >= LEAST_CASES);
    }

    fn kinds(&self) -> Kinds {
        Kinds::of(self.cases.iter().map(kind))
    }

    /// The bytes of all records.
    fn bytes(&self) -> usize {
        self.cases.iter().map(|case| 7 + case.length()).sum()
    }

    fn print(&self) {
        println!("{} cases of covers, {} bytes", self.cases.len(), self.bytes());
        self.kinds().print();
    }
}

/// Library, tree and cover sheet each sound, torn, with a tail, or empty.
pub fn unsound() -> Vec<Case> {
    let Case { library, tree, cover } = mapped(example_in_time()).expect("a cover in time").case();
    let mut cases = Vec::new();
    for library in ways(&library) {
        for tree in ways(&tree) {
            for cover in ways(&cover) {
                cases.push(Case { library: library.clone(), tree: tree.clone(), cover });
            }
        }
    }
    cases
}

/// Some sheets of every refusal of a library and a tree, with a sound cover sheet and an empty one.
pub fn every_refusal() -> Vec<Case> {
    let sound = mapped(example_in_time()).expect("a cover in time").case();
    let mut cases = Vec::new();
    let mut counts = BTreeMap::new();
    for row in limits::rows().into_iter().filter(|row| row.bytes.len() <= 100) {
        let Verdict::Refused(refusal) = row.verdict else { continue };
        let count = counts.entry(refusal.number).or_insert(0);
        *count += 1;
        if *count <= 4 {
            let case = match row.kind {
                Kind::Library => Case { library: row.bytes, ..sound.clone() },
                Kind::Tree => Case { tree: row.bytes, ..sound.clone() },
            };
            cases.push(Case { cover: vec![], ..case.clone() });
            cases.push(case);
        }
    }
    cases
}

/// The crossings of a match's pattern, and the match's own with each bit changed.
fn telling_crossings(library: &Library, placed: Placed) -> Vec<u32> {
    let (_, shape) = library.patterns().nth(placed.pattern).expect("a pattern of the library");
    let changed = (0..5).map(|nand| placed.crossing ^ bit(nand));
    crossings(shape).chain(changed).collect()
}

/// A sheet as it is, torn, followed by a byte, and empty.
fn ways(sheet: &[u8]) -> [Vec<u8>; 4] {
    [sheet.to_vec(), sheet[..sheet.len() - 1].to_vec(), [sheet, &[0]].concat(), vec![]]
}

fn small_problem(rng: &mut Rng) -> Problem {
    let style = small_style(rng);
    problem(rng, style)
}

fn damaged_case(rng: &mut Rng, damages: &[Damage]) -> Case {
    let problem = small_problem(rng);
    let cover = any_cover(rng, &problem);
    spoiled(rng, Draft::new(problem, cover), damages)
}

/// How a case is counted: as `judging::name` has it, late covers that are accepted by themselves.
fn kind(case: &Case) -> String {
    let judged = case.judged();
    let required = tree::decode(&case.tree).map(|tree| tree.required);
    match (&judged, required) {
        (Ok(figures), Ok(required)) if required < figures.arrival => "accepted late".to_string(),
        _ => judging::name(&judged),
    }
}

/// A legal cover that misses the required time by one.
fn late_case(rng: &mut Rng) -> Case {
    loop {
        let mut problem = small_problem(rng);
        let cover = Draw::new(&problem).cover(rng).filter(|cover| cover.arrival > 0);
        if let Some(cover) = cover {
            problem.tree.required = cover.arrival - 1;
            return Draft::new(problem, cover).case();
        }
    }
}

#[cfg(test)]
mod tests {
    use super::*;

    /// `add_all` asserts that there are enough of every kind.
    #[test]
    fn every_kind_of_answer_is_stored() {
        add_all(&mut Stored::default());
    }
}
