//! Stored cases of bill's text. A record is a kind byte (6), the input's length in two bytes, high byte first, and
//! the input; its result is one or more lines.

use crate::cover::{drivers, every_refusal, example_in_time, greatest, mapped, unsound};
use crate::kinds::{short, Kinds};
use crate::stored::Stored;
use reference::bill::{self, Answer, Bill, HEADING};
use reference::cover::Placed;
use reference::generate::bills::{
    any_input, chained, legal_case, lengths, padded, resized, sheets, shipped, stating, whole,
};
use reference::generate::covers::damage::any_case;
use reference::generate::covers::draw::Draw;
use reference::generate::covers::{Case, Draft};
use reference::generate::parts::{cell, chain, pin, tree, INVERTER};
use reference::generate::problem::Problem;
use reference::generate::{heavy, longest, specimen};
use reference::judging;
use reference::library::{Cell, Library};
use reference::rng::Rng;
use reference::shape::Shape;
use reference::shape::Step::{Inv, Leaf, Nand};
use reference::text::MOST_INPUT;
use reference::tree::{TreeLeaf, LATEST_LEAF, LATEST_REQUIRED};
use std::collections::{BTreeSet, HashSet};

/// How many cases there must be, of all kinds and of each, and the most bytes of their records.
const LEAST_CASES: usize = 1_500;
const LEAST_OF_A_KIND: usize = 8;
const MOST_BYTES: usize = 450_000;

/// The kinds of answers, as `kinds` has them, that must each occur.
const KINDS: [&str; 24] = [
    "accepted early",
    "accepted just in time",
    "accepted late",
    "bill without a match",
    "bill of one cell, ten times or more",
    "bill of eight cells or more",
    "bill with two patterns of a cell",
    "bill of a list with a higher cell before a lower",
    "refused  2",
    "refused  3",
    "refused  4",
    "refused  5",
    "refused  6",
    "refused 12",
    "refused 13",
    "refused 14",
    "refused 16",
    "refused 22",
    "refused 23",
    "refused 24",
    "spoiled: under 6",
    "spoiled: over 4,096",
    "spoiled: missing",
    "spoiled: left over",
];

pub fn add_all(stored: &mut Stored) {
    let mut bills = Bills::default();
    specimens().iter().chain(&chosen()).for_each(|draft| bills.times(draft));
    margins().iter().chain(&counts()).chain(&large_libraries()).for_each(|draft| bills.add(whole(&draft.case())));
    bills.lengths(&case_b().case());
    bills.limits();
    unsound().iter().chain(&every_refusal()).for_each(|case| bills.add(whole(case)));
    bills.random();
    bills.print();
    bills.check();
    bills.inputs.iter().for_each(|input| add(stored, input));
}

fn add(stored: &mut Stored, input: &[u8]) {
    stored.add(6, &[input.len()], &[input], bill::printed(input).trim_end().to_string());
}

fn case_b() -> Draft {
    mapped(Problem { library: specimen::library(), tree: specimen::tree_b() }).expect("a cover")
}

/// What map hands over for the specimens, and the shipped example, also with drives.
fn specimens() -> Vec<Draft> {
    let trees = specimen::trees().into_iter().chain([specimen::driven_tree()]);
    let specimens = trees.map(|tree| Problem { library: specimen::library(), tree });
    let drafts = specimens.chain([example_in_time()]).filter_map(mapped);
    drafts.chain([None, Some(0), Some(1), Some(255)].map(shipped_with)).chain(drivers::chosen()).collect()
}

/// The shipped example with one drive at every leaf.
fn shipped_with(drive: Option<u32>) -> Draft {
    let Draft { mut problem, cover, .. } = shipped();
    problem.tree = problem.tree.with_drive(drive);
    Draft::legal(problem, cover.matches)
}

/// The ends of every scale, and lists that are not in the order of their bills.
fn chosen() -> Vec<Draft> {
    let upwards: Vec<usize> = (1..64).collect();
    let downwards: Vec<usize> = (0..63).rev().collect();
    let mut shuffled: Vec<usize> = (0..64).collect();
    Rng::new(63).shuffle(&mut shuffled);
    let counted = counted_cells();
    let mut drafts = vec![longest_bill(), unordered(), two_patterns_of_nands()];
    let latest = [TreeLeaf::plain(LATEST_LEAF), TreeLeaf::driven(LATEST_LEAF, 255)];
    drafts.extend(latest.map(greatest));
    drafts.extend(latest.into_iter().chain([TreeLeaf::plain(0), TreeLeaf::driven(3, 255)]).map(leaf));
    for patterns in [&upwards[..], &downwards, &shuffled, &[0], &[63], &[63, 0], &[9, 10, 9, 8, 10]] {
        drafts.push(chained(&counted, 1, 0, patterns));
    }
    let several = several_patterns();
    for patterns in [&[0, 1][..], &[1, 0], &[4, 3], &[2, 5, 0, 3, 1, 4], &[5, 4, 3, 2, 1, 0], &[1, 1, 0, 1], &[2, 2]] {
        drafts.push(chained(&several, 2, 3, patterns));
    }
    drafts
}

/// 64 inverters, of which no two have the same area.
fn counted_cells() -> Library {
    let counted = |number| cell(1_000 * number + 7, 255, pin(0, number, 1), INVERTER);
    Library { bins: vec![2], cells: (0..64).map(counted).collect() }
}

/// The longest text: 63 cells of the greatest area, each once, over a leaf that arrives last, and all the slowest.
fn longest_bill() -> Draft {
    let inverter = cell(65_535, 255, pin(0, 65_535, 255), INVERTER);
    let library = Library { bins: vec![255], cells: vec![inverter; 64] };
    let patterns: Vec<usize> = (1..64).collect();
    chained(&library, 255, TreeLeaf::driven(LATEST_LEAF, 255), &patterns)
}

/// Patterns 0 and 1 are of cell 0, 2 of cell 1, the others of cell 2.
fn several_patterns() -> Library {
    let drawn = |area, drawings: &[usize]| {
        let patterns = drawings.iter().map(|&length| Shape::from_steps(&chain(length, &[Leaf(0)]))).collect();
        Cell { patterns, ..cell(area, 9, pin(1, area, 2), INVERTER) }
    };
    Library { bins: vec![1, 5], cells: vec![drawn(10, &[1, 3]), drawn(30, &[2]), drawn(500, &[1, 1, 4])] }
}

/// Under an inverter both drawings of one cell, each with inputs exchanged.
fn two_patterns_of_nands() -> Draft {
    let mut three = cell(9, 9, pin(0, 10, 1), &[Nand, Leaf(0), Nand, Leaf(1), Leaf(2)]);
    three.patterns.push(Shape::from_steps(&[Nand, Inv, Leaf(2), Nand, Leaf(0), Leaf(1)]));
    let library = Library { bins: vec![1], cells: vec![three, cell(2, 9, pin(0, 3, 1), INVERTER)] };
    let steps = [Inv, Nand, Nand, Leaf(4), Leaf(5), Nand, Nand, Leaf(1), Leaf(2), Inv, Leaf(3)];
    let matches = [(0, 2, 0), (1, 0, 16), (5, 1, 16)];
    let placed = matches.map(|(node, pattern, crossing)| Placed { node, pattern, crossing });
    Draft::legal(Problem { library, tree: tree(1, 0, &steps) }, placed.to_vec())
}

/// A NAND of both inverters: the list begins with the highest cell.
fn unordered() -> Draft {
    let problem = Problem { library: specimen::library(), tree: tree(1, 0, &[Nand, Inv, Leaf(0), Inv, Leaf(0)]) };
    let matches = [(0, 2), (1, 1), (3, 0)];
    Draft::legal(problem, matches.map(|(node, pattern)| Placed::new(node, pattern, 0)).to_vec())
}

fn small_library(area: u32) -> Library {
    Library { bins: vec![1], cells: vec![cell(area, 255, pin(0, 1, 1), INVERTER)] }
}

/// A tree of one leaf.
fn leaf(leaf: impl Into<TreeLeaf>) -> Draft {
    chained(&small_library(1), 9, leaf, &[])
}

/// Margins about the powers of ten, on both sides of zero.
fn margins() -> Vec<Draft> {
    let powers = (1..8).map(|digits| 10u32.pow(digits));
    let sizes: Vec<u32> = (0..4).chain(powers.flat_map(|power| [power - 1, power, power + 1])).collect();
    let slow = greatest(LATEST_LEAF);
    let positive = sizes.iter().map(|&size| leaf(0).due(size));
    let negative = sizes.iter().filter(|&&size| size <= LATEST_LEAF).map(|&size| leaf(size).due(0));
    let more = sizes.iter().filter(|&&size| size <= slow.cover.arrival);
    let more = more.filter(|&&size| size > 1_000).map(|&size| slow.due(slow.cover.arrival - size));
    positive.chain(negative).chain(more).collect()
}

/// One cell every number of times, and amounts of every number of digits.
fn counts() -> Vec<Draft> {
    let chain = |area, count| chained(&small_library(area), 1, 0, &vec![0; count]).due(50);
    let mut drafts: Vec<Draft> = (0..64).map(|count| chain(7, count)).collect();
    for area in [1, 9, 10, 99, 100, 999, 1_000, 9_999, 10_000, 65_535] {
        drafts.extend([1, 2, 9, 10, 11].map(|count| chain(area, count)));
    }
    drafts
}

/// The problems of the benchmark, and a library of 128 patterns: what map hands over, and a late cover at random.
fn large_libraries() -> Vec<Draft> {
    let mut rng = Rng::new(1_286);
    let library = longest::library();
    let steps = library.cells[63].patterns[1].steps();
    let last = Problem { library, tree: tree(9, LATEST_REQUIRED, &steps) };
    let problems = heavy::all().into_iter().map(|(_, problem)| problem).chain([last]);
    let covers = |problem: Problem| {
        let cover = Draw::new(&problem).cover(&mut rng).expect("a cover");
        let late = Draft::new(problem.clone(), cover.clone()).due(cover.arrival - 1);
        [mapped(problem).expect("a cover"), late]
    };
    problems.flat_map(covers).collect()
}

/// The cases so far.
#[derive(Default)]
struct Bills {
    inputs: Vec<Vec<u8>>,
    seen: HashSet<Vec<u8>>,
}

impl Bills {
    /// Each case stands once.
    fn add(&mut self, input: Vec<u8>) {
        if self.seen.insert(input.clone()) {
            self.inputs.push(input);
        }
    }

    /// A cover under its own required time, about its arrival, and at the ends of the scale.
    fn times(&mut self, draft: &Draft) {
        let arrival = draft.cover.arrival;
        let own = draft.problem.tree.required;
        for required in [own, arrival.saturating_sub(1), arrival, arrival + 1, 0, LATEST_REQUIRED] {
            self.add(whole(&draft.due(required).case()));
        }
    }

    /// A case cut to every length and with bytes after it, and under other lengths.
    fn lengths(&mut self, case: &Case) {
        let input = whole(case);
        (0..=input.len() + 2).for_each(|length| self.add(resized(input.clone(), length)));
        for more in [&[1][..], &[255], &[0, 9]] {
            self.add([&input, more].concat());
        }
        let sheets = sheets(case);
        for lengths in other_lengths(lengths(case)) {
            self.add(stating(lengths, &sheets));
            self.add(stating(lengths, &[&sheets[..], &[0]].concat()));
            self.add(stating(lengths, &sheets[..sheets.len() - 1]));
        }
    }

    /// Inputs of at most six bytes, and of 4,096 and a few less or more, with one long sheet and with bytes left over.
    fn limits(&mut self) {
        for length in 0..=HEADING + 1 {
            self.add(vec![0; length]);
            self.add(vec![255; length]);
        }
        let (small, late) = (case_b().case(), shipped().case());
        for length in [MOST_INPUT - 1, MOST_INPUT, MOST_INPUT + 1] {
            (0..3).for_each(|sheet| self.add(whole(&padded(&small, sheet, length))));
            self.add(resized(whole(&small), length));
            self.add(vec![0; length]);
        }
        (0..3).for_each(|sheet| self.add(whole(&padded(&late, sheet, MOST_INPUT + 1))));
        for length in [MOST_INPUT + 2, 2 * MOST_INPUT] {
            self.add(whole(&padded(&late, 2, length)));
        }
        self.add(vec![255; MOST_INPUT]);
    }

    fn random(&mut self) {
        let mut rng = Rng::new(6_000);
        self.some(500, || whole(&legal_case(&mut rng)));
        self.some(450, || whole(&any_case(&mut rng)));
        self.some(300, || any_input(&mut rng));
    }

    fn some(&mut self, count: usize, make: impl FnMut() -> Vec<u8>) {
        short(count, make, Vec::len).into_iter().for_each(|input| self.add(input));
    }

    /// There are enough cases, of every kind, and not too many bytes.
    fn check(&self) {
        self.kinds().check(&KINDS, LEAST_OF_A_KIND);
        assert!(self.inputs.len() >= LEAST_CASES && self.bytes() <= MOST_BYTES);
    }

    fn kinds(&self) -> Kinds {
        Kinds::of(self.inputs.iter().flat_map(|input| kinds(input)))
    }

    /// The bytes of all records.
    fn bytes(&self) -> usize {
        self.inputs.iter().map(|input| 3 + input.len()).sum()
    }

    fn print(&self) {
        println!("{} cases of bills, {} bytes", self.inputs.len(), self.bytes());
        self.kinds().print();
    }
}

/// Each length one off, with a bit changed, with its bytes exchanged, and all ones; two exchanged, one more and one
/// less, and both too great by half of 65,536.
fn other_lengths(lengths: [u16; 3]) -> Vec<[u16; 3]> {
    let mut others = vec![[u16::MAX; 3]];
    for one in 0..3 {
        let length = lengths[one];
        let mut values = vec![length + 1, length - 1, length.swap_bytes(), u16::MAX];
        values.extend((0..16).map(|bit| length ^ 1 << bit));
        others.extend(values.into_iter().map(|value| with(lengths, one, value)));
        for other in (0..3).filter(|&other| other != one) {
            let second = lengths[other];
            others.push(with(with(lengths, one, length + 1), other, second - 1));
            others.push(with(with(lengths, one, second), other, length));
            others.push(with(with(lengths, one, length ^ 1 << 15), other, second ^ 1 << 15));
        }
    }
    others
}

fn with(mut lengths: [u16; 3], place: usize, value: u16) -> [u16; 3] {
    lengths[place] = value;
    lengths
}

/// How a case is counted: as its answer has it, and bills also by what stands in them.
fn kinds(input: &[u8]) -> Vec<String> {
    let answer = Answer::of(input);
    let mut kinds = vec![answer.name()];
    if let Answer::Accepted(bill) = answer {
        let found = telling(input, &bill).into_iter().filter(|&(_, found)| found);
        kinds.extend(found.map(|(kind, _)| format!("bill {kind}")));
    }
    kinds
}

fn telling(input: &[u8], bill: &Bill) -> [(&'static str, bool); 5] {
    let [library, tree, cover] = bill::sheets(input).expect("three sheets");
    let (library, _, cover) = judging::decode(library, tree, cover).expect("sound sheets");
    let numbers = library.cell_numbers();
    let patterns: BTreeSet<usize> = cover.matches.iter().map(|placed| placed.pattern).collect();
    let cells: Vec<usize> = cover.matches.iter().map(|placed| numbers[placed.pattern]).collect();
    [
        ("without a match", bill.lines.is_empty()),
        ("of one cell, ten times or more", matches!(bill.lines[..], [line] if line.count >= 10)),
        ("of eight cells or more", bill.lines.len() >= 8),
        ("with two patterns of a cell", patterns.len() > bill.lines.len()),
        ("of a list with a higher cell before a lower", !cells.is_sorted()),
    ]
}

#[cfg(test)]
mod tests {
    use super::*;

    /// `add_all` asserts that there are enough of every kind.
    #[test]
    fn every_kind_of_answer_is_stored() {
        add_all(&mut Stored::default());
    }

    /// No bill is longer: 63 lines, and figures of the most digits.
    #[test]
    fn the_longest_bill_has_714_bytes() {
        let text = bill::printed(&whole(&longest_bill().due(0).case()));
        assert_eq!((text.lines().count(), text.len()), (65, 714));
        assert!(text.ends_with("63 1 65535\ntotal 4128705\nmargin -9290305\n"));
    }
}
