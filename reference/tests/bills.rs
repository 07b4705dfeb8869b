//! Bill's text on hand-made inputs and on random ones.

use reference::bill::{input, printed, sheets, Answer, Line};
use reference::cover::{Cover, Placed};
use reference::form::Form;
use reference::generate::bills::{any_input, legal_case, padded, shipped, stating, whole};
use reference::generate::covers::Case;
use reference::generate::parts::{cell, chain, pin, tree, INVERTER, NAND};
use reference::generate::specimen;
use reference::judging;
use reference::library::Library;
use reference::rng::Rng;
use reference::shape::Shape;
use reference::shape::Step::{Inv, Leaf, Nand};
use reference::tree::{Tree, TreeLeaf, LATEST_LEAF, LATEST_REQUIRED};
use std::collections::BTreeMap;

/// Area 2, arrival 5, one match of pattern 1 at node 0.
const CASE_B: [u8; 9] = [0x00, 0x00, 0x08, 0x00, 0x00, 0x14, 0x10, 0x00, 0x80];

/// The sheets of a cover as drawn, given by its figures, nodes and patterns.
fn case(library: &Library, tree: &Tree, area: u32, arrival: u32, matches: &[(usize, usize)]) -> Case {
    let matches = matches.iter().map(|&(node, pattern)| Placed::new(node, pattern, 0)).collect();
    let cover = Cover { area, arrival, matches }.sheet();
    Case { library: Form::of_library(library).bytes(), tree: Form::of_tree(tree).bytes(), cover }
}

/// What is printed for it.
fn billed(library: &Library, tree: &Tree, area: u32, arrival: u32, matches: &[(usize, usize)]) -> String {
    printed(&whole(&case(library, tree, area, arrival, matches)))
}

fn case_b() -> Case {
    case(&specimen::library(), &specimen::tree_b(), 2, 5, &[(0, 1)])
}

#[test]
fn case_b_is_billed() {
    let Case { library, tree, cover } = case_b();
    assert_eq!(cover, CASE_B);
    let input = input(&library, &tree, &cover);
    assert_eq!(input[..6], [0, 44, 0, 7, 0, 9]);
    assert_eq!(input[6..], [library, tree, cover].concat());
    assert_eq!(printed(&input), "1 1 2\ntotal 2\nmargin 0\n");
}

/// The fast inverter drives 5 and takes 9; the NAND below it drives 2 and takes 10; of its inputs the two inverters,
/// which take 6 each, are later than the AND, which takes 10. So the arrival is 9 + 10 + 12, and 28 is required.
#[test]
fn the_shipped_example_is_late() {
    let text = "0 2 2\n1 1 2\n2 1 2\n3 1 3\ntotal 9\nmargin -3\n";
    assert_eq!(printed(&whole(&shipped().case())), text);
    let steps = [Inv, Nand, Inv, Inv, Leaf(0), Inv, Nand, Leaf(0), Leaf(0)];
    let matches = [(0, 1), (1, 2), (2, 0), (3, 0), (5, 3)];
    assert_eq!(billed(&specimen::library(), &tree(5, 28, &steps), 9, 31, &matches), text);
}

/// Cell 0 drives 1 and arrives at 6.
#[test]
fn the_margin_has_a_sign_where_the_cover_is_late() {
    let of = |required| billed(&specimen::library(), &tree(1, required, INVERTER), 1, 6, &[(0, 0)]);
    for (required, margin) in
        [(9, "3"), (7, "1"), (6, "0"), (5, "-1"), (3, "-3"), (0, "-6"), (LATEST_REQUIRED, "16777209")]
    {
        assert_eq!(of(required), format!("0 1 1\ntotal 1\nmargin {margin}\n"));
    }
}

#[test]
fn a_leaf_costs_nothing() {
    let of = |arrival, required| billed(&specimen::library(), &tree(9, required, &[Leaf(arrival)]), 0, arrival, &[]);
    assert_eq!(of(7, 7), "total 0\nmargin 0\n");
    assert_eq!(of(7, 6), "total 0\nmargin -1\n");
    assert_eq!(of(7, 10), "total 0\nmargin 3\n");
    assert_eq!(of(0, LATEST_REQUIRED), "total 0\nmargin 16777215\n");
    assert_eq!(of(LATEST_LEAF, 0), "total 0\nmargin -1000000\n");
}

/// 7 + 3 × 9, and the latest: 1,000,000 + 255 × 255.
#[test]
fn a_driven_leaf_is_billed_under_the_root_load() {
    let of = |leaf: TreeLeaf, root_load, required, arrival| {
        billed(&specimen::library(), &tree(root_load, required, &[Leaf(leaf)]), 0, arrival, &[])
    };
    assert_eq!(of(TreeLeaf::driven(7, 3), 9, 34, 34), "total 0\nmargin 0\n");
    assert_eq!(of(TreeLeaf::driven(7, 3), 9, 33, 34), "total 0\nmargin -1\n");
    assert_eq!(of(TreeLeaf::driven(7, 3), 9, 34, 7), "refused 24 0\n");
    assert_eq!(of(TreeLeaf::driven(LATEST_LEAF, 255), 255, 0, 1_065_025), "total 0\nmargin -1065025\n");
}

/// 63 inverters of the greatest area and delay: 63 × 65,535, and 63 × (65,535 + 255 × 255) after the leaf, which if it
/// is driven has 255 × 255 more itself.
#[test]
fn the_greatest_figures_are_billed() {
    let inverter = cell(65_535, 255, pin(0, 65_535, 255), INVERTER);
    let library = Library { bins: vec![255], cells: vec![inverter] };
    let matches: Vec<(usize, usize)> = (0..63).map(|node| (node, 0)).collect();
    let of = |leaf: TreeLeaf, arrival, required| {
        let tree = tree(255, required, &chain(63, &[Leaf(leaf)]));
        billed(&library, &tree, 4_128_705, arrival, &matches)
    };
    let (plain, driven) = (TreeLeaf::plain(LATEST_LEAF), TreeLeaf::driven(LATEST_LEAF, 255));
    assert_eq!(of(plain, 9_225_280, 0), "0 63 4128705\ntotal 4128705\nmargin -9225280\n");
    assert_eq!(of(plain, 9_225_280, LATEST_REQUIRED), "0 63 4128705\ntotal 4128705\nmargin 7551935\n");
    assert_eq!(of(driven, 9_290_305, 0), "0 63 4128705\ntotal 4128705\nmargin -9290305\n");
    assert_eq!(of(driven, 9_290_305, LATEST_REQUIRED), "0 63 4128705\ntotal 4128705\nmargin 7486910\n");
    assert_eq!(of(driven, 9_225_280, 0), "refused 24 0\n");
}

/// A NAND over the fast inverter and the plain one: the list has cells 2, 1 and 0.
#[test]
fn lines_ascend_by_cell() {
    let tree = tree(1, 20, &[Nand, Inv, Leaf(0), Inv, Leaf(0)]);
    let text = billed(&specimen::library(), &tree, 5, 14, &[(0, 2), (1, 1), (3, 0)]);
    assert_eq!(text, "0 1 1\n1 1 2\n2 1 2\ntotal 5\nmargin 6\n");
}

/// Cell 0 has patterns 0 and 1, of one inverter and of two; the NAND is cell 1 and pattern 2. A held cell before them
/// has a number too.
#[test]
fn all_patterns_of_a_cell_count_on_its_line() {
    let mut inverters = cell(5, 9, pin(0, 1, 0), INVERTER);
    inverters.patterns.push(Shape::from_steps(&[Inv, Inv, Leaf(0)]));
    let mut library = Library { bins: vec![1], cells: vec![inverters, cell(7, 9, pin(0, 1, 0), NAND)] };
    let tree = tree(1, 4, &[Nand, Inv, Inv, Inv, Leaf(0), Inv, Inv, Leaf(1)]);
    let of = |library: &Library, matches: [(usize, usize); 4]| billed(library, &tree, 22, 3, &matches);
    let text = "0 3 15\n1 1 7\ntotal 22\nmargin 1\n";
    assert_eq!(of(&library, [(0, 2), (1, 0), (2, 1), (5, 1)]), text);
    assert_eq!(of(&library, [(0, 2), (1, 1), (3, 0), (5, 1)]), text);
    let mut held = cell(9, 9, pin(0, 1, 0), INVERTER);
    held.held = true;
    library.cells.insert(0, held);
    let text = "1 3 15\n2 1 7\ntotal 22\nmargin 1\n";
    assert_eq!(of(&library, [(0, 3), (1, 1), (2, 2), (5, 2)]), text);
    assert_eq!(of(&library, [(0, 3), (1, 0), (2, 2), (5, 2)]), "refused 23 1\n");
}

#[test]
fn an_input_of_another_length_is_spoiled() {
    let case = case_b();
    let input = whole(&case);
    for length in 0..input.len() {
        assert_eq!(printed(&input[..length]), "spoiled\n");
    }
    for more in [&[0][..], &[1], &[0, 0]] {
        assert_eq!(printed(&[&input, more].concat()), "spoiled\n");
    }
    let sheets = &input[6..];
    assert_eq!(printed(&stating([44, 7, 9], sheets)), "1 1 2\ntotal 2\nmargin 0\n");
    for lengths in [[45, 7, 9], [43, 7, 9], [44, 8, 9], [44, 6, 9], [44, 7, 10], [44, 7, 8], [65_535; 3]] {
        assert_eq!(printed(&stating(lengths, sheets)), "spoiled\n");
    }
    assert_eq!(printed(&stating([44 + 32_768, 7 + 32_768, 9], sheets)), "spoiled\n");
    assert_eq!(printed(&stating([0; 3], &[])), "refused 2 0\n");
}

/// The sheets are parted by the lengths alone. The fields of the library take 346 bits, those of the tree 56.
#[test]
fn other_borders_are_refused() {
    let input = whole(&case_b());
    let of = |lengths| printed(&stating(lengths, &input[6..]));
    assert_eq!(of([45, 6, 9]), "refused 3 346\n");
    assert_eq!(of([44, 8, 8]), "refused 13 56\n");
    assert_eq!(of([44, 6, 10]), "refused 12 36\n");
    assert_eq!(of([60, 0, 0]), "refused 3 346\n");
    assert_eq!(of([0, 0, 60]), "refused 2 0\n");
}

#[test]
fn an_input_may_have_4096_bytes() {
    let case = case_b();
    for (sheet, refused) in ["refused 3 346\n", "refused 13 56\n", "refused 22 70\n"].into_iter().enumerate() {
        assert_eq!(printed(&whole(&padded(&case, sheet, 4_096))), refused);
        assert_eq!(printed(&whole(&padded(&case, sheet, 4_097))), "spoiled\n");
    }
}

/// Of several faults the first in order is said, and nothing of a bill.
#[test]
fn refusals_are_those_of_the_judge() {
    let Case { library, tree, cover } = case_b();
    let of = |library: &[u8], tree: &[u8], cover: &[u8]| printed(&input(library, tree, cover));
    let untrue = Cover { area: 3, arrival: 5, matches: vec![Placed::new(0, 1, 0)] }.sheet();
    let misplaced = Cover { area: 3, arrival: 5, matches: vec![Placed::new(1, 1, 0)] }.sheet();
    let unfinished = Cover { area: 0, arrival: 0, matches: vec![] }.sheet();
    let crossed = Cover { area: 2, arrival: 5, matches: vec![Placed::new(0, 1, 16)] }.sheet();
    assert_eq!(of(&library[..1], &tree[..1], &cover[..1]), "refused 2 3\n");
    assert_eq!(of(&library, &tree[..1], &cover[..1]), "refused 12 8\n");
    assert_eq!(of(&library, &tree, &cover[..8]), "refused 22 58\n");
    assert_eq!(of(&library, &tree, &[&cover[..], &[0]].concat()), "refused 22 70\n");
    assert_eq!(of(&library, &tree, &misplaced), "refused 23 0\n");
    assert_eq!(of(&library, &tree, &unfinished), "refused 23 0\n");
    assert_eq!(of(&library, &tree, &crossed), "refused 23 0\n");
    assert_eq!(of(&library, &tree, &untrue), "refused 24 0\n");
    assert_eq!(of(&[], &[], &[]), "refused 2 0\n");
    assert_eq!(of(&library, &[], &[]), "refused 12 0\n");
    assert_eq!(of(&library, &tree, &[]), "refused 22 0\n");
}

/// Every line is checked against the list, and the total against the sheet.
#[test]
fn bills_tell_of_their_covers() {
    let mut rng = Rng::new(37);
    for _ in 0..5_000 {
        let case = legal_case(&mut rng);
        let (library, tree, cover) = judging::decode(&case.library, &case.tree, &case.cover).expect("sound sheets");
        let Answer::Accepted(bill) = Answer::of(&whole(&case)) else { panic!("not accepted") };
        let numbers = library.cell_numbers();
        let times = |cell: usize| cover.matches.iter().filter(|placed| numbers[placed.pattern] == cell).count() as u32;
        let line = |cell| Line { cell, count: times(cell), amount: times(cell) * library.cells[cell].area };
        let used: Vec<usize> = (0..library.cells.len()).filter(|&cell| times(cell) > 0).collect();
        assert_eq!(bill.lines, used.into_iter().map(line).collect::<Vec<_>>());
        assert_eq!(bill.total, cover.area);
        assert_eq!(bill.margin + cover.arrival as i64, tree.required as i64);
    }
}

#[test]
fn a_refused_cover_has_no_bill() {
    let mut rng = Rng::new(38);
    for _ in 0..5_000 {
        let input = any_input(&mut rng);
        let Ok([library, tree, cover]) = sheets(&input) else {
            assert_eq!(printed(&input), "spoiled\n");
            continue;
        };
        match judging::judge(library, tree, cover) {
            Ok(pair) => assert!(printed(&input).contains(&format!("total {}\nmargin ", pair.area))),
            Err(fault) => assert_eq!(printed(&input), fault.refusal().line() + "\n"),
        }
    }
}

/// Fresh inputs are of every kind, none of them rare.
#[test]
fn fresh_inputs_are_of_every_kind() {
    let mut rng = Rng::new(39);
    let mut counts = BTreeMap::new();
    for _ in 0..20_000 {
        *counts.entry(Answer::of(&any_input(&mut rng)).name()).or_insert(0) += 1;
    }
    println!("{counts:?}");
    for word in ["early", "just in time", "late"] {
        assert!(counts[&format!("accepted {word}")] >= 1_000);
    }
    for number in [2, 3, 4, 5, 6, 12, 13, 14, 16, 22, 23, 24] {
        assert!(counts[&format!("refused {number:>2}")] >= 10);
    }
    for word in ["under 6", "over 4,096", "missing", "left over"] {
        assert!(counts[&format!("spoiled: {word}")] >= 100);
    }
}
