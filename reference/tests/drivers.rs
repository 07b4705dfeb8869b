//! Driven leaves: arrivals worked out by hand, laws that hold of every tree, and what the generators make.

use reference::brute::Listing;
use reference::cover::{Cover, Pair, Placed};
use reference::form::{Form, Role};
use reference::generate::covers::damage::any_case;
use reference::generate::covers::draw::{any_cover, Draw};
use reference::generate::covers::{Case, Draft};
use reference::generate::damage::{any_sheet, Kind};
use reference::generate::parts::{cell, chain, driven, leaf, pin, tree, INVERTER, NAND};
use reference::generate::problem::{any_style, problem, small_style, Problem};
use reference::generate::{longest, sound, specimen};
use reference::judging;
use reference::library::Library;
use reference::operation::{Lent, Operation};
use reference::refusal::Refusal;
use reference::rng::Rng;
use reference::shape::Step::{self, Inv, Nand};
use reference::tree::{self, Tree, TreeLeaf, LATEST_LEAF, LATEST_REQUIRED};
use reference::verdict::Verdict;
use reference::{bill, merging, text};

/// No arrival exceeds it: 9,225,280 + 255 × 255.
const LATEST_ARRIVAL: u32 = 9_290_305;

fn listed(library: &Library, tree: &Tree) -> Vec<(u32, u32)> {
    let pairs = merging::list(library, tree).expect("a list");
    assert_eq!(Listing::new(library, tree, 9_999).expect("few covers").list().as_ref(), Ok(&pairs));
    pairs.iter().map(|pair| (pair.arrival, pair.area)).collect()
}

/// An inverter with a heavy pin of load 4 (3 + 2 × load), and a larger one with a pin of load 1 (8 + load).
fn two_inverters() -> Library {
    let cells = vec![cell(1, 9, pin(1, 3, 2), INVERTER), cell(5, 9, pin(0, 8, 1), INVERTER)];
    Library { bins: vec![1, 4], cells }
}

#[test]
fn a_leaf_drives_the_pin_that_it_feeds() {
    let library = two_inverters();
    let of = |root_load, steps: &[Step<TreeLeaf>]| listed(&library, &tree(root_load, 0, steps));
    assert_eq!(of(2, &[Inv, leaf(10)]), [(17, 1)]);
    assert_eq!(of(2, &[Inv, driven(10, 0)]), [(17, 1)]);
    // 10 + 4 + 7 = 21 and 10 + 1 + 10 = 21; then 10 + 8 + 7 = 25 and 10 + 2 + 10 = 22; then 10 + 28 + 7 and 10 + 7 + 10.
    assert_eq!(of(2, &[Inv, driven(10, 1)]), [(21, 1)]);
    assert_eq!(of(2, &[Inv, driven(10, 2)]), [(22, 5), (25, 1)]);
    assert_eq!(of(2, &[Inv, driven(10, 7)]), [(27, 5), (45, 1)]);
    // Under load 9 the small one takes 21, the large one 17: 59 and 34.
    assert_eq!(of(9, &[Inv, driven(10, 7)]), [(34, 5), (59, 1)]);
}

/// Above, the small one has the lower inverter drive 4, the large one 1.
#[test]
fn a_driver_tells_through_other_cells() {
    let library = two_inverters();
    let below = tree(2, 0, &[Inv, Inv, driven(10, 7)]);
    // Small over small: 38 + 3 + 8 + 7 = 56; small over large: 17 + 8 + 4 + 7 = 36; large over small: 38 + 3 + 2 + 10 =
    // 53; large over large: 17 + 8 + 1 + 10 = 36, and larger than small over large.
    assert_eq!(listed(&library, &below), [(36, 6), (56, 2)]);
    let in_time = |required| merging::map(&library, &Tree { required, ..below.clone() });
    assert_eq!(in_time(35), Err(Refusal { number: 8, place: 0 }));
    let matches = |cover: Cover| cover.matches;
    assert_eq!(in_time(55).map(matches), Ok(vec![Placed::new(0, 0, 0), Placed::new(1, 1, 0)]));
    assert_eq!(in_time(56).map(matches), Ok(vec![Placed::new(0, 0, 0), Placed::new(1, 0, 0)]));
}

#[test]
fn a_driven_root_drives_the_root_load() {
    let library = two_inverters();
    for (load, arrival) in [(0, 100), (1, 103), (4, 112), (255, 865)] {
        let of = |required| merging::map(&library, &tree(load, required, &[driven(100, 3)]));
        assert_eq!(of(arrival), Ok(Cover { area: 0, arrival, matches: vec![] }));
        assert!(of(arrival + 1).is_ok());
        assert_eq!(of(arrival - 1), Err(Refusal { number: 8, place: 0 }));
        assert_eq!(listed(&library, &tree(load, 0, &[driven(100, 3)])), [(arrival, 0)]);
    }
}

/// 63 of the slowest inverters over the latest and weakest leaf.
fn latest_problem(required: u32) -> Problem {
    let library = Library { bins: vec![255], cells: vec![cell(65_535, 255, pin(0, 65_535, 255), INVERTER)] };
    Problem { library, tree: tree(255, required, &chain(63, &[driven(LATEST_LEAF, 255)])) }
}

#[test]
fn the_latest_arrival_is_9290305() {
    assert_eq!(LATEST_ARRIVAL, 9_225_280 + 255 * 255);
    let of = |required| {
        let Problem { library, tree } = latest_problem(required);
        merging::map(&library, &tree).map(|cover| (cover.arrival, cover.area))
    };
    assert_eq!(of(LATEST_ARRIVAL - 1), Err(Refusal { number: 8, place: 0 }));
    assert_eq!(of(LATEST_ARRIVAL), Ok((LATEST_ARRIVAL, 4_128_705)));
    assert_eq!(of(LATEST_ARRIVAL + 1), Ok((LATEST_ARRIVAL, 4_128_705)));
    let mut rng = Rng::new(51);
    for _ in 0..3_000 {
        let style = any_style(&mut rng);
        let problem = problem(&mut rng, style);
        let pairs = merging::list(&problem.library, &problem.tree).unwrap_or_default();
        assert!(pairs.iter().all(|pair| pair.arrival <= LATEST_ARRIVAL));
    }
}

/// The judge's line for matches as drawn, given by nodes and patterns, with an arrival.
fn judged(problem: &Problem, matches: &[(usize, usize)], area: u32, arrival: u32) -> String {
    let matches = matches.iter().map(|&(node, pattern)| Placed::new(node, pattern, 0)).collect();
    let cover = Form::of_cover(&Cover { area, arrival, matches });
    Verdict::from(Case::new(problem, &cover).judged()).line()
}

/// The true arrival is 10 + 7 × 4 + 3 + 2 × 2; without its driver 17, at the root load 31, at the other bin 24.
#[test]
fn the_judge_charges_the_pins_load() {
    let problem = Problem { library: two_inverters(), tree: tree(2, 0, &[Inv, driven(10, 7)]) };
    assert_eq!(judged(&problem, &[(0, 0)], 1, 45), "accepted 1 45");
    assert_eq!(judged(&problem, &[(0, 1)], 5, 27), "accepted 5 27");
    for arrival in [17, 24, 31, 44, 46, 27] {
        assert_eq!(judged(&problem, &[(0, 0)], 1, arrival), "refused 24 0");
    }
    let root = Problem { library: two_inverters(), tree: tree(9, 0, &[driven(10, 7)]) };
    assert_eq!(judged(&root, &[], 0, 73), "accepted 0 73");
    assert_eq!(judged(&root, &[], 0, 10), "refused 24 0");
    assert_eq!(judged(&root, &[(0, 0)], 0, 73), "refused 23 0");
    let latest = latest_problem(0);
    let all: Vec<(usize, usize)> = (0..63).map(|node| (node, 0)).collect();
    assert_eq!(judged(&latest, &all, 4_128_705, LATEST_ARRIVAL), "accepted 4128705 9290305");
    assert_eq!(judged(&latest, &all, 4_128_705, 9_225_280), "refused 24 0");
}

/// A NAND whose first pin is heavy: exchanged, the slow driver has the light one.
#[test]
fn a_crossing_gives_a_driver_another_load() {
    let mut nand = cell(2, 9, pin(0, 5, 0), NAND);
    nand.pins[0].bin = 1;
    let library = Library { bins: vec![1, 4], cells: vec![nand] };
    let tree = tree(1, LATEST_REQUIRED, &[Nand, driven(0, 10), driven(3, 1)]);
    let cover = merging::map(&library, &tree).expect("a cover");
    assert_eq!(cover, Cover { area: 2, arrival: 15, matches: vec![Placed::new(0, 0, 16)] });
    let problem = Problem { library, tree };
    assert_eq!(judged(&problem, &[(0, 0)], 2, 45), "accepted 2 45");
    assert_eq!(judged(&problem, &[(0, 0)], 2, 15), "refused 24 0");
}

#[test]
fn the_programs_print_driven_trees() {
    let problem = Problem { library: two_inverters(), tree: tree(2, 30, &[Inv, driven(10, 7)]) };
    let (library, tree) = (problem.library_sheet(), problem.tree_sheet());
    assert_eq!(text::printed(&text::input(&library, &tree)), "cover 5 27 1\n0 1 1 0\n");
    let cover = |area, arrival, pattern| Cover { area, arrival, matches: vec![Placed::new(0, pattern, 0)] }.sheet();
    let billed = |cover: Vec<u8>| bill::printed(&bill::input(&library, &tree, &cover));
    assert_eq!(billed(cover(5, 27, 1)), "1 1 5\ntotal 5\nmargin 3\n");
    assert_eq!(billed(cover(1, 45, 0)), "0 1 1\ntotal 1\nmargin -15\n");
    assert_eq!(billed(cover(1, 17, 0)), "refused 24 0\n");
    let torn = |length: usize| text::printed(&text::input(&library, &tree[..length]));
    assert_eq!((tree.len(), torn(7), torn(6)), (8, "refused 12 56\n".to_string(), "refused 12 36\n".to_string()));
}

fn run(operation: Operation, problem: &Problem) -> Result<Vec<u8>, Refusal> {
    operation.run(Lent::ENOUGH, &problem.library_sheet(), &problem.tree_sheet())
}

/// A tree whose driven leaves all have drive 0 is answered as the same tree with plain leaves.
#[test]
fn drive_0_is_no_driver() {
    let mut rng = Rng::new(52);
    let (mut covers, mut refused) = (0, 0);
    for _ in 0..4_000 {
        let style = any_style(&mut rng);
        let Problem { library, tree } = problem(&mut rng, style);
        let with = |drive| Problem { library: library.clone(), tree: tree.with_drive(drive) };
        let (plain, zero) = (with(None), with(Some(0)));
        assert_ne!(plain.tree_sheet(), zero.tree_sheet());
        for operation in [Operation::Map, Operation::List] {
            let answer = run(operation, &plain);
            assert_eq!(answer, run(operation, &zero));
            covers += answer.is_ok() as usize;
            refused += answer.is_err() as usize;
        }
        let cover = any_cover(&mut rng, &plain);
        let judged = |problem: &Problem| Draft::new(problem.clone(), cover.clone()).case();
        assert_eq!(judged(&plain).judged(), judged(&zero).judged());
        let billed = |case: &Case| bill::printed(&bill::input(&case.library, &case.tree, &case.cover));
        assert_eq!(billed(&judged(&plain)), billed(&judged(&zero)));
    }
    assert!(covers > 3_000 && refused > 1_000, "{covers} and {refused}");
}

/// The same of some leaves: those of drive 0 made plain, the others as they are.
#[test]
fn single_leaves_of_drive_0_are_plain() {
    let mut rng = Rng::new(53);
    let mut changed = 0;
    for _ in 0..4_000 {
        let style = any_style(&mut rng);
        let Problem { library, tree } = problem(&mut rng, style);
        let mut plain = tree.clone();
        plain.shape.leaves_mut().for_each(|leaf| leaf.drive = leaf.drive.filter(|&drive| drive > 0));
        changed += (plain != tree && plain.has_driven_leaves()) as usize;
        assert_eq!(merging::map(&library, &tree), merging::map(&library, &plain));
        assert_eq!(merging::list(&library, &tree), merging::list(&library, &plain));
    }
    assert!(changed > 500, "{changed}");
}

/// Where every pin has one load, a driven leaf is a plain one that arrives later by drive × that load; and a tree
/// that is a leaf is one that arrives later by drive × the root load.
#[test]
fn under_one_load_a_driver_is_a_delay() {
    let mut rng = Rng::new(54);
    let mut told = 0;
    for _ in 0..6_000 {
        let style = any_style(&mut rng);
        let Problem { mut library, tree } = problem(&mut rng, style);
        library.bins.truncate(1);
        library.cells.iter_mut().flat_map(|cell| &mut cell.pins).for_each(|pin| pin.bin = 0);
        let load = if tree.shape.is_leaf(0) { tree.root_load } else { library.bins[0] };
        let later = tree.charged(load);
        assert_eq!(merging::map(&library, &tree), merging::map(&library, &later));
        assert_eq!(merging::list(&library, &tree), merging::list(&library, &later));
        let problem = Problem { library, tree };
        let Some(cover) = Draw::new(&problem).cover(&mut rng) else { continue };
        let Problem { library, tree } = problem;
        let figures = judging::figures(&library, &tree, &cover.matches);
        assert_eq!(figures, judging::figures(&library, &later, &cover.matches));
        assert_eq!(figures, Ok(Pair { arrival: cover.arrival, area: cover.area }));
        told += (figures != judging::figures(&library, &tree.with_drive(None), &cover.matches)) as usize;
    }
    assert!(told > 1_500, "{told}");
}

/// Every way to share out 64 nodes among inverters, NANDs and leaves, one leaf more than NANDs.
#[test]
fn the_longest_tree_sheet_has_1056_bits() {
    let bits = |inverters: usize, nands: usize| 32 + 2 * (inverters + nands) + 30 * (nands + 1);
    let shares = (0..32).flat_map(|nands| (0..=64 - 2 * nands - 1).map(move |inverters| (inverters, nands)));
    let longest = shares.clone().max_by_key(|&(inverters, nands)| bits(inverters, nands));
    assert_eq!(longest, Some((1, 31)));
    assert_eq!((bits(1, 31), bits(0, 31)), (1_056, 1_054));
    let form = Form::of_tree(&longest::tree());
    assert_eq!((form.place(form.fields.len()), form.bytes().len()), (1_056, 132));
    let plain = Form::of_tree(&longest::plain_tree());
    assert_eq!((plain.place(plain.fields.len()), plain.bytes().len()), (800, 100));
    assert_eq!(form.find(Role::Drive).len(), 32);
}

/// The longest tree under document 01's library: by merging, by its judge, and as it prints.
#[test]
fn the_longest_tree_is_mapped() {
    let problem = Problem { library: specimen::library(), tree: longest::tree() };
    let cover = merging::map(&problem.library, &problem.tree).expect("a cover");
    // The last leaf, 1,000,000 + 255 × 1, five NANDs, of which the first four drive 1 and the last 2, and the fast
    // inverter, which drives 5.
    assert_eq!((cover.arrival, cover.area), (1_000_255 + 4 * 8 + 10 + 9, 31 * 2 + 2));
    assert_eq!(cover.matches.len(), 32);
    let pair = Pair { arrival: cover.arrival, area: cover.area };
    assert_eq!(Draft::new(problem, cover).case().judged(), Ok(pair));
}

/// How many of each there are among fresh sheets and problems.
#[test]
fn driven_leaves_are_not_rare() {
    let mut rng = Rng::new(55);
    let (mut none, mut some, mut all, mut drives) = (0, 0, 0, [0; 256]);
    for _ in 0..10_000 {
        let tree = sound::tree(&mut rng, 16);
        let driven = tree.shape.leaves().filter(|leaf| leaf.drive.is_some()).count();
        match driven {
            0 => none += 1,
            count if count == tree.shape.leaves().count() => all += 1,
            _ => some += 1,
        }
        tree.shape.leaves().filter_map(|leaf| leaf.drive).for_each(|drive| drives[drive as usize] += 1);
    }
    assert!(none > 2_000 && some > 2_000 && all > 2_000, "{none} {some} {all}");
    assert!([0, 1, 255].iter().all(|&drive: &usize| drives[drive] > 1_000), "{drives:?}");
    let has_driven = |sheet: &[u8]| tree::decode(sheet).is_ok_and(|tree| tree.has_driven_leaves());
    let in_covers = (0..2_000).filter(|_| has_driven(&any_case(&mut rng).tree)).count();
    let small = (0..2_000).filter(|_| {
        let style = small_style(&mut rng);
        problem(&mut rng, style).tree.has_driven_leaves()
    });
    assert!(in_covers > 1_000 && small.count() > 1_000);
}

/// Fresh trees are torn in drives, and have driven leaves that are too late.
#[test]
fn fresh_sheets_are_refused_at_driven_leaves() {
    let mut rng = Rng::new(56);
    let (mut torn, mut late) = (0, 0);
    for _ in 0..40_000 {
        let sheet = any_sheet(&mut rng, Kind::Tree);
        let Verdict::Refused(Refusal { number, place }) = Verdict::of(Kind::Tree, &sheet) else { continue };
        torn += (number == 12 && is_drive(&sheet, place as usize)) as usize;
        late += (number == 14 && code(&sheet, place as usize - 2) == 3) as usize;
    }
    assert!(torn > 500 && late > 300, "{torn} {late}");
}

/// The code at a place of a tree, where all places of codes are even.
fn code(sheet: &[u8], place: usize) -> u8 {
    sheet[place / 8] >> (6 - place % 8) & 3
}

/// Whether the field that begins at a place of a tree is a drive: the last of 30 bits from some code on.
fn is_drive(sheet: &[u8], place: usize) -> bool {
    let mut at = 32;
    while at < place {
        at += match code(sheet, at) {
            0 => 22,
            3 if at + 22 == place => return true,
            3 => 30,
            _ => 2,
        };
    }
    false
}
