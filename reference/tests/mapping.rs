//! Map and list on the specimens, and merging against listing every cover.

use reference::brute::Listing;
use reference::cover::{list_sheet, Cover, Pair, Placed};
use reference::crossing::unused_bits;
use reference::deadline::Variant;
use reference::form::Form;
use reference::generate::chosen::{self, Outcome};
use reference::generate::problem::{any_style, problem, small_style, Problem};
use reference::generate::specimen;
use reference::library::Library;
use reference::merging;
use reference::operation::{Lent, Operation, LEAST_WORK};
use reference::refusal::Refusal;
use reference::rng::Rng;
use reference::text;
use reference::tree::{Tree, LATEST_REQUIRED};

/// What cases a to l give: patterns, all as drawn, area and arrival, or none for refusal 8.
const SPECIMENS: [Option<(&[usize], u32, u32)>; 14] = [
    Some((&[0], 1, 6)),
    Some((&[1], 2, 5)),
    None,
    Some((&[0], 1, 12)),
    Some((&[1], 2, 9)),
    None,
    Some((&[3], 3, 10)),
    Some((&[1, 2], 4, 22)),
    Some((&[0, 0], 2, 12)),
    Some((&[0, 1], 3, 11)),
    Some((&[2], 2, 11)),
    Some((&[], 0, 7)),
    Some((&[], 0, 7)),
    None,
];

#[test]
fn the_specimens_map_as_stated() {
    let library = specimen::library();
    let trees = specimen::trees();
    assert_eq!(trees.len(), SPECIMENS.len());
    for (tree, expected) in trees.iter().zip(SPECIMENS) {
        let result = merging::map(&library, tree);
        assert_eq!(result, Listing::new(&library, tree, 99).unwrap().map());
        let patterns = |cover: &Cover| cover.matches.iter().map(|placed| placed.pattern).collect::<Vec<_>>();
        match expected {
            None => assert_eq!(result, Err(Refusal { number: 8, place: 0 })),
            Some(expected) => {
                let cover = result.unwrap();
                assert_eq!((patterns(&cover).as_slice(), cover.area, cover.arrival), expected);
                assert!(cover.matches.iter().all(|placed| placed.crossing == 0));
            }
        }
    }
}

#[test]
fn case_b_has_the_stated_bytes() {
    let library = Form::of_library(&specimen::library()).bytes();
    let tree = Form::of_tree(&specimen::tree_b()).bytes();
    let sheet = Operation::Map.run(Lent::ENOUGH, &library, &tree);
    assert_eq!(sheet, Ok(vec![0x00, 0x00, 0x08, 0x00, 0x00, 0x14, 0x10, 0x00, 0x80]));
}

#[test]
fn the_example_of_document_003_arrives_at_39() {
    let library = specimen::example_library();
    let pairs = merging::list(&library, &specimen::example_tree(0)).unwrap();
    assert_eq!(pairs[0].arrival, 39);
    assert_eq!(Listing::new(&library, &specimen::example_tree(0), 9_999).unwrap().list(), Ok(pairs));
    assert!(merging::map(&library, &specimen::example_tree(39)).is_ok());
    assert_eq!(merging::map(&library, &specimen::example_tree(38)), Err(Refusal { number: 8, place: 0 }));
}

#[test]
fn the_longest_sheets_have_the_stated_lengths() {
    let cover = Cover { area: 4_128_705, arrival: 9_290_305, matches: vec![Placed::new(63, 127, 31); 63] };
    assert_eq!(cover.sheet().len(), 149);
    assert_eq!(list_sheet(&[Pair { arrival: 9_290_305, area: 4_128_705 }; 31]).len(), 179);
}

/// What problems were compared: how they end, and what crossings had to do with it.
#[derive(Default, Debug)]
struct Seen {
    overfull: usize,
    without_cover: usize,
    three_matches_or_more: usize,
    exchanged: usize,
    exchanged_with_five_nands: usize,
    /// Another crossing of the same pattern reaches the same, at the root or at a match below.
    tied_at_root: usize,
    tied_below: usize,
    /// Some leaf is driven; and with plain leaves the answer is another.
    driven: usize,
    told_by_drivers: usize,
}

impl Seen {
    fn count(&mut self, problem: &Problem, listing: &Listing, map: &Result<Cover, Refusal>) {
        let Problem { library, tree } = problem;
        self.driven += tree.has_driven_leaves() as usize;
        self.told_by_drivers += (merging::map(library, &tree.with_drive(None)) != *map) as usize;
        let cover = match map {
            Err(refusal) => {
                self.overfull += (refusal.number == 7) as usize;
                self.without_cover += (refusal.number == 8) as usize;
                return;
            }
            Ok(cover) => cover,
        };
        let patterns: Vec<_> = library.patterns().collect();
        let exchanged: Vec<&Placed> = cover.matches.iter().filter(|placed| placed.crossing != 0).collect();
        let five_nands = |placed: &&&Placed| unused_bits(patterns[placed.pattern].1) == 0;
        self.three_matches_or_more += (cover.matches.len() > 2) as usize;
        self.exchanged += !exchanged.is_empty() as usize;
        self.exchanged_with_five_nands += exchanged.iter().any(|placed| five_nands(&placed)) as usize;
        let tied = |position: usize| listing.covers().iter().any(|other| is_tied(cover, other, position));
        self.tied_at_root += tied(0) as usize;
        self.tied_below += (1..cover.matches.len()).any(tied) as usize;
    }
}

/// Whether two covers have the same figures, and at a position the first matches that are not the same, which
/// differ in their crossings alone.
fn is_tied(cover: &Cover, other: &Cover, position: usize) -> bool {
    let (Some(one), Some(two)) = (cover.matches.get(position), other.matches.get(position)) else { return false };
    (cover.area, cover.arrival) == (other.area, other.arrival)
        && cover.matches[..position] == other.matches[..position]
        && (one.node, one.pattern) == (two.node, two.pattern)
        && one.crossing != two.crossing
}

/// Compares so many problems whose covers can be listed.
fn compare_with_listing(count: usize, seed: u64) -> Seen {
    let mut rng = Rng::new(seed);
    let mut seen = Seen::default();
    let mut compared = 0;
    while compared < count {
        let style = small_style(&mut rng);
        let problem = problem(&mut rng, style);
        let (library, tree) = (&problem.library, &problem.tree);
        let Some(listing) = Listing::new(library, tree, 2_000) else { continue };
        let map = merging::map(library, tree);
        assert_eq!(map, listing.map(), "{problem:?}");
        assert_eq!(merging::list(library, tree), listing.list(), "{problem:?}");
        seen.count(&problem, &listing, &map);
        compared += 1;
    }
    println!("{compared} compared: {seen:?}");
    seen
}

#[test]
fn merging_agrees_with_listing_every_cover() {
    let seen = compare_with_listing(25_000, 3);
    assert!(seen.overfull > 200 && seen.without_cover > 2_000 && seen.three_matches_or_more > 2_000);
    assert!(seen.exchanged > 2_000 && seen.exchanged_with_five_nands > 200);
    assert!(seen.tied_at_root > 2_000 && seen.tied_below > 1_000);
    assert!(seen.driven > 12_000 && seen.told_by_drivers > 8_000);
}

#[test]
#[ignore = "long"]
fn merging_agrees_with_listing_on_many_more() {
    compare_with_listing(250_000, 4);
}

#[test]
fn chosen_problems_end_as_stated() {
    for chosen in chosen::all() {
        let Problem { library, tree } = &chosen.problem;
        let tree = Tree { required: LATEST_REQUIRED, ..tree.clone() };
        let (list, map) = (merging::list(library, &tree), merging::map(library, &tree));
        let outcome = match &list {
            Err(refusal) => Outcome::Refused(refusal.number, refusal.place),
            Ok(pairs) => match chosen.outcome {
                Outcome::Single(..) if pairs.len() == 1 => Outcome::Single(pairs[0].arrival, pairs[0].area),
                _ => Outcome::Points(pairs.len()),
            },
        };
        assert_eq!(outcome, chosen.outcome, "{}", chosen.name);
        if let Some(matches) = chosen.matches {
            assert_eq!(map.as_ref().unwrap().matches, matches, "{}", chosen.name);
        }
        if let Some(listing) = Listing::new(library, &tree, 3_000) {
            assert_eq!((list, map), (listing.list(), listing.map()), "{}", chosen.name);
        }
    }
}

/// The benchmark's yardstick gives the same sheets, and clears what it was lent.
fn compare_deadlines(count: usize, seed: u64) {
    let mut rng = Rng::new(seed);
    let mut output = [0; 179];
    let mut work = vec![0; LEAST_WORK];
    for turn in 0..count {
        let style = any_style(&mut rng);
        let problem = problem(&mut rng, style);
        let (library, tree) = (problem.library_sheet(), problem.tree_sheet());
        let operation = if turn % 3 == 0 { Operation::List } else { Operation::Map };
        let expected = operation.run(Lent::ENOUGH, &library, &tree);
        for variant in Variant::ALL {
            work.iter_mut().for_each(|word| *word = rng.word());
            let length = variant.run(operation, &library, &tree, &mut output, &mut work);
            assert_eq!(length.map(|length| output[..length].to_vec()), expected, "{variant:?} {problem:?}");
            assert!(work.iter().all(|&word| word == 0));
        }
    }
}

#[test]
fn deadlines_agree_with_merging() {
    compare_deadlines(6_000, 5);
}

#[test]
#[ignore = "long"]
fn deadlines_agree_with_merging_on_many_more() {
    compare_deadlines(200_000, 6);
}

/// 148 bytes are too few for map, whatever the cover's length.
#[test]
fn map_needs_149_bytes() {
    let library = Form::of_library(&specimen::library()).bytes();
    let tree = Form::of_tree(&specimen::tree_b()).bytes();
    let run = |output| Operation::Map.run(Lent { output, work: LEAST_WORK }, &library, &tree);
    assert_eq!(run(148), Err(Refusal { number: 1, place: 0 }));
    assert_eq!(run(149).map(|sheet| sheet.len()), Ok(9));
}

#[test]
fn treecover_prints_the_crossing_last() {
    let input =
        |library: &Library, tree: &Tree| text::input(&Form::of_library(library).bytes(), &Form::of_tree(tree).bytes());
    let specimen = input(&specimen::library(), &specimen::tree_b());
    assert_eq!(text::printed(&specimen), "cover 2 5 1\n0 1 1 0\n");
    let chosen = chosen::all().into_iter().find(|chosen| chosen.name == "late on the right").unwrap();
    let tree = Tree { required: 12, ..chosen.problem.tree };
    assert_eq!(text::printed(&input(&chosen.problem.library, &tree)), "cover 2 12 2\n0 0 0 16\n2 0 0 16\n");
}
