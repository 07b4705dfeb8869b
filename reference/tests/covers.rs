//! The judge of covers on hand-made sheets, against listing every cover, and on what map hands over.

use reference::brute::Listing;
use reference::cover::{self, Cover, Pair, Placed};
use reference::crossing::CROSSINGS;
use reference::form::Form;
use reference::generate::covers::damage::{any_case, spoiled, IN_COVER};
use reference::generate::covers::draw::{any_cover, Draw};
use reference::generate::covers::Draft;
use reference::generate::parts::{cell, chain, pin, tree, INVERTER, NAND};
use reference::generate::problem::{any_style, problem, small_style, Problem};
use reference::generate::specimen;
use reference::judging::{check, judge, name, Fault};
use reference::library::Library;
use reference::merging;
use reference::operation::{Lent, Operation};
use reference::rng::Rng;
use reference::shape::Node;
use reference::shape::Step::{Inv, Leaf, Nand};
use reference::tree::Tree;
use reference::verdict::Verdict;
use std::collections::BTreeSet;

/// Nodes and patterns, as drawn.
type Matches<'a> = &'a [(usize, usize)];

/// Area 2, arrival 5, one match of pattern 1 at node 0.
const CASE_B: [u8; 9] = [0x00, 0x00, 0x08, 0x00, 0x00, 0x14, 0x10, 0x00, 0x80];

fn specimen_sheets(tree: &Tree) -> (Vec<u8>, Vec<u8>) {
    (Form::of_library(&specimen::library()).bytes(), Form::of_tree(tree).bytes())
}

fn verdict(library: &[u8], tree: &[u8], cover: &[u8]) -> Verdict {
    Verdict::from(judge(library, tree, cover))
}

#[test]
fn case_b_is_accepted() {
    let (library, tree) = specimen_sheets(&specimen::tree_b());
    let verdict = verdict(&library, &tree, &CASE_B);
    assert_eq!(verdict, Verdict::Cover(Pair { area: 2, arrival: 5 }));
    assert_eq!(verdict.line(), "accepted 2 5");
    assert_eq!(verdict.coded(), (1 << 63) + 2 * (1 << 24) + 5);
}

/// INV of NAND; nodes 2 and 3 are leaves.
fn and_tree(root_load: u32) -> Tree {
    tree(root_load, 0, &chain(1, &[Nand, Leaf(0), Leaf(0)]))
}

/// Judges a list of matches as drawn with the figures area and arrival.
fn judged(library: &Library, tree: &Tree, area: u32, arrival: u32, matches: Matches) -> String {
    let crossed: Vec<(usize, usize, u32)> = matches.iter().map(|&(node, pattern)| (node, pattern, 0)).collect();
    judged_crossed(library, tree, (area, arrival), &crossed)
}

/// The same for nodes, patterns and crossings.
fn judged_crossed(
    library: &Library,
    tree: &Tree,
    (area, arrival): (u32, u32),
    matches: &[(usize, usize, u32)],
) -> String {
    let placed = |&(node, pattern, crossing): &(usize, usize, u32)| Placed { node, pattern, crossing };
    let sheet = Cover { area, arrival, matches: matches.iter().map(placed).collect() }.sheet();
    verdict(&Form::of_library(library).bytes(), &Form::of_tree(tree).bytes(), &sheet).line()
}

#[test]
fn figures_are_those_of_the_list() {
    let library = specimen::library();
    let of = |root_load, area, arrival, matches| judged(&library, &and_tree(root_load), area, arrival, matches);
    assert_eq!(of(1, 3, 10, &[(0, 3)]), "accepted 3 10");
    assert_eq!(of(1, 3, 14, &[(0, 0), (1, 2)]), "accepted 3 14");
    assert_eq!(of(1, 4, 15, &[(0, 1), (1, 2)]), "accepted 4 15");
    assert_eq!(of(8, 4, 22, &[(0, 1), (1, 2)]), "accepted 4 22");
    for (area, arrival) in [(3, 22), (5, 22), (4, 21), (4, 23), (0, 0), (22, 4)] {
        assert_eq!(of(8, area, arrival, &[(0, 1), (1, 2)]), "refused 24 0");
    }
}

#[test]
fn the_first_wrong_match_is_named() {
    let library = specimen::library();
    let of = |matches| judged(&library, &and_tree(1), 3, 14, matches);
    assert_eq!(of(&[(0, 0), (1, 2)]), "accepted 3 14");
    let wrong: [(Matches, usize); 14] = [
        (&[], 0),
        (&[(0, 0)], 1),
        (&[(1, 2), (0, 0)], 0),
        (&[(1, 2)], 0),
        (&[(63, 0), (1, 2)], 0),
        (&[(0, 0), (0, 0)], 1),
        (&[(0, 0), (2, 2)], 1),
        (&[(0, 0), (1, 2), (2, 0)], 2),
        (&[(0, 0), (1, 2), (1, 2)], 2),
        (&[(0, 3), (1, 2)], 1),
        (&[(0, 2), (1, 2)], 0),
        (&[(0, 0), (1, 3)], 1),
        (&[(0, 4), (1, 2)], 0),
        (&[(0, 0), (1, 127)], 1),
    ];
    for (matches, place) in wrong {
        assert_eq!(of(matches), format!("refused 23 {place}"), "{matches:?}");
    }
}

#[test]
fn held_cells_and_high_loads_are_named() {
    let mut library = specimen::library();
    let of =
        |library: &Library, root_load, arrival, matches| judged(library, &and_tree(root_load), 3, arrival, matches);
    assert_eq!(of(&library, 4, 16, &[(0, 3)]), "accepted 3 16");
    assert_eq!(of(&library, 5, 18, &[(0, 3)]), "refused 23 0");
    library.cells[2].highest_load = 1;
    assert_eq!(of(&library, 1, 14, &[(0, 0), (1, 2)]), "accepted 3 14");
    assert_eq!(of(&library, 1, 14, &[(0, 1), (1, 2)]), "refused 23 1");
    library.cells[2].held = true;
    assert_eq!(of(&library, 1, 14, &[(0, 0), (1, 2)]), "refused 23 1");
    library.cells[3].held = true;
    assert_eq!(of(&library, 1, 10, &[(0, 3)]), "refused 23 0");
}

/// A NAND with a slow second pin, one with an inverter at its second input, and an inverter.
fn uneven_library() -> Library {
    let mut nand = cell(2, 9, pin(0, 1, 0), NAND);
    nand.pins[1] = pin(0, 5, 0);
    let inverted = cell(3, 9, pin(0, 2, 0), &[Nand, Leaf(0), Inv, Leaf(1)]);
    Library { bins: vec![1], cells: vec![nand, inverted, cell(1, 9, pin(0, 1, 0), INVERTER)] }
}

#[test]
fn a_crossing_exchanges_the_pins() {
    let library = uneven_library();
    let nand = tree(1, 0, &[Nand, Leaf(10), Leaf(0)]);
    let of = |arrival, crossing| judged_crossed(&library, &nand, (2, arrival), &[(0, 0, crossing)]);
    assert_eq!(of(11, 0), "accepted 2 11");
    assert_eq!(of(15, 16), "accepted 2 15");
    assert_eq!(of(15, 0), "refused 24 0");
    assert_eq!(of(11, 16), "refused 24 0");
    for crossing in (0..CROSSINGS).filter(|crossing| ![0, 16].contains(crossing)) {
        assert_eq!(of(11, crossing), "refused 23 0", "{crossing}");
        assert_eq!(of(15, crossing), "refused 23 0", "{crossing}");
    }
}

/// Pattern 1 stands there with its inverter first, so only exchanged; the inverters have no NAND.
#[test]
fn a_crossing_that_does_not_match_is_named() {
    let library = uneven_library();
    let inverted = tree(1, 0, &[Inv, Nand, Inv, Leaf(4), Leaf(0)]);
    let of = |figures, matches| judged_crossed(&library, &inverted, figures, matches);
    assert_eq!(of((4, 7), &[(0, 2, 0), (1, 1, 16)]), "accepted 4 7");
    assert_eq!(of((4, 7), &[(0, 2, 0), (1, 1, 0)]), "refused 23 1");
    assert_eq!(of((4, 7), &[(0, 2, 0), (1, 1, 24)]), "refused 23 1");
    assert_eq!(of((4, 7), &[(0, 2, 0), (1, 1, 17)]), "refused 23 1");
    assert_eq!(of((4, 7), &[(0, 2, 16), (1, 1, 16)]), "refused 23 0");
    assert_eq!(of((4, 7), &[(0, 2, 1), (1, 1, 16)]), "refused 23 0");
    assert_eq!(of((4, 7), &[(0, 2, 16), (1, 1, 0)]), "refused 23 0");
    assert_eq!(of((4, 7), &[(0, 2, 0), (1, 0, 0), (2, 2, 0)]), "accepted 4 7");
    assert_eq!(of((4, 11), &[(0, 2, 0), (1, 0, 16), (2, 2, 0)]), "accepted 4 11");
    assert_eq!(of((4, 11), &[(0, 2, 0), (1, 0, 16), (2, 2, 2)]), "refused 23 2");
}

/// Five NANDs: the tree is the drawing under crossing 19, and of all crossings only that one matches.
#[test]
fn one_crossing_of_32_matches() {
    let five = [Nand, Inv, Nand, Leaf(3), Inv, Nand, Inv, Leaf(0), Leaf(5), Nand, Nand, Leaf(1), Inv, Leaf(4), Leaf(2)];
    let library = Library { bins: vec![1], cells: vec![cell(9, 9, pin(0, 2, 0), &five)] };
    let turned =
        [Nand, Nand, Leaf(0), Nand, Inv, Leaf(0), Leaf(0), Inv, Nand, Leaf(0), Inv, Nand, Inv, Leaf(0), Leaf(0)];
    for crossing in 0..CROSSINGS {
        let judged = judged_crossed(&library, &tree(1, 0, &turned), (9, 2), &[(0, 0, crossing)]);
        assert_eq!(judged, if crossing == 19 { "accepted 9 2" } else { "refused 23 0" }, "{crossing}");
    }
}

/// A tree of one leaf has the cover without a match alone.
#[test]
fn a_leaf_needs_no_match() {
    let library = specimen::library();
    let leaf = tree(9, 6, &[Leaf(7)]);
    assert_eq!(judged(&library, &leaf, 0, 7, &[]), "accepted 0 7");
    assert_eq!(judged(&library, &leaf, 0, 6, &[]), "refused 24 0");
    assert_eq!(judged(&library, &leaf, 1, 7, &[]), "refused 24 0");
    assert_eq!(judged(&library, &leaf, 0, 7, &[(0, 0)]), "refused 23 0");
}

#[test]
fn a_torn_sheet_and_a_tail_are_named() {
    let (library, tree) = specimen_sheets(&specimen::tree_b());
    let refused = |cover: &[u8]| verdict(&library, &tree, cover).line();
    let torn = [0, 0, 0, 22, 22, 22, 46, 52, 58];
    assert_eq!(CASE_B.len(), torn.len());
    for (length, place) in torn.into_iter().enumerate() {
        assert_eq!(refused(&CASE_B[..length]), format!("refused 22 {place}"));
    }
    for bit in 0..2 {
        let mut tailed = CASE_B;
        tailed[8] |= 1 << bit;
        assert_eq!(refused(&tailed), "refused 22 70");
    }
    for more in [&[0][..], &[1], &[0, 0]] {
        assert_eq!(refused(&[&CASE_B, more].concat()), "refused 22 70");
    }
}

/// Of several faults the first in order is said: library, tree, sheet, match, figure.
#[test]
fn faults_are_said_in_order() {
    let (library, tree) = specimen_sheets(&specimen::tree_b());
    let stating = |node, pattern| Cover { area: 9, arrival: 9, matches: vec![Placed::new(node, pattern, 0)] }.sheet();
    let wrong = stating(1, 1);
    let tailed = [wrong.as_slice(), &[0]].concat();
    let line = |library: &[u8], tree: &[u8], cover: &[u8]| verdict(library, tree, cover).line();
    assert_eq!(line(&library[..1], &tree[..1], &tailed), "refused 2 3");
    assert_eq!(line(&library, &tree[..1], &tailed), "refused 12 8");
    assert_eq!(line(&library, &tree, &tailed), "refused 22 70");
    assert_eq!(line(&library, &tree, &wrong), "refused 23 0");
    let untrue = stating(0, 1);
    assert_eq!(line(&library, &tree, &untrue), "refused 24 0");
    assert_eq!(line(&[], &[], &[]), "refused 2 0");
    assert_eq!(line(&library, &[], &[]), "refused 12 0");
    assert_eq!(line(&library, &tree, &[]), "refused 22 0");
}

#[test]
fn a_written_cover_is_read_back() {
    let mut rng = Rng::new(31);
    for _ in 0..2_000 {
        let count = rng.between(0, 63);
        let any = |_| Placed::new(rng.below(64), rng.below(128), rng.below(32) as u32);
        let matches = (0..count).map(any).collect();
        let written = Cover { area: rng.value(0, (1 << 22) - 1), arrival: rng.value(0, (1 << 24) - 1), matches };
        let sheet = written.sheet();
        assert_eq!(sheet, Form::of_cover(&written).bytes());
        assert_eq!(cover::decode(&sheet), Ok(written));
    }
}

/// The covers of a problem, as matches, area and arrival.
fn listed(listing: &Listing) -> BTreeSet<(Vec<Placed>, u32, u32)> {
    listing.covers().iter().map(|cover| (cover.matches.clone(), cover.area, cover.arrival)).collect()
}

/// Every list with up to `most` matches of `choices`.
fn every_list(choices: &[Placed], most: usize) -> Vec<Vec<Placed>> {
    let mut level = vec![vec![]];
    let mut lists = level.clone();
    for _ in 0..most {
        let longer = |list: &Vec<Placed>| choices.iter().map(|&next| [list, &[next][..]].concat()).collect();
        level = level.iter().flat_map::<Vec<_>, _>(longer).collect();
        lists.extend(level.iter().cloned());
    }
    lists
}

/// Every node and pattern and one more, under some crossings.
fn choices(library: &Library, tree: &Tree, crossings: &[u32]) -> Vec<Placed> {
    let mut choices = Vec::new();
    for node in 0..=tree.shape.nodes.len() {
        for pattern in 0..=library.pattern_count() {
            choices.extend(crossings.iter().map(|&crossing| Placed { node, pattern, crossing }));
        }
    }
    choices
}

/// On tiny problems every list of matches there is under some crossings, one longer than any cover.
#[test]
fn exactly_the_legal_covers_are_accepted() {
    let mut rng = Rng::new(32);
    let (mut problems, mut covers, mut lists) = (0, 0, 0);
    while problems < 300 {
        let style = small_style(&mut rng);
        let Problem { library, tree } = problem(&mut rng, style);
        let gates = tree.shape.nodes.iter().filter(|node| !matches!(node, Node::Leaf(_))).count();
        let crossings = if gates < 2 { vec![0, 1, 2, 4, 8, 16, 24, 31] } else { vec![0, 16] };
        let choices = choices(&library, &tree, &crossings);
        if gates == 0 || gates > 3 || choices.len().pow(gates as u32 + 1) > 50_000 {
            continue;
        }
        let listing = Listing::new(&library, &tree, 2_000).expect("few covers");
        let mut legal = listed(&listing);
        legal.retain(|(matches, ..)| matches.iter().all(|placed| crossings.contains(&placed.crossing)));
        let mut accepted = BTreeSet::new();
        for matches in every_list(&choices, gates + 1) {
            let guess = Cover { area: 0, arrival: 0, matches };
            let figures = listing.covers().iter().find(|cover| cover.matches == guess.matches);
            let judged = check(&library, &tree, figures.unwrap_or(&guess));
            match judged {
                Ok(pair) => drop(accepted.insert((guess.matches, pair.area, pair.arrival))),
                Err(fault) => assert_eq!(fault.refusal().number, 23),
            }
            lists += 1;
        }
        assert_eq!(accepted, legal);
        problems += 1;
        covers += legal.len();
    }
    println!("{problems} problems, {covers} covers among {lists} lists");
    assert!(covers > 300);
}

/// What the judge must say of a cover when all covers are known; of the place of 23 the least it can be,
/// and that is the place if every walk leads on to a cover.
#[test]
fn damaged_covers_are_judged_as_the_listing_has_it() {
    let mut rng = Rng::new(33);
    let mut counts = [0; 4];
    while counts.iter().sum::<usize>() < 20_000 {
        let style = small_style(&mut rng);
        let problem = problem(&mut rng, style);
        let Some(listing) = Listing::new(&problem.library, &problem.tree, 500) else { continue };
        let cover = any_cover(&mut rng, &problem);
        let damage = rng.pick(&IN_COVER);
        let case = spoiled(&mut rng, Draft::new(problem.clone(), cover), &[damage]);
        let stated = cover::decode(&case.cover).expect("a whole sheet");
        let judged = case.judged();
        match listing.covers().iter().find(|cover| cover.matches == stated.matches) {
            Some(cover) if *cover == stated => {
                assert_eq!(judged, Ok(Pair { area: cover.area, arrival: cover.arrival }));
                counts[0] += 1;
            }
            Some(cover) => {
                let (area, arrival) = (cover.area != stated.area, cover.arrival != stated.arrival);
                assert_eq!(judged, Err(Fault::Figures { area, arrival }));
                counts[1] += 1;
            }
            None => {
                let refusal = judged.unwrap_err().refusal();
                let known = listing.covers().iter().map(|cover| agreeing(&cover.matches, &stated.matches)).max();
                let place = refusal.place as usize;
                assert_eq!(refusal.number, 23);
                assert!(place >= known.unwrap_or(0));
                assert!(!listing.has_all_covers() || Some(place) == known, "{problem:?} {stated:?}");
                counts[2 + listing.has_all_covers() as usize] += 1;
            }
        }
    }
    println!("accepted, untrue, wrong, wrong at a known place: {counts:?}");
    assert!(counts.iter().all(|&count| count > 500));
}

/// How many matches two lists have in common at their fronts.
fn agreeing(one: &[Placed], other: &[Placed]) -> usize {
    one.iter().zip(other).take_while(|(left, right)| left == right).count()
}

#[test]
fn what_map_hands_over_is_accepted() {
    let mut rng = Rng::new(34);
    let mut handed_over = 0;
    while handed_over < 5_000 {
        let style = any_style(&mut rng);
        let problem = problem(&mut rng, style);
        let (library, tree) = (problem.library_sheet(), problem.tree_sheet());
        let Ok(sheet) = Operation::Map.run(Lent::ENOUGH, &library, &tree) else { continue };
        let Cover { area, arrival, .. } = merging::map(&problem.library, &problem.tree).unwrap();
        assert_eq!(judge(&library, &tree, &sheet), Ok(Pair { area, arrival }));
        handed_over += 1;
    }
}

/// Drawn covers are accepted, also late ones and ones that map would not choose.
#[test]
fn drawn_covers_are_accepted() {
    let mut rng = Rng::new(35);
    let (mut late, mut others) = (0, 0);
    for _ in 0..5_000 {
        let style = any_style(&mut rng);
        let problem = problem(&mut rng, style);
        let Some(cover) = Draw::new(&problem).cover(&mut rng) else { continue };
        let pair = Pair { area: cover.area, arrival: cover.arrival };
        late += (cover.arrival > problem.tree.required) as usize;
        others += (merging::map(&problem.library, &problem.tree).as_ref() != Ok(&cover)) as usize;
        assert_eq!(Draft::new(problem, cover).case().judged(), Ok(pair));
    }
    println!("{late} late, {others} not map's");
    assert!(late > 1_000 && others > 2_000);
}

/// Fresh cases are of every kind, none of them rare.
#[test]
fn fresh_cases_are_of_every_kind() {
    let mut rng = Rng::new(36);
    let names: Vec<String> = (0..20_000).map(|_| name(&any_case(&mut rng).judged())).collect();
    for word in [
        "accepted",
        "22 torn",
        "22 tail",
        "23 at 0",
        "23 later",
        "23 at 0: crossing",
        "23 at 0: unused bit",
        "23 later: crossing",
        "23 later: unused bit",
        "23 without matches",
        "23 at the match count",
        "24 area",
        "24 arrival",
    ] {
        let count = names.iter().filter(|name| name.contains(word)).count();
        assert!(count >= 100, "{word}: {count}");
    }
}
