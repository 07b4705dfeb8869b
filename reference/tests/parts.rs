//! Parts made of several trees: examples worked out by hand, the order of refusals, laws, and other methods.

use reference::brute::Listing;
use reference::cover::{self, Cover};
use reference::deadline::Variant;
use reference::form::Form;
use reference::generate::damage::{any_sheet, Kind};
use reference::generate::linked::chosen::{self, Outcome};
use reference::generate::linked::damage::any_case;
use reference::generate::linked::draw::{any_draft, small_draft};
use reference::generate::linked::{sheets_alone, Case, Draft};
use reference::generate::parts::{leaf, tree};
use reference::generate::problem::{any_style, problem};
use reference::generate::specimen;
use reference::hex::hex;
use reference::operation::{Operation, LEAST_WORK};
use reference::part::{self, Fault, Link, Part, Wrong, LEAST_OUTPUT};
use reference::refusal::Refusal;
use reference::rng::Rng;
use reference::shape::Node;
use reference::shape::Step::Inv;
use reference::tree::{Tree, LATEST_LEAF};
use std::collections::BTreeMap;

/// What is said of a case, in the form of the chosen rows.
fn outcome(case: &Case) -> Outcome {
    match case.answer() {
        Ok(sheets) => {
            let covers = cover::decode_row(&sheets).expect("cover sheets");
            Outcome::Mapped(covers.iter().map(|(cover, _)| (cover.area, cover.arrival)).collect())
        }
        Err(fault) => {
            let Refusal { number, place } = fault.refusal();
            Outcome::Refused { number, place: place as usize, tree: fault.tree() }
        }
    }
}

#[test]
fn chosen_parts_are_answered_as_stated() {
    let rows = chosen::all();
    assert!(rows.len() > 1_000);
    for row in rows {
        let Case { library, part, .. } = &row.case;
        assert_eq!(outcome(&row.case), row.outcome, "{}: {} {}", row.name, hex(library), hex(part));
    }
}

/// Two trees and a link: 00010 00000001, 0001 000001 0000, and five zero bits; then 01 000006 4 00000 and the same with
/// another time.
#[test]
fn a_chain_of_two_has_these_bytes() {
    let trees = vec![tree(1, 6, &[Inv, leaf(0)]), tree(1, 12, &[Inv, leaf(999)])];
    let case = Draft::new(specimen::library(), trees, &[(1, 1, 0)]).case();
    let head = [0x10, 0x08, 0x82, 0x00];
    let first = [0x01, 0x00, 0x00, 0x06, 0x40, 0x00, 0x00];
    // 01 00, and 999 in 20 bits.
    let second = [0x01, 0x00, 0x00, 0x0c, 0x40, 0x03, 0xe7];
    assert_eq!(case.part, [&head[..], &first, &second].concat());
    // Area 1, arrivals 6 and 12, one match each: node 0, pattern 0, crossing 0.
    let sheets = [0x00, 0x00, 0x04, 0x00, 0x00, 0x18, 0x10, 0x00, 0x00, 0x00, 0x00, 0x04, 0x00, 0x00, 0x30, 0x10, 0, 0];
    assert_eq!(case.answer(), Ok(sheets.to_vec()));
}

#[test]
fn case_b_alone_has_its_bytes() {
    let case = Draft::new(specimen::library(), vec![specimen::tree_b()], &[]).case();
    assert_eq!(case.part[..2], [0x08, 0x00]);
    assert_eq!(case.part[2..], Form::of_tree(&specimen::tree_b()).bytes());
    assert_eq!(case.answer(), Ok(vec![0x00, 0x00, 0x08, 0x00, 0x00, 0x14, 0x10, 0x00, 0x80]));
}

#[test]
fn refusals_are_coded_with_their_tree() {
    assert_eq!(LEAST_OUTPUT, 2_384);
    let refusal = Refusal::new(14, 34);
    let rows = [
        (Fault::Short, "refused 1 0 0", 1 << 32),
        (Fault::Library(Refusal::new(5, 77)), "refused 5 77 0", 5 << 32 | 77),
        (Fault::Torn(23), "refused 41 23 0", 41 << 32 | 23),
        (Fault::Range(0), "refused 41 0 0", 41 << 32),
        (Fault::Tail(27), "refused 41 27 0", 41 << 32 | 27),
        (Fault::Tree { tree: 3, refusal }, "refused 14 34 3", 3 << 40 | 14 << 32 | 34),
        (Fault::Leaf { link: 2, wrong: Wrong::Gate }, "refused 41 45 0", 41 << 32 | 45),
        (Fault::Driver { link: 254 }, "refused 42 254 0", 42 << 32 | 254),
        (Fault::Late { tree: 15, leaf: 63 }, "refused 43 63 15", 15 << 40 | 43 << 32 | 63),
        (Fault::Mapping { tree: 1, refusal: Refusal::new(8, 0) }, "refused 8 0 1", 1 << 40 | 8 << 32),
    ];
    for (fault, line, coded) in rows {
        assert_eq!((fault.line().as_str(), fault.coded()), (line, coded));
    }
}

/// A part sheet is its counts and links and its trees' sheets, and is read back.
#[test]
fn what_is_written_is_read_back() {
    let mut rng = Rng::new(71);
    for _ in 0..1_000 {
        let draft = any_draft(&mut rng);
        assert_eq!(part::decode(&draft.case().part), Ok(draft.part));
    }
}

/// The answer as the C interface hands it over.
fn coded(case: &Case) -> u64 {
    case.answer().map_or_else(|fault| fault.coded(), |sheets| sheets.len() as u64)
}

/// A part of one tree without links answers as map does, whatever the tree's sheet and the library are.
#[test]
fn one_tree_is_answered_as_by_map() {
    let mut rng = Rng::new(72);
    let mut counts = BTreeMap::new();
    for _ in 0..4_000 {
        let style = any_style(&mut rng);
        let problem = problem(&mut rng, style);
        let mut library = problem.library_sheet();
        let mut sheet = problem.tree_sheet();
        if rng.once_in(8) {
            library = any_sheet(&mut rng, Kind::Library);
        }
        if rng.once_in(3) {
            sheet = any_sheet(&mut rng, Kind::Tree);
        }
        let alone = Operation::Map.run(part::ENOUGH, &library, &sheet);
        let case = Case { lent: part::ENOUGH, library, part: [&[0x08, 0x00], &sheet[..]].concat() };
        assert_eq!(case.answer().ok(), alone.clone().ok());
        assert_eq!(coded(&case), alone.map_or_else(|refusal| refusal.coded(), |sheet| sheet.len() as u64));
        *counts.entry(coded(&case) >> 32).or_insert(0) += 1;
    }
    for number in [0, 2, 3, 4, 7, 8, 12, 13, 14, 16] {
        assert!(counts.get(&number).is_some_and(|&count: &usize| count > 10), "{number}: {counts:?}");
    }
}

/// Without links a part is as many maps, of which the first refusal is said.
#[test]
fn trees_without_links_are_mapped_by_themselves() {
    let mut rng = Rng::new(73);
    for _ in 0..1_500 {
        let mut draft = any_draft(&mut rng);
        draft.part.links.clear();
        let case = draft.case();
        let maps = draft.tree_sheets().into_iter().map(|sheet| Operation::Map.run(part::ENOUGH, &case.library, &sheet));
        let maps: Vec<Result<Vec<u8>, Refusal>> = maps.collect();
        let expected = match maps.iter().position(Result::is_err) {
            Some(tree) => Err(Fault::Mapping { tree, refusal: maps[tree].clone().unwrap_err() }),
            None => Ok(maps.into_iter().flat_map(Result::unwrap).collect()),
        };
        assert_eq!(case.answer(), expected);
    }
}

/// A part is mapped as its trees are by themselves, with the arrivals put in.
#[test]
fn linked_trees_are_mapped_with_their_arrivals() {
    let mut rng = Rng::new(74);
    let mut mapped = 0;
    for _ in 0..2_000 {
        let draft = any_draft(&mut rng);
        let Ok(sheets) = draft.case().answer() else { continue };
        let rows = cover::decode_row(&sheets).expect("cover sheets");
        let covers: Vec<Cover> = rows.iter().map(|(cover, _)| cover.clone()).collect();
        assert_eq!(rows.len(), draft.part.trees.len());
        for ((_, cover), tree) in rows.iter().zip(sheets_alone(&draft.part, &covers)) {
            let alone = Operation::Map.run(part::ENOUGH, &draft.case().library, &tree);
            assert_eq!(alone.as_deref(), Ok(*cover));
        }
        mapped += !draft.part.links.is_empty() as usize;
    }
    assert!(mapped > 400, "{mapped}");
}

/// The first trees of a part are answered as they are in the whole.
#[test]
fn a_part_begins_with_its_first_trees() {
    let mut rng = Rng::new(75);
    let mut refused = 0;
    for _ in 0..1_500 {
        let whole = any_draft(&mut rng);
        let count = rng.between(1, whole.part.trees.len());
        let mut first = whole.clone();
        first.part.trees.truncate(count);
        first.part.links.retain(|link| link.reading < count);
        let sheets = |draft: &Draft| part::map(&draft.library, &draft.part);
        match (sheets(&first), sheets(&whole)) {
            (Err(fault), answer) => {
                assert_eq!(answer, Err(fault));
                refused += 1;
            }
            (Ok(covers), Ok(all)) => assert_eq!(covers, all[..count]),
            (Ok(_), Err(fault)) => assert!(fault.tree() >= count),
        }
    }
    assert!(refused > 200, "{refused}");
}

/// Neither the order of the links nor the stated arrivals of linked leaves matter.
#[test]
fn order_and_stated_arrivals_of_links_do_not_matter() {
    let mut rng = Rng::new(76);
    for _ in 0..1_500 {
        let draft = any_draft(&mut rng);
        let mut other = draft.clone();
        rng.shuffle(&mut other.part.links);
        for Link { reading, leaf, .. } in other.part.links.clone() {
            if let Node::Leaf(leaf) = &mut other.part.trees[reading].shape.nodes[leaf] {
                leaf.arrival = rng.value(0, LATEST_LEAF);
            }
        }
        assert_eq!(other.case().answer(), draft.case().answer());
    }
}

/// Parts of small trees by listing every legal cover of each.
#[test]
fn merging_agrees_with_listing_every_cover() {
    let mut rng = Rng::new(77);
    let (mut mapped, mut refused) = (0, BTreeMap::new());
    for _ in 0..2_000 {
        let Draft { library, part } = small_draft(&mut rng);
        let by_listing = |tree: &Tree| Listing::new(&library, tree, 3_000).map(|listing| listing.map());
        let mut is_listed = true;
        let listed = part::map_each(&part, |tree| {
            by_listing(tree).unwrap_or_else(|| {
                is_listed = false;
                Err(Refusal::new(0, 0))
            })
        });
        if is_listed {
            let merged = part::map(&library, &part);
            assert_eq!(merged, listed);
            mapped += (merged.is_ok() && !part.links.is_empty()) as usize;
            merged.err().into_iter().for_each(|fault| *refused.entry(fault.refusal().number).or_insert(0) += 1);
        }
    }
    assert!(mapped > 300, "{mapped}");
    assert!(
        [7, 8, 43].iter().all(|number| refused.get(number).is_some_and(|&count: &usize| count > 10)),
        "{refused:?}"
    );
}

/// The product's method in plain Rust, on anything: the answer, the output and the work area.
#[test]
fn other_methods_agree() {
    let mut rng = Rng::new(78);
    let mut counts = BTreeMap::new();
    for _ in 0..3_000 {
        let case = any_case(&mut rng);
        let expected = case.answer();
        for variant in Variant::ALL {
            let (mut output, mut work) = (vec![7; case.lent.output], vec![7; case.lent.work]);
            let length = variant.run_part(&case.library, &case.part, &mut output, &mut work);
            let sheets = length.map(|length| output[..length].to_vec());
            assert_eq!(sheets, expected, "{} {}", hex(&case.library), hex(&case.part));
            assert!(output[length.unwrap_or(0)..].iter().all(|&byte| byte == 7));
            let clears = expected.as_ref().err().is_none_or(Fault::clears);
            let cleared = if clears { LEAST_WORK } else { 0 };
            assert!(work[..cleared].iter().all(|&word| word == 0) && work[cleared..].iter().all(|&word| word == 7));
        }
        *counts.entry(expected.map_or_else(|fault| fault.refusal().number, |_| 0)).or_insert(0) += 1;
    }
    let rare = [0, 1, 2, 3, 4, 7, 8, 12, 13, 14, 41, 42, 43];
    assert!(rare.iter().all(|number| counts.get(number).is_some_and(|&count: &usize| count > 5)), "{counts:?}");
}

/// A leaf that is linked is not late by what is stated of it, and one that is not linked cannot be.
#[test]
fn only_linked_leaves_are_late() {
    let late = tree(9, 2_000_000, &[leaf(LATEST_LEAF)]);
    let reader = tree(1, 2_000_000, &[Inv, leaf(LATEST_LEAF)]);
    let part = Part { trees: vec![late, reader.clone(), reader], links: vec![Link::new(2, 1, 1)] };
    assert_eq!(part::map(&specimen::library(), &part), Err(Fault::Late { tree: 2, leaf: 1 }));
    let part = Part { links: vec![Link::new(2, 1, 0)], ..part };
    let covers = part::map(&specimen::library(), &part).expect("covers");
    assert_eq!(covers.iter().map(|cover| cover.arrival).collect::<Vec<u32>>(), [LATEST_LEAF, 1_000_006, 1_000_006]);
}
