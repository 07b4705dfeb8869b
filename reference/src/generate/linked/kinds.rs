//! How the cases of parts are counted.

use super::Case;
use crate::cover::Cover;
use crate::library;
use crate::merging;
use crate::part::{self, Fault, Link, Part, Wrong, LINKS_PLACE, LINK_WIDTH, MOST_LINKS, MOST_TREES};
use crate::refusal::{Refusal, IN_TREE, TAIL};
use crate::shape::Node;
use crate::tree::{self, TreeLeaf, LATEST_LEAF};
use std::collections::BTreeSet;

/// By what a case is counted: its answer, and the refusals of parts more closely.
pub fn name(case: &Case, answer: &Result<Vec<u8>, Fault>) -> String {
    match answer {
        Ok(_) => "mapped".to_string(),
        Err(fault) => format!("refused {:>2}{}", fault.refusal().number, closely(fault, &case.part)),
    }
}

/// The same, and whatever else tells in it.
pub fn kinds(case: &Case) -> Vec<String> {
    let answer = case.answer();
    let name = name(case, &answer);
    let more = match answer {
        Ok(_) => of_mapped(case),
        Err(fault) => of_refused(case, &fault),
    };
    let more = more.into_iter().filter(|(found, _)| *found).map(|(_, kind)| format!("{name} {kind}"));
    [name.clone()].into_iter().chain(more.collect::<Vec<_>>()).collect()
}

/// What is wrong.
fn closely(fault: &Fault, sheet: &[u8]) -> String {
    match *fault {
        Fault::Torn(place) => format!(" torn in a {}", field_at(place)),
        Fault::Range(place) => format!(" out of range, a {}", field_at(place)),
        Fault::Tail(_) => " tail".to_string(),
        Fault::Leaf { wrong: Wrong::NoNode, .. } => " names no node".to_string(),
        Fault::Leaf { wrong: Wrong::Gate, .. } => " names a gate".to_string(),
        Fault::Leaf { wrong: Wrong::Taken, .. } => " names a leaf again".to_string(),
        Fault::Driver { link } => {
            let Link { reading, driving, .. } = part::decode_unlinked(sheet).expect("sound trees").links[link];
            format!(" driver {}", if driving > reading { "higher" } else { "equal" })
        }
        Fault::Tree { tree, .. } => format!(" {}", position(tree, tree_count(sheet))),
        Fault::Mapping { tree, .. } | Fault::Late { tree, .. } => format!(" in tree {}", tree_number(tree)),
        Fault::Short | Fault::Library(_) => String::new(),
    }
}

/// The field of the counts and links that begins at a bit.
fn field_at(place: usize) -> &'static str {
    match place {
        0 => "tree count",
        5 => "link count",
        _ => match (place - LINKS_PLACE) % LINK_WIDTH {
            0 => "reading tree",
            4 => "leaf",
            _ => "driving tree",
        },
    }
}

/// The tree count that a part states.
fn tree_count(sheet: &[u8]) -> usize {
    sheet[0] as usize >> 3
}

fn position(tree: usize, count: usize) -> &'static str {
    match tree {
        _ if count == 1 => "in the only tree",
        0 => "in the first tree",
        _ if tree + 1 == count => "in the last tree",
        _ => "in a middle tree",
    }
}

fn tree_number(tree: usize) -> &'static str {
    match tree {
        0 => "0",
        1..=7 => "1 to 7",
        _ => "8 to 15",
    }
}

/// What may be found in a case, and whether it is.
type Found = Vec<(bool, &'static str)>;

fn of_mapped(case: &Case) -> Found {
    let part = part::decode(&case.part).expect("a mapped part");
    let library = library::decode(&case.library).expect("its library");
    let covers = part::map(&library, &part).expect("its covers");
    let unlinked = Part { links: Vec::new(), ..part.clone() };
    let links = &part.links;
    let any = |test: &dyn Fn(&Link) -> bool| links.iter().any(test);
    let leaf = |link: &Link| leaf_of(&part, link);
    let is_root = |link: &Link| link.leaf == 0;
    let is_driven = |link: &Link| leaf(link).drive.is_some_and(|drive| drive > 0);
    let readers: BTreeSet<(usize, usize)> = links.iter().map(|link| (link.driving, link.reading)).collect();
    let drivers: BTreeSet<usize> = links.iter().map(|link| link.driving).collect();
    let arrival = |link: &Link| covers[link.driving].arrival;
    vec![
        (part.trees.len() == 1, "of one tree"),
        (part.trees.len() == MOST_TREES, "of 16 trees"),
        (part.trees.len() > 1 && links.is_empty(), "without links"),
        (!links.is_empty(), "with links"),
        (links.len() == MOST_LINKS, "with 255 links"),
        (any(&|link| links.iter().any(|other| other.reading == link.driving)), "with a chain of trees"),
        (readers.len() < links.len(), "with two links from a tree to another"),
        (drivers.len() < readers.len(), "with two readers of a tree"),
        (!links.is_sorted(), "with links out of order"),
        (any(&is_driven), "with a linked leaf that is driven"),
        (any(&|link| is_root(link) && !is_driven(link)), "with a linked root"),
        (any(&|link| is_root(link) && is_driven(link)), "with a linked root that is driven"),
        (any(&|link| arrival(link) == LATEST_LEAF), "with a linked arrival of 1000000"),
        (any(&|link| arrival(link) < leaf(link).arrival), "with a linked leaf stated later"),
        (any(&|link| arrival(link) > leaf(link).arrival), "with a linked leaf stated earlier"),
        (tells(part::map(&library, &unlinked), &covers), "with other matches than without its links"),
        (case.lent != part::ENOUGH, "with more lent"),
    ]
}

/// What stands at a linked leaf.
fn leaf_of(part: &Part, link: &Link) -> TreeLeaf {
    match part.trees[link.reading].shape.nodes[link.leaf] {
        Node::Leaf(leaf) => leaf,
        _ => unreachable!("a sound link names a leaf"),
    }
}

/// Whether the trees are covered otherwise, or not at all.
fn tells(unlinked: Result<Vec<Cover>, Fault>, covers: &[Cover]) -> bool {
    let matches = |covers: &[Cover]| covers.iter().map(|cover| cover.matches.clone()).collect::<Vec<_>>();
    unlinked.map_or(true, |others| matches(&others) != matches(covers))
}

fn of_refused(case: &Case, fault: &Fault) -> Found {
    match *fault {
        Fault::Short => of_short(case),
        Fault::Library(_) => vec![(part::decode(&case.part).is_err(), "with an unsound part")],
        Fault::Tree { tree, refusal } => of_tree(&case.part, tree, refusal),
        Fault::Leaf { link, .. } => {
            let part = part::decode_unlinked(&case.part).expect("sound trees");
            let Link { reading, driving, .. } = part.links[link];
            vec![(driving >= reading, "with a driver not lower"), (link > 0, "later than in the first link")]
        }
        Fault::Driver { link } => {
            let part = part::decode_unlinked(&case.part).expect("sound trees");
            let leaf_after = part.wrong_leaves()[link..].iter().any(Option::is_some);
            vec![(leaf_after, "with a wrong leaf in a later link"), (link > 0, "later than in the first link")]
        }
        Fault::Late { tree, leaf } => of_late(case, tree, leaf),
        _ => vec![],
    }
}

fn of_short(case: &Case) -> Found {
    let output = case.lent.output < part::LEAST_OUTPUT;
    let work = case.lent.work < crate::operation::LEAST_WORK;
    let unsound = Case { lent: part::ENOUGH, ..case.clone() }.answer().is_err();
    vec![(output && !work, "by the output"), (work && !output, "by the work area"), (unsound, "and otherwise too")]
}

fn of_tree(sheet: &[u8], tree: usize, refusal: Refusal) -> Found {
    let (links, trees) = part::decode_head(sheet).expect("sound counts and links");
    let mut start = sheet.len() - trees.len();
    for _ in 0..tree {
        start += tree::decode_first(&sheet[start..]).expect("a sound tree").1;
    }
    let tail = refusal.number == IN_TREE + TAIL;
    let by_byte = tail && tree::decode_first(&sheet[start..]).is_ok();
    let bad_link = links.iter().any(|link| link.driving >= link.reading);
    let empty = start == sheet.len();
    vec![
        (tail && !by_byte, "by a bit"),
        (by_byte, "by a byte"),
        (empty, "without a byte"),
        (bad_link, "with a driver not lower"),
    ]
}

fn of_late(case: &Case, tree: usize, leaf: usize) -> Found {
    let mut part = part::decode(&case.part).expect("a sound part");
    let library = library::decode(&case.library).expect("its library");
    let lower = Part { trees: part.trees[..tree].to_vec(), links: part.links.clone() };
    let arrivals: Vec<u32> = part::map(&library, &lower).expect("covers").iter().map(|cover| cover.arrival).collect();
    let known = part.as_known(tree, &arrivals);
    part.links.retain(|link| link.reading == tree && arrivals[link.driving] > LATEST_LEAF);
    let just = part.links.iter().any(|link| arrivals[link.driving] == LATEST_LEAF + 1);
    vec![
        (part.links.len() > 1, "with several late leaves"),
        (part.links[0].leaf != leaf, "with a later leaf linked first"),
        (just, "by one"),
        (merging::map(&library, &known).is_err_and(|refusal| refusal.number == 8), "and no cover in time"),
        (merging::map(&library, &known).is_err_and(|refusal| refusal.number == 7), "and overfull"),
    ]
}
