//! Parts made of several trees: the part sheet, judged and decoded, and map on it.

use crate::cover::Cover;
use crate::library::{self, Library};
use crate::matching::redrawings;
use crate::merging;
use crate::operation::{Lent, Operation, LEAST_WORK};
use crate::refusal::{
    Refusal, LINKED_LATE, NO_COVER, OVERFULL, PART_DRIVER, PART_FIELD, RANGE, SHORT, TAIL, TRUNCATED,
};
use crate::shape::Node;
use crate::sheet::Sheet;
use crate::tree::{self, Tree, LATEST_LEAF};
use std::collections::HashSet;

pub const MOST_TREES: usize = 16;
pub const MOST_LINKS: usize = 255;

/// The least length of the output, in bytes: room for a cover sheet of every tree that there may be.
pub const LEAST_OUTPUT: usize = MOST_TREES * Operation::Map.least_output();

/// Just enough for a part.
pub const ENOUGH: Lent = Lent { output: LEAST_OUTPUT, work: LEAST_WORK };

/// A leaf of the reading tree arrives when the driving tree's cover does.
#[derive(Clone, Copy, PartialEq, Eq, PartialOrd, Ord, Hash, Debug)]
pub struct Link {
    pub reading: usize,
    pub leaf: usize,
    pub driving: usize,
}

impl Link {
    pub fn new(reading: usize, leaf: usize, driving: usize) -> Link {
        Link { reading, leaf, driving }
    }
}

#[derive(Clone, PartialEq, Eq, Debug)]
pub struct Part {
    pub trees: Vec<Tree>,
    pub links: Vec<Link>,
}

/// What a leaf field names in the place of a leaf that is still free.
#[derive(Clone, Copy, PartialEq, Eq, Debug)]
pub enum Wrong {
    /// A number above those of the reading tree's nodes.
    NoNode,
    /// An inverter or a NAND.
    Gate,
    /// A leaf that a link before this one has taken.
    Taken,
}

/// Why a part is not mapped.
#[derive(Clone, Copy, PartialEq, Eq, Debug)]
pub enum Fault {
    /// Too little is lent.
    Short,
    /// The library is refused.
    Library(Refusal),
    /// The part sheet ends before or inside a count or a field of a link, which begins at this bit.
    Torn(usize),
    /// Such a field is out of range.
    Range(usize),
    /// A bit is set between the last of them, which ends before this bit, and the next byte.
    Tail(usize),
    /// A tree's own sheet is refused.
    Tree { tree: usize, refusal: Refusal },
    /// The leaf field of the link at this position names no free leaf.
    Leaf { link: usize, wrong: Wrong },
    /// The driving tree of the link at this position is not lower.
    Driver { link: usize },
    /// A linked leaf of a tree arrives too late.
    Late { tree: usize, leaf: usize },
    /// A tree is not mapped.
    Mapping { tree: usize, refusal: Refusal },
}

impl Fault {
    /// A refusal of the counts and links, as the reader of fields says it.
    fn of_head(refusal: Refusal) -> Fault {
        let place = refusal.place as usize;
        match refusal.number {
            TRUNCATED => Fault::Torn(place),
            RANGE => Fault::Range(place),
            TAIL => Fault::Tail(place),
            number => unreachable!("no field of the counts and links is refused with {number}"),
        }
    }

    /// The tree that is refused, or 0.
    pub fn tree(&self) -> usize {
        match *self {
            Fault::Tree { tree, .. } | Fault::Late { tree, .. } | Fault::Mapping { tree, .. } => tree,
            _ => 0,
        }
    }

    pub fn refusal(&self) -> Refusal {
        match *self {
            Fault::Short => Refusal::new(SHORT, 0),
            Fault::Library(refusal) | Fault::Tree { refusal, .. } | Fault::Mapping { refusal, .. } => refusal,
            Fault::Torn(place) | Fault::Range(place) | Fault::Tail(place) => Refusal::new(PART_FIELD, place),
            Fault::Leaf { link, .. } => Refusal::new(PART_FIELD, leaf_place(link)),
            Fault::Driver { link } => Refusal::new(PART_DRIVER, link),
            Fault::Late { leaf, .. } => Refusal::new(LINKED_LATE, leaf),
        }
    }

    /// As a line of the stored results: the refusal's, and the tree's number.
    pub fn line(&self) -> String {
        format!("{} {}", self.refusal().line(), self.tree())
    }

    /// As the C interface hands it over.
    pub fn coded(&self) -> u64 {
        (self.tree() as u64) << 40 | self.refusal().coded()
    }

    /// Whether the first words of the work area are zero after it.
    pub fn clears(&self) -> bool {
        [OVERFULL, NO_COVER, LINKED_LATE].contains(&self.refusal().number)
    }
}

/// Where the links begin, and the bits of one.
pub const LINKS_PLACE: usize = 5 + 8;
pub const LINK_WIDTH: usize = 4 + 6 + 4;

/// The first bit of a link's leaf field.
pub fn leaf_place(link: usize) -> usize {
    LINKS_PLACE + link * LINK_WIDTH + 4
}

/// The cover sheets in tree order, or why there are none.
pub fn run(lent: Lent, library: &[u8], part: &[u8]) -> Result<Vec<u8>, Fault> {
    if lent.output < LEAST_OUTPUT || lent.work < LEAST_WORK {
        return Err(Fault::Short);
    }
    let library = library::decode(library).map_err(Fault::Library)?;
    let covers = map(&library, &decode(part)?)?;
    Ok(covers.iter().flat_map(Cover::sheet).collect())
}

/// The part that a sheet holds. The links are looked at last, because only then their trees are known.
pub fn decode(bytes: &[u8]) -> Result<Part, Fault> {
    let part = decode_unlinked(bytes)?;
    part.check_links()?;
    Ok(part)
}

/// The same with links to any nodes, by any of the trees.
pub fn decode_unlinked(bytes: &[u8]) -> Result<Part, Fault> {
    let Head { tree_count, links, length } = read_head(bytes).map_err(Fault::of_head)?;
    Ok(Part { trees: read_trees(&bytes[length..], tree_count)?, links })
}

/// The links alone, and the bytes that the trees are to be read from.
pub fn decode_head(bytes: &[u8]) -> Result<(Vec<Link>, &[u8]), Fault> {
    let Head { links, length, .. } = read_head(bytes).map_err(Fault::of_head)?;
    Ok((links, &bytes[length..]))
}

/// The counts and links, and the bytes that they take.
struct Head {
    tree_count: usize,
    links: Vec<Link>,
    length: usize,
}

fn read_head(bytes: &[u8]) -> Result<Head, Refusal> {
    let mut sheet = Sheet::new(bytes, 0);
    let tree_count = sheet.within(5, 1..=MOST_TREES as u32)?.value;
    let link_count = sheet.any(8)?.value;
    let links = (0..link_count).map(|_| read_link(&mut sheet, tree_count)).collect::<Result<_, _>>()?;
    Ok(Head { tree_count: tree_count as usize, links, length: sheet.end_within()? })
}

fn read_link(sheet: &mut Sheet, tree_count: u32) -> Result<Link, Refusal> {
    let reading = sheet.within(4, 0..=tree_count - 1)?.value;
    let leaf = sheet.any(6)?.value;
    let driving = sheet.within(4, 0..=tree_count - 1)?.value;
    Ok(Link::new(reading as usize, leaf as usize, driving as usize))
}

/// So many trees, each from its own first byte; after the last no byte follows.
fn read_trees(mut bytes: &[u8], count: usize) -> Result<Vec<Tree>, Fault> {
    let mut trees = Vec::with_capacity(count);
    for tree in 0..count {
        let refused = |refusal| Fault::Tree { tree, refusal };
        if tree + 1 == count {
            trees.push(tree::decode(bytes).map_err(refused)?);
        } else {
            let (read, length) = tree::decode_first(bytes).map_err(refused)?;
            trees.push(read);
            bytes = &bytes[length..];
        }
    }
    Ok(trees)
}

impl Part {
    /// Each link names a free leaf, and then a lower tree.
    fn check_links(&self) -> Result<(), Fault> {
        for (position, (link, wrong)) in self.links.iter().zip(self.wrong_leaves()).enumerate() {
            if let Some(wrong) = wrong {
                return Err(Fault::Leaf { link: position, wrong });
            }
            if link.driving >= link.reading {
                return Err(Fault::Driver { link: position });
            }
        }
        Ok(())
    }

    /// What is wrong with the leaf field of each link, whoever drives it.
    pub fn wrong_leaves(&self) -> Vec<Option<Wrong>> {
        let mut taken = HashSet::new();
        self.links.iter().map(|link| self.wrong_leaf(link, &mut taken)).collect()
    }

    fn wrong_leaf(&self, link: &Link, taken: &mut HashSet<(usize, usize)>) -> Option<Wrong> {
        match self.trees[link.reading].shape.nodes.get(link.leaf) {
            None => Some(Wrong::NoNode),
            Some(Node::Inv(_) | Node::Nand(..)) => Some(Wrong::Gate),
            Some(Node::Leaf(_)) => (!taken.insert((link.reading, link.leaf))).then_some(Wrong::Taken),
        }
    }

    /// A tree with the arrivals of lower trees' covers at its linked leaves, be they too late or not.
    pub fn as_known(&self, tree: usize, arrivals: &[u32]) -> Tree {
        let mut known = self.trees[tree].clone();
        for link in self.links.iter().filter(|link| link.reading == tree) {
            if let Node::Leaf(leaf) = &mut known.shape.nodes[link.leaf] {
                leaf.arrival = arrivals[link.driving];
            }
        }
        known
    }
}

/// The covers of the trees, mapped in their order.
pub fn map(library: &Library, part: &Part) -> Result<Vec<Cover>, Fault> {
    let redrawings = redrawings(library);
    map_each(part, |tree| merging::map_among(&redrawings, library, tree))
}

/// The same by any map of one tree.
pub fn map_each(part: &Part, mut map: impl FnMut(&Tree) -> Result<Cover, Refusal>) -> Result<Vec<Cover>, Fault> {
    let mut covers: Vec<Cover> = Vec::with_capacity(part.trees.len());
    for tree in 0..part.trees.len() {
        let arrivals: Vec<u32> = covers.iter().map(|cover| cover.arrival).collect();
        let known = part.as_known(tree, &arrivals);
        if let Some(leaf) = late_leaf(&known) {
            return Err(Fault::Late { tree, leaf });
        }
        covers.push(map(&known).map_err(|refusal| Fault::Mapping { tree, refusal })?);
    }
    Ok(covers)
}

/// The lowest leaf that arrives later than a leaf may be stated to: a linked one.
fn late_leaf(tree: &Tree) -> Option<usize> {
    tree.shape.nodes.iter().position(|node| matches!(node, Node::Leaf(leaf) if leaf.arrival > LATEST_LEAF))
}
