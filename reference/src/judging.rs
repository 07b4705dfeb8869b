//! The judge of covers: the list is walked with the set of nodes still to be covered, and the
//! figures are then worked out from the leaves up, over the matches taken.

use crate::cover::{self, Cover, Pair, Placed};
use crate::crossing::{crossings, redrawn, unused_bits};
use crate::library::{self, Library};
use crate::matching::{inputs_at, Match};
use crate::refusal::{Refusal, COVER_FIGURES, COVER_MATCH, COVER_SHEET, TAIL};
use crate::shape::{Node, Shape};
use crate::tree::{self, Tree, TreeLeaf};
use std::collections::BTreeMap;

/// What is wrong with a match.
#[derive(Clone, Copy, PartialEq, Eq, Debug)]
pub enum Wrong {
    /// Its node is not the lowest still to be covered.
    Node,
    /// Its number is not that of a pattern.
    Number,
    /// Its pattern does not match there under any crossing.
    Shape,
    /// Its cell is held.
    Held,
    /// It drives more than its cell's highest load.
    Load,
    /// Its pattern matches there, but under other crossings only.
    Crossing,
    /// A bit is set that its pattern has no NAND for.
    UnusedBit,
}

impl Wrong {
    fn word(self) -> &'static str {
        match self {
            Wrong::Node => "node",
            Wrong::Number => "number",
            Wrong::Shape => "shape",
            Wrong::Held => "held",
            Wrong::Load => "load",
            Wrong::Crossing => "crossing",
            Wrong::UnusedBit => "unused bit",
        }
    }
}

/// Why a cover is not accepted.
#[derive(Clone, Copy, PartialEq, Eq, Debug)]
pub enum Fault {
    /// The library or the tree is refused.
    Before(Refusal),
    /// The cover sheet ends before or inside a field, which begins at this bit.
    Torn(usize),
    /// Something stands after the last field, which ends before this bit.
    Tail(usize),
    /// The match at this position is wrong.
    Match(usize, Wrong),
    /// Something is left to cover after this many matches.
    Unfinished(usize),
    /// One of the figures is not the cover's, or neither is.
    Figures { area: bool, arrival: bool },
}

/// The true figures of a cover, or why it is not accepted.
pub type Judged = Result<Pair, Fault>;

impl Fault {
    /// A cover sheet's own refusal.
    fn of_sheet(refusal: Refusal) -> Fault {
        let place = refusal.place as usize;
        if refusal.number == TAIL {
            Fault::Tail(place)
        } else {
            Fault::Torn(place)
        }
    }

    pub fn refusal(&self) -> Refusal {
        match *self {
            Fault::Before(refusal) => refusal,
            Fault::Torn(place) | Fault::Tail(place) => Refusal::new(COVER_SHEET, place),
            Fault::Match(place, _) | Fault::Unfinished(place) => Refusal::new(COVER_MATCH, place),
            Fault::Figures { .. } => Refusal::new(COVER_FIGURES, 0),
        }
    }
}

/// How an answer is counted: refusals by their number, those of the cover more closely.
pub fn name(judged: &Judged) -> String {
    let Err(fault) = judged else { return "accepted".to_string() };
    let closely = match *fault {
        Fault::Before(_) => String::new(),
        Fault::Torn(_) => " torn".to_string(),
        Fault::Tail(_) => " tail".to_string(),
        Fault::Match(0, wrong) => format!(" at 0: {}", wrong.word()),
        Fault::Match(_, wrong) => format!(" later: {}", wrong.word()),
        Fault::Unfinished(0) => " without matches".to_string(),
        Fault::Unfinished(_) => " at the match count".to_string(),
        Fault::Figures { area: false, .. } => " arrival".to_string(),
        Fault::Figures { arrival: false, .. } => " area".to_string(),
        Fault::Figures { .. } => " area and arrival".to_string(),
    };
    format!("refused {:>2}{closely}", fault.refusal().number)
}

/// Judges the cover that the last of three sheets holds.
pub fn judge(library: &[u8], tree: &[u8], cover: &[u8]) -> Judged {
    let (library, tree, cover) = decode(library, tree, cover)?;
    check(&library, &tree, &cover)
}

/// What the three sheets hold.
pub fn decode(library: &[u8], tree: &[u8], cover: &[u8]) -> Result<(Library, Tree, Cover), Fault> {
    let library = library::decode(library).map_err(Fault::Before)?;
    let tree = tree::decode(tree).map_err(Fault::Before)?;
    let cover = cover::decode(cover).map_err(Fault::of_sheet)?;
    Ok((library, tree, cover))
}

/// Judges a cover of a sound tree by a sound library.
pub fn check(library: &Library, tree: &Tree, cover: &Cover) -> Judged {
    let figures = figures(library, tree, &cover.matches)?;
    let (area, arrival) = (cover.area != figures.area, cover.arrival != figures.arrival);
    if area || arrival {
        return Err(Fault::Figures { area, arrival });
    }
    Ok(figures)
}

/// The figures of a list of matches, if it is a legal cover.
pub fn figures(library: &Library, tree: &Tree, matches: &[Placed]) -> Judged {
    let mut walk = Walk::begin(library, tree);
    for (position, &placed) in matches.iter().enumerate() {
        walk.take(placed).map_err(|wrong| Fault::Match(position, wrong))?;
    }
    if !walk.uncovered.is_empty() {
        return Err(Fault::Unfinished(matches.len()));
    }
    Ok(Pair { arrival: walk.arrival(0, tree.root_load), area: walk.area() })
}

/// A list of matches walked up to some position.
struct Walk<'a> {
    library: &'a Library,
    shape: &'a Shape<TreeLeaf>,
    /// The inverters and NANDs still to be covered, with the loads that they drive.
    uncovered: BTreeMap<usize, u32>,
    /// The matches by node.
    taken: BTreeMap<usize, Match<'a>>,
}

impl<'a> Walk<'a> {
    fn begin(library: &'a Library, tree: &'a Tree) -> Self {
        let mut walk = Walk { library, shape: &tree.shape, uncovered: BTreeMap::new(), taken: BTreeMap::new() };
        walk.uncover(0, tree.root_load);
        walk
    }

    /// A node is to be covered if it is no leaf.
    fn uncover(&mut self, node: usize, load: u32) {
        if !self.shape.is_leaf(node) {
            self.uncovered.insert(node, load);
        }
    }

    /// The next match of the list.
    fn take(&mut self, placed: Placed) -> Result<(), Wrong> {
        let load = match self.uncovered.first_key_value() {
            Some((&lowest, &load)) if lowest == placed.node => load,
            _ => return Err(Wrong::Node),
        };
        let found = self.legal_match(placed, load)?;
        self.uncovered.remove(&placed.node);
        for input in &found.inputs {
            self.uncover(input.node, self.library.bins[found.bin(input)]);
        }
        self.taken.insert(placed.node, found);
        Ok(())
    }

    fn legal_match(&self, placed: Placed, load: u32) -> Result<Match<'a>, Wrong> {
        let Placed { node, pattern, crossing } = placed;
        let (cell, shape) = self.library.patterns().nth(pattern).ok_or(Wrong::Number)?;
        let inputs_under = |crossing| inputs_at(&redrawn(shape, crossing), self.shape, node);
        let inputs = inputs_under(crossing);
        if inputs.is_none() && crossings(shape).all(|other| inputs_under(other).is_none()) {
            return Err(Wrong::Shape);
        }
        if cell.held {
            return Err(Wrong::Held);
        }
        if load > cell.highest_load {
            return Err(Wrong::Load);
        }
        let inputs = inputs.ok_or(Wrong::Crossing)?;
        if crossing & unused_bits(shape) != 0 {
            return Err(Wrong::UnusedBit);
        }
        Ok(Match { pattern, crossing, cell, inputs })
    }

    fn area(&self) -> u32 {
        self.taken.values().map(|found| found.cell.area).sum()
    }

    /// When a node arrives under the load that it drives: a leaf by its own driver, any other node as the latest over
    /// the pins of the match taken there.
    fn arrival(&self, node: usize, load: u32) -> u32 {
        if let Node::Leaf(leaf) = self.shape.nodes[node] {
            return leaf.arrival_under(load);
        }
        let found = &self.taken[&node];
        let through = found.inputs.iter().map(|input| {
            let arrival = self.arrival(input.node, self.library.bins[found.bin(input)]);
            arrival + found.delay(input, load)
        });
        through.max().expect("a pattern has a leaf")
    }
}
