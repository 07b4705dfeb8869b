//! The tree sheet.

use crate::refusal::{Refusal, IN_TREE};
use crate::shape::Shape;
use crate::sheet::{Sheet, Taken, DRIVEN};

/// A leaf of the subject tree: a signal and what drives it.
#[derive(Clone, Copy, PartialEq, Eq, Debug)]
pub struct TreeLeaf {
    pub arrival: u32,
    /// Of a driven leaf. A plain one (code 0) states none, and its drive is 0.
    pub drive: Option<u32>,
}

impl TreeLeaf {
    pub fn plain(arrival: u32) -> TreeLeaf {
        TreeLeaf { arrival, drive: None }
    }

    pub fn driven(arrival: u32, drive: u32) -> TreeLeaf {
        TreeLeaf { arrival, drive: Some(drive) }
    }

    /// When it arrives, under the load that it drives.
    pub fn arrival_under(&self, load: u32) -> u32 {
        self.arrival + self.drive.unwrap_or(0) * load
    }
}

/// Most trees have plain leaves, which are known by their arrivals.
impl From<u32> for TreeLeaf {
    fn from(arrival: u32) -> TreeLeaf {
        TreeLeaf::plain(arrival)
    }
}

/// The subject tree.
#[derive(Clone, PartialEq, Eq, Debug)]
pub struct Tree {
    pub root_load: u32,
    pub required: u32,
    pub shape: Shape<TreeLeaf>,
}

impl Tree {
    pub fn has_driven_leaves(&self) -> bool {
        self.shape.leaves().any(|leaf| leaf.drive.is_some())
    }

    /// The same tree with one drive at every leaf, or with plain leaves.
    pub fn with_drive(&self, drive: Option<u32>) -> Tree {
        self.with_leaves(|leaf| TreeLeaf { drive, ..leaf })
    }

    /// The same tree with plain leaves that arrive as its own do under one load.
    pub fn charged(&self, load: u32) -> Tree {
        self.with_leaves(|leaf| TreeLeaf::plain(leaf.arrival_under(load)))
    }

    fn with_leaves(&self, change: impl Fn(TreeLeaf) -> TreeLeaf) -> Tree {
        let mut changed = self.clone();
        changed.shape.leaves_mut().for_each(|leaf| *leaf = change(*leaf));
        changed
    }
}

pub const MOST_TREE_NODES: usize = 64;
pub const LATEST_LEAF: u32 = 1_000_000;
pub const MOST_DRIVE: u32 = 255;
pub const LATEST_REQUIRED: u32 = (1 << 24) - 1;

/// The tree that a sheet holds.
pub fn decode(bytes: &[u8]) -> Result<Tree, Refusal> {
    let mut sheet = Sheet::new(bytes, IN_TREE);
    let tree = read(&mut sheet)?;
    sheet.end()?;
    Ok(tree)
}

/// The tree that the first bytes hold, and how many they are: other sheets may follow.
pub fn decode_first(bytes: &[u8]) -> Result<(Tree, usize), Refusal> {
    let mut sheet = Sheet::new(bytes, IN_TREE);
    let tree = read(&mut sheet)?;
    Ok((tree, sheet.end_within()?))
}

/// The fields of a tree, without the tail.
fn read(sheet: &mut Sheet) -> Result<Tree, Refusal> {
    let root_load = sheet.any(8)?.value;
    let required = sheet.any(24)?.value;
    let steps = sheet.nodes(MOST_TREE_NODES, read_leaf)?;
    Ok(Tree { root_load, required, shape: Shape::from_steps(&steps) })
}

fn read_leaf(sheet: &mut Sheet, code: Taken) -> Result<TreeLeaf, Refusal> {
    let arrival = sheet.within(20, 0..=LATEST_LEAF)?.value;
    let drive = if code.value == DRIVEN { Some(sheet.any(8)?.value) } else { None };
    Ok(TreeLeaf { arrival, drive })
}

/// The number of nodes of a sound tree.
pub fn judge(bytes: &[u8]) -> Result<usize, Refusal> {
    decode(bytes).map(|tree| tree.shape.nodes.len())
}
