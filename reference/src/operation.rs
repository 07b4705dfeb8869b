//! Map and list on bytes.

use crate::cover::list_sheet;
use crate::refusal::{Refusal, SHORT};
use crate::{library, merging, tree};

#[derive(Clone, Copy, PartialEq, Eq, Debug)]
pub enum Operation {
    Map,
    List,
}

/// The least length of the work area, in words of 64 bits.
pub const LEAST_WORK: usize = 8_192;

impl Operation {
    /// The least length of the output, in bytes.
    pub const fn least_output(self) -> usize {
        match self {
            Operation::Map => 149,
            Operation::List => 179,
        }
    }

    /// The sheet handed over, or the refusal.
    pub fn run(self, lent: Lent, library: &[u8], tree: &[u8]) -> Result<Vec<u8>, Refusal> {
        if lent.output < self.least_output() || lent.work < LEAST_WORK {
            return Err(Refusal::new(SHORT, 0));
        }
        let library = library::decode(library)?;
        let tree = tree::decode(tree)?;
        match self {
            Operation::Map => merging::map(&library, &tree).map(|cover| cover.sheet()),
            Operation::List => merging::list(&library, &tree).map(|pairs| list_sheet(&pairs)),
        }
    }
}

/// The lengths of output and work area.
#[derive(Clone, Copy, PartialEq, Eq, Hash, Debug)]
pub struct Lent {
    pub output: usize,
    pub work: usize,
}

impl Lent {
    /// Just enough for either operation.
    pub const ENOUGH: Lent = Lent { output: 179, work: LEAST_WORK };
}
