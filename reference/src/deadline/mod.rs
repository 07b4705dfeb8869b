//! The product's own method in plain Rust, as the yardstick of the benchmark: no curve
//! is merged; a curve is found point by point, each the least under a bound.

mod choose;
mod compact;
mod curves;
mod finding;

use crate::cover::{list_sheet, Cover, Pair};
use crate::operation::Operation;
use crate::part::{self, Fault};
use crate::refusal::{Refusal, NO_COVER, SHORT};
use crate::{library, tree};
use compact::{Compact, Subject};
use curves::{Curves, ABSENT, TIMES};

/// Whether each point of a curve is worked out anew from every match, or a match keeps its last
/// point as long as that is in time, and is passed over while it is not below the least so far.
#[derive(Clone, Copy, PartialEq, Eq, Debug)]
pub enum Variant {
    Plain,
    Kept,
}

impl Variant {
    pub const ALL: [Variant; 2] = [Variant::Plain, Variant::Kept];

    pub fn name(self) -> &'static str {
        match self {
            Variant::Plain => "plain",
            Variant::Kept => "plain_kept",
        }
    }

    pub fn named(name: &str) -> Option<Variant> {
        Variant::ALL.into_iter().find(|variant| variant.name() == name)
    }

    /// As the product: sheets in, sheet and cleared work area out.
    pub fn run(
        self,
        operation: Operation,
        library: &[u8],
        tree: &[u8],
        output: &mut [u8],
        work: &mut [u64],
    ) -> Result<usize, Refusal> {
        let short = Refusal::new(SHORT, 0);
        if output.len() < operation.least_output() {
            return Err(short);
        }
        let work = work.first_chunk_mut().ok_or(short)?;
        let library = Compact::of(&library::decode(library)?);
        let subject = Subject::of(&tree::decode(tree)?);
        let sheet = Curves::fill(self, &library, &subject, work).and_then(|curves| match operation {
            Operation::Map => map(&curves).map(|cover| cover.sheet()),
            Operation::List => list(&curves),
        });
        work.fill(0);
        let sheet = sheet?;
        output[..sheet.len()].copy_from_slice(&sheet);
        Ok(sheet.len())
    }

    /// The same on a part: the library is read once.
    pub fn run_part(self, library: &[u8], part: &[u8], output: &mut [u8], work: &mut [u64]) -> Result<usize, Fault> {
        if output.len() < part::LEAST_OUTPUT {
            return Err(Fault::Short);
        }
        let work = work.first_chunk_mut().ok_or(Fault::Short)?;
        let library = Compact::of(&library::decode(library).map_err(Fault::Library)?);
        let part = part::decode(part)?;
        let covers = part::map_each(&part, |tree| {
            let subject = Subject::of(tree);
            map(&Curves::fill(self, &library, &subject, work)?)
        });
        work.fill(0);
        let sheets: Vec<u8> = covers?.iter().flat_map(Cover::sheet).collect();
        output[..sheets.len()].copy_from_slice(&sheets);
        Ok(sheets.len())
    }
}

fn map(curves: &Curves) -> Result<Cover, Refusal> {
    let point = curves.look_up(0, 0, curves.subject.required + 1);
    if point == ABSENT {
        return Err(Refusal::new(NO_COVER, 0));
    }
    let mut matches = Vec::with_capacity(64);
    choose::follow(curves, &mut matches, choose::Aim { node: 0, load: curves.subject.root_load, point });
    let Pair { arrival, area } = pair(point);
    Ok(Cover { area, arrival, matches })
}

fn list(curves: &Curves) -> Result<Vec<u8>, Refusal> {
    let mut pairs: Vec<Pair> = curves.root().map(pair).collect();
    pairs.reverse();
    if pairs.is_empty() {
        return Err(Refusal::new(NO_COVER, 0));
    }
    Ok(list_sheet(&pairs))
}

fn pair(word: u64) -> Pair {
    Pair { arrival: (word % TIMES) as u32, area: (word / TIMES) as u32 }
}
