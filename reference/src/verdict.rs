//! What a judge says of a sheet.

use crate::cover::Pair;
use crate::generate::damage::Kind;
use crate::judging::Judged;
use crate::refusal::Refusal;
use crate::{functions, library, tree};

#[derive(Clone, Copy, PartialEq, Eq, Debug)]
pub enum Verdict {
    Library { cells: usize, patterns: usize },
    Tree { nodes: usize },
    Cover(Pair),
    Functions { cells: usize, patterns: usize },
    Refused(Refusal),
}

impl From<Judged> for Verdict {
    fn from(judged: Judged) -> Verdict {
        judged.map_or_else(|fault| Verdict::Refused(fault.refusal()), Verdict::Cover)
    }
}

impl Verdict {
    pub fn of(kind: Kind, bytes: &[u8]) -> Verdict {
        let accepted = match kind {
            Kind::Library => library::judge(bytes).map(|(cells, patterns)| Verdict::Library { cells, patterns }),
            Kind::Tree => tree::judge(bytes).map(|nodes| Verdict::Tree { nodes }),
        };
        accepted.unwrap_or_else(Verdict::Refused)
    }

    /// Of a library and its function sheet.
    pub fn of_functions(library: &[u8], functions: &[u8]) -> Verdict {
        let accepted = functions::judge(library, functions);
        accepted.map_or_else(Verdict::Refused, |(cells, patterns)| Verdict::Functions { cells, patterns })
    }

    /// As a line of the stored results.
    pub fn line(&self) -> String {
        match self {
            Verdict::Library { cells, patterns } => format!("library {cells} {patterns}"),
            Verdict::Tree { nodes } => format!("tree {nodes}"),
            Verdict::Cover(pair) => format!("accepted {} {}", pair.area, pair.arrival),
            Verdict::Functions { cells, patterns } => format!("functions {cells} {patterns}"),
            Verdict::Refused(refusal) => refusal.line(),
        }
    }

    /// As the C interface hands it over.
    pub fn coded(&self) -> u64 {
        match self {
            Verdict::Library { cells, patterns } | Verdict::Functions { cells, patterns } => {
                (cells * 256 + patterns) as u64
            }
            Verdict::Tree { nodes } => *nodes as u64,
            Verdict::Cover(pair) => 1 << 63 | (pair.area as u64) << 24 | pair.arrival as u64,
            Verdict::Refused(refusal) => refusal.coded(),
        }
    }
}
