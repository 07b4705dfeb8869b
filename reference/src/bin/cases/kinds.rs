//! Cases that are not long, and how many there are of each kind.

use std::collections::BTreeMap;

/// The longest case that is taken from random ones, so that a file stays small.
const SHORT: usize = 300;

/// So many cases made by `make`, none of them long.
pub fn short<C>(count: usize, make: impl FnMut() -> C, length: impl Fn(&C) -> usize) -> Vec<C> {
    std::iter::repeat_with(make).filter(|case| length(case) <= SHORT).take(count).collect()
}

pub struct Kinds {
    counts: BTreeMap<String, usize>,
}

impl Kinds {
    pub fn of(names: impl Iterator<Item = String>) -> Kinds {
        let mut counts = BTreeMap::new();
        for name in names {
            *counts.entry(name).or_insert(0) += 1;
        }
        Kinds { counts }
    }

    /// None of these is rare.
    pub fn check(&self, names: &[&str], least: usize) {
        for &name in names {
            let count = self.counts.get(name).copied().unwrap_or(0);
            assert!(count >= least, "{count} cases: {name}");
        }
    }

    pub fn print(&self) {
        for (name, count) in &self.counts {
            println!("  {name}: {count}");
        }
    }
}
