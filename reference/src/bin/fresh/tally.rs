//! Counts of agreement, and the first disagreement.

use reference::part;
use reference::rng::Rng;
use reference::tree::{self, Tree};
use std::collections::BTreeMap;

#[derive(Default)]
pub struct Tally {
    agreed: BTreeMap<String, u64>,
    disagreed: u64,
    driven: u64,
    first: Option<String>,
}

impl Tally {
    /// So many cases, each compared.
    pub fn of<C>(count: u64, seed: u64, make: fn(&mut Rng) -> C, compare: fn(&mut Tally, &C)) -> Tally {
        let mut rng = Rng::new(seed);
        let mut tally = Tally::default();
        for _ in 0..count {
            compare(&mut tally, &make(&mut rng));
        }
        tally
    }

    pub fn agree(&mut self, key: String) {
        *self.agreed.entry(key).or_insert(0) += 1;
    }

    /// `story` is told for the first disagreement only.
    pub fn disagree(&mut self, story: impl FnOnce() -> String) {
        self.disagreed += 1;
        self.first.get_or_insert_with(story);
    }

    /// Counts a case if its tree is sound and has driven leaves.
    pub fn meet(&mut self, tree: &[u8]) {
        self.driven += tree::decode(tree).is_ok_and(|tree| tree.has_driven_leaves()) as u64;
    }

    /// Counts a case if its part is sound and one of its trees has driven leaves.
    pub fn meet_part(&mut self, part: &[u8]) {
        let part = part::decode(part);
        self.driven += part.is_ok_and(|part| part.trees.iter().any(Tree::has_driven_leaves)) as u64;
    }

    pub fn all_agree(&self) -> bool {
        self.disagreed == 0
    }

    pub fn print(&self) {
        let agreed: u64 = self.agreed.values().sum();
        for (key, count) in &self.agreed {
            println!("  {key}: {count}");
        }
        let driven = if self.driven > 0 { format!(", {} with driven leaves", self.driven) } else { String::new() };
        println!("agreed {agreed} of {}{driven}", agreed + self.disagreed);
        if let Some(story) = &self.first {
            println!("first disagreement:\n{story}");
        }
    }
}

/// How an answer is counted: refusals by number.
pub fn key(success: &str, coded: u64) -> String {
    match coded >> 32 {
        0 => success.to_string(),
        number => format!("refused {number:>2}"),
    }
}

/// An answer in words.
pub fn words(coded: u64) -> String {
    match coded >> 32 {
        0 => format!("success {coded}"),
        high if high >> 31 == 1 => format!("accepted {} {}", coded << 1 >> 25, coded & 0xff_ffff),
        number => format!("refused {number} {}", coded as u32),
    }
}
