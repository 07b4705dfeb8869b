//! Other matches in the place of those that a cover lists.

use super::damage::Damage;
use super::Draft;
use crate::cover::Placed;
use crate::crossing::{crossings, redrawn, unused_bits, CROSSINGS};
use crate::matching::inputs_at;
use crate::rng::Rng;
use crate::shape::Shape;

impl Draft {
    /// Another match for the one at a position; for a damage that cannot be done to every match, for one that it can
    /// be done to. The position is handed back with it.
    pub fn another(&self, rng: &mut Rng, damage: Damage, position: usize) -> (usize, Placed) {
        let placed = self.cover.matches[position];
        let any = self.any_match(rng);
        match damage {
            Damage::Node => (position, Placed { node: any.node, ..placed }),
            Damage::Pattern => (position, Placed { pattern: any.pattern, ..placed }),
            Damage::Crossing => (position, Placed { crossing: rng.value(0, CROSSINGS - 1), ..placed }),
            Damage::PatternThatStands => match self.standing(placed.node) {
                standing if standing.is_empty() => (position, any),
                standing => (position, rng.pick(&standing)),
            },
            _ => match self.recrossed_matches(damage) {
                recrossed if recrossed.is_empty() => (position, placed),
                recrossed if rng.once_in(2) => recrossed[0],
                recrossed => rng.pick(&recrossed),
            },
        }
    }

    /// One of the list, or any node, pattern and crossing: some that there are, the first that there is not, or the
    /// last number.
    pub fn any_match(&self, rng: &mut Rng) -> Placed {
        let listed = &self.cover.matches;
        if !listed.is_empty() && rng.once_in(3) {
            return rng.pick(listed);
        }
        let node = any_number(rng, self.problem.tree.shape.nodes.len(), 63);
        let pattern = any_number(rng, self.problem.library.pattern_count(), 127);
        let crossing = rng.value(0, CROSSINGS - 1);
        Placed { node, pattern, crossing: rng.pick(&[0, 0, 16, crossing]) }
    }

    /// What matches at a node, patterns of held cells too.
    fn standing(&self, node: usize) -> Vec<Placed> {
        let mut standing = Vec::new();
        for (pattern, (_, shape)) in self.problem.library.patterns().enumerate() {
            let stands = |&crossing: &u32| self.stands(shape, crossing, node);
            standing.extend(crossings(shape).filter(stands).map(|crossing| Placed { node, pattern, crossing }));
        }
        standing
    }

    fn stands(&self, shape: &Shape, crossing: u32, node: usize) -> bool {
        let tree = &self.problem.tree.shape;
        node < tree.nodes.len() && inputs_at(&redrawn(shape, crossing), tree, node).is_some()
    }

    /// The matches of the list with their positions, each under all other crossings that a damage asks for.
    fn recrossed_matches(&self, damage: Damage) -> Vec<(usize, Placed)> {
        let recrossed = |(position, &placed): (usize, &Placed)| {
            let crossings = self.recrossed(damage, placed).into_iter();
            crossings.map(move |crossing| (position, Placed { crossing, ..placed }))
        };
        self.cover.matches.iter().enumerate().flat_map(recrossed).collect()
    }

    /// The other crossings of a match: the same with unused bits set, or those of its pattern under which it
    /// matches there, or does not.
    fn recrossed(&self, damage: Damage, placed: Placed) -> Vec<u32> {
        let Some((_, shape)) = self.problem.library.patterns().nth(placed.pattern) else { return vec![] };
        let unused = unused_bits(shape);
        let suits = |&crossing: &u32| match damage {
            Damage::UnusedBit => crossing & !unused == placed.crossing,
            _ => {
                crossing & unused == 0
                    && self.stands(shape, crossing, placed.node) == (damage == Damage::CrossingThatStands)
            }
        };
        (0..CROSSINGS).filter(|&crossing| crossing != placed.crossing).filter(suits).collect()
    }
}

/// Mostly a number below a count; sometimes the count itself, or the highest that a field holds.
fn any_number(rng: &mut Rng, count: usize, highest: usize) -> usize {
    match rng.below(6) {
        0 => count.min(highest),
        1 => highest,
        _ => rng.below(count),
    }
}
