//! Drawings that compute what another does.

use crate::library::{Library, MOST_PATTERN_NODES};
use crate::rng::Rng;
use crate::shape::{Node, Shape, Step};
use Step::{Inv, Leaf, Nand};

/// A library like another, in which the later drawings of each cell compute what the first does.
pub fn alike(rng: &mut Rng, library: &Library) -> Library {
    let mut alike = library.clone();
    for cell in &mut alike.cells {
        let (first, others) = cell.patterns.split_first_mut().expect("a cell has a pattern");
        others.iter_mut().for_each(|drawing| *drawing = restated(rng, first));
    }
    alike
}

/// Another drawing that computes the same, perhaps the same drawing: branches of NANDs are exchanged, three that meet
/// in two NANDs are grouped in another way, and pairs of inverters come and go.
pub fn restated(rng: &mut Rng, drawing: &Shape) -> Shape {
    let room = MOST_PATTERN_NODES - drawing.nodes.len();
    let mut restating = Restating { rng, drawing, room, steps: Vec::new() };
    restating.node(0);
    Shape::from_steps(&restating.steps)
}

struct Restating<'a> {
    rng: &'a mut Rng,
    drawing: &'a Shape,
    /// How many nodes more there may be.
    room: usize,
    steps: Vec<Step>,
}

impl Restating<'_> {
    fn node(&mut self, node: usize) {
        if self.room >= 2 && self.rng.once_in(8) {
            self.room -= 2;
            self.steps.extend([Inv, Inv]);
        }
        match self.drawing.nodes[node] {
            Node::Leaf(pin) => self.steps.push(Leaf(pin)),
            Node::Inv(below) => self.inverter(below),
            Node::Nand(first, second) if self.rng.once_in(2) => self.nand(second, first),
            Node::Nand(first, second) => self.nand(first, second),
        }
    }

    /// Two inverters in a row may be left out, but for those that part a leaf from the opening.
    fn inverter(&mut self, below: usize) {
        match self.drawing.nodes[below] {
            Node::Inv(lower) if self.rng.once_in(2) && !(self.steps.is_empty() && self.drawing.is_leaf(lower)) => {
                self.room += 2;
                self.node(lower);
            }
            _ => {
                self.steps.push(Inv);
                self.node(below);
            }
        }
    }

    /// NAND(INV(NAND(a, b)), c) is 0 just where a, b and c are 1, and so is NAND(a, INV(NAND(b, c))).
    fn nand(&mut self, first: usize, second: usize) {
        self.steps.push(Nand);
        match self.both(first) {
            Some((one, other)) if self.rng.once_in(2) => {
                self.node(one);
                self.steps.extend([Inv, Nand]);
                self.node(other);
            }
            _ => self.node(first),
        }
        self.node(second);
    }

    /// The branches of the NAND under an inverter.
    fn both(&self, node: usize) -> Option<(usize, usize)> {
        let Node::Inv(below) = self.drawing.nodes[node] else { return None };
        let Node::Nand(one, other) = self.drawing.nodes[below] else { return None };
        Some((one, other))
    }
}

/// The drawing with two of its pins exchanged.
pub fn with_pins_exchanged(drawing: &Shape, one: u32, other: u32) -> Shape {
    with_pins(drawing, |pin| match pin {
        pin if pin == one => other,
        pin if pin == other => one,
        pin => pin,
    })
}

/// The drawing with other pins at its leaves.
pub fn with_pins(drawing: &Shape, change: impl Fn(u32) -> u32) -> Shape {
    let mut changed = drawing.clone();
    changed.leaves_mut().for_each(|pin| *pin = change(*pin));
    changed
}

/// A drawing that computes the contrary, if there is room: an inverter more above the root, or one less.
pub fn turned(drawing: &Shape) -> Option<Shape> {
    let steps = drawing.steps();
    match steps[..] {
        [Inv, Inv | Nand, ..] => Some(Shape::from_steps(&steps[1..])),
        _ if steps.len() < MOST_PATTERN_NODES => Some(Shape::from_steps(&[&[Inv], &steps[..]].concat())),
        _ => None,
    }
}

#[cfg(test)]
mod tests {
    use super::*;
    use crate::functions::{computed, settings};
    use crate::generate::sound;

    /// A random drawing, and its pins.
    fn drawing(rng: &mut Rng) -> (Shape, usize) {
        let pins = rng.between(1, 6);
        (sound::pattern(rng, pins, 9), pins)
    }

    /// Whether a pattern may be drawn so: each of its pins stands once, if it did before.
    fn is_sound(drawing: &Shape, pins: usize) -> bool {
        let mut met: Vec<u32> = drawing.leaves().collect();
        met.sort();
        met.into_iter().eq(0..pins as u32) && drawing.nodes.len() <= MOST_PATTERN_NODES && !drawing.is_leaf(0)
    }

    #[test]
    fn restated_drawings_compute_the_same() {
        let mut rng = Rng::new(1);
        let mut others = 0;
        for _ in 0..20_000 {
            let (drawing, pins) = drawing(&mut rng);
            let restated = restated(&mut rng, &drawing);
            assert_eq!(computed(&restated), computed(&drawing));
            assert!(is_sound(&restated, pins));
            others += (restated != drawing) as usize;
        }
        assert!(others > 12_000, "{others} others");
    }

    #[test]
    fn turned_drawings_compute_the_contrary() {
        let mut rng = Rng::new(2);
        let mut count = 0;
        for _ in 0..20_000 {
            let (drawing, pins) = drawing(&mut rng);
            let Some(turned) = turned(&drawing) else { continue };
            assert!(computed(&turned).iter().zip(computed(&drawing)).all(|(&one, other)| one != other));
            assert!(is_sound(&turned, pins));
            count += 1;
        }
        assert!(count > 12_000, "{count} turned");
    }

    /// The function is that of the settings with two digits exchanged.
    #[test]
    fn exchanged_pins_exchange_digits() {
        let mut rng = Rng::new(3);
        for _ in 0..20_000 {
            let (drawing, pins) = drawing(&mut rng);
            let (one, other) = (rng.below(pins), rng.below(pins));
            let exchanged = with_pins_exchanged(&drawing, one as u32, other as u32);
            assert!(is_sound(&exchanged, pins));
            let function = computed(&drawing);
            let differ = |setting: usize| setting >> one & 1 != setting >> other & 1;
            let moved = |setting| if differ(setting) { setting ^ 1 << one ^ 1 << other } else { setting };
            assert!(computed(&exchanged).into_iter().eq((0..settings(pins)).map(|setting| function[moved(setting)])));
        }
    }
}
