//! Crossings: which NANDs of a drawing have their branches exchanged. The NANDs are taken in
//! preorder as the drawing stands, and the first has the highest of five bits.

use crate::shape::{Node, Shape, Step};

/// Above every crossing.
pub const CROSSINGS: u32 = 32;

/// The bit of a NAND, by its position among the drawing's NANDs.
pub fn bit(nand: usize) -> u32 {
    (CROSSINGS / 2) >> nand
}

/// The bits that a drawing has no NAND for.
pub fn unused_bits(shape: &Shape) -> u32 {
    (CROSSINGS - 1) >> nands(&shape.nodes)
}

/// Every crossing of a drawing, ascending.
pub fn crossings(shape: &Shape) -> impl Iterator<Item = u32> {
    let unused = unused_bits(shape);
    (0..CROSSINGS).filter(move |crossing| crossing & unused == 0)
}

/// The drawing under a crossing; unused bits exchange nothing.
pub fn redrawn(shape: &Shape, crossing: u32) -> Shape {
    let mut steps = Vec::with_capacity(shape.nodes.len());
    redraw(shape, 0, crossing, &mut steps);
    Shape::from_steps(&steps)
}

/// Appends what stands at and under a node.
fn redraw(shape: &Shape, node: usize, crossing: u32, steps: &mut Vec<Step>) {
    match shape.nodes[node] {
        Node::Leaf(leaf) => steps.push(Step::Leaf(leaf)),
        Node::Inv(below) => {
            steps.push(Step::Inv);
            redraw(shape, below, crossing, steps);
        }
        Node::Nand(left, right) => {
            let exchanged = crossing & bit(nands(&shape.nodes[..node])) != 0;
            let (first, second) = if exchanged { (right, left) } else { (left, right) };
            steps.push(Step::Nand);
            redraw(shape, first, crossing, steps);
            redraw(shape, second, crossing, steps);
        }
    }
}

fn nands(nodes: &[Node]) -> usize {
    nodes.iter().filter(|node| matches!(node, Node::Nand(..))).count()
}

#[cfg(test)]
mod tests {
    use super::*;
    use Step::{Inv, Leaf, Nand};

    /// NAND(INV(NAND(0, 1)), NAND(2, 3)): NANDs 0, 1 and 2 have the bits 16, 8 and 4.
    const STEPS: [Step; 8] = [Nand, Inv, Nand, Leaf(0), Leaf(1), Nand, Leaf(2), Leaf(3)];

    fn redrawn_steps(crossing: u32) -> Vec<Step> {
        redrawn(&Shape::from_steps(&STEPS), crossing).steps()
    }

    #[test]
    fn a_bit_exchanges_its_nand() {
        assert_eq!(redrawn_steps(0), STEPS);
        assert_eq!(redrawn_steps(16), [Nand, Nand, Leaf(2), Leaf(3), Inv, Nand, Leaf(0), Leaf(1)]);
        assert_eq!(redrawn_steps(8), [Nand, Inv, Nand, Leaf(1), Leaf(0), Nand, Leaf(2), Leaf(3)]);
        assert_eq!(redrawn_steps(4), [Nand, Inv, Nand, Leaf(0), Leaf(1), Nand, Leaf(3), Leaf(2)]);
    }

    /// The second NAND is that of 0 and 1 also where the first exchange puts it last.
    #[test]
    fn nands_are_counted_as_the_drawing_stands() {
        assert_eq!(redrawn_steps(24), [Nand, Nand, Leaf(2), Leaf(3), Inv, Nand, Leaf(1), Leaf(0)]);
        assert_eq!(redrawn_steps(20), [Nand, Nand, Leaf(3), Leaf(2), Inv, Nand, Leaf(0), Leaf(1)]);
        assert_eq!(redrawn_steps(28), [Nand, Nand, Leaf(3), Leaf(2), Inv, Nand, Leaf(1), Leaf(0)]);
    }

    #[test]
    fn unused_bits_are_zero() {
        let crossings_of = |steps: &[Step]| crossings(&Shape::from_steps(steps)).collect::<Vec<u32>>();
        assert_eq!(crossings_of(&[Inv, Leaf(0)]), [0]);
        assert_eq!(crossings_of(&[Nand, Leaf(0), Leaf(1)]), [0, 16]);
        assert_eq!(crossings_of(&STEPS), [0, 4, 8, 12, 16, 20, 24, 28]);
        let five = [vec![Nand; 5], (0..6).map(Leaf).collect()].concat();
        assert_eq!(crossings_of(&five), (0..32).collect::<Vec<u32>>());
        assert_eq!(unused_bits(&Shape::from_steps(&STEPS)), 3);
    }

    /// Five NANDs, each the first branch of the one before: the last bit exchanges the lowest.
    #[test]
    fn five_nands_use_five_bits() {
        let five = Shape::from_steps(&[vec![Nand; 5], (0..6).map(Leaf).collect()].concat());
        let lowest = [vec![Nand; 5], [1, 0, 2, 3, 4, 5].map(Leaf).to_vec()].concat();
        assert_eq!(redrawn(&five, 1).steps(), lowest);
        let all: Vec<Step> = (0..5).flat_map(|place| [Nand, Leaf(5 - place)]).chain([Leaf(0)]).collect();
        assert_eq!(redrawn(&five, 31).steps(), all);
    }
}
