//! Trees of inverters and two-input NANDs with something at each leaf: in a pattern a pin number, in the subject tree
//! what `tree::TreeLeaf` has.

/// One node as it stands in a preorder list.
#[derive(Clone, Copy, PartialEq, Eq, Debug)]
pub enum Step<L = u32> {
    Leaf(L),
    Inv,
    Nand,
}

impl<L> Step<L> {
    pub fn branches(&self) -> usize {
        match self {
            Step::Leaf(_) => 0,
            Step::Inv => 1,
            Step::Nand => 2,
        }
    }

    /// The same node with another thing at a leaf.
    pub fn map<M>(self, change: impl FnOnce(L) -> M) -> Step<M> {
        match self {
            Step::Leaf(leaf) => Step::Leaf(change(leaf)),
            Step::Inv => Step::Inv,
            Step::Nand => Step::Nand,
        }
    }
}

/// One node with the numbers of its branches.
#[derive(Clone, Copy, PartialEq, Eq, Debug)]
pub enum Node<L = u32> {
    Leaf(L),
    Inv(usize),
    Nand(usize, usize),
}

/// The nodes, numbered in preorder; node 0 is the root.
#[derive(Clone, PartialEq, Eq, Debug)]
pub struct Shape<L = u32> {
    pub nodes: Vec<Node<L>>,
}

impl<L: Copy> Shape<L> {
    /// Finds every node's branches, from the last node to the first.
    pub fn from_steps(steps: &[Step<L>]) -> Self {
        let mut nodes = Vec::with_capacity(steps.len());
        let mut whole = Vec::with_capacity(steps.len());
        for (number, step) in steps.iter().enumerate().rev() {
            nodes.push(match *step {
                Step::Leaf(leaf) => Node::Leaf(leaf),
                Step::Inv => Node::Inv(whole.pop().unwrap()),
                Step::Nand => Node::Nand(whole.pop().unwrap(), whole.pop().unwrap()),
            });
            whole.push(number);
        }
        assert_eq!(whole, [0], "one shape, neither more nor less");
        nodes.reverse();
        Shape { nodes }
    }

    pub fn steps(&self) -> Vec<Step<L>> {
        let step = |node: &Node<L>| match *node {
            Node::Leaf(leaf) => Step::Leaf(leaf),
            Node::Inv(_) => Step::Inv,
            Node::Nand(..) => Step::Nand,
        };
        self.nodes.iter().map(step).collect()
    }

    pub fn is_leaf(&self, node: usize) -> bool {
        matches!(self.nodes[node], Node::Leaf(_))
    }

    /// What stands at the leaves, in drawn order.
    pub fn leaves(&self) -> impl Iterator<Item = L> + '_ {
        self.nodes.iter().filter_map(|node| if let Node::Leaf(leaf) = node { Some(*leaf) } else { None })
    }

    /// The same, to be changed.
    pub fn leaves_mut(&mut self) -> impl Iterator<Item = &mut L> {
        self.nodes.iter_mut().filter_map(|node| if let Node::Leaf(leaf) = node { Some(leaf) } else { None })
    }
}

#[cfg(test)]
mod tests {
    use super::*;

    #[test]
    fn branches_are_found_in_drawn_order() {
        let steps = [Step::Nand, Step::Inv, Step::Leaf(3), Step::Nand, Step::Leaf(1), Step::Leaf(2)];
        let shape = Shape::from_steps(&steps);
        let nodes = [Node::Nand(1, 3), Node::Inv(2), Node::Leaf(3), Node::Nand(4, 5), Node::Leaf(1), Node::Leaf(2)];
        assert_eq!(shape.nodes, nodes);
        assert_eq!(shape.steps(), steps);
        assert_eq!(shape.leaves().collect::<Vec<u32>>(), [3, 1, 2]);
    }
}
