//! Library and tree in arrays of fixed length, shapes in preorder.

use crate::library;
use crate::shape::{Node, Shape};
use crate::tree::Tree;

#[derive(Clone, Copy)]
pub struct Cell {
    pub held: bool,
    pub highest_load: u8,
    pub area: u16,
    pub pins: [Pin; 6],
}

#[derive(Clone, Copy)]
pub struct Pin {
    pub bin: u8,
    drive: u8,
    intrinsic: u16,
}

/// A drawing: by position in preorder the code, at a leaf its pin, and the nodes and NANDs at and under it.
#[derive(Clone, Copy)]
pub struct Pattern {
    pub cell: u8,
    pub codes: [u8; 16],
    pub pins: [u8; 16],
    pub sizes: [u8; 16],
    pub nands: [u8; 16],
}

pub struct Compact {
    pub bins: [u64; 4],
    pub bin_count: usize,
    pub cells: [Cell; 64],
    pub patterns: [Pattern; 128],
    pub pattern_count: usize,
}

/// The subject tree: codes, subtree sizes, and the leaves' arrivals and drives. A driven leaf has a plain one's code.
pub struct Subject {
    pub root_load: u64,
    pub required: u64,
    pub count: usize,
    pub codes: [u8; 64],
    pub sizes: [u8; 64],
    arrivals: [u64; 64],
    drives: [u64; 64],
}

const NO_PIN: Pin = Pin { bin: 0, drive: 0, intrinsic: 0 };
const NO_CELL: Cell = Cell { held: true, highest_load: 0, area: 0, pins: [NO_PIN; 6] };
const NO_PATTERN: Pattern = Pattern { cell: 0, codes: [0; 16], pins: [0; 16], sizes: [1; 16], nands: [0; 16] };

impl Compact {
    pub fn of(library: &library::Library) -> Compact {
        let mut compact = Compact {
            bins: [0; 4],
            bin_count: library.bins.len(),
            cells: [NO_CELL; 64],
            patterns: [NO_PATTERN; 128],
            pattern_count: 0,
        };
        for (bin, &load) in library.bins.iter().enumerate() {
            compact.bins[bin] = load as u64;
        }
        for (number, cell) in library.cells.iter().enumerate() {
            compact.cells[number] = Cell::of(cell);
            for shape in &cell.patterns {
                compact.patterns[compact.pattern_count] = Pattern::of(number, shape);
                compact.pattern_count += 1;
            }
        }
        compact
    }
}

impl Cell {
    fn of(cell: &library::Cell) -> Cell {
        let mut compact =
            Cell { held: cell.held, area: cell.area as u16, highest_load: cell.highest_load as u8, ..NO_CELL };
        for (number, pin) in cell.pins.iter().enumerate() {
            compact.pins[number] = Pin { bin: pin.bin as u8, drive: pin.drive as u8, intrinsic: pin.intrinsic as u16 };
        }
        compact
    }
}

impl Pin {
    pub fn delay(&self, load: u64) -> u64 {
        self.intrinsic as u64 + self.drive as u64 * load
    }
}

/// A node's code.
fn code<L>(node: &Node<L>) -> u8 {
    match node {
        Node::Leaf(_) => 0,
        Node::Inv(_) => 1,
        Node::Nand(..) => 2,
    }
}

impl Pattern {
    fn of(cell: usize, shape: &Shape) -> Pattern {
        let mut compact = Pattern { cell: cell as u8, ..NO_PATTERN };
        for (number, node) in shape.nodes.iter().enumerate().rev() {
            compact.codes[number] = code(node);
            match *node {
                Node::Leaf(pin) => compact.pins[number] = pin as u8,
                Node::Inv(below) => {
                    compact.sizes[number] = 1 + compact.sizes[below];
                    compact.nands[number] = compact.nands[below];
                }
                Node::Nand(left, right) => {
                    compact.sizes[number] = 1 + compact.sizes[left] + compact.sizes[right];
                    compact.nands[number] = 1 + compact.nands[left] + compact.nands[right];
                }
            }
        }
        compact
    }
}

impl Subject {
    pub fn of(tree: &Tree) -> Subject {
        let nodes = &tree.shape.nodes;
        let mut subject = Subject {
            root_load: tree.root_load as u64,
            required: tree.required as u64,
            count: nodes.len(),
            codes: [0; 64],
            sizes: [1; 64],
            arrivals: [0; 64],
            drives: [0; 64],
        };
        for (number, node) in nodes.iter().enumerate().rev() {
            subject.codes[number] = code(node);
            match *node {
                Node::Leaf(leaf) => {
                    subject.arrivals[number] = leaf.arrival as u64;
                    subject.drives[number] = leaf.drive.unwrap_or(0) as u64;
                }
                Node::Inv(below) => subject.sizes[number] = 1 + subject.sizes[below],
                Node::Nand(left, right) => subject.sizes[number] = 1 + subject.sizes[left] + subject.sizes[right],
            }
        }
        subject
    }

    /// When a leaf arrives under the load that it drives.
    pub fn arrival(&self, leaf: usize, load: u64) -> u64 {
        self.arrivals[leaf] + self.drives[leaf] * load
    }
}
