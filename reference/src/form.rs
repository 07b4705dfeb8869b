//! A sheet as the list of its fields, so that each can be found and damaged.

use crate::bits::Writer;
use crate::cover::Cover;
use crate::library::{Cell, Library, Pin};
use crate::part::Link;
use crate::shape::{Shape, Step};
use crate::sheet::{DRIVEN, INV, LEAF, NAND};
use crate::tree::{Tree, TreeLeaf};

#[derive(Clone, Copy, PartialEq, Eq, Debug)]
pub enum Role {
    BinCount,
    BinLoad,
    CellCount,
    Hold,
    Area,
    HighestLoad,
    PinCount,
    PinBin,
    Intrinsic,
    Drive,
    PatternCount,
    Code,
    PinNumber,
    RootLoad,
    Required,
    Arrival,
    CoverArea,
    CoverArrival,
    MatchCount,
    MatchNode,
    MatchPattern,
    MatchCrossing,
    TreeCount,
    LinkCount,
    ReadingTree,
    LinkedLeaf,
    DrivingTree,
}

impl Role {
    pub const OF_LIBRARY: [Role; 13] = [
        Role::BinCount,
        Role::BinLoad,
        Role::CellCount,
        Role::Hold,
        Role::Area,
        Role::HighestLoad,
        Role::PinCount,
        Role::PinBin,
        Role::Intrinsic,
        Role::Drive,
        Role::PatternCount,
        Role::Code,
        Role::PinNumber,
    ];
    pub const OF_TREE: [Role; 5] = [Role::RootLoad, Role::Required, Role::Code, Role::Arrival, Role::Drive];

    pub fn width(self) -> usize {
        match self {
            Role::Hold => 1,
            Role::PinBin | Role::Code => 2,
            Role::BinCount | Role::PinCount | Role::PatternCount | Role::PinNumber => 3,
            Role::ReadingTree | Role::DrivingTree => 4,
            Role::MatchCrossing | Role::TreeCount => 5,
            Role::MatchCount | Role::MatchNode | Role::LinkedLeaf => 6,
            Role::CellCount | Role::MatchPattern => 7,
            Role::BinLoad | Role::HighestLoad | Role::Drive | Role::RootLoad | Role::LinkCount => 8,
            Role::Area | Role::Intrinsic => 16,
            Role::Arrival => 20,
            Role::CoverArea => 22,
            Role::Required | Role::CoverArrival => 24,
        }
    }
}

#[derive(Clone, Copy, PartialEq, Eq, Debug)]
pub struct Field {
    pub role: Role,
    pub value: u32,
}

/// Fields in order. Nothing keeps them sound.
#[derive(Clone, Default, PartialEq, Eq, Debug)]
pub struct Form {
    pub fields: Vec<Field>,
}

impl Form {
    pub fn of_library(library: &Library) -> Form {
        let mut form = Form::default();
        form.push(Role::BinCount, library.bins.len() as u32);
        library.bins.iter().for_each(|&load| form.push(Role::BinLoad, load));
        form.push(Role::CellCount, library.cells.len() as u32);
        library.cells.iter().for_each(|cell| form.push_cell(cell));
        form
    }

    pub fn of_tree(tree: &Tree) -> Form {
        let mut form = Form::default();
        form.push(Role::RootLoad, tree.root_load);
        form.push(Role::Required, tree.required);
        form.push_shape(&tree.shape, Form::push_tree_leaf);
        form
    }

    pub fn of_cover(cover: &Cover) -> Form {
        let mut form = Form::default();
        form.push(Role::CoverArea, cover.area);
        form.push(Role::CoverArrival, cover.arrival);
        form.push(Role::MatchCount, cover.matches.len() as u32);
        for placed in &cover.matches {
            form.push(Role::MatchNode, placed.node as u32);
            form.push(Role::MatchPattern, placed.pattern as u32);
            form.push(Role::MatchCrossing, placed.crossing);
        }
        form
    }

    /// The counts and links of a part, up to where its trees begin.
    pub fn of_links(tree_count: usize, links: &[Link]) -> Form {
        let mut form = Form::default();
        form.push(Role::TreeCount, tree_count as u32);
        form.push(Role::LinkCount, links.len() as u32);
        for link in links {
            form.push(Role::ReadingTree, link.reading as u32);
            form.push(Role::LinkedLeaf, link.leaf as u32);
            form.push(Role::DrivingTree, link.driving as u32);
        }
        form
    }

    fn push(&mut self, role: Role, value: u32) {
        self.fields.push(Field { role, value });
    }

    fn push_cell(&mut self, cell: &Cell) {
        self.push(Role::Hold, cell.held as u32);
        self.push(Role::Area, cell.area);
        self.push(Role::HighestLoad, cell.highest_load);
        self.push(Role::PinCount, cell.pins.len() as u32);
        cell.pins.iter().for_each(|pin| self.push_pin(pin));
        self.push(Role::PatternCount, cell.patterns.len() as u32);
        cell.patterns.iter().for_each(|shape| self.push_shape(shape, Form::push_pin_number));
    }

    fn push_pin(&mut self, pin: &Pin) {
        self.push(Role::PinBin, pin.bin);
        self.push(Role::Intrinsic, pin.intrinsic);
        self.push(Role::Drive, pin.drive);
    }

    fn push_shape<L: Copy>(&mut self, shape: &Shape<L>, push_leaf: fn(&mut Form, L)) {
        for step in shape.steps() {
            match step {
                Step::Leaf(leaf) => push_leaf(self, leaf),
                Step::Inv => self.push(Role::Code, INV),
                Step::Nand => self.push(Role::Code, NAND),
            }
        }
    }

    fn push_pin_number(&mut self, pin: u32) {
        self.push(Role::Code, LEAF);
        self.push(Role::PinNumber, pin);
    }

    fn push_tree_leaf(&mut self, leaf: TreeLeaf) {
        self.push(Role::Code, if leaf.drive.is_some() { DRIVEN } else { LEAF });
        self.push(Role::Arrival, leaf.arrival);
        leaf.drive.into_iter().for_each(|drive| self.push(Role::Drive, drive));
    }

    /// The first bit of a field, or for the field count the first bit after the last field.
    pub fn place(&self, field: usize) -> usize {
        self.fields[..field].iter().map(|field| field.role.width()).sum()
    }

    /// The positions of the fields of one role.
    pub fn find(&self, role: Role) -> Vec<usize> {
        (0..self.fields.len()).filter(|&field| self.fields[field].role == role).collect()
    }

    /// The same form with one value changed.
    pub fn with(&self, field: usize, value: u32) -> Form {
        let mut changed = self.clone();
        changed.fields[field].value = value;
        changed
    }

    /// The sheet, with zero bits after the last field.
    pub fn bytes(&self) -> Vec<u8> {
        let mut writer = Writer::new();
        for field in &self.fields {
            writer.put(field.value, field.role.width());
        }
        writer.finish()
    }
}
