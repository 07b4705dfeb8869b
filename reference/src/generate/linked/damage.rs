//! One thing wrong with a part, with its library or with what is lent. What is said then is for the operation to say: a
//! link with another leaf may be a good one.

use super::draw::any_draft;
use super::{Case, Draft};
use crate::form::{Form, Role};
use crate::generate::damage::{any_sheet, damage_bytes, damage_form, damaged, edge_values, noise, torn_in, Kind};
use crate::operation::LEAST_WORK;
use crate::part::{Link, Part, LEAST_OUTPUT, MOST_LINKS, MOST_TREES};
use crate::rng::Rng;
use crate::tree::{self, LATEST_LEAF, LATEST_REQUIRED, MOST_TREE_NODES};

#[derive(Clone, Copy, PartialEq, Eq, Debug)]
pub enum Damage {
    /// A link whose leaf field names no node, a gate, any node, or a leaf that another link names; whose driving tree
    /// is not lower; and a tree that arrives late for those that read it.
    NoNode,
    Gate,
    Node,
    Taken,
    Driver,
    Late,
    /// A count with another value, a tree number of a link, any of these fields; one left out or repeated; a set bit
    /// after them; and nothing from somewhere in one of them on.
    Count,
    Number,
    Value,
    Field,
    HeadTail,
    HeadTorn,
    /// A tree's sheet damaged, replaced by any, or with set bits in its last byte; one left out, one more; and bytes
    /// between two or after the last.
    Sheet,
    AnySheet,
    SheetTail,
    LeftOut,
    Added,
    Bytes,
    /// The part cut, damaged in any way, and nothing of it left as it was.
    Cut,
    Any,
    Noise,
    /// The library's bytes, and what is lent.
    Library,
    Lent,
}

/// To the links and trees, before there are sheets.
pub const OF_LINKS: [Damage; 6] =
    [Damage::NoNode, Damage::Gate, Damage::Node, Damage::Taken, Damage::Driver, Damage::Late];

/// To the fields of the counts and links.
pub const OF_HEAD: [Damage; 6] =
    [Damage::Count, Damage::Number, Damage::Value, Damage::Field, Damage::HeadTail, Damage::HeadTorn];

/// To the trees' sheets.
pub const OF_TREES: [Damage; 6] =
    [Damage::Sheet, Damage::AnySheet, Damage::SheetTail, Damage::LeftOut, Damage::Added, Damage::Bytes];

/// To all the rest.
pub const OF_BYTES: [Damage; 5] = [Damage::Cut, Damage::Any, Damage::Noise, Damage::Library, Damage::Lent];

/// A fresh case of any kind, with up to three damages.
pub fn any_case(rng: &mut Rng) -> Case {
    let draft = any_draft(rng);
    let count = rng.pick(&[0, 0, 0, 0, 1, 1, 1, 1, 2, 3]);
    let damages: Vec<Damage> = (0..count).map(|_| any_damage(rng)).collect();
    spoiled(rng, draft, &damages)
}

fn any_damage(rng: &mut Rng) -> Damage {
    match rng.below(8) {
        0..=2 => rng.pick(&OF_LINKS),
        3 | 4 => rng.pick(&OF_HEAD),
        5 | 6 => rng.pick(&OF_TREES),
        _ => rng.pick(&OF_BYTES),
    }
}

/// The sheets of a draft, damaged in each of these ways.
pub fn spoiled(rng: &mut Rng, mut draft: Draft, damages: &[Damage]) -> Case {
    damages.iter().for_each(|&damage| damage_part(rng, damage, &mut draft.part));
    let mut sheets = Sheets { head: draft.head(), loose: 0, trees: draft.tree_sheets() };
    damages.iter().for_each(|&damage| sheets.damage(rng, damage));
    let mut case = draft.with_bytes(&sheets.head_bytes(), &sheets.trees);
    damages.iter().for_each(|&damage| case.damage(rng, damage, &sheets.head));
    case
}

fn damage_part(rng: &mut Rng, damage: Damage, part: &mut Part) {
    match damage {
        Damage::Late => delay(rng, part),
        Damage::NoNode | Damage::Gate | Damage::Node | Damage::Taken | Damage::Driver => {
            if part.links.is_empty() || rng.once_in(3) {
                let link = any_link(rng, part);
                put_link(rng, part, link);
            }
            damage_link(rng, damage, part);
        }
        _ => {}
    }
}

/// A link to any node of any tree, by a lower one if there is one.
fn any_link(rng: &mut Rng, part: &Part) -> Link {
    let reading = rng.below(part.trees.len());
    Link::new(reading, rng.below(part.trees[reading].shape.nodes.len()), rng.below(reading.max(1)))
}

fn put_link(rng: &mut Rng, part: &mut Part, link: Link) {
    if part.links.len() < MOST_LINKS {
        part.links.insert(rng.below(part.links.len() + 1), link);
    }
}

fn damage_link(rng: &mut Rng, damage: Damage, part: &mut Part) {
    let position = rng.below(part.links.len());
    let link = part.links[position];
    let shape = &part.trees[link.reading].shape;
    let nodes = shape.nodes.len();
    let gates: Vec<usize> = (0..nodes).filter(|&node| !shape.is_leaf(node)).collect();
    let last = MOST_TREE_NODES - 1;
    part.links[position] = match damage {
        Damage::NoNode => Link { leaf: rng.between(nodes.min(last), last), ..link },
        Damage::Gate if !gates.is_empty() => Link { leaf: rng.pick(&gates), ..link },
        Damage::Driver => Link { driving: rng.between(link.reading, part.trees.len() - 1), ..link },
        Damage::Taken => link,
        _ => Link { leaf: rng.below(nodes), ..link },
    };
    if damage == Damage::Taken {
        let driving = rng.below(link.reading.max(1));
        put_link(rng, part, Link { driving, ..link });
    }
}

/// The leaves of a tree that drives another become as late as they may be.
fn delay(rng: &mut Rng, part: &mut Part) {
    let driving = if part.links.is_empty() { 0 } else { rng.pick(&part.links).driving };
    let tree = &mut part.trees[driving];
    tree.required = LATEST_REQUIRED;
    tree.shape.leaves_mut().for_each(|leaf| leaf.arrival = LATEST_LEAF);
}

/// The counts and links, a bit to be set after them, and the trees.
struct Sheets {
    head: Form,
    loose: u8,
    trees: Vec<Vec<u8>>,
}

impl Sheets {
    fn head_bytes(&self) -> Vec<u8> {
        let mut bytes = self.head.bytes();
        bytes.iter_mut().last().into_iter().for_each(|last| *last |= self.loose);
        bytes
    }

    fn damage(&mut self, rng: &mut Rng, damage: Damage) {
        match damage {
            Damage::Count => self.set_value(rng, &[Role::TreeCount, Role::LinkCount]),
            Damage::Number => self.set_value(rng, &[Role::ReadingTree, Role::DrivingTree]),
            Damage::Value => self.set_value(rng, &IN_HEAD),
            Damage::Field => self.move_field(rng),
            Damage::HeadTail => {
                let rest = self.head.bytes().len() * 8 - self.head.place(self.head.fields.len());
                self.loose |= if rest > 0 { 1 << rng.below(rest) } else { 0 };
            }
            _ => self.damage_trees(rng, damage),
        }
    }

    /// Gives a field of one of these roles another value.
    fn set_value(&mut self, rng: &mut Rng, roles: &[Role]) {
        let role = rng.pick(roles);
        let fields = self.head.find(role);
        if fields.is_empty() {
            return;
        }
        let field = rng.pick(&fields);
        let value = self.head.fields[field].value;
        let near = [value.saturating_sub(1), value + 1, self.trees.len() as u32];
        let any = rng.value(0, (1 << role.width()) - 1);
        self.head.fields[field].value = rng.pick(&[&near[..], &edge_values(role), &[any]].concat());
    }

    fn move_field(&mut self, rng: &mut Rng) {
        if self.head.fields.is_empty() {
            return;
        }
        let field = rng.below(self.head.fields.len());
        if rng.once_in(2) {
            self.head.fields.remove(field);
        } else {
            self.head.fields.insert(field, self.head.fields[field]);
        }
    }

    fn damage_trees(&mut self, rng: &mut Rng, damage: Damage) {
        if self.trees.is_empty() {
            return;
        }
        let number = rng.below(self.trees.len());
        let sheet = &mut self.trees[number];
        match damage {
            Damage::Sheet => *sheet = damaged_tree(rng, sheet),
            Damage::AnySheet => *sheet = any_sheet(rng, Kind::Tree),
            Damage::SheetTail => sheet.iter_mut().last().into_iter().for_each(|last| *last |= rng.pick(&[1, 2, 3])),
            Damage::LeftOut => drop(self.trees.remove(number)),
            Damage::Added => self.trees.insert(number, self.trees[number].clone()),
            Damage::Bytes => {
                let more: [&[u8]; 5] = [&[0], &[0], &[1], &[0, 0], &[255]];
                sheet.extend(rng.pick(&more));
            }
            _ => {}
        }
    }
}

const IN_HEAD: [Role; 5] = [Role::TreeCount, Role::LinkCount, Role::ReadingTree, Role::LinkedLeaf, Role::DrivingTree];

/// A tree's sheet with a fault in a field or in its bytes.
fn damaged_tree(rng: &mut Rng, sheet: &[u8]) -> Vec<u8> {
    let mut damaged = sheet.to_vec();
    match tree::decode(sheet) {
        Ok(tree) if !rng.once_in(3) => {
            let mut form = Form::of_tree(&tree);
            damage_form(rng, Kind::Tree, &mut form);
            damaged = form.bytes();
        }
        _ => damage_bytes(rng, &mut damaged),
    }
    damaged
}

impl Case {
    /// The damages that are done to the bytes.
    fn damage(&mut self, rng: &mut Rng, damage: Damage, head: &Form) {
        match damage {
            Damage::HeadTorn => {
                let role = rng.pick(&IN_HEAD);
                torn_in(rng, head, role).into_iter().for_each(|torn| self.part = torn);
            }
            Damage::Cut => self.part.truncate(rng.below(self.part.len() + 1)),
            Damage::Any => damage_bytes(rng, &mut self.part),
            Damage::Noise => self.part = noisy_part(rng),
            Damage::Library if rng.once_in(2) => damage_bytes(rng, &mut self.library),
            Damage::Library => self.library = damaged(rng, Kind::Library, 1),
            Damage::Lent => self.lend(rng),
            _ => {}
        }
    }

    /// Too little, or more than enough.
    fn lend(&mut self, rng: &mut Rng) {
        match rng.below(5) {
            0 => self.lent.output = rng.below(LEAST_OUTPUT),
            1 => self.lent.output = LEAST_OUTPUT - 1,
            2 => self.lent.work = rng.below(LEAST_WORK),
            3 => self.lent.work = LEAST_WORK - 1,
            _ => {
                self.lent.output += rng.below(40);
                self.lent.work += rng.below(40);
            }
        }
    }
}

/// Random bytes after a tree count that is mostly good and a link count that is mostly small.
fn noisy_part(rng: &mut Rng) -> Vec<u8> {
    let trees = rng.value(0, MOST_TREES as u32);
    let links = rng.pick(&[0, 0, 1, 2, 200]);
    let head = (trees as u16) << 11 | links << 3;
    [head.to_be_bytes().to_vec(), noise(rng)].concat()
}
