//! Counts and links that are torn, out of range, or followed by a set bit.

use super::{inverter, nand, part, Case, Draft, Table, Triple};
use crate::generate::damage::flipped_at;
use crate::part::MOST_TREES;

pub fn add(table: &mut Table) {
    counts(table);
    torn(table);
    numbers(table);
    tails(table);
}

fn counts(table: &mut Table) {
    let draft = part(vec![inverter()], &[]);
    let head = draft.head();
    for count in [0, 17, 18, 24, 31] {
        table.refused("tree count", draft.with_head(&head.with(0, count)), 41, 0, 0);
    }
    for count in [2, 3, 15, 16] {
        table.refused("trees that are not there", draft.with_head(&head.with(0, count)), 12, 0, 1);
    }
    let many = part(vec![nand(); MOST_TREES], &[]);
    table.refused("17 trees", many.with_head(&many.head().with(0, 17)), 41, 0, 0);
    table.refused("more trees than counted", many.with_head(&many.head().with(0, 15)), 13, 78, 14);
    table.refused("tree count and link count", draft.with_head(&head.with(0, 0).with(1, 9)), 41, 0, 0);
}

/// The part cut inside every field of the counts and of five links, and one that states more links than it has.
fn torn(table: &mut Table) {
    let links = [(1, 1, 0), (2, 1, 0), (2, 2, 1), (3, 2, 2), (3, 1, 0)];
    let draft = part(vec![inverter(), nand(), nand(), nand()], &links);
    let case = draft.case();
    for (length, place) in
        [(0, 0), (1, 5), (2, 13), (3, 23), (4, 31), (5, 37), (6, 45), (7, 55), (8, 59), (9, 69), (10, 79)]
    {
        table.refused("torn in the counts and links", cut(&case, length), 41, place, 0);
    }
    table.refused("nothing after the links", cut(&case, 11), 12, 0, 0);
    table.refused("a byte after the links", cut(&case, 12), 12, 8, 0);
    for (count, bytes, place) in [(1, 2, 13), (2, 3, 23), (255, 2, 13), (255, 10, 79), (255, 11, 87)] {
        let head = draft.head().with(1, count);
        table.refused("links that are not there", cut(&draft.with_head(&head), bytes), 41, place, 0);
    }
    // Whatever the number of links, the first field that is not whole is named.
    for count in 0..=9 {
        let links: Vec<Triple> = (0..count).map(|link| (1 + link / 2, 1 + link % 2, 0)).collect();
        let draft = part(vec![nand(); 6], &links);
        let head = draft.head();
        for length in 0..head.bytes().len() {
            let field = (0..head.fields.len()).find(|&field| head.place(field + 1) > length * 8);
            let place = head.place(field.expect("a field that is not whole"));
            table.refused("torn after so many links", cut(&draft.case(), length), 41, place, 0);
        }
    }
    // A byte holds the tree count, whatever it is, and three bits of the link count.
    for byte in (0..=31).flat_map(|count| [count << 3, count << 3 | 7]) {
        let place = if (1..=MOST_TREES).contains(&(byte as usize >> 3)) { 5 } else { 0 };
        table.refused("one byte", Case { part: vec![byte], ..case.clone() }, 41, place, 0);
    }
}

fn cut(case: &Case, length: usize) -> Case {
    Case { part: case.part[..length].to_vec(), ..case.clone() }
}

/// Numbers of trees that are not there, of the reading tree and of the driving one.
fn numbers(table: &mut Table) {
    for (count, over) in [(1, 1), (1, 15), (2, 2), (2, 3), (5, 5), (15, 15)] {
        let trees = vec![nand(); count];
        let driven = |link| part(trees.clone(), &[link]).case();
        table.refused("reading tree", driven((over, 1, 0)), 41, 13, 0);
        table.refused("driving tree", driven((count - 1, 1, over)), 41, 23, 0);
        table.refused("both", driven((over, 1, over)), 41, 13, 0);
        let second = part(trees.clone(), &[(count - 1, 1, 0), (count - 1, 2, over)]).case();
        table.refused("driving tree of the second link", second, 41, 37, 0);
        let second = part(trees.clone(), &[(count - 1, 1, 0), (over, 2, 0)]).case();
        table.refused("reading tree of the second link", second, 41, 27, 0);
    }
    for tree in 1..MOST_TREES {
        let draft = part(vec![nand(); MOST_TREES], &[(tree, 1, tree - 1)]);
        let figures: Vec<(u32, u32)> = (0..MOST_TREES).map(|number| (2, if number == tree { 16 } else { 8 })).collect();
        table.mapped("every number of 16 trees", draft.case(), &figures);
    }
}

/// Each bit between the links and the next byte, for every number of such bits.
fn tails(table: &mut Table) {
    for count in 0..=5 {
        let links: Vec<Triple> = (0..count).map(|link| (1 + link / 2, 1 + link % 2, 0)).collect();
        let draft = part(vec![nand(); 4], &links);
        let end = 13 + 14 * count;
        let head = draft.head().bytes();
        (end..head.len() * 8).for_each(|bit| {
            let case = draft.with_bytes(&flipped_at(&head, bit), &draft.tree_sheets());
            table.refused("a bit after the links", case, 41, end, 0);
        });
        table.refused("a set bit and no trees", loose(&draft, &[]), 41, end, 0);
        table.refused("a set bit, then an unsound tree", loose(&draft, &[vec![0; 6]]), 41, end, 0);
        // A byte more is the first tree's root load, and all after it is read a byte late: code 3, and a late leaf.
        let late = draft.with_bytes(&[&head[..], &[0]].concat(), &draft.tree_sheets());
        table.refused("a byte after the links", late, 14, 34, 0);
    }
}

/// The last bit of the links' last byte set, with these trees.
fn loose(draft: &Draft, trees: &[Vec<u8>]) -> Case {
    let head = draft.head().bytes();
    draft.with_bytes(&flipped_at(&head, head.len() * 8 - 1), trees)
}
