//! The judge of functions on sheets worked out by hand. The judge written for speed must say the same.

use reference::form::{Form, Role};
use reference::functions::{computed, pin_value, settings, sheet, Function};
use reference::generate::damage::flipped_at;
use reference::generate::functions::alike::with_pins_exchanged;
use reference::generate::functions::{Case, Draft};
use reference::generate::parts::{cell, chain, counted_comb, pin, AND, AOI21, AOI22, INVERTER, NAND, NOR, OR};
use reference::generate::specimen;
use reference::hex::hex;
use reference::library::{self, Cell, Library};
use reference::shape::Step::{Inv, Leaf, Nand};
use reference::shape::{Shape, Step};
use reference::verdict::Verdict;
use reference::wordwise;
use std::path::Path;

/// A function as it is written on paper.
fn values(text: &str) -> Function {
    text.chars().filter(|bit| *bit != ' ').map(|bit| bit == '1').collect()
}

fn function_of(steps: &[Step]) -> Function {
    computed(&Shape::from_steps(steps))
}

/// A cell with these drawings, of which each has all its pins.
fn drawn(drawings: &[&[Step]]) -> Cell {
    let patterns = drawings.iter().map(|steps| Shape::from_steps(steps)).collect();
    Cell { patterns, ..cell(1, 4, pin(0, 4, 2), drawings[0]) }
}

fn held(cell: Cell) -> Cell {
    Cell { held: true, ..cell }
}

fn bytes_of(cells: Vec<Cell>) -> Vec<u8> {
    Form::of_library(&Library { bins: vec![1], cells }).bytes()
}

/// What both judges say, as a line of the stored results.
fn judged(library: &[u8], functions: &[u8]) -> String {
    let verdict = Verdict::of_functions(library, functions);
    let wordwise = wordwise::functions::judge(library, functions);
    assert_eq!(wordwise, verdict.coded(), "{} {}: {verdict:?}", hex(library), hex(functions));
    verdict.line()
}

/// The same for functions as they are written on paper, the fields in a row.
fn judged_text(library: &[u8], functions: &str) -> String {
    judged(library, &sheet(&[values(functions)]))
}

#[test]
fn drawings_compute_what_they_do_by_hand() {
    let rows: [(&[Step], &str); 11] = [
        (INVERTER, "10"),
        (&[Inv, Inv, Leaf(0)], "01"),
        (NAND, "1110"),
        (AND, "0001"),
        (OR, "0111"),
        (NOR, "1000"),
        (&[Nand, Leaf(0), Inv, Leaf(1)], "1011"),
        (&[Nand, Leaf(1), Inv, Leaf(0)], "1101"),
        (AOI21, "1110 0000"),
        (&counted_comb(3), "1010 1011"),
        (AOI22, "1110 1110 1110 0000"),
    ];
    for (steps, function) in rows {
        assert_eq!(function_of(steps), values(function), "{steps:?}");
    }
}

/// From all zeros up with pin 0 changing fastest: a pin that goes back to 0 carries to the next.
#[test]
fn settings_are_counted_up() {
    for pins in 1..=6 {
        let mut counter = vec![false; pins];
        for setting in 0..settings(pins) {
            let by_pin: Vec<bool> = (0..pins as u32).map(|pin| pin_value(pin, setting)).collect();
            assert_eq!(by_pin, counter);
            for digit in &mut counter {
                *digit = !*digit;
                if *digit {
                    break;
                }
            }
        }
        assert!(!counter.contains(&true));
    }
}

/// INV, fast INV, NAND and AND: 10 10 1110 0001, and four zero bits.
#[test]
fn the_specimen_sheet_is_accepted() {
    let Case { library, functions } = Draft::of(specimen::library()).case();
    assert_eq!(functions, [0xae, 0x10]);
    assert_eq!(judged(&library, &functions), "functions 4 4");
    assert_eq!(Verdict::of_functions(&library, &functions).coded(), 4 * 256 + 4);
    assert_eq!(library, stored("specimen.library"));
    assert_eq!(functions, stored("specimen.functions"));
    for (bit, pattern) in [0, 0, 1, 1, 2, 2, 2, 2, 3, 3, 3, 3].into_iter().enumerate() {
        assert_eq!(judged(&library, &flipped_at(&functions, bit)), format!("refused 33 {pattern}"));
    }
    (12..16).for_each(|bit| assert_eq!(judged(&library, &flipped_at(&functions, bit)), "refused 32 12"));
}

/// Fields of 2, 4, 64 and 8 bits begin at 0, 2, 6 and 70, and the last ends before 78.
#[test]
fn a_torn_sheet_and_a_tail_are_named() {
    let combs = [2, 6, 3].map(|pins| drawn(&[&counted_comb(pins)]));
    let library = bytes_of([&[drawn(&[INVERTER])][..], &combs].concat());
    let right = Draft::of(library::decode(&library).unwrap()).sheet();
    assert_eq!(right.len(), 10);
    assert_eq!(judged(&library, &right), "functions 4 4");
    let torn = [0, 6, 6, 6, 6, 6, 6, 6, 6, 70];
    for (length, place) in torn.into_iter().enumerate() {
        assert_eq!(judged(&library, &right[..length]), format!("refused 31 {place}"));
        assert_eq!(judged(&library, &vec![0xff; length]), format!("refused 31 {place}"));
    }
    for bit in [78, 79] {
        assert_eq!(judged(&library, &flipped_at(&right, bit)), "refused 32 78");
    }
    for more in [&[0][..], &[1], &[255], &[0, 0]] {
        assert_eq!(judged(&library, &[&right, more].concat()), "refused 32 78");
    }
}

/// Fields that end with their byte leave nothing but bytes after it.
#[test]
fn a_sheet_may_end_with_its_byte() {
    for (cells, functions) in [(1, &[0xab][..]), (2, &[0xab, 0xab])] {
        let library = bytes_of(vec![drawn(&[&counted_comb(3)]); cells]);
        assert_eq!(judged(&library, functions), format!("functions {cells} {cells}"));
        assert_eq!(judged(&library, &functions[1..]), format!("refused 31 {}", 8 * (cells - 1)));
        for more in [&[0][..], &[128]] {
            assert_eq!(judged(&library, &[functions, more].concat()), format!("refused 32 {}", 8 * cells));
        }
    }
}

const OTHER_NAND: &[Step] = &[Nand, Leaf(1), Leaf(0)];
const LONGER_NAND: &[Step] = &[Nand, Inv, Inv, Leaf(0), Leaf(1)];

/// Patterns are numbered through the whole library: 0 and 1 of an INV, 2 to 4 of a held NAND, 5 of an AND.
#[test]
fn the_first_drawing_of_another_function_is_named() {
    let inverter = drawn(&[INVERTER, &[Inv, Inv, Inv, Leaf(0)]]);
    let library = |nand: &[&[Step]], and: &[Step]| bytes_of(vec![inverter.clone(), held(drawn(nand)), drawn(&[and])]);
    let right = library(&[NAND, OTHER_NAND, LONGER_NAND], AND);
    assert_eq!(judged_text(&right, "10 1110 0001"), "functions 3 6");
    for (functions, pattern) in [("01 1110 0001", 0), ("10 0110 0001", 2), ("10 1111 0001", 2), ("10 1110 0101", 5)] {
        assert_eq!(judged_text(&right, functions), format!("refused 33 {pattern}"));
    }
    for (functions, pattern) in [("00 1100 1001", 0), ("10 0001 1001", 2), ("11 1110 1110", 0)] {
        assert_eq!(judged_text(&right, functions), format!("refused 33 {pattern}"));
    }
    let rows: [(&[&[Step]], usize); 5] = [
        (&[NOR, OTHER_NAND, LONGER_NAND], 2),
        (&[NAND, AND, LONGER_NAND], 3),
        (&[NAND, OTHER_NAND, OR], 4),
        (&[NAND, OR, OR], 3),
        (&[OR, NAND, OR], 2),
    ];
    for (nand, pattern) in rows {
        for and in [AND, NOR] {
            assert_eq!(judged_text(&library(nand, and), "10 1110 0001"), format!("refused 33 {pattern}"));
        }
    }
    assert_eq!(judged_text(&library(&[OR, OR, OR], AND), "10 0111 0001"), "functions 3 6");
}

/// Of several faults the first in order is said: library, end of the sheet, tail, drawing.
#[test]
fn faults_are_said_in_order() {
    let Case { library, functions } = Draft::of(specimen::library()).case();
    let areas = Form::of_library(&specimen::library());
    let area = areas.find(Role::Area)[2];
    let unsound = areas.with(area, 0).bytes();
    let wrong = vec![!functions[0], functions[1]];
    let tailed = [&wrong[..], &[0]].concat();
    for sheet in [&functions[..], &wrong, &tailed, &[0xae], &[]] {
        assert_eq!(judged(&[], sheet), "refused 2 0");
        assert_eq!(judged(&library[..43], sheet), "refused 2 343");
        assert_eq!(judged(&[&library[..], &[0]].concat(), sheet), "refused 3 346");
        assert_eq!(judged(&unsound, sheet), format!("refused 4 {}", areas.place(area)));
    }
    assert_eq!(judged(&library, &[]), "refused 31 0");
    assert_eq!(judged(&library, &wrong[..1]), "refused 31 8");
    assert_eq!(judged(&library, &tailed), "refused 32 12");
    assert_eq!(judged(&library, &[wrong[0], functions[1] | 1]), "refused 32 12");
    assert_eq!(judged(&library, &wrong), "refused 33 0");
}

/// In INV(NAND(NAND(0, 1), INV(2))) only pins 0 and 1 are alike.
#[test]
fn exchanged_pins_may_make_another_function() {
    let shape = Shape::from_steps(AOI21);
    for (one, other, answer) in [(0, 1, "functions 1 2"), (0, 2, "refused 33 1"), (1, 2, "refused 33 1")] {
        let exchanged = with_pins_exchanged(&shape, one, other);
        let library = bytes_of(vec![drawn(&[AOI21, &exchanged.steps()])]);
        assert_eq!(judged_text(&library, "1110 0000"), answer);
    }
    let three = [Nand, Inv, Nand, Leaf(0), Leaf(1), Leaf(2)];
    for (one, other) in [(0, 1), (0, 2), (1, 2)] {
        let exchanged = with_pins_exchanged(&Shape::from_steps(&three), one, other);
        assert_eq!(judged_text(&bytes_of(vec![drawn(&[&exchanged.steps()])]), "1111 1110"), "functions 1 1");
    }
}

/// Of all functions of its pins a drawing computes one.
#[test]
fn one_function_is_accepted() {
    for pins in 1..=4 {
        let library = bytes_of(vec![drawn(&[&chain(1, &counted_comb(pins))])]);
        let bits = settings(pins as usize);
        let function = |number: usize| (0..bits).map(|bit| number >> bit & 1 == 1).collect();
        let lines = (0..1 << bits).map(|number| judged(&library, &sheet(&[function(number)])));
        let (right, wrong): (Vec<String>, Vec<String>) = lines.partition(|line| line == "functions 1 1");
        assert_eq!((right.len(), wrong.len()), (1, (1 << bits) - 1));
        assert!(wrong.iter().all(|line| line == "refused 33 0"));
    }
}

/// A file of the stored cases.
fn stored(name: &str) -> Vec<u8> {
    let path = Path::new(env!("CARGO_MANIFEST_DIR")).join("../cases").join(name);
    std::fs::read(path).expect("a stored case")
}
