//! The judges on hand-made sheets and on random ones.

use reference::form::Form;
use reference::generate::damage::{any_form, Kind};
use reference::generate::{limits, sound, specimen};
use reference::rng::Rng;
use reference::verdict::Verdict;
use reference::{library, tree};

#[test]
fn limits_are_judged_as_stated() {
    let rows = limits::rows();
    assert!(rows.len() > 200);
    for row in rows {
        assert_eq!(Verdict::of(row.kind, &row.bytes), row.verdict, "{}: {:02x?}", row.name, row.bytes);
    }
}

#[test]
fn the_specimens_are_sound() {
    let bytes = Form::of_library(&specimen::library()).bytes();
    assert_eq!(bytes.len(), 44);
    assert_eq!(library::judge(&bytes), Ok((4, 4)));
    assert_eq!(tree::judge(&Form::of_tree(&specimen::tree_b()).bytes()), Ok(2));
    let example = Form::of_library(&specimen::example_library()).bytes();
    assert_eq!(library::judge(&example), Ok((8, 8)));
    assert_eq!(tree::judge(&Form::of_tree(&specimen::example_tree(39)).bytes()), Ok(14));
}

#[test]
fn what_is_written_is_read_back() {
    let mut rng = Rng::new(11);
    for _ in 0..3_000 {
        let size = sound::any_size(&mut rng);
        let written = sound::library(&mut rng, size);
        assert_eq!(library::decode(&Form::of_library(&written).bytes()), Ok(written));
        let most = sound::any_node_limit(&mut rng);
        let written = sound::tree(&mut rng, most);
        assert_eq!(tree::decode(&Form::of_tree(&written).bytes()), Ok(written));
    }
}

/// A sound sheet cut after any byte is truncated at the first field not whole.
#[test]
fn a_cut_is_found_at_its_field() {
    let mut rng = Rng::new(12);
    for turn in 0..400 {
        let kind = if turn % 2 == 0 { Kind::Library } else { Kind::Tree };
        let form = any_form(&mut rng, kind);
        let bytes = form.bytes();
        let number = if kind == Kind::Library { 2 } else { 12 };
        let places: Vec<usize> = (0..=form.fields.len()).map(|field| form.place(field)).collect();
        for length in 0..bytes.len() {
            let truncated = (0..form.fields.len()).find(|&field| places[field + 1] > length * 8).unwrap();
            let verdict = Verdict::of(kind, &bytes[..length]);
            assert_eq!(verdict.line(), format!("refused {number} {}", places[truncated]));
        }
    }
}
