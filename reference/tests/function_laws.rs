//! The judge of functions on random libraries, and on the longest.

use reference::functions::{computed, decode, settings};
use reference::generate::damage::flipped_at;
use reference::generate::functions::alike::alike;
use reference::generate::functions::damage::{any_case, any_draft};
use reference::generate::functions::kinds::name;
use reference::generate::functions::{Case, Draft};
use reference::generate::{longest, sound};
use reference::library::Cell;
use reference::rng::Rng;
use std::path::Path;

#[test]
fn a_right_sheet_is_accepted_and_read_back() {
    let mut rng = Rng::new(61);
    for _ in 0..2_000 {
        let size = sound::any_size(&mut rng);
        let library = sound::library(&mut rng, size);
        let draft = Draft::of(alike(&mut rng, &library));
        let (cells, patterns) = (library.cells.len(), library.pattern_count());
        assert_eq!(draft.case().judged().line(), format!("functions {cells} {patterns}"));
        assert_eq!(decode(&draft.library, &draft.sheet()), Ok(draft.functions.clone()));
        assert_eq!(draft.sheet().len(), draft.end().div_ceil(8));
    }
}

#[test]
fn a_wrong_bit_is_named_at_its_cells_first_drawing() {
    let mut rng = Rng::new(62);
    for _ in 0..400 {
        let library = sound::library(&mut rng, sound::SMALL);
        let draft = Draft::of(alike(&mut rng, &library));
        let mut pattern = 0;
        for (number, cell) in draft.library.cells.iter().enumerate() {
            for setting in 0..settings(cell.pins.len()) {
                let case = draft.flipped(number, setting).case();
                assert_eq!(case.judged().line(), format!("refused 33 {pattern}"));
                assert_eq!(case.functions, flipped_at(&draft.sheet(), draft.place(number) + setting));
            }
            pattern += cell.patterns.len();
        }
    }
}

/// A sheet cut after any byte is torn at the first field not whole, whatever its fields state.
#[test]
fn a_cut_is_found_at_its_field() {
    let mut rng = Rng::new(63);
    for _ in 0..300 {
        let draft = any_draft(&mut rng);
        let Case { library, mut functions } = draft.case();
        if rng.once_in(2) {
            functions.iter_mut().for_each(|byte| *byte = !*byte);
        }
        for length in 0..functions.len() {
            let torn = (0..draft.functions.len()).find(|&cell| draft.place(cell + 1) > length * 8).unwrap();
            let case = Case { library: library.clone(), functions: functions[..length].to_vec() };
            assert_eq!(case.judged().line(), format!("refused 31 {}", draft.place(torn)));
        }
    }
}

/// Every pin stands at one leaf, so that at some setting it alone decides.
#[test]
fn every_pin_tells() {
    let mut rng = Rng::new(65);
    for _ in 0..5_000 {
        let pins = rng.between(1, 6);
        let function = computed(&sound::pattern(&mut rng, pins, 15));
        let tells = |pin: usize| (0..settings(pins)).any(|setting| function[setting] != function[setting ^ 1 << pin]);
        assert!((0..pins).all(tells));
    }
}

/// A file of the stored cases.
fn stored(name: &str) -> Vec<u8> {
    let path = Path::new(env!("CARGO_MANIFEST_DIR")).join("../cases").join(name);
    std::fs::read(path).expect("a stored case")
}

/// The two drawings of a cell of the longest library never agree; in the other they are different and do.
#[test]
fn the_longest_pair_is_stored() {
    let (library, functions) = (stored("longest_functions.library"), stored("longest_functions.functions"));
    assert_eq!((library.len(), functions.len()), (2_302, 512));
    assert_eq!(Case { library, functions }, Draft::of(longest::agreeing_library()).case());
    let agree = |cell: &Cell| computed(&cell.patterns[0]) == computed(&cell.patterns[1]);
    assert!(!longest::library().cells.iter().any(agree));
    for cell in &longest::agreeing_library().cells {
        assert!(agree(cell) && cell.patterns[0] != cell.patterns[1]);
        assert!(cell.pins.len() == 6 && cell.patterns.iter().all(|drawing| drawing.nodes.len() == 16));
    }
}

/// Fresh cases are of every kind, none of them rare.
#[test]
fn fresh_cases_are_of_every_kind() {
    let mut rng = Rng::new(66);
    let names: Vec<String> = (0..20_000).map(|_| name(&any_case(&mut rng))).collect();
    for word in [
        "accepted",
        "refused  2",
        "refused  3",
        "refused  4",
        "refused  5",
        "31 before a field",
        "31 inside a field",
        "32 by a bit",
        "32 by a byte",
        "33 at a first drawing",
        "33 at a later drawing",
    ] {
        let count = names.iter().filter(|name| name.contains(word)).count();
        assert!(count >= 80, "{word}: {count}");
    }
}
