//! The rows of the benchmark: what they are, and that every method gives the same cover.

use reference::deadline::Variant;
use reference::form::Form;
use reference::generate::functions::{Case, Draft};
use reference::generate::{heavy, longest};
use reference::merging::{extent, Extent};
use reference::operation::{Lent, Operation, LEAST_WORK};

/// Name, the sheets' digests, matches over all nodes, and the most trade-offs of a node under a load.
const ROWS: [(&str, u64, u64, usize, usize); 7] = [
    ("typical", 0xfb71_64ab_f9bb_7a1f, 0x577a_5fc9_a095_2fca, 189, 12),
    ("chain", 0xbe9a_8d6f_a4d2_86e7, 0x3cb3_aa88_ec01_c30c, 6_721, 31),
    ("comb", 0x22ed_991d_752a_bc41, 0xc40c_4a1f_3cc5_d258, 7_189, 31),
    ("deep", 0xbe53_b972_f4ae_79d8, 0x3cb3_aa88_ec01_c30c, 63, 1),
    ("full", 0x87f3_76b7_600d_8490, 0xcea8_477e_ef0f_40c1, 16_190, 31),
    ("crosscomb", 0x87f3_76b7_600d_8490, 0x60b3_c32a_2f51_3341, 3_464, 31),
    ("driven", 0xfb71_64ab_f9bb_7a1f, 0x5785_60ec_5338_57fa, 189, 10),
];

/// The digests of the sheets that the judges are timed on: the longest library, tree, and tree with plain leaves.
const SHEETS: [u64; 3] = [0x8fe4_1739_1a1e_0c88, 0x934a_0a14_e612_9670, 0xdd3c_706a_f906_0633];

/// The digests of the library and the function sheet that the judge of functions is timed on.
const FUNCTIONS: [u64; 2] = [0xfeb7_4068_f72c_5afc, 0xc14b_4281_4ae3_5028];

/// The digests of the parts that are timed, and their links; their libraries are those of `typical` and `deep`.
const PARTS: [(u64, usize); 2] = [(0x7fc5_2eb8_c324_acd9, 30), (0x4562_fd3d_e7b8_04ea, 15)];

/// FNV-1a: sheets that change are noticed, so that times can be compared over the years.
fn digest(sheet: &[u8]) -> u64 {
    sheet.iter().fold(0xcbf2_9ce4_8422_2325, |sum, &byte| (sum ^ byte as u64).wrapping_mul(0x100_0000_01b3))
}

#[test]
fn the_rows_are_what_they_were() {
    assert_eq!(heavy::all().len(), ROWS.len());
    for ((name, problem), row) in heavy::all().into_iter().zip(ROWS) {
        let Extent { matches, most_trade_offs } = extent(&problem.library, &problem.tree).unwrap();
        let (library, tree) = (digest(&problem.library_sheet()), digest(&problem.tree_sheet()));
        assert_eq!((name, library, tree, matches, most_trade_offs), row, "{library:#x}, {tree:#x}");
    }
}

#[test]
fn the_longest_sheets_are_what_they_were() {
    let library = Form::of_library(&longest::library());
    let sheets = [library, Form::of_tree(&longest::tree()), Form::of_tree(&longest::plain_tree())];
    let digests = sheets.map(|form| digest(&form.bytes()));
    assert_eq!(digests, SHEETS, "{digests:#x?}");
}

#[test]
fn the_longest_functions_are_what_they_were() {
    let Case { library, functions } = Draft::of(longest::agreeing_library()).case();
    let digests = [library, functions].map(|sheet| digest(&sheet));
    assert_eq!(digests, FUNCTIONS, "{digests:#x?}");
}

/// Only the leaves' drives part it from `typical`.
#[test]
fn the_driven_row_is_the_typical_one_with_drivers() {
    let (typical, driven) = (heavy::typical(), heavy::driven());
    assert_eq!(driven.library, typical.library);
    assert_eq!(driven.tree.with_drive(None), typical.tree);
    assert!(driven.tree.shape.leaves().all(|leaf| leaf.drive.is_some()));
}

#[test]
fn all_methods_give_the_same_cover() {
    let mut output = [0; 179];
    let mut work = vec![0; LEAST_WORK];
    for (name, problem) in heavy::all() {
        let (library, tree) = (problem.library_sheet(), problem.tree_sheet());
        let expected = Operation::Map.run(Lent::ENOUGH, &library, &tree).expect("a cover");
        for variant in Variant::ALL {
            let length = variant.run(Operation::Map, &library, &tree, &mut output, &mut work).expect("a cover");
            assert_eq!(output[..length], expected, "{name}, {}", variant.name());
        }
    }
}

#[test]
fn the_parts_are_what_they_were() {
    let (typical, deepest) = (heavy::typical_part(), heavy::deepest_part());
    for (draft, expected) in [&typical, &deepest].into_iter().zip(PARTS) {
        let digest = digest(&draft.case().part);
        assert_eq!((digest, draft.part.links.len()), expected, "{digest:#x}");
    }
    assert_eq!(typical.library, heavy::typical().library);
    assert!(typical.part.trees.iter().all(|tree| tree.shape.nodes.len() == 48));
    assert_eq!(deepest.library, heavy::deepest().library);
    assert!(deepest.part.trees.iter().all(|tree| tree.shape.nodes.len() == 64));
}

#[test]
fn all_methods_give_the_same_covers_of_the_parts() {
    for case in [heavy::typical_part().case(), heavy::deepest_part().case()] {
        let expected = case.answer().expect("covers");
        let (mut output, mut work) = (vec![0; case.lent.output], vec![0; case.lent.work]);
        for variant in Variant::ALL {
            let length = variant.run_part(&case.library, &case.part, &mut output, &mut work).expect("covers");
            assert_eq!(output[..length], expected, "{}", variant.name());
        }
    }
}
