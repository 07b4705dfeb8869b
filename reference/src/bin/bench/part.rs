//! Map of a part of 16 trees, beside as many maps of its trees.

use crate::clock::{medians, print_times, Contestant};
use reference::deadline::Variant;
use reference::generate::heavy;
use reference::generate::linked::{sheets_alone, Case, Draft};
use reference::operation::{Operation, LEAST_WORK};
use reference::part::{self, LEAST_OUTPUT};
#[cfg(feature = "before")]
use reference::product::BEFORE;
use reference::product::{Product, PRODUCT};
use std::hint::black_box;

/// The rows, and what their trees are.
const ROWS: [(&str, &str); 2] = [("part", "of the typical kind"), ("deep_part", "of 63 inverters")];

/// Who maps: the product the part, the product each tree by itself, with the arrivals put in; merging, and the
/// product's own method in plain Rust, the part; and an earlier product, if it is linked, the part.
const WHO: &[&str] = &[
    "product",
    "maps",
    "merging",
    "plain_kept",
    #[cfg(feature = "before")]
    "before",
];

/// How often each maps in a round.
const CALLS: usize = 12;

/// The sheets of the part, its trees by themselves, and the cover sheets of each.
struct Row {
    case: Case,
    trees: Vec<Vec<u8>>,
    covers: Vec<Vec<u8>>,
    expected: Vec<u8>,
    links: usize,
}

pub fn run() {
    for (name, kind) in ROWS {
        let row = Row::named(name).expect("a row");
        println!("map, {name} ({} trees {kind}, {} links):", row.trees.len(), row.links);
        let contestants = WHO.iter().map(|who| row.contestant(who)).collect();
        print_times(WHO, &medians(CALLS, contestants));
    }
}

/// Some maps of a row by one of them, if the arguments ask for it.
pub fn repeat(arguments: &[String]) -> bool {
    let [word, count, who, name] = arguments else { return false };
    let ("repeat", Ok(count), Some(row)) = (word.as_str(), count.parse(), Row::named(name)) else { return false };
    let mut contestant = row.contestant(who);
    (0..count).for_each(|_: u32| contestant());
    true
}

impl Row {
    fn named(name: &str) -> Option<Row> {
        match name {
            "part" => Some(Row::new(heavy::typical_part())),
            "deep_part" => Some(Row::new(heavy::deepest_part())),
            _ => None,
        }
    }

    fn new(draft: Draft) -> Row {
        let covers = part::map(&draft.library, &draft.part).expect("covers");
        let trees = sheets_alone(&draft.part, &covers);
        let covers: Vec<Vec<u8>> = covers.iter().map(|cover| cover.sheet()).collect();
        let expected = covers.concat();
        Row { case: draft.case(), trees, covers, expected, links: draft.part.links.len() }
    }

    fn contestant(&self, who: &str) -> Contestant<'_> {
        match (who, Variant::named(who)) {
            (_, Some(variant)) => self.plain(variant),
            ("product", _) => self.product(&PRODUCT),
            #[cfg(feature = "before")]
            ("before", _) => self.product(&BEFORE),
            ("maps", _) => self.maps(),
            ("merging", _) => self.merging(),
            _ => panic!("one of {WHO:?}"),
        }
    }

    fn product<'a>(&'a self, product: &'a Product) -> Contestant<'a> {
        let Case { library, part, .. } = &self.case;
        let (mut output, mut work) = lent();
        Box::new(move || {
            let length = product.map_part(black_box(library), part, &mut output, &mut work);
            assert_eq!(length, self.expected.len() as u64);
            assert_eq!(output[..self.expected.len()], self.expected);
        })
    }

    fn maps(&self) -> Contestant<'_> {
        let library = &self.case.library;
        let (mut output, mut work) = lent();
        Box::new(move || {
            for (tree, cover) in self.trees.iter().zip(&self.covers) {
                let length = PRODUCT.run(Operation::Map, black_box(library), tree, &mut output, &mut work);
                assert_eq!(length, cover.len() as u64);
                assert_eq!(output[..cover.len()], *cover);
            }
        })
    }

    fn merging(&self) -> Contestant<'_> {
        Box::new(move || assert_eq!(black_box(&self.case).answer().as_ref(), Ok(&self.expected)))
    }

    fn plain(&self, variant: Variant) -> Contestant<'_> {
        let Case { library, part, .. } = &self.case;
        let (mut output, mut work) = lent();
        Box::new(move || {
            let length = variant.run_part(black_box(library), part, &mut output, &mut work);
            assert_eq!(length, Ok(self.expected.len()));
            assert_eq!(output[..self.expected.len()], self.expected);
        })
    }
}

/// Output and work area of the least lengths.
fn lent() -> (Vec<u8>, Vec<u64>) {
    (vec![0; LEAST_OUTPUT], vec![0; LEAST_WORK])
}
