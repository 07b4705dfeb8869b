//! Map by the product, by its own method in plain Rust, and by merging curves.

use crate::clock::{medians, print_times, Contestant};
use reference::deadline::Variant;
use reference::generate::heavy;
use reference::generate::problem::Problem;
use reference::merging::{self, Extent};
use reference::operation::{Lent, Operation, LEAST_WORK};
#[cfg(feature = "before")]
use reference::product::BEFORE;
use reference::product::PRODUCT;
use std::hint::black_box;

/// The problem of one row, its sheets, and the sheet that map hands over.
struct Row {
    problem: Problem,
    library: Vec<u8>,
    tree: Vec<u8>,
    expected: Vec<u8>,
}

pub fn run() {
    for (name, problem) in heavy::all() {
        let row = Row::of(problem);
        let who = row.who();
        let calls = if ["typical", "driven"].contains(&name) { 200 } else { 2 };
        let contestants = who.iter().map(|who| row.contestant(who)).collect();
        println!("map, {name} ({}):", row.size());
        print_times(&who, &medians(calls, contestants));
    }
}

/// Some maps of a row by one of them, if the arguments ask for it.
pub fn repeat(arguments: &[String]) -> bool {
    let [word, count, who, name] = arguments else { return false };
    let named = heavy::all().into_iter().find(|(row, _)| row == name);
    let (Some((_, problem)), Ok(count), "repeat") = (named, count.parse(), word.as_str()) else { return false };
    let row = Row::of(problem);
    let mut contestant = row.contestant(who);
    (0..count).for_each(|_: u32| contestant());
    true
}

impl Row {
    fn of(problem: Problem) -> Row {
        let (library, tree) = (problem.library_sheet(), problem.tree_sheet());
        let expected = Operation::Map.run(Lent::ENOUGH, &library, &tree).expect("a cover");
        Row { problem, library, tree, expected }
    }

    fn size(&self) -> String {
        let Problem { library, tree } = &self.problem;
        let Extent { matches, most_trade_offs } = merging::extent(library, tree).expect("no node is overfull");
        let (cells, patterns, nodes) = (library.cells.len(), library.pattern_count(), tree.shape.nodes.len());
        format!(
            "{cells} cells, {patterns} patterns, {nodes} nodes, {matches} matches, up to {most_trade_offs} trade-offs"
        )
    }

    /// Who maps: the product first, and an earlier one last, if it is linked and takes the row's sheets.
    fn who(&self) -> Vec<&'static str> {
        let mut who = vec!["product", "plain", "plain_kept", "merging"];
        if self.is_mapped_before() {
            who.push("before");
        }
        who
    }

    /// An earlier product may refuse a tree with driven leaves.
    #[cfg(feature = "before")]
    fn is_mapped_before(&self) -> bool {
        let (mut output, mut work) = lent();
        BEFORE.run(Operation::Map, &self.library, &self.tree, &mut output, &mut work) >> 32 == 0
    }

    #[cfg(not(feature = "before"))]
    fn is_mapped_before(&self) -> bool {
        false
    }

    fn contestant(&self, who: &str) -> Contestant<'_> {
        match (who, Variant::named(who)) {
            (_, Some(variant)) => self.plain(variant),
            ("product", _) => self.product(),
            ("merging", _) => self.merging(),
            #[cfg(feature = "before")]
            ("before", _) => self.before(),
            _ => panic!("one of {:?}", self.who()),
        }
    }

    fn product(&self) -> Contestant<'_> {
        let (mut output, mut work) = lent();
        Box::new(move || {
            let length = PRODUCT.run(Operation::Map, black_box(&self.library), &self.tree, &mut output, &mut work);
            assert_eq!(length, self.expected.len() as u64);
            assert_eq!(output[..self.expected.len()], self.expected);
        })
    }

    fn plain(&self, variant: Variant) -> Contestant<'_> {
        let (mut output, mut work) = lent();
        Box::new(move || {
            let length = variant.run(Operation::Map, black_box(&self.library), &self.tree, &mut output, &mut work);
            assert_eq!(length, Ok(self.expected.len()));
            assert_eq!(output[..self.expected.len()], self.expected);
        })
    }

    fn merging(&self) -> Contestant<'_> {
        Box::new(move || {
            let sheet = Operation::Map.run(Lent::ENOUGH, black_box(&self.library), &self.tree);
            assert_eq!(sheet.as_ref(), Ok(&self.expected));
        })
    }

    /// An earlier product's cover sheet may have no crossings: of it only area and arrival are compared, with those of
    /// the best cover and of the best as drawn.
    #[cfg(feature = "before")]
    fn before(&self) -> Contestant<'_> {
        use reference::cover::Cover;
        let (mut output, mut work) = lent();
        let Problem { library, tree } = &self.problem;
        let mut as_drawn = reference::matching::redrawings(library);
        as_drawn.retain(|redrawing| redrawing.crossing == 0);
        let covers = [merging::map(library, tree), merging::map_among(&as_drawn, library, tree)];
        let sheets = covers.map(|cover| Cover { matches: vec![], ..cover.expect("a cover") }.sheet());
        Box::new(move || {
            let length = BEFORE.run(Operation::Map, black_box(&self.library), &self.tree, &mut output, &mut work);
            assert!(length >> 32 == 0 && sheets.iter().any(|sheet| same_figures(sheet, &output)));
        })
    }
}

/// Output and work area of the least lengths.
fn lent() -> ([u8; 149], Vec<u64>) {
    ([0; 149], vec![0; LEAST_WORK])
}

/// Whether two cover sheets agree in their first 46 bits.
#[cfg(feature = "before")]
fn same_figures(one: &[u8], other: &[u8]) -> bool {
    one[..5] == other[..5] && one[5] >> 2 == other[5] >> 2
}
