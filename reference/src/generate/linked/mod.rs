//! Parts made of several trees: sound ones, and ones with something wrong.

pub mod chosen;
pub mod damage;
pub mod draw;
pub mod kinds;

use crate::cover::Cover;
use crate::form::{Form, Role};
use crate::library::Library;
use crate::operation::Lent;
use crate::part::{self, Fault, Link, Part};
use crate::tree::Tree;

/// What is lent, and two sheets.
#[derive(Clone, PartialEq, Eq, Hash, Debug)]
pub struct Case {
    pub lent: Lent,
    pub library: Vec<u8>,
    pub part: Vec<u8>,
}

impl Case {
    pub fn answer(&self) -> Result<Vec<u8>, Fault> {
        part::run(self.lent, &self.library, &self.part)
    }

    /// The bytes of the sheets.
    pub fn length(&self) -> usize {
        self.library.len() + self.part.len()
    }
}

/// A link as it is written by hand: reading tree, leaf and driving tree.
pub type Triple = (usize, usize, usize);

/// A library and a part: to be edited.
#[derive(Clone, Debug)]
pub struct Draft {
    pub library: Library,
    pub part: Part,
}

impl Draft {
    pub fn new(library: Library, trees: Vec<Tree>, links: &[Triple]) -> Draft {
        let links = links.iter().map(|&(reading, leaf, driving)| Link::new(reading, leaf, driving)).collect();
        Draft { library, part: Part { trees, links } }
    }

    /// The fields of the counts and links.
    pub fn head(&self) -> Form {
        Form::of_links(self.part.trees.len(), &self.part.links)
    }

    pub fn tree_sheets(&self) -> Vec<Vec<u8>> {
        self.part.trees.iter().map(|tree| Form::of_tree(tree).bytes()).collect()
    }

    pub fn case(&self) -> Case {
        self.with_head(&self.head())
    }

    /// The same with other counts and links.
    pub fn with_head(&self, head: &Form) -> Case {
        self.with_bytes(&head.bytes(), &self.tree_sheets())
    }

    /// The same with another sheet in the place of one tree's.
    pub fn with_tree(&self, tree: usize, sheet: Vec<u8>) -> Case {
        let mut sheets = self.tree_sheets();
        sheets[tree] = sheet;
        self.with_bytes(&self.head().bytes(), &sheets)
    }

    /// The same library with any counts, links and trees.
    pub fn with_bytes(&self, head: &[u8], trees: &[Vec<u8>]) -> Case {
        let library = Form::of_library(&self.library).bytes();
        Case { lent: part::ENOUGH, library, part: [head, &trees.concat()].concat() }
    }
}

/// The trees of a part as sheets of their own, with these covers' arrivals in the arrival fields of linked leaves: map
/// answers each as the part's.
pub fn sheets_alone(part: &Part, covers: &[Cover]) -> Vec<Vec<u8>> {
    let mut forms: Vec<Form> = part.trees.iter().map(Form::of_tree).collect();
    for link in &part.links {
        let form = &mut forms[link.reading];
        let arrival = form.find(Role::Code)[link.leaf] + 1;
        form.fields[arrival].value = covers[link.driving].arrival;
    }
    forms.iter().map(Form::bytes).collect()
}
