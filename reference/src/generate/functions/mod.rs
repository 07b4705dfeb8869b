//! Libraries with their function sheets: right ones, and ones with something wrong.

pub mod alike;
pub mod damage;
pub mod kinds;

use crate::form::Form;
use crate::functions::{self, computed, Function};
use crate::library::Library;
use crate::verdict::Verdict;

/// Two sheets.
#[derive(Clone, PartialEq, Eq, Hash, Debug)]
pub struct Case {
    pub library: Vec<u8>,
    pub functions: Vec<u8>,
}

impl Case {
    pub fn judged(&self) -> Verdict {
        Verdict::of_functions(&self.library, &self.functions)
    }

    /// The bytes of the sheets.
    pub fn length(&self) -> usize {
        self.library.len() + self.functions.len()
    }
}

/// A library and what its function sheet is to state: to be edited.
#[derive(Clone, Debug)]
pub struct Draft {
    pub library: Library,
    /// By cell.
    pub functions: Vec<Function>,
}

impl Draft {
    /// Every cell's function is the one that its first drawing computes.
    pub fn of(library: Library) -> Draft {
        let functions = library.cells.iter().map(|cell| computed(&cell.patterns[0])).collect();
        Draft { library, functions }
    }

    pub fn case(&self) -> Case {
        Case { library: Form::of_library(&self.library).bytes(), functions: self.sheet() }
    }

    /// The function sheet.
    pub fn sheet(&self) -> Vec<u8> {
        functions::sheet(&self.functions)
    }

    /// The first bit of a cell's field, or for the cell count the first bit after the last field.
    pub fn place(&self, cell: usize) -> usize {
        self.functions[..cell].iter().map(Vec::len).sum()
    }

    /// The first bit after the last field.
    pub fn end(&self) -> usize {
        self.place(self.functions.len())
    }

    /// The same with another value of one cell's function at one setting.
    pub fn flipped(&self, cell: usize, setting: usize) -> Draft {
        let mut flipped = self.clone();
        flipped.functions[cell][setting] ^= true;
        flipped
    }
}
