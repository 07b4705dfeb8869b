//! The product's C interface, and that of an earlier product.

use crate::generate::damage::Kind;
use crate::operation::Operation;

type JudgeSheet = unsafe extern "C" fn(*const u8, usize) -> u64;
type JudgeCover = unsafe extern "C" fn(*const u8, usize, *const u8, usize, *const u8, usize) -> u64;
type JudgeFunctions = unsafe extern "C" fn(*const u8, usize, *const u8, usize) -> u64;
type Map = unsafe extern "C" fn(*const u8, usize, *const u8, usize, *mut u8, usize, *mut u64, usize) -> u64;

/// The functions of one static library.
pub struct Product {
    judge_library: JudgeSheet,
    judge_tree: JudgeSheet,
    judge_cover: JudgeCover,
    judge_functions: JudgeFunctions,
    map: Map,
    list: Map,
    map_part: Map,
}

/// Declares the functions of a static library by the opening of their names.
macro_rules! product {
    ($opening:literal) => {{
        extern "C" {
            #[link_name = concat!($opening, "_judge_library")]
            fn judge_library(library: *const u8, library_len: usize) -> u64;
            #[link_name = concat!($opening, "_judge_tree")]
            fn judge_tree(tree: *const u8, tree_len: usize) -> u64;
            #[link_name = concat!($opening, "_judge_cover")]
            fn judge_cover(
                library: *const u8,
                library_len: usize,
                tree: *const u8,
                tree_len: usize,
                cover: *const u8,
                cover_len: usize,
            ) -> u64;
            #[link_name = concat!($opening, "_judge_functions")]
            fn judge_functions(
                library: *const u8,
                library_len: usize,
                functions: *const u8,
                functions_len: usize,
            ) -> u64;
        }
        Product {
            judge_library,
            judge_tree,
            judge_cover,
            judge_functions,
            map: mapper!(concat!($opening, "_map")),
            list: mapper!(concat!($opening, "_list")),
            map_part: mapper!(concat!($opening, "_map_part")),
        }
    }};
}

/// Declares a function that maps. In place of a tree, one takes a part.
macro_rules! mapper {
    ($name:expr) => {{
        extern "C" {
            #[link_name = $name]
            fn map(
                library: *const u8,
                library_len: usize,
                tree: *const u8,
                tree_len: usize,
                output: *mut u8,
                output_len: usize,
                work: *mut u64,
                work_len: usize,
            ) -> u64;
        }
        map
    }};
}

pub static PRODUCT: Product = product!("treecover");
#[cfg(feature = "before")]
pub static BEFORE: Product = product!("before");

impl Product {
    /// The verdict on a sheet, in the form of `Verdict::coded`.
    pub fn judge(&self, kind: Kind, sheet: &[u8]) -> u64 {
        let judge = match kind {
            Kind::Library => self.judge_library,
            Kind::Tree => self.judge_tree,
        };
        // It only reads, and only within the slice.
        unsafe { judge(sheet.as_ptr(), sheet.len()) }
    }

    /// The verdict on a cover, in the same form.
    pub fn judge_cover(&self, library: &[u8], tree: &[u8], cover: &[u8]) -> u64 {
        let judge = self.judge_cover;
        // It only reads, and only within the slices.
        unsafe { judge(library.as_ptr(), library.len(), tree.as_ptr(), tree.len(), cover.as_ptr(), cover.len()) }
    }

    /// The verdict on a library and its function sheet, in the same form.
    pub fn judge_functions(&self, library: &[u8], functions: &[u8]) -> u64 {
        let judge = self.judge_functions;
        // It only reads, and only within the slices.
        unsafe { judge(library.as_ptr(), library.len(), functions.as_ptr(), functions.len()) }
    }

    /// The answer of map or list: a refusal, number × 2^32 + place, or the bytes written.
    pub fn run(&self, operation: Operation, library: &[u8], tree: &[u8], output: &mut [u8], work: &mut [u64]) -> u64 {
        let map = match operation {
            Operation::Map => self.map,
            Operation::List => self.list,
        };
        call(map, library, tree, output, work)
    }

    /// The answer on a part: a refusal, tree × 2^40 + number × 2^32 + place, or the bytes written.
    pub fn map_part(&self, library: &[u8], part: &[u8], output: &mut [u8], work: &mut [u64]) -> u64 {
        call(self.map_part, library, part, output, work)
    }
}

fn call(map: Map, library: &[u8], tree: &[u8], output: &mut [u8], work: &mut [u64]) -> u64 {
    // It reads within the first two slices and writes within the others.
    unsafe {
        map(
            library.as_ptr(),
            library.len(),
            tree.as_ptr(),
            tree.len(),
            output.as_mut_ptr(),
            output.len(),
            work.as_mut_ptr(),
            work.len(),
        )
    }
}
