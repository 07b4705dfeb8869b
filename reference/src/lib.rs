//! A second implementation of the mapper, written from the documents and by another
//! method than the product: it makes stored cases and checks fresh ones.

pub mod bill;
pub mod bits;
pub mod brute;
pub mod cover;
pub mod crossing;
pub mod curve;
pub mod deadline;
pub mod form;
pub mod functions;
pub mod generate;
pub mod hex;
pub mod judging;
pub mod library;
pub mod matching;
pub mod merging;
pub mod operation;
pub mod part;
#[cfg(feature = "product")]
pub mod product;
pub mod refusal;
pub mod rng;
pub mod shape;
pub mod sheet;
pub mod text;
pub mod tree;
pub mod verdict;
pub mod wordwise;
