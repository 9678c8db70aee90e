//! Compares the library with the unchanged Rust, case by drawn case.
//!
//! To add a family: a file in `families/`, and its line in the table there.

pub mod data;
pub mod draw;
pub mod families;
pub mod function;
pub mod lists;
pub mod model;
pub mod options;
pub mod rng;
pub mod same;
pub mod tally;
pub mod translate;
pub mod words;
