//! The table of families. A new one: its file, its `mod`, its line in the table.

pub mod candidate;
pub mod choice;
pub mod constraint;
pub mod copies;
pub mod policy;
pub mod quality;
pub mod queue;
pub mod roster;
pub mod score;
pub mod search;
pub mod selection;
pub mod soft;
pub mod time;
pub mod vector;

use crate::function::Listed;

pub const FAMILIES: &[(&str, &[Listed])] = &[
    ("queue", queue::FUNCTIONS),
    ("time", time::FUNCTIONS),
    ("roster", roster::FUNCTIONS),
    ("quality", quality::FUNCTIONS),
    ("score", score::FUNCTIONS),
    ("soft", soft::FUNCTIONS),
    ("vector", vector::FUNCTIONS),
    ("constraint", constraint::FUNCTIONS),
    ("policy", policy::FUNCTIONS),
    ("selection", selection::FUNCTIONS),
    ("search", search::FUNCTIONS),
    ("copies", copies::FUNCTIONS),
    ("candidate", candidate::FUNCTIONS),
    ("choice", choice::FUNCTIONS),
];
