//! matchlab-core: the published files, unchanged, beside stand-ins for what was not published.

include!(concat!(env!("OUT_DIR"), "/modules.rs"));

pub mod match_;
pub mod rng;
pub mod world;
