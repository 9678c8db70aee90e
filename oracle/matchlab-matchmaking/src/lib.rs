//! matchlab-matchmaking: the published files, unchanged.

include!(concat!(env!("OUT_DIR"), "/modules.rs"));
