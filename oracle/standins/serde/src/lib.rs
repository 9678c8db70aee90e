//! Stand-in for serde: matchlab names just these two derives here.

pub use serde_derive::{Deserialize, Serialize};
