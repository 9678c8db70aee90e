//! Stand-in for matchlab-lua: matchmaker.rs names these types in a trait that nothing here implements.

/// What a script would ask for.
#[derive(Debug, Clone, Default)]
pub struct DataRequirements {}

pub mod convert {
    /// A match that was played.
    #[derive(Debug, Clone)]
    pub struct CompletedMatch;
}
