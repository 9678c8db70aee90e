//! What calls bring besides queues.

mod bookings;
mod calls;
mod copies;
mod halls;
mod rules;
mod searches;

pub use bookings::*;
pub use calls::*;
pub use copies::*;
pub use halls::*;
pub use rules::*;
pub use searches::*;

use std::fmt::{Debug, Formatter, Result};

/// The six columns that stand for the Rust's `World`; their lengths may differ.
#[derive(Clone, Default)]
pub struct Roster {
    pub ids: Vec<u64>,
    pub ratings: Vec<f64>,
    pub deviations: Vec<f64>,
    pub parties: Vec<u64>,
    pub roles: Vec<u32>,
    pub regions: Vec<u8>,
}

impl Roster {
    /// The length of each column.
    pub fn lengths(&self) -> [usize; 6] {
        [
            self.ids.len(),
            self.ratings.len(),
            self.deviations.len(),
            self.parties.len(),
            self.roles.len(),
            self.regions.len(),
        ]
    }
}

/// A column a line, with its length.
impl Debug for Roster {
    fn fmt(&self, f: &mut Formatter<'_>) -> Result {
        let columns: [(&str, &dyn Debug); 6] = [
            ("ids", &self.ids),
            ("ratings", &self.ratings),
            ("deviations", &self.deviations),
            ("parties", &self.parties),
            ("roles", &self.roles),
            ("regions", &self.regions),
        ];
        write!(f, "roster")?;
        for ((name, column), length) in columns.iter().zip(self.lengths()) {
            write!(f, "\n      {length:3} {name}: {column:?}")?;
        }
        Ok(())
    }
}

/// The columns that scores read; no deviations where a call takes none.
#[derive(Clone, Default)]
pub struct Columns {
    pub ids: Vec<u64>,
    pub ratings: Vec<f64>,
    pub deviations: Option<Vec<f64>>,
}

impl Columns {
    /// The length of each column that is taken.
    pub fn lengths(&self) -> Vec<usize> {
        let taken = [self.ids.len(), self.ratings.len()];
        let deviations = self.deviations.iter().map(Vec::len);
        taken.into_iter().chain(deviations).collect()
    }
}

/// A column a line, with its length.
impl Debug for Columns {
    fn fmt(&self, f: &mut Formatter<'_>) -> Result {
        write!(f, "columns")?;
        write!(f, "\n      {:3} ids: {:?}", self.ids.len(), self.ids)?;
        let ratings = &self.ratings;
        write!(f, "\n      {:3} ratings: {ratings:?}", ratings.len())?;
        if let Some(deviations) = &self.deviations {
            let length = deviations.len();
            write!(f, "\n      {length:3} deviations: {deviations:?}")?;
        }
        Ok(())
    }
}
