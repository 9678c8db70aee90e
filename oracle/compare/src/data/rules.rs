//! The columns that constraints, policies and selections read, and constraints of which none is brought.

use std::fmt::{Debug, Formatter, Result};
use yilgashe_sys::{
    Brought, Constraints, RegionConstraint, RegionPair, RoleRequirement, RoleRequirements,
    TeamSizeConstraint,
};

/// No column where a call takes none; their lengths may differ.
#[derive(Clone, Default)]
pub struct Rows {
    pub ids: Vec<u64>,
    pub ratings: Option<Vec<f64>>,
    pub parties: Option<Vec<u64>>,
    pub roles: Option<Vec<u32>>,
    pub regions: Option<Vec<u8>>,
}

impl Rows {
    /// The length of each column that is taken.
    pub fn lengths(&self) -> Vec<usize> {
        let others = [
            self.ratings.as_ref().map(Vec::len),
            self.parties.as_ref().map(Vec::len),
            self.roles.as_ref().map(Vec::len),
            self.regions.as_ref().map(Vec::len),
        ];
        let taken = others.into_iter().flatten();
        [self.ids.len()].into_iter().chain(taken).collect()
    }

    pub fn ratings(&self) -> &[f64] {
        self.ratings.as_deref().unwrap_or_default()
    }

    pub fn parties(&self) -> &[u64] {
        self.parties.as_deref().unwrap_or_default()
    }

    pub fn roles(&self) -> &[u32] {
        self.roles.as_deref().unwrap_or_default()
    }

    pub fn regions(&self) -> &[u8] {
        self.regions.as_deref().unwrap_or_default()
    }
}

/// A column a line, with its length.
impl Debug for Rows {
    fn fmt(&self, f: &mut Formatter<'_>) -> Result {
        write!(f, "rows\n      {:3} ids: {:?}", self.ids.len(), self.ids)?;
        column(f, "ratings", &self.ratings)?;
        column(f, "parties", &self.parties)?;
        column(f, "roles", &self.roles)?;
        column(f, "regions", &self.regions)
    }
}

fn column<T: Debug>(f: &mut Formatter<'_>, name: &str, column: &Option<Vec<T>>) -> Result {
    match column {
        Some(column) => write!(f, "\n      {:3} {name}: {column:?}", column.len()),
        None => Ok(()),
    }
}

/// Nothing is brought. What is stated all the same is over the limits, since nothing may read it.
pub fn nothing_brought() -> Constraints {
    let nobody = RoleRequirement {
        role: 0,
        least: 1,
        bounded: false,
        most: 0,
    };
    let unknown = RegionPair {
        first: 9,
        second: 9,
    };
    Constraints {
        brought: Brought::default(),
        sizes: TeamSizeConstraint { a: 9, b: 9 },
        roles: RoleRequirements {
            of: [nobody; 8],
            len: 9,
        },
        regions: RegionConstraint {
            pairs: [unknown; 16],
            count: 17,
        },
    }
}
