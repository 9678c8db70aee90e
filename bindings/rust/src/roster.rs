//! The lounge's list of guests.

use crate::Refusal;
use crate::refusal::answered;
use yilgashe_sys as sys;

/// Where a guest plays from.
#[derive(Clone, Copy, Debug, Default, PartialEq, Eq)]
#[repr(u8)]
pub enum Region {
    /// North America.
    Na = 0,
    /// Europe.
    Eu = 1,
    /// Asia.
    Asia = 2,
    /// Elsewhere.
    Other = 3,
    /// There is no player record: constraints on regions pass over this guest.
    #[default]
    NoRecord = 4,
}

/// What is known of a guest. Party 0 and role 0 mean none.
#[derive(Clone, Copy, Debug, Default, PartialEq)]
pub struct Row {
    /// The guest.
    pub player: u64,
    /// The observed rating.
    pub rating: f64,
    /// Its deviation.
    pub deviation: f64,
    /// The guest's party.
    pub party: u64,
    /// The guest's role.
    pub role: u32,
    /// The guest's region.
    pub region: Region,
}

/// The rows of at most 128 guests, kept as the columns that the library takes. A longer roster, or one with a guest in two rows, is
/// refused by the calls that it is given to. The order of rows shows nowhere.
///
/// ```
/// use yilgashe::{Refusal, Roster, Row};
///
/// let mut roster: Roster = (1..=3).map(|player| Row { player, rating: 1000.0, ..Row::default() }).collect();
/// assert_eq!(roster.check(), Ok(()));
/// roster.push(Row { player: 3, ..Row::default() });
/// assert_eq!(roster.check(), Err(Refusal::BadRoster));
/// ```
#[derive(Clone, Debug, Default, PartialEq)]
pub struct Roster {
    pub(crate) ids: Vec<u64>,
    pub(crate) ratings: Vec<f64>,
    pub(crate) deviations: Vec<f64>,
    pub(crate) parties: Vec<u64>,
    pub(crate) roles: Vec<u32>,
    pub(crate) regions: Vec<u8>,
}

impl Roster {
    /// Nobody.
    pub fn new() -> Roster {
        Roster::default()
    }

    /// One more row.
    pub fn push(&mut self, row: Row) {
        self.ids.push(row.player);
        self.ratings.push(row.rating);
        self.deviations.push(row.deviation);
        self.parties.push(row.party);
        self.roles.push(row.role);
        self.regions.push(row.region as u8);
    }

    /// How many rows there are.
    pub fn len(&self) -> usize {
        self.ids.len()
    }

    /// Is there no row?
    pub fn is_empty(&self) -> bool {
        self.ids.is_empty()
    }

    /// The column of guests.
    pub fn players(&self) -> &[u64] {
        &self.ids
    }

    /// The column of ratings.
    pub fn ratings(&self) -> &[f64] {
        &self.ratings
    }

    /// What a call that takes every column would refuse of them.
    pub fn check(&self) -> Result<(), Refusal> {
        answered(sys::roster_check(
            &self.ids,
            &self.ratings,
            &self.deviations,
            &self.parties,
            &self.roles,
            &self.regions,
        ))
    }
}

impl Extend<Row> for Roster {
    fn extend<I: IntoIterator<Item = Row>>(&mut self, rows: I) {
        for row in rows {
            self.push(row);
        }
    }
}

impl FromIterator<Row> for Roster {
    fn from_iter<I: IntoIterator<Item = Row>>(rows: I) -> Roster {
        let mut roster = Roster::new();
        roster.extend(rows);
        roster
    }
}
