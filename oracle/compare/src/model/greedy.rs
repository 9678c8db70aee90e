//! Greedy search, for input within the limits.

use super::{Teams, average, lay, rated, takes_a};
use crate::data::{Columns, Sheets};
use std::cmp::Ordering;
use yilgashe_sys::{QueueEntry, TeamComposition};

/// What a greedy search reads.
pub struct Greedy<'a> {
    pub waiting: &'a [QueueEntry],
    pub sizes: TeamComposition,
    pub columns: &'a Columns,
}

/// An entry that may be picked. Its distance is finite: neither a NaN nor an infinite one is ever picked.
pub struct Free {
    pub distance: f64,
    pub joined: u64,
    pub place: usize,
    player: u64,
}

/// Which of two is picked before the other.
pub type Rule = fn(&Free, &Free) -> Ordering;

/// Request 2.2: the smaller distance, then the earlier joined time, then the earlier place.
pub fn longer_wait(one: &Free, other: &Free) -> Ordering {
    let distances = one.distance.total_cmp(&other.distance);
    let times = one.joined.cmp(&other.joined);
    distances.then(times).then(one.place.cmp(&other.place))
}

/// The Rust's, and the library's before 2.2: the smaller distance, then the earlier place.
pub fn earlier_place(one: &Free, other: &Free) -> Ordering {
    let distances = one.distance.total_cmp(&other.distance);
    distances.then(one.place.cmp(&other.place))
}

/// Do joined times never fall? Then the earlier place has no shorter wait, and both rules pick the same.
pub fn never_falls(waiting: &[QueueEntry]) -> bool {
    waiting.is_sorted_by_key(|entry| entry.joined)
}

impl Greedy<'_> {
    pub fn matches(&self, rule: Rule) -> Vec<Teams> {
        if self.sizes.a == 0 {
            return Vec::new();
        }
        let mut used: Vec<u64> = Vec::new();
        let mut formed = Vec::new();
        for anchor in self.waiting {
            if !used.contains(&anchor.player) {
                used.push(anchor.player);
                formed.extend(self.fill(anchor, &mut used, rule));
            }
        }
        formed
    }

    /// How many matches, and the sheets with them.
    pub fn laid_on(&self, sheets: &Sheets, rule: Rule) -> (usize, Sheets) {
        let matches = rated(self.matches(rule), self.columns);
        let mut laid = sheets.clone();
        lay(&matches, &mut laid);
        (matches.len(), laid)
    }

    /// Seat by seat to both teams, or to none where nobody can be picked; those picked stay used.
    fn fill(&self, anchor: &QueueEntry, used: &mut Vec<u64>, rule: Rule) -> Option<Teams> {
        let (mut a, mut b) = (vec![anchor.player], Vec::new());
        let mut reference = anchor.rating;
        while a.len() < self.sizes.a || b.len() < self.sizes.b {
            let picked = self.free(reference, used).min_by(rule)?.player;
            used.push(picked);
            if takes_a(&self.sizes, a.len(), b.len()) {
                a.push(picked);
                reference = average(&a, &self.columns.ids, &self.columns.ratings);
            } else {
                b.push(picked);
            }
        }
        Some((a, b))
    }

    /// The entries of unused guests at a finite distance.
    fn free(&self, reference: f64, used: &[u64]) -> impl Iterator<Item = Free> {
        let places = self.waiting.iter().enumerate();
        let unused = places.filter(|(_, entry)| !used.contains(&entry.player));
        let free = unused.map(move |(place, entry)| Free {
            distance: (entry.rating - reference).abs(),
            joined: entry.joined,
            place,
            player: entry.player,
        });
        free.filter(|free| free.distance.is_finite())
    }
}
