//! The words of stored answers: numbers in hex, one space between.

mod rules;
mod searches;

use crate::data::Columns;
use crate::model::{QUEUE_LIMIT, ROSTER_LIMIT, TEAM_LIMIT};
use yilgashe_sys::{MatchObjective, MatchObjectiveVector, ProposedMatch, Queue, QueueEntry, Team};

/// A line holds at most this many.
pub const LINE_LIMIT: usize = 1000;

#[derive(Default)]
pub struct Words(Vec<u64>);

impl Words {
    pub fn number(&mut self, number: u64) {
        self.0.push(number);
    }

    pub fn flag(&mut self, flag: bool) {
        self.number(u64::from(flag));
    }

    /// A float as its bits.
    pub fn float(&mut self, float: f64) {
        self.number(float.to_bits());
    }

    /// A computed float: its bits, but one pattern for every NaN, whose bits are left to the compiler.
    pub fn value(&mut self, value: f64) {
        let nan = f64::from_bits(0x7ff8_0000_0000_0000);
        self.float(if value.is_nan() { nan } else { value });
    }

    /// How many, then each.
    pub fn list(&mut self, list: impl ExactSizeIterator<Item = u64>) {
        self.number(list.len() as u64);
        self.0.extend(list);
    }

    pub fn entry(&mut self, entry: &QueueEntry) {
        self.number(entry.player);
        self.number(entry.joined);
        self.float(entry.rating);
        self.number(entry.party);
        self.number(u64::from(entry.role));
    }

    /// How many, then each; a queue over limit is its `len` alone.
    pub fn queue(&mut self, queue: &Queue) {
        self.number(queue.len as u64);
        if queue.len <= QUEUE_LIMIT {
            queue.waiting().iter().for_each(|entry| self.entry(entry));
        }
    }

    /// A queue after a call: left out where the call brought one over limit.
    pub fn queue_after(&mut self, brought: &Queue, after: &Queue) {
        if brought.len <= QUEUE_LIMIT {
            self.queue(after);
        }
    }

    /// How many, then each; a team over limit is its `len` alone.
    pub fn team(&mut self, team: &Team) {
        self.number(team.len as u64);
        if team.len <= TEAM_LIMIT {
            self.0.extend(team.seated());
        }
    }

    pub fn proposed(&mut self, proposed: &ProposedMatch) {
        self.team(&proposed.a);
        self.team(&proposed.b);
    }

    /// How many, then each; a column over limit is its length alone.
    fn column(&mut self, column: impl ExactSizeIterator<Item = u64>) {
        if column.len() <= ROSTER_LIMIT {
            self.list(column);
        } else {
            self.number(column.len() as u64);
        }
    }

    pub fn columns(&mut self, columns: &Columns) {
        self.column(columns.ids.iter().copied());
        for floats in [&columns.ratings].into_iter().chain(&columns.deviations) {
            self.column(floats.iter().map(|float| float.to_bits()));
        }
    }

    pub fn objective(&mut self, weights: &MatchObjective) {
        self.float(weights.quality);
        self.float(weights.wait);
        self.float(weights.ping);
        self.float(weights.uncertainty);
    }

    pub fn vector(&mut self, vector: &MatchObjectiveVector) {
        let coordinates = vector.coordinates();
        coordinates.iter().for_each(|&float| self.float(float));
    }

    pub fn line(&self) -> String {
        assert!(self.0.len() <= LINE_LIMIT, "a line of too many words");
        let words: Vec<String> = self.0.iter().map(|word| format!("{word:x}")).collect();
        words.join(" ")
    }
}
