//! Who waits: guests drawn from the seed, all rostered, within every limit, no NaN.

use crate::rows::Scene;
use compare::data::{Columns, Roster, Sheets};
use compare::model::SHEET_LEAST;
use compare::rng::Rng;
use compare::translate::{to_entries, to_world};
use matchlab_core::world::World;
use matchlab_matchmaking::queue as matchlab;
use yilgashe_sys::{MatchObjective, Queue, QueueEntry};

/// The time of every call: some twelve days.
pub const CLOCK: u64 = 1_000_000_000_000_000;
/// A guest joins at most every minute.
const MINUTE: usize = 60_000_000_000;
const ROLES: u32 = 4;
/// So much further apart are the ratings of a crowd far apart: most of its teams are then 400 points apart and more.
const TENFOLD: f64 = 10.0;

#[derive(Clone)]
pub struct Crowd {
    pub queue: Queue,
    pub roster: Roster,
}

impl Crowd {
    /// Longest waiting first, in no order of their numbers. Each has a row, with the rating that he waits with, no party, one of four
    /// roles, and the first region.
    pub fn drawn(rng: &mut Rng, scene: &Scene) -> Self {
        let ids = ids(rng, scene);
        let mut roster = Roster::default();
        for (place, id) in ids.into_iter().enumerate() {
            roster.ids.push(id);
            roster.ratings.push(rating(rng));
            roster.deviations.push(real(rng, 40.0, 350.0));
            roster.parties.push(0);
            roster.roles.push(1 + place as u32 % ROLES);
            roster.regions.push(0);
        }
        rng.shuffle(&mut roster.roles);
        let mut crowd = Crowd {
            queue: queue(rng, &roster),
            roster,
        };
        if scene.apart {
            crowd.rate(|rating| TENFOLD * rating);
        }
        crowd
    }

    /// Everybody's rating by this rule, in the queue and on the roster alike.
    pub fn rate(&mut self, rule: fn(f64) -> f64) {
        let waiting = self.queue.entries.iter_mut().map(|entry| &mut entry.rating);
        for rating in waiting.chain(&mut self.roster.ratings) {
            *rating = rule(*rating);
        }
    }

    /// The same joined times, in no order of the places.
    pub fn shuffle_joined(&mut self, rng: &mut Rng) {
        let waiting = self.queue.waiting().iter();
        let mut times: Vec<u64> = waiting.map(|entry| entry.joined).collect();
        rng.shuffle(&mut times);
        for (entry, time) in self.queue.entries.iter_mut().zip(times) {
            entry.joined = time;
        }
    }

    pub fn columns(&self) -> Columns {
        Columns {
            ids: self.roster.ids.clone(),
            ratings: self.roster.ratings.clone(),
            deviations: Some(self.roster.deviations.clone()),
        }
    }

    pub fn world(&self) -> World {
        to_world(&self.roster, CLOCK)
    }

    pub fn entries(&self) -> Vec<matchlab::QueueEntry> {
        to_entries(self.queue.waiting())
    }
}

/// All different.
fn ids(rng: &mut Rng, scene: &Scene) -> Vec<u64> {
    let (mut ids, mut last) = (Vec::new(), 0);
    for _ in 0..scene.entries {
        last += rng.between(1, 1000) as u64;
        ids.push(last);
    }
    if !scene.ascending {
        rng.shuffle(&mut ids);
    }
    ids
}

/// The rows' guests in another order.
fn queue(rng: &mut Rng, roster: &Roster) -> Queue {
    let mut rows: Vec<usize> = (0..roster.ids.len()).collect();
    rng.shuffle(&mut rows);
    let mut joined = CLOCK - (rows.len() * MINUTE) as u64;
    let entry = |row: usize| {
        joined += rng.below(MINUTE) as u64;
        QueueEntry {
            player: roster.ids[row],
            joined,
            rating: roster.ratings[row],
            party: roster.parties[row],
            role: roster.roles[row],
        }
    };
    let entries: Vec<QueueEntry> = rows.into_iter().map(entry).collect();
    Queue::of(&entries)
}

/// Between 600 and 2400, most in the middle.
fn rating(rng: &mut Rng) -> f64 {
    (real(rng, 600.0, 2400.0) + real(rng, 600.0, 2400.0)) / 2.0
}

fn real(rng: &mut Rng, low: f64, high: f64) -> f64 {
    let unit = (rng.next_u64() >> 11) as f64 / (1u64 << 53) as f64;
    low + unit * (high - low)
}

/// Of every part of the score something counts.
pub fn objective() -> MatchObjective {
    MatchObjective {
        quality: 1.0,
        wait: 0.02,
        ping: 0.3,
        uncertainty: 0.5,
    }
}

/// As short as searches take them.
pub fn sheets() -> Sheets {
    Sheets {
        players: vec![0; SHEET_LEAST],
        qualities: vec![0.0; SHEET_LEAST],
    }
}
