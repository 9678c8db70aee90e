//! How queues, halls, matches and lists of objectives print: an entry, booking, key, team or list a line, the bits of a rating beside it.

use crate::{Booking, Hall, Note, ProposedMatch, Queue, QueueEntry, SoftObjectives, Team};
use std::fmt::{Debug, Formatter, Result};

impl Debug for QueueEntry {
    fn fmt(&self, f: &mut Formatter<'_>) -> Result {
        write!(
            f,
            "player {} joined {} rating {:?} ({:016x}) party {} role {}",
            self.player,
            self.joined,
            self.rating,
            self.rating.to_bits(),
            self.party,
            self.role
        )
    }
}

impl Debug for Booking {
    fn fmt(&self, f: &mut Formatter<'_>) -> Result {
        write!(f, "{:?} game {}", self.entry(), self.game)
    }
}

impl Debug for Note {
    fn fmt(&self, f: &mut Formatter<'_>) -> Result {
        let (kind, answer) = (self.kind, self.answer);
        write!(f, "kind {kind} {:?} answer {answer}", self.booking())
    }
}

impl Debug for Queue {
    fn fmt(&self, f: &mut Formatter<'_>) -> Result {
        write!(f, "queue of len {}", self.len)?;
        for (place, entry) in self.waiting().iter().enumerate() {
            write!(f, "\n      {place:2}: {entry:?}")?;
        }
        Ok(())
    }
}

impl Debug for Hall {
    fn fmt(&self, f: &mut Formatter<'_>) -> Result {
        let sizes = self.sizes.map(|game| (game.a, game.b));
        write!(f, "hall of games {sizes:?}, served {}", self.served)?;
        write!(f, "\n      {} waiting", self.waiting)?;
        for (place, booking) in self.booked().iter().enumerate() {
            write!(f, "\n      {place:2}: {booking:?}")?;
        }
        write!(f, "\n      {} noted", self.noted)?;
        for (key, note) in self.answered() {
            write!(f, "\n      key {key}: {note:?}")?;
        }
        Ok(())
    }
}

impl Debug for Team {
    fn fmt(&self, f: &mut Formatter<'_>) -> Result {
        write!(f, "team of len {}: {:?}", self.len, self.seated())
    }
}

impl Debug for ProposedMatch {
    fn fmt(&self, f: &mut Formatter<'_>) -> Result {
        write!(f, "match\n      A, {:?}\n      B, {:?}", self.a, self.b)
    }
}

impl Debug for SoftObjectives {
    fn fmt(&self, f: &mut Formatter<'_>) -> Result {
        let listed: Vec<(u8, f64)> = self.listed().collect();
        write!(f, "objectives of len {}: {listed:?}", self.len)
    }
}
