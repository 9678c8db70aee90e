//! When two answers are the same: floats bit for bit, save that all NaNs are equal and both zeros are equal.

use crate::data::{Answer, Sheets};
use yilgashe_sys::{Booking, Hall, MatchObjectiveVector, Note, Queue, QueueEntry};

pub trait Same {
    fn same(&self, other: &Self) -> bool;
}

impl Same for f64 {
    fn same(&self, other: &Self) -> bool {
        let nans = self.is_nan() && other.is_nan();
        let zeros = *self == 0.0 && *other == 0.0;
        nans || zeros || self.to_bits() == other.to_bits()
    }
}

/// All else exactly, ratings that come as bits too.
macro_rules! exactly {
    ($($kind:ty),*) => {
        $(impl Same for $kind {
            fn same(&self, other: &Self) -> bool {
                self == other
            }
        })*
    };
}
exactly!((), bool, u8, u32, u64, usize, Booking, Note);

impl<T: Same> Same for [T] {
    fn same(&self, other: &Self) -> bool {
        self.len() == other.len() && self.iter().zip(other).all(|(a, b)| a.same(b))
    }
}

impl<T: Same> Same for Vec<T> {
    fn same(&self, other: &Self) -> bool {
        self.as_slice().same(other.as_slice())
    }
}

impl<T: Same> Same for Option<T> {
    fn same(&self, other: &Self) -> bool {
        match (self, other) {
            (Some(a), Some(b)) => a.same(b),
            (None, None) => true,
            _ => false,
        }
    }
}

impl<A: Same, B: Same> Same for (A, B) {
    fn same(&self, other: &Self) -> bool {
        self.0.same(&other.0) && self.1.same(&other.1)
    }
}

impl Same for QueueEntry {
    fn same(&self, other: &Self) -> bool {
        self.player == other.player
            && self.joined == other.joined
            && self.rating.same(&other.rating)
            && self.party == other.party
            && self.role == other.role
    }
}

/// Places past `len` are free; a queue of `len` over 64 counts with all its places.
impl Same for Queue {
    fn same(&self, other: &Self) -> bool {
        self.len == other.len && self.waiting().same(other.waiting())
    }
}

/// Whole sheets: what a call leaves untouched counts too.
impl Same for Sheets {
    fn same(&self, other: &Self) -> bool {
        self.players.same(&other.players) && self.qualities.same(&other.qualities)
    }
}

/// All that it holds, in its order. Places past the stated numbers are free; a number over 64 or 1,024 counts with all places.
impl Same for Hall {
    fn same(&self, other: &Self) -> bool {
        (self.waiting, self.noted) == (other.waiting, other.noted)
            && self.booked().same(other.booked())
            && self.answered().eq(other.answered())
            && self.sizes == other.sizes
            && self.served == other.served
    }
}

impl Same for Answer {
    fn same(&self, other: &Self) -> bool {
        (self.refusal, self.count, self.tried) == (other.refusal, other.count, other.tried)
            && self.served == other.served
            && self.sheets.same(&other.sheets)
    }
}

impl Same for MatchObjectiveVector {
    fn same(&self, other: &Self) -> bool {
        self.coordinates().same(&other.coordinates())
    }
}

#[cfg(test)]
mod tests {
    use super::*;
    use crate::data::booking;
    use yilgashe_sys::Games;

    #[test]
    fn floats() {
        let negative_nan = f64::from_bits(0xfff0_0000_0000_0001);
        assert!(f64::NAN.same(&negative_nan));
        assert!(0.0.same(&-0.0));
        assert!(1.0.same(&1.0));
        assert!(!1.0.same(&f64::from_bits(1.0f64.to_bits() + 1)));
        assert!(!0.0.same(&f64::from_bits(1)));
        assert!(!f64::NAN.same(&0.0));
        assert!(!f64::INFINITY.same(&f64::NEG_INFINITY));
    }

    #[test]
    fn lists_and_options() {
        assert!(vec![f64::NAN, 0.0].same(&vec![-f64::NAN, -0.0]));
        assert!(!vec![1u64].same(&vec![1, 2]));
        assert!(!Some(1u64).same(&None));
        assert!(!(1u64, true).same(&(1, false)));
    }

    fn entry(player: u64) -> QueueEntry {
        QueueEntry {
            player,
            joined: 1,
            rating: 2.0,
            party: 3,
            role: 4,
        }
    }

    #[test]
    fn entries_differ_in_each_field() {
        let one = entry(1);
        assert!(one.same(&one));
        assert!(!one.same(&entry(2)));
        assert!(!one.same(&QueueEntry { joined: 9, ..one }));
        assert!(!one.same(&QueueEntry { rating: 9.0, ..one }));
        assert!(!one.same(&QueueEntry { party: 9, ..one }));
        assert!(!one.same(&QueueEntry { role: 9, ..one }));
    }

    #[test]
    fn bookings_differ_in_game_and_entry() {
        let one = booking(&entry(1), 3);
        assert!(one.same(&one));
        assert!(!one.same(&booking(&entry(1), 4)));
        assert!(!one.same(&booking(&entry(2), 3)));
    }

    /// Unlike floats: zeros of both signs differ, and NaNs with other bits.
    #[test]
    fn bookings_differ_in_every_bit_of_the_rating() {
        let rated = |rating: f64| Booking {
            rating_bits: rating.to_bits(),
            ..Booking::default()
        };
        let nan = rated(f64::NAN);
        assert!(nan.same(&nan.clone()));
        assert!(!rated(0.0).same(&rated(-0.0)));
        for bit in 0..64 {
            let other = Booking {
                rating_bits: nan.rating_bits ^ (1 << bit),
                ..nan
            };
            assert!(!nan.same(&other), "{bit}");
        }
    }

    #[test]
    fn queues_count_up_to_len() {
        let queue = Queue::of(&[entry(1), entry(2)]);
        let mut other = queue;
        other.entries[2] = entry(9);
        assert!(queue.same(&other));
        other.entries[1] = entry(9);
        assert!(!queue.same(&other));
        assert!(!queue.same(&Queue::of(&[entry(1)])));
    }

    #[test]
    fn queues_over_limit_count_whole() {
        let mut queue = Queue::of(&[entry(1); 64]);
        queue.len = 65;
        let mut other = queue;
        assert!(queue.same(&other));
        other.entries[63] = entry(9);
        assert!(!queue.same(&other));
        other = queue;
        other.len = 66;
        assert!(!queue.same(&other));
    }

    #[test]
    fn halls_count_up_to_their_numbers() {
        let waiting = [booking(&entry(1), 0)];
        let note = Note::of(&waiting[0], 9);
        let hall = Hall::of(Games::default(), &waiting, &[(1, note), (2, note)]);
        let mut other = hall;
        other.bookings[1] = booking(&entry(9), 0);
        (other.keys[2], other.notes[2].answer) = (9, 0);
        assert!(hall.same(&other));
        let changes: [fn(&mut Hall); 18] = [
            |hall| hall.bookings[0].rating_bits += 1,
            |hall| hall.bookings[0].game = 1,
            |hall| hall.sizes[0].a = 1,
            |hall| hall.sizes[7].b = 1,
            |hall| hall.served = 0,
            |hall| hall.waiting = 0,
            |hall| hall.waiting = 2,
            |hall| hall.keys[1] = 9,
            |hall| hall.notes[1].player = 9,
            |hall| hall.notes[1].joined = 9,
            |hall| hall.notes[1].rating_bits += 1,
            |hall| hall.notes[1].party = 9,
            |hall| hall.notes[1].role = 9,
            |hall| hall.notes[1].game = 9,
            |hall| hall.notes[1].kind = 1,
            |hall| hall.notes[1].answer = 0,
            |hall| hall.noted = 1,
            |hall| hall.noted = 1025,
        ];
        for change in changes {
            let mut other = hall;
            change(&mut other);
            assert!(!hall.same(&other));
        }
    }

    #[test]
    fn halls_over_limit_count_whole() {
        let mut hall = Hall::of(Games::default(), &[], &[]);
        (hall.waiting, hall.noted) = (65, 1025);
        assert!(hall.same(&hall.clone()));
        let changes: [fn(&mut Hall); 4] = [
            |hall| hall.bookings[63].player = 9,
            |hall| hall.waiting = 66,
            |hall| hall.keys[1023] = 9,
            |hall| hall.noted = 1026,
        ];
        for change in changes {
            let mut other = hall;
            change(&mut other);
            assert!(!hall.same(&other));
        }
    }

    #[test]
    fn answers_differ_in_each_part() {
        let answer = Answer {
            refusal: 0,
            count: 1,
            tried: 2,
            served: Some(3),
            sheets: Sheets {
                players: vec![1],
                qualities: vec![f64::NAN],
            },
        };
        assert!(answer.same(&answer.clone()));
        let changes: [fn(&mut Answer); 6] = [
            |answer| answer.refusal = 1,
            |answer| answer.count = 2,
            |answer| answer.tried = 3,
            |answer| answer.served = None,
            |answer| answer.served = Some(4),
            |answer| answer.sheets.players[0] = 9,
        ];
        for change in changes {
            let mut other = answer.clone();
            change(&mut other);
            assert!(!answer.same(&other));
        }
    }

    #[test]
    fn sheets_count_whole() {
        let sheets = Sheets {
            players: vec![1, 2],
            qualities: vec![f64::NAN, 0.0],
        };
        assert!(sheets.same(&sheets.clone()));
        let mut other = sheets.clone();
        other.players[1] = 9;
        assert!(!sheets.same(&other));
        other = sheets.clone();
        other.qualities[1] = 9.0;
        assert!(!sheets.same(&other));
        other = sheets.clone();
        other.players.push(9);
        assert!(!sheets.same(&other));
    }

    #[test]
    fn vectors_differ_in_each_coordinate() {
        let vector = MatchObjectiveVector::of([0.0; 6]);
        assert!(vector.same(&MatchObjectiveVector::of([-0.0; 6])));
        for place in 0..6 {
            let mut coordinates = [0.0; 6];
            coordinates[place] = 1.0;
            assert!(!vector.same(&MatchObjectiveVector::of(coordinates)));
        }
    }
}
