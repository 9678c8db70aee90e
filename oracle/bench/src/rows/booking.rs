//! A booking whose key is not among many noted ones. The Rust has no hall, so the model of the comparison stands in its place.

use crate::call::{Call, Row};
use compare::model::hall;
use compare::rng::Rng;
use std::cell::RefCell;
use yilgashe_sys::{self as library, Booking, Games, Hall, Keyed, TeamComposition};

pub const CASES: usize = 16;
/// One more fits.
pub const NOTED: u64 = 1023;
/// Of the noted bookings so many are accepted, and the rest come late.
pub const WAITING: u64 = 32;
/// Of game 0, which everybody books.
const TABLE: TeamComposition = TeamComposition { a: 2, b: 2 };

pub fn row(seed: u64) -> Row {
    let cases =
        (0..CASES as u64).map(|case| Booked::drawn(&mut Rng::for_case(seed, "booking", case)));
    Row::of(
        format!("booking, {NOTED} keys noted (beside the model)"),
        cases.collect(),
    )
}

/// The key before all that are noted.
pub fn first_key(rng: &mut Rng) -> u64 {
    rng.below(1 << 20) as u64
}

pub fn games() -> Games {
    Games::of([TABLE])
}

/// The booking of guest `number`, who comes in time if he is among the first `waiting`.
pub fn booking(number: u64, waiting: u64) -> Booking {
    Booking {
        player: number,
        joined: if number < waiting { number } else { u64::MAX },
        rating_bits: (1000.0 + number as f64).to_bits(),
        ..Booking::default()
    }
}

/// Under the keys from `first` up all bookings are noted, and so many wait.
pub fn noted_hall(first: u64, waiting: u64) -> Hall {
    let booked = |hall, number| {
        let booking = booking(number, waiting);
        library::hall_book(hall, first + number, booking).hall
    };
    (0..NOTED).fold(library::hall_empty(games()), booked)
}

struct Booked {
    key: u64,
    booking: Booking,
    model: RefCell<hall::Hall>,
    hall: Hall,
}

impl Booked {
    fn drawn(rng: &mut Rng) -> Self {
        let mut model = hall::Hall::open(games());
        let first = first_key(rng);
        for number in 0..NOTED {
            model.book(first + number, booking(number, WAITING));
        }
        Booked {
            key: first + NOTED,
            booking: booking(NOTED, NOTED + 1),
            model: RefCell::new(model),
            hall: noted_hall(first, WAITING),
        }
    }
}

impl Call for Booked {
    type Rust = u8;
    type Library = Keyed;

    /// The model's booking is undone, so that each call finds the same hall: two lengths that shrink by one.
    fn rust(&self) -> u8 {
        let mut model = self.model.borrow_mut();
        let answer = model.book(self.key, self.booking);
        model.notes.pop();
        model.waiting.pop();
        answer
    }

    fn library(&mut self) -> Keyed {
        library::hall_book(self.hall, self.key, self.booking)
    }

    fn agree(&mut self) -> String {
        let after = self.library();
        assert_eq!((self.rust(), after.refusal), (0, 0));
        assert_eq!(after.hall.noted as u64, NOTED + 1);
        assert_eq!(after.hall.waiting as u64, WAITING + 1);
        "accepted".into()
    }
}
