//! The hall's calls beside plain C that takes and hands back the same structs by value. Where little else is done, a call's time is
//! that of the hall's copies: the C has one in and one out.

use crate::call::{Call, Row};
use crate::crowd::sheets;
use crate::plain;
use crate::rows::booking::{self, CASES, NOTED, WAITING, first_key, noted_hall};
use compare::data::Sheets;
use compare::rng::Rng;
use compare::same::Same;
use yilgashe_sys::{self as library, Booking, Hall, Keyed, Rounded};

/// Under a new key.
pub fn booking(seed: u64) -> Row {
    named("booking", seed, |rng| {
        let first = first_key(rng);
        Booked {
            hall: noted_hall(first, WAITING),
            key: first + NOTED,
            booking: booking::booking(NOTED, NOTED + 1),
        }
    })
}

/// Any of the noted ones.
pub fn booking_again(seed: u64) -> Row {
    named("booking sent again", seed, |rng| again(rng, 0))
}

/// Any of the noted ones, in another role: all else is as it was noted.
pub fn booking_changed(seed: u64) -> Row {
    named("booking changed", seed, |rng| again(rng, 1))
}

fn again(rng: &mut Rng, role: u32) -> Booked {
    let first = first_key(rng);
    let number = rng.below(NOTED as usize) as u64;
    Booked {
        hall: noted_hall(first, WAITING),
        key: first + number,
        booking: Booking {
            role,
            ..booking::booking(number, WAITING)
        },
    }
}

/// Of any who wait, under a new key.
pub fn withdrawal(seed: u64) -> Row {
    named("withdrawal", seed, |rng| {
        let first = first_key(rng);
        Withdrawn {
            hall: noted_hall(first, WAITING),
            key: first + NOTED,
            player: rng.below(WAITING as usize) as u64,
        }
    })
}

/// Fewer wait than a table takes, so that the search has next to nothing to do.
pub fn round(seed: u64) -> Row {
    named("greedy round that seats nobody", seed, |rng| Idle {
        hall: noted_hall(first_key(rng), FEW),
        sheets: sheets(),
    })
}

/// The table takes four.
const FEW: u64 = 3;
const CLOCK: u64 = 1000;

fn named<C: Call>(what: &str, seed: u64, drawn: impl Fn(&mut Rng) -> C) -> Row {
    let one = |case| drawn(&mut Rng::for_case(seed, what, case));
    Row::of(
        format!("{what}, {NOTED} keys noted, beside C by value"),
        (0..CASES as u64).map(one).collect(),
    )
}

struct Booked {
    hall: Hall,
    key: u64,
    booking: Booking,
}

impl Call for Booked {
    type Rust = Keyed;
    type Library = Keyed;

    /// The C's.
    fn rust(&self) -> Keyed {
        plain::book(self.hall, self.key, self.booking)
    }

    fn library(&mut self) -> Keyed {
        library::hall_book(self.hall, self.key, self.booking)
    }

    fn agree(&mut self) -> String {
        same(&self.rust(), &self.library())
    }
}

struct Withdrawn {
    hall: Hall,
    key: u64,
    player: u64,
}

impl Call for Withdrawn {
    type Rust = Keyed;
    type Library = Keyed;

    /// The C's.
    fn rust(&self) -> Keyed {
        plain::withdraw(self.hall, self.key, self.player)
    }

    fn library(&mut self) -> Keyed {
        library::hall_withdraw(self.hall, self.key, self.player)
    }

    fn agree(&mut self) -> String {
        same(&self.rust(), &self.library())
    }
}

/// The same answer, and the same hall in all that it holds; says the answer.
fn same(plain: &Keyed, library: &Keyed) -> String {
    assert_eq!(plain.refusal, library.refusal);
    assert!(plain.hall.same(&library.hall), "not the C's hall");
    match library.refusal {
        0 => "accepted".into(),
        number => format!("refusal {number}"),
    }
}

struct Idle {
    hall: Hall,
    sheets: Sheets,
}

impl Call for Idle {
    type Rust = Rounded;
    type Library = Rounded;

    /// The C's, which searches nothing.
    fn rust(&self) -> Rounded {
        plain::round(self.hall)
    }

    /// Without a roster: nobody's row is looked up.
    fn library(&mut self) -> Rounded {
        library::hall_greedy_round(
            self.hall,
            0,
            CLOCK,
            &[],
            &[],
            &mut self.sheets.players,
            &mut self.sheets.qualities,
        )
    }

    fn agree(&mut self) -> String {
        let (plain, library) = (self.rust(), self.library());
        let numbers = |told: &Rounded| (told.refusal, told.count, told.tried, told.served);
        assert_eq!(numbers(&plain), numbers(&library));
        assert!(plain.hall.same(&library.hall), "not the C's hall");
        assert!(self.sheets.same(&sheets()), "a sheet was written to");
        format!("{} seated", library.count)
    }
}

#[cfg(test)]
mod tests {
    use super::*;

    #[test]
    fn answers_of_the_rows() {
        assert_eq!(booking(1).answer, "accepted");
        assert_eq!(booking_again(1).answer, "refusal 4");
        assert_eq!(booking_changed(1).answer, "refusal 7");
        assert_eq!(withdrawal(1).answer, "accepted");
        assert_eq!(round(1).answer, "0 seated");
    }

    /// The new note is for another guest.
    #[test]
    #[should_panic(expected = "not the C's hall")]
    fn another_hall_is_no_agreement() {
        let hall = noted_hall(0, WAITING);
        let plain = plain::withdraw(hall, NOTED, 0);
        let mut other = plain;
        other.hall.notes[NOTED as usize].player += 1;
        same(&plain, &other);
    }
}
