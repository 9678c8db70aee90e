//! What a guest books.

use std::fmt::{Debug, Formatter, Result as Written};
use yilgashe_sys as sys;
use yilgashe_sys::QueueEntry;

/// What a booking brings beside its key, and what waits.
///
/// Two bookings are equal where a key takes the one for the other: in every field, and in all 64 bits of the rating. So 0.0 and -0.0 differ
/// here though they are equal as numbers, a NaN equals itself, and two NaNs with other bits differ. What was sent and what
/// [`Hall::noted`](crate::Hall::noted) tells can so be compared with `==`, whatever the rating.
///
/// ```
/// use yilgashe::Booking;
///
/// let guest = |rating| Booking { player: 1, rating, ..Booking::default() };
/// assert_eq!(guest(f64::NAN), guest(f64::NAN));
/// assert_ne!(guest(f64::NAN), guest(-f64::NAN));
/// assert_ne!(guest(0.0), guest(-0.0));
/// ```
#[derive(Clone, Copy, Default)]
pub struct Booking {
    /// Any number, 0 too.
    pub player: u64,
    /// Since when, in nanoseconds.
    pub joined: u64,
    /// The rating that searches go by. It goes in and comes out with the bits that it has, those of a NaN too.
    pub rating: f64,
    /// 0 for none.
    pub party: u64,
    /// 0 for none.
    pub role: u32,
    /// 0 to 7; one that is not used is taken too.
    pub game: u8,
}

impl Booking {
    /// The booking for game 0 that makes this entry.
    pub fn of(entry: &QueueEntry) -> Booking {
        sys::Booking::of(entry).into()
    }

    /// The entry that it makes in the queue of a round of its game.
    pub fn entry(&self) -> QueueEntry {
        sys::Booking::from(*self).entry()
    }
}

/// The rating by its bits.
impl From<Booking> for sys::Booking {
    fn from(booking: Booking) -> sys::Booking {
        sys::Booking {
            player: booking.player,
            joined: booking.joined,
            rating_bits: booking.rating.to_bits(),
            party: booking.party,
            role: booking.role,
            game: booking.game,
        }
    }
}

/// The rating that the bits are of.
impl From<sys::Booking> for Booking {
    fn from(raw: sys::Booking) -> Booking {
        Booking {
            player: raw.player,
            joined: raw.joined,
            rating: f64::from_bits(raw.rating_bits),
            party: raw.party,
            role: raw.role,
            game: raw.game,
        }
    }
}

impl PartialEq for Booking {
    fn eq(&self, other: &Booking) -> bool {
        sys::Booking::from(*self) == sys::Booking::from(*other)
    }
}

impl Eq for Booking {}

/// With the bits of the rating, since two that print alike may differ.
impl Debug for Booking {
    fn fmt(&self, f: &mut Formatter<'_>) -> Written {
        sys::Booking::from(*self).fmt(f)
    }
}
