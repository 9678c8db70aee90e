//! Bookings by their fields.

use yilgashe_sys::Booking;

/// What a key tells bookings apart by.
#[derive(Clone, Copy, Debug, PartialEq, Eq, PartialOrd, Ord)]
pub enum Field {
    Guest,
    Game,
    Joined,
    Rating,
    Party,
    Role,
}

pub const FIELDS: [Field; 6] = [
    Field::Guest,
    Field::Game,
    Field::Joined,
    Field::Rating,
    Field::Party,
    Field::Role,
];

impl Field {
    fn agrees(self, one: &Booking, other: &Booking) -> bool {
        match self {
            Field::Guest => one.player == other.player,
            Field::Game => one.game == other.game,
            Field::Joined => one.joined == other.joined,
            Field::Rating => one.rating_bits == other.rating_bits,
            Field::Party => one.party == other.party,
            Field::Role => one.role == other.role,
        }
    }
}

pub fn differing(one: &Booking, other: &Booking) -> Vec<Field> {
    let differing = FIELDS.into_iter().filter(|field| !field.agrees(one, other));
    differing.collect()
}
