//! Bookings with something changed, for keys that stand for whole ones.

use super::rounds::no_game;
use super::{late_time, plain_time};
use crate::data::{FIELDS, Field, GAMES};
use crate::model::hall::no_such_game;
use crate::model::late;
use crate::rng::Rng;
use yilgashe_sys::Booking;

const SIGN: u64 = 1 << 63;
const INFINITY: u64 = f64::INFINITY.to_bits();

/// The bits of a zero or of a NaN, which floats do not tell from others.
pub(super) fn odd_rating(rng: &mut Rng) -> u64 {
    match rng.one_in(2) {
        true => zero(rng),
        false => nan(rng),
    }
}

/// Of either sign.
fn zero(rng: &mut Rng) -> u64 {
    rng.pick(&[0, SIGN])
}

/// Of either sign, quiet or not, with any payload.
fn nan(rng: &mut Rng) -> u64 {
    let payload = match rng.below(4) {
        0 => 1,
        1 => 1 << 51,
        2 => (1 << 51) + 1,
        _ => (rng.next_u64() >> 12).max(1),
    };
    zero(rng) | INFINITY | payload
}

/// The same but for one of its fields: often the one that made it refused, or a rating that floats do not tell from others.
pub(super) fn changed(rng: &mut Rng, booking: Booking) -> Booking {
    let mut other = booking;
    match telling(rng, &booking).unwrap_or(rng.pick(&FIELDS)) {
        Field::Guest => other.player = flipped(rng, booking.player),
        Field::Game => other.game = another_game(rng, booking.game),
        Field::Joined => other.joined = another_time(rng, booking.joined),
        Field::Rating => other.rating_bits = another_rating(rng, booking.rating_bits),
        Field::Party => other.party = flipped(rng, booking.party),
        Field::Role => other.role ^= 1 << rng.below(32),
    }
    other
}

/// One of such fields, at times.
fn telling(rng: &mut Rng, booking: &Booking) -> Option<Field> {
    let rating = f64::from_bits(booking.rating_bits);
    let fields = [
        (Field::Joined, late(booking.joined)),
        (Field::Game, no_such_game(booking.game)),
        (Field::Rating, rating == 0.0 || rating.is_nan()),
    ];
    let mut telling = fields.into_iter().filter(|(_, tells)| *tells);
    let at_times = telling.find(|_| rng.one_in(2));
    at_times.map(|(field, _)| field)
}

/// One bit of it, a low one often.
fn flipped(rng: &mut Rng, number: u64) -> u64 {
    let bits = rng.pick(&[3, 64]);
    number ^ (1 << rng.below(bits))
}

/// The other zero of a zero and another NaN of a NaN, mostly; of any other number one bit.
fn another_rating(rng: &mut Rng, bits: u64) -> u64 {
    let rating = f64::from_bits(bits);
    match rng.below(4) {
        0 => flipped(rng, bits),
        _ if rating == 0.0 => bits ^ SIGN,
        _ if rating.is_nan() => another(rng, bits, nan),
        _ => flipped(rng, bits),
    }
}

/// Mostly in time where it was late, and late where it was in time.
fn another_time(rng: &mut Rng, joined: u64) -> u64 {
    match rng.below(3) {
        0 => flipped(rng, joined),
        _ if late(joined) => plain_time(rng),
        _ => late_time(rng),
    }
}

/// Mostly a game where it was none, and none where it was a game.
fn another_game(rng: &mut Rng, game: u8) -> u8 {
    let none = no_such_game(game) == rng.one_in(3);
    another(rng, game, |rng| match none {
        true => no_game(rng),
        false => rng.below(GAMES) as u8,
    })
}

/// What is drawn until it is another.
fn another<T: PartialEq>(rng: &mut Rng, one: T, draw: impl Fn(&mut Rng) -> T) -> T {
    loop {
        let other = draw(rng);
        if other != one {
            return other;
        }
    }
}

/// For no game or late, at times: what an older note of the guest does not look at.
pub(super) fn spoil(rng: &mut Rng, booking: &mut Booking) {
    match rng.below(4) {
        0 => booking.game = no_game(rng),
        1 => booking.joined = late_time(rng),
        _ => {}
    }
}

#[cfg(test)]
mod tests {
    use super::*;
    use crate::data::differing;
    use crate::model::CLOCK_LIMIT;
    use std::collections::BTreeSet;

    #[test]
    fn one_field_is_changed_and_each_at_times() {
        let mut rng = Rng::new(1);
        let ratings = [
            0,
            SIGN,
            f64::NAN.to_bits(),
            INFINITY + 1,
            1000.0f64.to_bits(),
        ];
        let mut seen = BTreeSet::new();
        for _ in 0..2000 {
            let booking = Booking {
                rating_bits: rng.pick(&ratings),
                joined: rng.pick(&[0, 5, CLOCK_LIMIT, CLOCK_LIMIT + 1, u64::MAX]),
                game: rng.pick(&[0, 7, 8, 255]),
                ..Booking::default()
            };
            let other = changed(&mut rng, booking);
            let fields = differing(&booking, &other);
            assert_eq!(fields.len(), 1, "{booking:?} {other:?}");
            seen.extend(fields);
        }
        assert_eq!(seen.len(), FIELDS.len(), "{seen:?}");
    }

    #[test]
    fn zeros_turn_and_nans_stay_nans() {
        let mut rng = Rng::new(1);
        let turned = (0..400).filter(|_| another_rating(&mut rng, 0) == SIGN);
        assert!(turned.count() > 200);
        let nans = (0..400).filter(|_| {
            let bits = nan(&mut rng);
            let other = another_rating(&mut rng, bits);
            assert_ne!(bits, other);
            f64::from_bits(bits).is_nan() && f64::from_bits(other).is_nan()
        });
        assert!(nans.count() > 300);
    }
}
