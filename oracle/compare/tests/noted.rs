//! Corners of keys, request 2.5: calls on small halls, which the library and the model answer alike.

mod alike;

use alike::{refusal, serve};
use compare::data::{Call, Columns, Round, Search, Sheets};
use compare::model::CLOCK_LIMIT;
use compare::model::hall::guest_alone;
use compare::same::Same;
use yilgashe_sys::{
    BOOKING, Booking, Games, Hall, Note, OLDER_BOOKING, TeamComposition, WITHDRAWAL,
};

/// Something in every field.
const WHOLE: Booking = Booking {
    player: 1,
    joined: 2,
    rating_bits: 1000.0f64.to_bits(),
    party: 3,
    role: 4,
    game: 5,
};

/// The same with one field changed, each in its turn.
fn changed() -> [Booking; 6] {
    let mut changed = [WHOLE; 6];
    changed[0].player = 9;
    changed[1].joined = 9;
    changed[2].rating_bits += 1;
    changed[3].party = 9;
    changed[4].role = 9;
    changed[5].game = 7;
    changed
}

fn book(booking: Booking) -> Call {
    Call::Book { key: 7, booking }
}

fn withdraw(player: u64) -> Call {
    Call::Withdraw { key: 7, player }
}

fn empty() -> Hall {
    Hall::of(Games::default(), &[], &[])
}

/// Key 7 is noted, with this beside it, and nobody waits.
fn noting(kind: u8, held: Booking, answer: u8) -> Hall {
    let whole = Note::of(&held, answer);
    Hall::of(Games::default(), &[], &[(7, Note { kind, ..whole })])
}

/// The answer to a call that leaves the hall as it was.
fn idle(hall: &Hall, call: &Call) -> u8 {
    let (answer, after) = serve(hall, call);
    assert!(after.same(hall), "{call:?}");
    answer.refusal
}

#[test]
fn a_booking_is_noted_whole() {
    let (answer, hall) = serve(&empty(), &book(WHOLE));
    assert_eq!((answer.refusal, hall.noted), (0, 1));
    assert_eq!(hall.notes[0], Note::of(&WHOLE, 0));
    assert_eq!(idle(&hall, &book(WHOLE)), 0);
    for other in changed() {
        assert_eq!(idle(&hall, &book(other)), 7, "{other:?}");
    }
    assert_eq!(idle(&hall, &withdraw(1)), 7);
}

/// Signs of zeros, and signs, quiet bits and payloads of NaNs come through as they are, and tell bookings apart.
#[test]
fn every_bit_of_the_rating_counts() {
    let nan = f64::NAN.to_bits();
    for bits in [0, 1 << 63, nan, nan | 1, (nan | 1) ^ 1 << 51, u64::MAX] {
        let rated = |rating_bits| Booking {
            rating_bits,
            ..WHOLE
        };
        let (_, hall) = serve(&empty(), &book(rated(bits)));
        assert_eq!(hall.bookings[0].rating_bits, bits);
        assert_eq!(hall.notes[0].rating_bits, bits);
        assert_eq!(idle(&hall, &book(rated(bits))), 0);
        for bit in 0..64 {
            assert_eq!(idle(&hall, &book(rated(bits ^ 1 << bit))), 7);
        }
    }
}

/// A booking with any NaN is as one with another to a round: nobody is near him.
#[test]
fn a_round_takes_any_nan_for_one() {
    let pair = TeamComposition { a: 1, b: 1 };
    let near = |player, rating: f64| Booking {
        rating_bits: rating.to_bits(),
        ..guest_alone(player)
    };
    let round = Call::Round(Box::new(Round {
        search: Search::Greedy(0, Columns::default()),
        clock: 0,
        sheets: Sheets {
            players: vec![0; 64],
            qualities: vec![0.0; 64],
        },
    }));
    for bits in [f64::NAN.to_bits(), 0x7ff0_0000_0000_0001, u64::MAX] {
        let odd = Booking {
            rating_bits: bits,
            ..guest_alone(1)
        };
        let waiting = [odd, near(2, -0.0), near(3, 0.0)];
        let hall = Hall::of(Games::of([pair]), &waiting, &[]);
        let (answer, after) = serve(&hall, &round);
        assert_eq!(answer.sheets.players[..2], [2, 3]);
        assert_eq!(after.booked(), [odd]);
    }
}

/// Refused with 4 and with 13: the same again, and 7 once it is corrected. What is noted may be no game.
#[test]
fn a_corrected_booking_needs_a_new_key() {
    let late = Booking {
        joined: CLOCK_LIMIT + 1,
        ..WHOLE
    };
    let no_game = Booking { game: 200, ..WHOLE };
    for (bad, number) in [(late, 4), (no_game, 13)] {
        let (answer, hall) = serve(&empty(), &book(bad));
        assert_eq!((answer.refusal, hall.waiting), (number, 0));
        assert_eq!(hall.notes[0].booking(), bad);
        assert_eq!(idle(&hall, &book(bad)), number);
        assert_eq!(idle(&hall, &book(WHOLE)), 7);
    }
    // A known key goes before what is wrong with the booking.
    let (_, hall) = serve(&empty(), &book(WHOLE));
    assert_eq!(idle(&hall, &book(late)), 7);
    assert_eq!(idle(&hall, &book(no_game)), 7);
}

/// Guest 1 waits, and then 64 others: 9 and 10 are noted for whole bookings too.
#[test]
fn nine_and_ten_are_of_whole_bookings() {
    let waiting = Hall::of(Games::default(), &[WHOLE], &[]);
    let crowd: Vec<Booking> = (100..164).map(guest_alone).collect();
    let full = Hall::of(Games::default(), &crowd, &[]);
    for (hall, number) in [(waiting, 9), (full, 10)] {
        let (answer, mut hall) = serve(&hall, &book(WHOLE));
        assert_eq!(answer.refusal, number);
        hall.waiting = 0;
        assert_eq!(idle(&hall, &book(WHOLE)), number);
        for other in changed() {
            assert_eq!(idle(&hall, &book(other)), 7, "{other:?}");
        }
    }
}

/// Whatever else the note holds and the booking brings; another guest and a withdrawal clash, and it stays as it is.
#[test]
fn an_older_note_stands_for_its_guest() {
    let mut others = changed();
    (others[1].joined, others[5].game) = (u64::MAX, 200);
    for held in [guest_alone(1), WHOLE] {
        for number in [0, 4, 9, 10, 13] {
            let hall = noting(OLDER_BOOKING, held, number);
            assert_eq!(idle(&hall, &book(WHOLE)), number);
            assert_eq!(idle(&hall, &book(others[0])), 7);
            for other in &others[1..] {
                assert_eq!(idle(&hall, &book(*other)), number, "{other:?}");
            }
            assert_eq!(idle(&hall, &withdraw(1)), 7);
            // What is noted next is whole.
            let next = Call::Book {
                key: 8,
                booking: others[0],
            };
            let (_, after) = serve(&hall, &next);
            assert_eq!(after.notes[..2], [hall.notes[0], Note::of(&others[0], 0)]);
        }
    }
}

/// Whatever else the note holds; a call leaves it empty.
#[test]
fn a_withdrawal_is_noted_by_its_guest() {
    let waiting = Hall::of(Games::default(), &[WHOLE], &[]);
    let (answer, hall) = serve(&waiting, &withdraw(1));
    assert_eq!((answer.refusal, hall.waiting), (0, 0));
    let guest = Note {
        player: 1,
        kind: WITHDRAWAL,
        ..Note::default()
    };
    assert_eq!(hall.notes[0], guest);
    let odd = noting(WITHDRAWAL, WHOLE, 11);
    assert_eq!(
        (idle(&odd, &withdraw(1)), idle(&odd, &withdraw(2))),
        (11, 7)
    );
    assert_eq!(idle(&odd, &book(WHOLE)), 7);
}

/// Of every kind and with every answer; only some are of a call.
#[test]
fn notes_of_no_call_clash() {
    for kind in (0..=5).chain([128, 255]) {
        for number in (0..=20).chain([128, 255]) {
            let hall = noting(kind, WHOLE, number);
            let booked =
                [BOOKING, OLDER_BOOKING].contains(&kind) && [0, 4, 9, 10, 13].contains(&number);
            let left = kind == WITHDRAWAL && [0, 11].contains(&number);
            let heard = |of_such: bool| if of_such { number } else { 7 };
            assert_eq!(refusal(&hall, &book(WHOLE)), heard(booked));
            assert_eq!(refusal(&hall, &withdraw(1)), heard(left));
        }
    }
}
