//! Corners of games, request 2.4: calls on small halls, which the library and the model answer alike.

mod alike;

use alike::{refusal, serve};
use compare::data::{Call, Columns, Round, Search, Sheets};
use compare::model::CLOCK_LIMIT;
use yilgashe_sys::{Booking, Games, Hall, NONE_SERVED, TeamComposition};

const PAIR: TeamComposition = TeamComposition { a: 1, b: 1 };

/// Guests from 1 wait for these games, all with the same rating.
fn hall(games: Games, waiting: &[u8]) -> Hall {
    let booking = |(player, &game)| Booking {
        player,
        rating_bits: 1000.0f64.to_bits(),
        game,
        ..Booking::default()
    };
    let bookings: Vec<Booking> = (1..).zip(waiting).map(booking).collect();
    Hall::of(games, &bookings, &[])
}

fn round(search: fn(Columns) -> Search) -> Round {
    Round {
        search: search(Columns::default()),
        clock: 0,
        sheets: Sheets {
            players: vec![0; 64],
            qualities: vec![-1.0; 64],
        },
    }
}

fn dispatch() -> Call {
    Call::Round(Box::new(round(Search::Dispatch)))
}

fn book(booking: Booking) -> Call {
    Call::Book { key: 7, booking }
}

fn waiting(hall: &Hall) -> Vec<u64> {
    hall.booked().iter().map(|booking| booking.player).collect()
}

/// Games 1, 4 and 6 have two who wait, game 2 has one, and game 3, which is not used, two.
#[test]
fn the_next_game_behind_the_last_one_served() {
    let mut games = Games::default();
    for game in [1, 2, 4, 6] {
        games.sizes[game] = PAIR;
    }
    let mut lounge = hall(games, &[6, 1, 4, 3, 2, 4, 6, 1, 3]);
    let turns = [1, 4, 4, 4, 6, 6, 1, 1];
    for (last, turn) in [(NONE_SERVED, 1)].into_iter().chain((0..).zip(turns)) {
        lounge.served = last;
        let (answer, after) = serve(&lounge, &dispatch());
        assert_eq!((answer.served, answer.count), (Some(turn), 1));
        assert_eq!((after.served, after.waiting), (turn, 7));
    }
}

/// Game 5 alone has enough: it is the eighth in turn, and the first again.
#[test]
fn the_last_one_served_comes_last() {
    let mut games = Games::default();
    games.sizes[5] = TeamComposition { a: 0, b: 2 };
    let lounge = hall(games, &[5, 5]);
    let (answer, after) = serve(&lounge, &dispatch());
    assert_eq!(
        (answer.served, answer.count, after.waiting),
        (Some(5), 0, 2)
    );
    let (answer, again) = serve(&after, &dispatch());
    assert_eq!((answer.served, again.served), (Some(5), 5));
    // One too few: the last one served stays.
    let mut few = again;
    few.waiting = 1;
    let (answer, after) = serve(&few, &dispatch());
    assert_eq!((answer.refusal, answer.served, after.served), (0, None, 5));
}

/// Whoever waits twice is counted twice; an unused game and one above 7 have no turn.
#[test]
fn enough_goes_by_bookings() {
    let mut lounge = hall(Games::of([PAIR]), &[0, 0, 1, 8]);
    lounge.bookings[1].player = 1;
    let (answer, after) = serve(&lounge, &dispatch());
    assert_eq!((answer.served, answer.count), (Some(0), 0));
    assert_eq!(waiting(&after), [1, 1, 3, 4]);
}

#[test]
fn checks_come_before_turns() {
    let nobody = hall(Games::default(), &[]);
    let mut short = round(Search::Dispatch);
    short.sheets.players.pop();
    assert_eq!(refusal(&nobody, &Call::Round(Box::new(short))), 3);
    let mut late = round(Search::Dispatch);
    late.clock = CLOCK_LIMIT + 1;
    assert_eq!(refusal(&nobody, &Call::Round(Box::new(late))), 4);
    assert_eq!(refusal(&nobody, &dispatch()), 0);
}

/// By a size of a game that nobody waits for, or by the last one served.
#[test]
fn every_call_but_a_round_of_no_game_is_over_limit() {
    let mut large = hall(Games::of([PAIR]), &[0, 0]);
    large.sizes[7].b = 9;
    let mut served = hall(Games::of([PAIR]), &[0, 0]);
    served.served = 8;
    let leave = Call::Withdraw { key: 7, player: 1 };
    let own = Call::Round(Box::new(round(|columns| Search::Greedy(0, columns))));
    let none = Call::Round(Box::new(round(|columns| Search::Greedy(8, columns))));
    for over in [large, served] {
        for call in [
            book(Booking::default()),
            leave.clone(),
            own.clone(),
            dispatch(),
        ] {
            assert_eq!(refusal(&over, &call), 1);
        }
        assert_eq!(refusal(&over, &none), 13);
    }
}

/// Guest 1 waits; 13 goes before 4 and 9, and is noted for the whole booking: mended it needs a new key.
#[test]
fn thirteen_is_noted_with_the_key() {
    let lounge = hall(Games::of([PAIR]), &[0]);
    let stray = Booking {
        player: 1,
        joined: CLOCK_LIMIT + 1,
        game: 8,
        ..Booking::default()
    };
    let (answer, after) = serve(&lounge, &book(stray));
    assert_eq!((answer.refusal, after.noted), (13, 1));
    let mended = Booking {
        joined: 0,
        game: 0,
        ..stray
    };
    assert_eq!(refusal(&after, &book(stray)), 13);
    assert_eq!(refusal(&after, &book(mended)), 7);
    assert_eq!(refusal(&after, &Call::Withdraw { key: 7, player: 1 }), 7);
    // 9 looks at all games, and an unused one is one.
    let other = Booking { game: 7, ..mended };
    assert_eq!(refusal(&lounge, &book(other)), 9);
    let guest = Booking { player: 2, ..other };
    assert_eq!(refusal(&lounge, &book(guest)), 0);
}

/// Guests 1 and 3 are seated; guest 1 waits for game 2 too.
#[test]
fn the_seated_leave_with_every_booking() {
    let mut lounge = hall(Games::of([PAIR]), &[0, 2, 0, 2, 8]);
    lounge.bookings[3].player = 1;
    let own = Call::Round(Box::new(round(|columns| Search::Greedy(0, columns))));
    for call in [own, dispatch()] {
        let (answer, after) = serve(&lounge, &call);
        assert_eq!(answer.sheets.players[..3], [1, 3, 0]);
        assert_eq!(waiting(&after), [2, 5]);
    }
}
