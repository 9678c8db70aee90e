//! Several games under one roof: what the safe crate hands out of them, and whose turn it is.

use yilgashe::{
    Booking, Dispatch, Games, Hall, MatchObjective, Refusal, Roster, RoundRules, TeamComposition,
    sys, time,
};

const PAIRS: TeamComposition = TeamComposition { a: 1, b: 1 };
const THREE: TeamComposition = TeamComposition { a: 2, b: 1 };
const UNUSED: TeamComposition = TeamComposition { a: 0, b: 0 };

fn booking((player, game): (u64, u8)) -> Booking {
    Booking {
        player,
        rating: 1000.0,
        game,
        ..Booking::default()
    }
}

/// Each guest books for a game; the key is the guest's number.
fn hall<const N: usize>(games: [TeamComposition; N], guests: &[(u64, u8)]) -> Hall {
    let mut hall = Hall::new(Games::of(games));
    for &guest in guests {
        hall.book(guest.0, booking(guest)).unwrap();
    }
    hall
}

/// A hall from elsewhere, which may be one that no list of calls makes.
fn handed_in<const N: usize>(games: [TeamComposition; N], guests: &[(u64, u8)]) -> sys::Hall {
    let raw = |&guest| sys::Booking::from(booking(guest));
    let bookings: Vec<sys::Booking> = guests.iter().map(raw).collect();
    sys::Hall::of(Games::of(games), &bookings, &[])
}

fn waiting(hall: &Hall) -> Vec<(u64, u8)> {
    let guests = hall.waiting().into_iter();
    guests.map(|guest| (guest.player, guest.game)).collect()
}

/// The game served, and whom it seats.
fn dispatched(hall: &mut Hall) -> (Option<u8>, Vec<u64>) {
    let Dispatch { served, matches } = hall.dispatch(0, &Roster::new()).unwrap();
    (served, matches.players().to_vec())
}

#[test]
fn games_share_the_places_and_the_keys() {
    let mut hall = hall([PAIRS, THREE], &[(1, 0), (2, 1), (3, 7)]);
    assert_eq!(hall.games(), Games::of([PAIRS, THREE]));
    assert_eq!(hall.book(4, booking((1, 1))), Err(Refusal::AlreadyWaiting));
    for player in 5..=65 {
        hall.book(player, booking((player, player as u8 % 8)))
            .unwrap();
    }
    assert_eq!(hall.book(66, booking((66, 2))), Err(Refusal::HallFull));
    assert_eq!(hall.withdraw(67, 3), Ok(()));
    assert_eq!(hall.book(68, booking((66, 2))), Ok(()));
}

#[test]
fn a_booking_for_no_game_is_noted() {
    let mut hall = hall([PAIRS], &[(1, 0)]);
    let nowhere = Booking {
        joined: time::MAX + 1,
        ..booking((1, 8))
    };
    assert_eq!(hall.book(2, nowhere), Err(Refusal::NoSuchGame));
    assert_eq!(hall.book(2, nowhere), Err(Refusal::NoSuchGame)); // sent again
    let noted: Vec<u8> = hall.noted().iter().map(|record| record.answer).collect();
    assert_eq!(noted, [0, 13]);
    assert_eq!(hall.book(1, nowhere), Err(Refusal::KeyClash)); // what the key says comes first
    assert_eq!(hall.book(2, booking((1, 0))), Err(Refusal::KeyClash)); // corrected
    assert_eq!(hall.book(2, booking((2, 0))), Err(Refusal::KeyClash));
    assert_eq!(waiting(&hall), [(1, 0)]);
}

/// A number over 7 comes to the library, which refuses it before all else.
#[test]
fn a_round_of_no_game() {
    let over = TeamComposition { a: 9, b: 0 };
    let mut hall = Hall::new(Games::of([over]));
    let (late, nobody, free) = (time::MAX + 1, Roster::new(), RoundRules::default());
    let weights = MatchObjective::default();
    for (game, refusal) in [
        (8, Refusal::NoSuchGame),
        (255, Refusal::NoSuchGame),
        (7, Refusal::OverLimit),
    ] {
        assert_eq!(hall.greedy_round(game, late, &nobody), Err(refusal));
        let beam = hall.beam_round(8, game, weights, late, &nobody);
        assert_eq!(beam, Err(refusal));
        let full = hall.full_round(game, &free, &[], late, &nobody);
        assert_eq!(full, Err(refusal));
    }
    assert_eq!(hall.dispatch(late, &nobody), Err(Refusal::OverLimit));
    assert_eq!(hall.book(1, booking((1, 0))), Err(Refusal::OverLimit));
    assert_eq!(hall.withdraw(1, 1), Err(Refusal::OverLimit));
}

#[test]
fn a_last_game_served_that_is_none() {
    let mut raw = handed_in([PAIRS], &[(1, 0), (2, 0)]);
    raw.served = 9;
    let mut hall = Hall::from(raw);
    let nobody = Roster::new();
    assert_eq!(hall.dispatch(0, &nobody), Err(Refusal::OverLimit));
    assert_eq!(hall.greedy_round(0, 0, &nobody), Err(Refusal::OverLimit));
    assert_eq!(hall.withdraw(1, 1), Err(Refusal::OverLimit));
    assert_eq!(hall.last_served(), Some(9));
}

/// Each round has its game's sizes and its game's guests; whoever waits for another game goes on waiting.
#[test]
fn rounds_of_one_game() {
    let guests = [(1, 1), (2, 0), (3, 1), (4, 0), (5, 1), (6, 2)];
    let (nobody, free) = (Roster::new(), RoundRules::default());
    let games = [PAIRS, THREE];
    let rest = [(2, 0), (4, 0), (6, 2)];

    let mut greedy = hall(games, &guests);
    let matches = greedy.greedy_round(1, 0, &nobody).unwrap();
    assert_eq!((matches.sizes(), matches.len()), (THREE, 1));
    assert_eq!(waiting(&greedy), rest);
    assert_eq!(greedy.last_served(), None);

    let mut beam = hall(games, &guests);
    let weights = MatchObjective::default();
    let matches = beam.beam_round(8, 1, weights, 0, &nobody).unwrap();
    assert_eq!((matches.sizes(), matches.len()), (THREE, 1));
    assert_eq!(waiting(&beam), rest);

    let mut full = hall(games, &guests);
    let round = full.full_round(1, &free, &[], 0, &nobody).unwrap();
    assert_eq!((round.tried, round.matches.players()), (1, &[1, 3, 5][..]));
    let table = round.matches.get(0).unwrap();
    assert_eq!((table.team_a, table.team_b), (&[1, 3][..], &[5][..]));
    assert_eq!(waiting(&full), rest);
}

/// One choice, which seats nobody, or nothing.
#[test]
fn a_game_that_is_not_used() {
    let mut hall = hall([PAIRS], &[(1, 3)]);
    let (nobody, free) = (Roster::new(), RoundRules::default());
    assert!(hall.greedy_round(3, 0, &nobody).unwrap().is_empty());
    let round = hall.full_round(3, &free, &[], 0, &nobody).unwrap();
    assert_eq!((round.tried, round.matches.len()), (1, 1));
    assert_eq!(round.matches.players(), []);
    assert_eq!(dispatched(&mut hall), (None, vec![]));
    assert_eq!(waiting(&hall), [(1, 3)]);
}

/// Twenty wait for game 0 and 21 for game 1.
#[test]
fn the_limit_of_20_is_a_game_s_own() {
    let guests: Vec<(u64, u8)> = (1..=41)
        .map(|player| (player, (player % 2) as u8))
        .collect();
    let mut hall = hall([PAIRS, PAIRS], &guests);
    let (nobody, free) = (Roster::new(), RoundRules::default());
    let wide = hall.full_round(1, &free, &[], 0, &nobody);
    assert_eq!(wide, Err(Refusal::TooWide));
    let round = hall.full_round(0, &free, &[], 0, &nobody).unwrap();
    assert_eq!((round.tried, round.matches.players()), (190, &[38, 40][..]));
}

/// Another game's time is looked at too, by a dispatch before any game is known.
#[test]
fn a_late_time_of_another_game() {
    let mut raw = handed_in([PAIRS], &[(1, 0), (2, 0), (3, 1)]);
    raw.bookings[2].joined = time::MAX + 1;
    let mut hall = Hall::from(raw);
    let nobody = Roster::new();
    assert_eq!(hall.greedy_round(0, 0, &nobody), Err(Refusal::Clock));
    assert_eq!(hall.dispatch(0, &nobody), Err(Refusal::Clock));
    assert_eq!((hall.last_served(), waiting(&hall).len()), (None, 3));
}

/// Guest 3 is of guest 1's party, and waits for another game.
#[test]
fn a_friend_of_another_game_holds_nobody_back() {
    let mut raw = handed_in([PAIRS], &[(1, 0), (2, 0), (3, 1)]);
    (raw.bookings[0].party, raw.bookings[2].party) = (7, 7);
    let together = RoundRules {
        waiting_friends: true,
        ..RoundRules::default()
    };
    let round = Hall::from(raw).full_round(0, &together, &[], 0, &Roster::new());
    assert_eq!(round.unwrap().matches.players(), [1, 2]);
}

/// Guest 1 waits for two games, as no list of calls has it, and guest 9 for none.
#[test]
fn the_seated_leave_all_games() {
    let guests = [(1, 0), (1, 1), (9, 8), (2, 0), (3, 1)];
    let mut hall = Hall::from(handed_in([PAIRS, PAIRS], &guests));
    assert_eq!(dispatched(&mut hall), (Some(0), vec![1, 2]));
    assert_eq!(waiting(&hall), [(9, 8), (3, 1)]);
    assert_eq!(dispatched(&mut hall), (None, vec![]));
    let round = hall.greedy_round(8, 0, &Roster::new());
    assert_eq!(round, Err(Refusal::NoSuchGame));
}

/// The games take turns in a circle behind the last one served, from game 0 where none was.
#[test]
fn games_take_turns() {
    let guests: Vec<(u64, u8)> = (0..16).map(|player| (player, player as u8 / 2)).collect();
    for last in [None, Some(0), Some(3), Some(7)] {
        let mut raw = handed_in([PAIRS; 8], &guests);
        raw.served = last.unwrap_or(sys::NONE_SERVED);
        let mut hall = Hall::from(raw);
        assert_eq!(hall.last_served(), last);
        let first = last.map_or(0, |game| game + 1);
        for turn in first..first + 8 {
            let game = turn % 8;
            let seated = vec![2 * u64::from(game), 2 * u64::from(game) + 1];
            assert_eq!(dispatched(&mut hall), (Some(game), seated));
            assert_eq!(hall.last_served(), Some(game));
        }
        let eighth = hall.last_served();
        assert_eq!(dispatched(&mut hall), (None, vec![]));
        assert_eq!(hall.last_served(), eighth);
    }
}

/// Too few are passed over, just enough are not; rounds of a game and refused dispatches leave the turn where it is.
#[test]
fn whose_turn_it_is() {
    let guests = [(1, 0), (2, 1), (3, 1), (4, 2), (5, 3), (6, 3)];
    let mut hall = hall([PAIRS, PAIRS, UNUSED, PAIRS], &guests);
    let nobody = Roster::new();
    hall.greedy_round(3, 0, &nobody).unwrap();
    let late = hall.dispatch(time::MAX + 1, &nobody);
    assert_eq!((late, hall.last_served()), (Err(Refusal::Clock), None));
    assert_eq!(dispatched(&mut hall), (Some(1), vec![2, 3]));
    assert_eq!(dispatched(&mut hall), (None, vec![]));
    assert_eq!(waiting(&hall), [(1, 0), (4, 2)]);
    hall.book(7, booking((7, 0))).unwrap();
    assert_eq!(dispatched(&mut hall), (Some(0), vec![1, 7]));
}

/// Nobody against one has a seat to fill, so it is served, though it forms nothing; alone it comes again as the eighth.
#[test]
fn served_without_a_match() {
    let nobody_against_one = TeamComposition { a: 0, b: 1 };
    let mut hall = hall([UNUSED, nobody_against_one, PAIRS], &[(1, 1), (2, 2)]);
    for _ in 0..2 {
        assert_eq!(dispatched(&mut hall), (Some(1), vec![]));
        assert_eq!(hall.last_served(), Some(1));
    }
    hall.book(3, booking((3, 2))).unwrap();
    assert_eq!(dispatched(&mut hall), (Some(2), vec![2, 3]));
    assert_eq!(dispatched(&mut hall), (Some(1), vec![]));
}

/// A program that kept a hall of before there were games gives it its sizes as game 0; bookings sent again name game 0.
#[test]
fn a_hall_of_before_there_were_games() {
    let note = sys::Note {
        player: 1,
        kind: sys::OLDER_BOOKING,
        ..sys::Note::default()
    };
    let mut kept = handed_in([PAIRS], &[(1, 0), (2, 0)]);
    (kept.keys[0], kept.notes[0], kept.noted) = (5, note, 1);
    let mut hall = Hall::from(kept);
    assert_eq!(hall.book(5, booking((1, 0))), Ok(()));
    let tables = hall.greedy_round(0, 0, &Roster::new()).unwrap();
    assert_eq!(tables.players(), [1, 2]);
}
