//! Corners of waiting friends, request 2.3: full rounds on small halls, which the library and the model answer alike.

mod alike;

use alike::{refusal, serve};
use compare::data::{Call, FullRound, Round, Rows, Search, Sheets, nothing_brought};
use yilgashe_sys::{Booking, Games, Hall, RoundRules, SoftObjectives, TeamComposition};

/// What is brought of parties: those of the roster, those of the bookings, or both.
#[derive(Clone, Copy)]
enum Kinds {
    Neither,
    Roster,
    Waiting,
    Both,
}

/// Who waits and who is rostered, each with a party.
struct Lounge {
    waiting: Vec<(u64, u64)>,
    rostered: Vec<(u64, u64)>,
}

const PAIR: TeamComposition = TeamComposition { a: 1, b: 1 };
const ALONE: TeamComposition = TeamComposition { a: 1, b: 0 };
const THREE: TeamComposition = TeamComposition { a: 2, b: 1 };

impl Lounge {
    /// Nobody is rostered.
    fn of(waiting: &[(u64, u64)]) -> Self {
        Lounge {
            waiting: waiting.to_vec(),
            rostered: Vec::new(),
        }
    }

    fn rostered(mut self, rows: &[(u64, u64)]) -> Self {
        self.rostered = rows.to_vec();
        self
    }

    /// All wait for game 0, which has these sizes.
    fn hall(&self, sizes: TeamComposition) -> Hall {
        let booking = |&(player, party)| Booking {
            player,
            party,
            ..Booking::default()
        };
        let bookings: Vec<Booking> = self.waiting.iter().map(booking).collect();
        Hall::of(Games::of([sizes]), &bookings, &[])
    }

    fn rows(&self) -> Rows {
        let (ids, parties): (Vec<u64>, Vec<u64>) = self.rostered.iter().copied().unzip();
        Rows {
            ratings: Some(vec![1000.0; ids.len()]),
            parties: Some(parties),
            roles: Some(vec![0; ids.len()]),
            regions: Some(vec![4; ids.len()]),
            ids,
        }
    }

    /// A full round in which the wait alone counts, with this weight.
    fn round(&self, kinds: Kinds, weight: f64) -> Call {
        let full = FullRound {
            rules: rules(kinds),
            objectives: SoftObjectives {
                kinds: [2; 8],
                weights: [weight; 8],
                len: 1,
            },
            rows: self.rows(),
        };
        Call::Round(Box::new(Round {
            search: Search::Full(0, full),
            clock: 0,
            sheets: Sheets {
                players: vec![0; 64],
                qualities: vec![-1.0; 64],
            },
        }))
    }

    /// Whom the round seats, the last of the choices that pass, and how many it tried.
    fn seats(&self, sizes: TeamComposition, kinds: Kinds) -> (Option<Vec<u64>>, u64) {
        seats(&self.hall(sizes), sizes, &self.round(kinds, 1.0))
    }
}

/// As the library answers, and the model too.
fn seats(hall: &Hall, sizes: TeamComposition, call: &Call) -> (Option<Vec<u64>>, u64) {
    let (answer, _) = serve(hall, call);
    assert_eq!(answer.refusal, 0);
    let seated = answer.sheets.players[..sizes.a + sizes.b].to_vec();
    ((answer.count == 1).then_some(seated), answer.tried)
}

fn rules(kinds: Kinds) -> RoundRules {
    let mut constraints = nothing_brought();
    constraints.brought.parties = matches!(kinds, Kinds::Roster | Kinds::Both);
    RoundRules {
        constraints,
        waiting_friends: matches!(kinds, Kinds::Waiting | Kinds::Both),
    }
}

fn found(seated: &[u64], tried: u64) -> (Option<Vec<u64>>, u64) {
    (Some(seated.to_vec()), tried)
}

#[test]
fn one_of_two_friends_is_not_seated_without_the_other() {
    let friends = Lounge::of(&[(1, 7), (2, 7)]);
    assert_eq!(friends.seats(ALONE, Kinds::Neither), found(&[2], 2));
    assert_eq!(friends.seats(ALONE, Kinds::Waiting), (None, 2));
    assert_eq!(friends.seats(PAIR, Kinds::Waiting), found(&[1, 2], 1));
    let third = Lounge::of(&[(1, 7), (2, 7), (3, 7)]);
    assert_eq!(third.seats(PAIR, Kinds::Waiting), (None, 3));
    assert_eq!(third.seats(THREE, Kinds::Waiting), found(&[1, 2, 3], 1));
}

/// Guest 3 in team B has a friend who waits; and guest 1's friend may sit there.
#[test]
fn a_friend_in_team_b() {
    let friends = Lounge::of(&[(1, 7), (2, 0), (3, 7)]);
    assert_eq!(friends.seats(PAIR, Kinds::Neither), found(&[2, 3], 3));
    assert_eq!(friends.seats(PAIR, Kinds::Waiting), found(&[1, 3], 3));
}

#[test]
fn the_roster_makes_no_friends_of_those_who_wait() {
    let rostered = [(1, 5), (2, 0), (3, 5)];
    let strangers = Lounge::of(&[(1, 0), (2, 0), (3, 0)]).rostered(&rostered);
    assert_eq!(strangers.seats(PAIR, Kinds::Roster), found(&[1, 3], 3));
    assert_eq!(strangers.seats(PAIR, Kinds::Waiting), found(&[2, 3], 3));
    let others = Lounge::of(&[(1, 7), (2, 7), (3, 5)]).rostered(&rostered);
    assert_eq!(others.seats(PAIR, Kinds::Waiting), found(&[1, 2], 3));
}

/// Guest 9 is rostered in guest 1's party.
#[test]
fn a_friend_at_home_bars_by_the_roster_alone() {
    let rostered = [(1, 5), (2, 0), (9, 5)];
    let come = Lounge::of(&[(1, 5), (2, 0)]).rostered(&rostered);
    assert_eq!(come.seats(PAIR, Kinds::Roster), (None, 1));
    assert_eq!(come.seats(PAIR, Kinds::Both), (None, 1));
    assert_eq!(come.seats(PAIR, Kinds::Waiting), found(&[1, 2], 1));
}

/// The booking behind those who wait is no part of the hall.
#[test]
fn whoever_does_not_wait_is_no_friend() {
    let friends = Lounge::of(&[(1, 7), (2, 0), (3, 7)]);
    let mut hall = friends.hall(PAIR);
    hall.waiting = 2;
    let call = friends.round(Kinds::Waiting, 1.0);
    assert_eq!(seats(&hall, PAIR, &call), found(&[1, 2], 1));
}

/// Guest 1 waits with guest 3's party for another game, and for this one without.
#[test]
fn whoever_waits_for_another_game_is_no_friend() {
    let friends = Lounge::of(&[(1, 7), (1, 0), (2, 0), (3, 7)]);
    let call = friends.round(Kinds::Waiting, 1.0);
    let mut hall = friends.hall(PAIR);
    hall.bookings[0].game = 1;
    assert_eq!(seats(&hall, PAIR, &call), found(&[2, 3], 3));
    hall.bookings[1].party = 7;
    assert_eq!(seats(&hall, PAIR, &call), found(&[1, 3], 3));
}

#[test]
fn party_0_is_none_and_any_other_number_is_one() {
    let alone = Lounge::of(&[(1, 0), (2, 0), (3, 0)]);
    assert_eq!(alone.seats(PAIR, Kinds::Waiting), found(&[2, 3], 3));
    for party in [1, 1 << 32, 1 << 63, u64::MAX] {
        let friends = Lounge::of(&[(0, party), (2, 0), (u64::MAX, party)]);
        let seated = found(&[0, u64::MAX], 3);
        assert_eq!(friends.seats(PAIR, Kinds::Waiting), seated);
        // Only the lower half is the same.
        let near = Lounge::of(&[(0, party), (2, 0), (3, party ^ (1 << 40))]);
        assert_eq!(near.seats(PAIR, Kinds::Waiting), found(&[2, 3], 3));
    }
}

/// Guests 1 and 3 come together; on the roster 1 and 2 are friends.
#[test]
fn both_kinds_are_met_at_once() {
    let four = Lounge::of(&[(1, 7), (2, 0), (3, 7), (4, 0)]);
    let four = four.rostered(&[(1, 5), (2, 5), (3, 0), (4, 0)]);
    assert_eq!(four.seats(THREE, Kinds::Neither), found(&[2, 3, 4], 4));
    assert_eq!(four.seats(THREE, Kinds::Waiting), found(&[1, 3, 4], 4));
    assert_eq!(four.seats(THREE, Kinds::Roster), found(&[1, 2, 4], 4));
    assert_eq!(four.seats(THREE, Kinds::Both), found(&[1, 2, 3], 4));
    assert_eq!(four.seats(PAIR, Kinds::Both), (None, 6));
    assert_eq!(four.seats(ALONE, Kinds::Both), found(&[4], 4));
}

/// Guest 2 has the friends of both entries, whichever is chosen.
#[test]
fn a_guest_who_waits_twice_has_two_parties() {
    for second in [[(2, 7), (2, 8)], [(2, 8), (2, 7)]] {
        let [one, other] = second;
        let doubled = Lounge::of(&[(1, 7), one, (3, 8), other]);
        assert_eq!(doubled.seats(ALONE, Kinds::Waiting), (None, 4));
        assert_eq!(doubled.seats(PAIR, Kinds::Waiting), (None, 6));
        // Of the two entries of guest 2 the later is chosen.
        assert_eq!(doubled.seats(THREE, Kinds::Waiting), found(&[1, 3, 2], 4));
    }
    // Once without a party: his friend stays his friend.
    let once = Lounge::of(&[(1, 7), (2, 0), (2, 7)]);
    assert_eq!(once.seats(ALONE, Kinds::Waiting), (None, 3));
    assert_eq!(once.seats(PAIR, Kinds::Neither), found(&[2, 2], 3));
    assert_eq!(once.seats(PAIR, Kinds::Waiting), found(&[1, 2], 3));
}

/// Nobody is parted at an empty table.
#[test]
fn an_empty_match_parts_nobody() {
    let friends = Lounge::of(&[(1, 7), (2, 7)]);
    let none = TeamComposition { a: 0, b: 0 };
    assert_eq!(friends.seats(none, Kinds::Both), found(&[], 1));
}

/// Scores of choices that do not pass are not ranked.
#[test]
fn friends_leave_one_choice_whatever_it_scores() {
    let friends = Lounge::of(&[(1, 7), (2, 0), (3, 7)]);
    let hall = friends.hall(PAIR);
    let unranked = friends.round(Kinds::Neither, f64::NAN);
    assert_eq!(refusal(&hall, &unranked), 5);
    let one = friends.round(Kinds::Waiting, f64::NAN);
    assert_eq!(seats(&hall, PAIR, &one), found(&[1, 3], 3));
}

/// 20 guests in pairs, and 5 + 5 seats.
#[test]
fn a_large_table_seats_pairs() {
    let pairs: Vec<(u64, u64)> = (0..20).map(|n| (n, 1 + n % 10)).collect();
    let fives = TeamComposition { a: 5, b: 5 };
    let seated = [5, 6, 7, 8, 9, 15, 16, 17, 18, 19];
    let pairs = Lounge::of(&pairs);
    assert_eq!(pairs.seats(fives, Kinds::Waiting), found(&seated, 184_756));
    let odd = TeamComposition { a: 2, b: 1 };
    assert_eq!(pairs.seats(odd, Kinds::Waiting), (None, 1140));
}
