//! The safe crate at the counter: what it adds is types, so each refusal that its types still allow is met once.

use yilgashe::{
    Booking, Constraints, Fault, Games, Hall, KeyRecord, Match, MatchObjective, Noted,
    ProposedMatch, Queue, QueueEntry, Refusal, Region, RoleRequirement, Roster, RoundRules, Row,
    SoftObjective, TeamComposition, TeamRule, select, sys, time,
};

const PAIRS: TeamComposition = TeamComposition { a: 1, b: 1 };

fn entry(player: u64) -> QueueEntry {
    QueueEntry {
        player,
        rating: 1000.0,
        ..QueueEntry::default()
    }
}

fn booking(player: u64) -> Booking {
    Booking::of(&entry(player))
}

fn queue(players: u64) -> Queue {
    (1..=players).map(entry).collect()
}

fn rated(ratings: &[f64]) -> Roster {
    (1..)
        .zip(ratings)
        .map(|(player, &rating)| Row {
            player,
            rating,
            ..Row::default()
        })
        .collect()
}

/// A hall with one game, of pairs, for which so many wait.
fn hall(players: u64) -> Hall {
    let mut hall = Hall::new(Games::of([PAIRS]));
    for player in 1..=players {
        hall.book(player, booking(player)).unwrap();
    }
    hall
}

#[test]
fn refusals_print_as_number_and_word() {
    let words = "1 over limit, 2 bad roster, 3 short sheet, 4 clock, 5 unranked, 6 too wide, 7 key clash, 8 book full, \
                 9 already waiting, 10 hall full, 11 not waiting, 12 no seats, 13 no such game";
    let printed: Vec<String> = Refusal::ALL.iter().map(Refusal::to_string).collect();
    assert_eq!(printed.join(", "), words);
    assert_eq!(Refusal::from_number(0), None);
    assert_eq!(Refusal::from_number(14), None);
}

#[test]
fn keyed_refusals() {
    let mut hall = hall(64);
    assert_eq!(hall.book(65, booking(1)), Err(Refusal::AlreadyWaiting));
    assert_eq!(hall.book(66, booking(65)), Err(Refusal::HallFull));
    let late = Booking {
        joined: time::MAX + 1,
        ..booking(65)
    };
    assert_eq!(hall.book(67, late), Err(Refusal::Clock));
    assert_eq!(hall.withdraw(1, 1), Err(Refusal::KeyClash));
    assert_eq!(hall.withdraw(68, 65), Err(Refusal::NotWaiting));
    assert_eq!(hall.noted().len(), 68);
    for key in 69..=1024 {
        assert_eq!(hall.withdraw(key, 65), Err(Refusal::NotWaiting));
    }
    assert_eq!(hall.withdraw(1025, 1), Err(Refusal::BookFull));
    assert_eq!(hall.withdraw(68, 65), Err(Refusal::NotWaiting)); // noted
    assert_eq!(hall.waiting().len(), 64);
}

#[test]
fn who_waits_and_what_is_noted() {
    let mut hall = hall(0);
    let guest = Booking {
        joined: 5,
        party: 6,
        role: 7,
        game: 4,
        ..booking(1)
    };
    assert_eq!(hall.book(8, guest), Ok(()));
    assert_eq!(hall.withdraw(9, 2), Err(Refusal::NotWaiting));
    let record = |key, noted, answer| KeyRecord { key, noted, answer };
    let records = [
        record(8, Noted::Booking(guest), 0),
        record(9, Noted::Withdrawal(2), 11),
    ];
    assert_eq!(hall.noted(), records);
    assert_eq!(records.map(|record| record.noted.player()), [1, 2]);
    assert_eq!(hall.waiting(), [guest]);
}

#[test]
fn a_hall_is_kept_and_taken_up_again() {
    let kept = *hall(3).as_ref();
    let mut again = Hall::from(kept);
    assert_eq!(again.book(2, booking(2)), Ok(()));
    assert_eq!(again.waiting(), hall(3).waiting());
    let mut over = kept;
    over.noted = 1025;
    assert_eq!(Hall::from(over).withdraw(9, 1), Err(Refusal::OverLimit));
}

#[test]
fn rounds_seat_and_refuse() {
    let roster = rated(&[1000.0, 1000.0, 1200.0]);
    let mut beam = hall(3);
    let weights = MatchObjective {
        quality: 1.0,
        ..MatchObjective::default()
    };
    assert_eq!(
        beam.beam_round(33, 0, weights, 0, &roster),
        Err(Refusal::OverLimit)
    );
    let nan = MatchObjective {
        quality: f64::NAN,
        ..weights
    };
    assert_eq!(
        beam.beam_round(8, 0, nan, 0, &roster),
        Err(Refusal::Unranked)
    );
    let seated = beam.beam_round(8, 0, weights, 0, &roster).unwrap();
    let table = Match {
        team_a: &[1],
        team_b: &[2],
        quality: 1.0,
    };
    assert_eq!(seated.iter().collect::<Vec<_>>(), [table]);
    assert_eq!(beam.waiting(), [booking(3)]);
    let free = RoundRules::default();
    let round = hall(21).full_round(0, &free, &[], 0, &roster);
    assert_eq!(round, Err(Refusal::TooWide));
    let none = hall(1).full_round(0, &free, &[], 0, &roster).unwrap();
    assert!(none.matches.is_empty() && none.tried == 0);
    let all = hall(20).full_round(0, &free, &[], 0, &roster).unwrap();
    assert_eq!((all.matches.players(), all.tried), (&[19, 20][..], 190));
    let late = hall(2).greedy_round(0, time::MAX + 1, &roster);
    assert_eq!(late, Err(Refusal::Clock));
}

#[test]
fn lists_that_are_too_long_are_refused() {
    let nobody = Roster::new();
    let table = ProposedMatch::new(&[1], &[2]).unwrap();
    assert_eq!(queue(65).greedy(PAIRS, &nobody), Err(Refusal::OverLimit));
    assert_eq!(ProposedMatch::new(&[0; 9], &[]), Err(Refusal::OverLimit));
    assert_eq!(table.quality(&rated(&[0.0; 129])), Err(Refusal::OverLimit));
    let many = [SoftObjective::Wait(1.0); 9];
    assert_eq!(
        yilgashe::soft_score(&many, &table, &nobody),
        Err(Refusal::OverLimit)
    );
    let tables = [table; 65];
    assert_eq!(
        select::greedy(&many[..1], &tables, &nobody),
        Err(Refusal::OverLimit)
    );
    let pairs = [(Region::Eu, Region::Eu); 17];
    assert_eq!(
        table.keeps_regions(&pairs, &nobody),
        Err(Refusal::OverLimit)
    );
    let need = RoleRequirement {
        role: 1,
        least: 0,
        most: None,
    };
    assert_eq!(
        table.has_roles(&[need; 9], &nobody),
        Err(Refusal::OverLimit)
    );
}

#[test]
fn generators_fill_their_sheets() {
    let nobody = Roster::new();
    let fives = TeamComposition { a: 5, b: 5 };
    let all = queue(20).exhaustive(fives).unwrap();
    assert_eq!(all.len(), 184_756);
    let last = all.iter().last().unwrap();
    assert_eq!(last.team_a, [11, 12, 13, 14, 15]);
    assert_eq!(last.team_b, [16, 17, 18, 19, 20]);
    assert_eq!(queue(21).exhaustive(PAIRS), Err(Refusal::TooWide));
    let none = TeamComposition { a: 0, b: 0 };
    assert_eq!(queue(3).exhaustive(none).unwrap().len(), 1);
    let huge = TeamComposition {
        a: usize::MAX,
        b: 1,
    };
    assert_eq!(queue(3).exhaustive(huge), Err(Refusal::OverLimit));
    assert_eq!(queue(3).nearest(9, none, &nobody), Err(Refusal::NoSeats));
    assert_eq!(queue(64).nearest(99, PAIRS, &nobody).unwrap().len(), 32);
    assert_eq!(queue(64).nearest(3, PAIRS, &nobody).unwrap().len(), 3);
}

#[test]
fn constraints_one_by_one_and_all_together() {
    let row = |player, party, role, region| Row {
        player,
        rating: 1.0,
        party,
        role,
        region,
        ..Row::default()
    };
    let roster: Roster = [
        row(1, 7, 1, Region::Eu),
        row(2, 0, 1, Region::Asia),
        row(3, 7, 2, Region::Eu),
    ]
    .into_iter()
    .collect();
    let table = ProposedMatch::new(&[1], &[2]).unwrap();
    let need = RoleRequirement {
        role: 1,
        least: 1,
        most: Some(1),
    };
    assert_eq!(table.has_sizes(PAIRS), Ok(true));
    assert_eq!(table.has_roles(&[need], &roster), Ok(false));
    assert_eq!(table.keeps_parties(&roster), Ok(false));
    assert_eq!(table.meets_latency(&roster), Ok(true));
    let allowed = vec![(Region::Asia, Region::Eu)];
    assert_eq!(table.keeps_regions(&allowed, &roster), Ok(true));
    let mut rules = Constraints {
        sizes: Some(PAIRS),
        latency: true,
        regions: Some(allowed),
        ..Constraints::default()
    };
    let wishes = [SoftObjective::Wait(4.0)];
    assert_eq!(rules.score(&wishes, &table, &roster), Ok(2.0));
    rules.parties = true;
    let score = rules.score(&wishes, &table, &roster);
    assert_eq!(score, Ok(f64::NEG_INFINITY));
    let rule = TeamRule {
        size: 2,
        roles: vec![need],
    };
    assert_eq!(rule.validate(&[1, 3], &roster), Ok(None));
    assert_eq!(rule.validate(&[1], &roster), Ok(Some(Fault::WrongSize)));
    let many = rule.validate(&[1, 2], &roster);
    assert_eq!(many, Ok(Some(Fault::TooMany(0))));
    let few = rule.validate(&[3, 4], &roster);
    assert_eq!(few, Ok(Some(Fault::TooFew(0))));
}

#[test]
fn selections_answer_places() {
    let roster = rated(&[1000.0, 1100.0, 1200.0, 1000.0]);
    let against = |b| ProposedMatch::new(&[1], &[b]).unwrap();
    let tables = [against(3), against(2), against(4), against(2)];
    let skill = [SoftObjective::Skill(1.0)];
    assert_eq!(select::greedy(&skill, &tables, &roster), Ok(Some(2)));
    assert_eq!(
        select::threshold(0.7, &skill, &tables, &roster),
        Ok(Some(1))
    );
    assert_eq!(select::threshold(2.0, &skill, &tables, &roster), Ok(None));
    let kept = select::lexicographic(&skill, &tables[..2], &roster);
    assert_eq!(kept, Ok(vec![1]));
    let weights = yilgashe::vector::default_weights();
    let order = select::weighted(weights, &tables, &roster);
    assert_eq!(order, Ok(vec![2, 1, 3, 0]));
    assert_eq!(select::greedy(&skill, &[], &roster), Ok(None));
}

#[test]
fn queues_and_best_choices() {
    let mut three = queue(3);
    let choice = three
        .best_choice(PAIRS, &Constraints::default(), &[], &Roster::new())
        .unwrap();
    assert_eq!(choice.best, ProposedMatch::new(&[2], &[3]).ok());
    assert_eq!(choice.tried, 3);
    assert_eq!(three.remove_batch(&[3, 1]), Ok(vec![entry(1), entry(3)]));
    assert_eq!(three.entries(), [entry(2)]);
    let late = QueueEntry {
        joined: time::MAX + 1,
        ..entry(9)
    };
    assert_eq!(three.enqueue(late), Err(Refusal::Clock));
    assert_eq!(three.len(), 1);
    assert_eq!(Queue::from(sys::queue_empty()).len(), 0);
    let score = ProposedMatch::new(&[2], &[]).unwrap().score(
        MatchObjective {
            wait: 1.0,
            ..MatchObjective::default()
        },
        &three,
        &Roster::new(),
        60_000_000_000,
    );
    assert_eq!(score, Ok(-1.0));
}

/// A queue of guests with these ratings; a guest may stand in it twice.
fn exported(entries: &[(u64, f64)]) -> Queue {
    let rated = |&(player, rating)| QueueEntry {
        rating,
        ..entry(player)
    };
    entries.iter().map(rated).collect()
}

#[test]
fn a_queue_from_the_old_counter() {
    const TWO: TeamComposition = TeamComposition { a: 2, b: 2 };
    let table = [(1, 1000.0), (2, 1280.0), (3, 1010.0), (4, 1090.0)];
    let roster = rated(&table.map(|(_, rating)| rating));
    let greedy = |entries: &[(u64, f64)]| exported(entries).greedy(TWO, &roster).unwrap();
    let plain = greedy(&table);
    assert_eq!(plain.players(), [1, 4, 3, 2]);
    // Copies behind their entries change nothing.
    let [one, two, three, four] = table;
    let doubled = [one, two, one, three, two, four, three];
    assert_eq!(greedy(&doubled), plain);
    // Another rating is no copy: guest 2 is drawn by the nearer one, and sits once.
    let nearer = greedy(&[one, two, three, four, (2, 1005.0)]);
    assert_eq!(nearer.players(), [1, 3, 2, 4]);
    let by_quality = MatchObjective {
        quality: 1.0,
        ..MatchObjective::default()
    };
    let beam = exported(&doubled).beam(8, TWO, by_quality, &roster, 0);
    let mut seated = beam.unwrap().players().to_vec();
    seated.sort_unstable();
    assert_eq!(seated, [1, 2, 3, 4]);
}

/// Guests 1, 2 and 3; the last two are as near to the first, and joined at these times.
fn tied(second: u64, third: u64) -> [QueueEntry; 3] {
    [(1, 0, 1000.0), (2, second, 1010.0), (3, third, 990.0)].map(|(player, joined, rating)| {
        QueueEntry {
            joined,
            rating,
            ..entry(player)
        }
    })
}

/// The bare search goes by the joined time, then by the place, and the round as the search.
#[test]
fn equal_distance_goes_to_the_longer_wait() {
    let roster = rated(&[1000.0, 1010.0, 990.0]);
    for (second, third, picked) in [(5, 5, 2), (5, 6, 2), (5, 4, 3)] {
        let guests = tied(second, third);
        let queue: Queue = guests.into_iter().collect();
        let searched = queue.greedy(PAIRS, &roster).unwrap();
        assert_eq!(searched.players(), [1, picked]);
        let mut hall = hall(0);
        for guest in &guests {
            hall.book(guest.player, Booking::of(guest)).unwrap();
        }
        assert_eq!(hall.greedy_round(0, 9, &roster), Ok(searched));
    }
}

/// A copy that joined earlier than the entry that it copies is no copy: it may take a seat.
#[test]
fn an_earlier_copy_may_take_a_seat() {
    let roster = rated(&[1000.0, 1010.0, 990.0]);
    let [one, two, three] = tied(5, 5);
    for (joined, picked) in [(5, 2), (6, 2), (4, 3)] {
        let copy = QueueEntry { joined, ..three };
        let queue: Queue = [one, two, three, copy].into_iter().collect();
        let searched = queue.greedy(PAIRS, &roster).unwrap();
        assert_eq!(searched.players(), [1, picked]);
    }
}

const THREE: TeamComposition = TeamComposition { a: 2, b: 1 };
const ONE: TeamComposition = TeamComposition { a: 1, b: 0 };

/// Those who wait for a game of these sizes, each with the party that he booked with. A hall that was kept elsewhere may have somebody twice.
fn parties(sizes: TeamComposition, waiting: &[(u64, u64)]) -> Hall {
    let booked = |&(player, party)| sys::Booking {
        party,
        ..booking(player).into()
    };
    let bookings: Vec<sys::Booking> = waiting.iter().map(booked).collect();
    Hall::from(sys::Hall::of(Games::of([sizes]), &bookings, &[]))
}

/// Guests with these parties, as the roster has them.
fn rostered(rows: &[(u64, u64)]) -> Roster {
    let row = |&(player, party)| Row {
        player,
        rating: 1000.0,
        party,
        ..Row::default()
    };
    rows.iter().map(row).collect()
}

/// Friends by the roster, by their bookings, or both.
fn friends(parties: bool, waiting_friends: bool) -> RoundRules {
    RoundRules {
        constraints: Constraints {
            parties,
            ..Constraints::default()
        },
        waiting_friends,
    }
}

/// Whom a full round seats that scores all choices alike: the last of those that pass.
fn seats(hall: &mut Hall, rules: &RoundRules, roster: &Roster) -> Vec<u64> {
    let round = hall.full_round(0, rules, &[], 0, roster).unwrap();
    round.matches.players().to_vec()
}

/// Guest 9 is of guest 1's party, and did not come.
#[test]
fn a_friend_at_home_holds_back_by_the_roster_alone() {
    let roster = rostered(&[(1, 5), (2, 0), (9, 5)]);
    let mut hall = parties(PAIRS, &[(1, 5), (2, 0)]);
    let by_roster = friends(true, false);
    assert_eq!(by_roster, RoundRules::from(by_roster.constraints.clone()));
    assert_eq!(seats(&mut hall, &by_roster, &roster), []);
    assert_eq!(seats(&mut hall, &friends(true, true), &roster), []);
    assert_eq!(hall.waiting().len(), 2);
    let by_bookings = friends(false, true);
    assert_eq!(seats(&mut hall, &by_bookings, &roster), [1, 2]);
    assert!(hall.waiting().is_empty());
}

#[test]
fn friends_who_wait_are_seated_together_or_not_at_all() {
    let nobody = Roster::new();
    let (free, together) = (RoundRules::default(), friends(false, true));
    let guests = [(1, 7), (2, 0), (3, 7)];
    assert_eq!(seats(&mut parties(PAIRS, &guests), &free, &nobody), [2, 3]);
    let mut hall = parties(PAIRS, &guests);
    assert_eq!(seats(&mut hall, &together, &nobody), [1, 3]);
    assert_eq!(hall.waiting(), [booking(2)]);
    // One seat parts them; a third friend does not fit.
    assert_eq!(seats(&mut parties(ONE, &guests), &together, &nobody), [2]);
    let three = [(1, 7), (2, 7), (3, 7)];
    let mut hall = parties(PAIRS, &three);
    let round = hall.full_round(0, &together, &[], 0, &nobody).unwrap();
    assert!(round.matches.is_empty() && round.tried == 3);
    assert_eq!(hall.waiting().len(), 3);
}

/// Party 0 is none in a booking, and what the roster says of the parties of those who wait binds nobody here.
#[test]
fn only_parties_of_bookings_make_waiting_friends() {
    let roster = rostered(&[(1, 5), (2, 0), (3, 5)]);
    let guests = [(1, 0), (2, 0), (3, 0)];
    let seats = |rules| seats(&mut parties(PAIRS, &guests), &rules, &roster);
    assert_eq!(seats(friends(false, true)), [2, 3]);
    assert_eq!(seats(friends(true, false)), [1, 3]);
    assert_eq!(seats(friends(true, true)), [1, 3]);
}

/// Guests 1 and 3 come together; on the roster 1 and 2 are friends.
#[test]
fn both_kinds_of_parties_at_once() {
    let roster = rostered(&[(1, 5), (2, 5), (3, 0), (4, 0)]);
    let guests = [(1, 7), (2, 0), (3, 7), (4, 0)];
    let seats = |rules| seats(&mut parties(THREE, &guests), &rules, &roster);
    assert_eq!(seats(friends(false, false)), [2, 3, 4]);
    assert_eq!(seats(friends(false, true)), [1, 3, 4]);
    assert_eq!(seats(friends(true, false)), [1, 2, 4]);
    assert_eq!(seats(friends(true, true)), [1, 2, 3]);
}

/// Guest 2 waits twice, with two parties, and has the friends of both.
#[test]
fn a_guest_of_two_parties() {
    let (nobody, together) = (Roster::new(), friends(false, true));
    let guests = [(1, 7), (2, 7), (2, 8), (3, 8)];
    let mut pairs = parties(PAIRS, &guests);
    assert_eq!(seats(&mut pairs, &together, &nobody), []);
    assert_eq!(pairs.waiting().len(), 4);
    let mut three = parties(THREE, &guests);
    assert_eq!(seats(&mut three, &together, &nobody), [1, 2, 3]);
    assert!(three.waiting().is_empty());
}
