//! Every field of every struct through the library: each is filled with a value of its own, sent through a call that hands it back
//! or answers by it, and compared. A field at another place or of another width shows.

use std::array::from_fn;
use yilgashe_sys::*;

const LATE: u64 = (1 << 53) + 1;

/// Numbers whose bytes all differ, one for each n.
fn wide(n: u64) -> u64 {
    0x0123_4567_89ab_cd00 + n
}

fn entry(n: u64) -> QueueEntry {
    QueueEntry {
        player: wide(n),
        joined: 0x0010_2030_4050_6000 + n,
        rating: 1000.5 + n as f64,
        party: !wide(n),
        role: 0x89ab_cd00 + n as u32,
    }
}

/// 64 entries, by 64 calls.
fn full_queue() -> Queue {
    (0..64).fold(queue_empty(), |queue, n| {
        let after = queue_enqueue(queue, entry(n));
        assert_eq!((after.refusal, after.queue.len), (0, n as usize + 1));
        after.queue
    })
}

fn team<const N: usize>(players: [u64; N]) -> Team {
    Team {
        players: from_fn(|place| players.get(place).copied().unwrap_or(0)),
        len: N,
    }
}

/// Guest x against guest y.
fn pair(x: u64, y: u64) -> ProposedMatch {
    ProposedMatch {
        a: team([x]),
        b: team([y]),
    }
}

/// Teams of 8, all different: A's are wide(0) to wide(7), B's wide(8) to wide(15).
fn full_match() -> ProposedMatch {
    ProposedMatch {
        a: team(from_fn::<u64, 8, _>(|n| wide(n as u64))),
        b: team(from_fn::<u64, 8, _>(|n| wide(8 + n as u64))),
    }
}

fn no_requirements() -> RoleRequirements {
    let blank = RoleRequirement {
        role: 0,
        least: 0,
        bounded: false,
        most: 0,
    };
    RoleRequirements {
        of: [blank; 8],
        len: 0,
    }
}

fn region_pairs(pairs: [(u8, u8); 16], count: usize) -> RegionConstraint {
    RegionConstraint {
        pairs: pairs.map(|(first, second)| RegionPair { first, second }),
        count,
    }
}

fn no_rules() -> Constraints {
    Constraints {
        brought: Brought::default(),
        sizes: TeamSizeConstraint { a: 0, b: 0 },
        roles: no_requirements(),
        regions: region_pairs([(0, 0); 16], 0),
    }
}

fn wishes(kind: u8, weight: f64) -> SoftObjectives {
    SoftObjectives {
        kinds: [kind, 0, 0, 0, 0, 0, 0, 0],
        weights: [weight, 0.0, 0.0, 0.0, 0.0, 0.0, 0.0, 0.0],
        len: 1,
    }
}

#[test]
fn entries_of_a_queue() {
    let mut queue = full_queue();
    let more = queue_enqueue(queue, entry(64));
    assert_eq!((more.refusal, more.queue.len), (1, 64));
    assert!((0..64).all(|n| more.queue.entries[n as usize] == entry(n)));
    for n in 0..64 {
        let taken = queue_remove(queue, wide(n));
        assert_eq!((taken.refusal, taken.found), (0, true));
        assert_eq!(taken.entry, entry(n));
        queue = taken.queue;
        assert_eq!(queue.len, 63 - n as usize);
        assert!(n == 63 || queue.entries[0] == entry(n + 1));
    }
    assert!(!queue_remove(queue, wide(0)).found);
    queue.len = 65;
    assert_eq!(queue_remove(queue, wide(0)).refusal, 1);
}

#[test]
fn both_queues_of_a_batch() {
    let mut queue = full_queue();
    let parted = queue_remove_batch(queue, &[wide(63), wide(1)]);
    assert_eq!(
        (parted.refusal, parted.kept.len, parted.removed.len),
        (0, 62, 2)
    );
    assert_eq!(parted.kept.entries[0], entry(0));
    assert_eq!(parted.kept.entries[61], entry(62));
    assert_eq!(parted.removed.waiting(), [entry(1), entry(63)]);
    queue.entries[63].joined = LATE;
    assert_eq!(queue_remove_batch(queue, &[]).refusal, 4);
}

#[test]
fn times() {
    let queue = full_queue();
    let long = wide(0) / 1024;
    let waited = queue_waiting_time(queue, wide(5), entry(5).joined + long);
    assert_eq!(
        (waited.nanos, waited.found, waited.refusal),
        (long, true, 0)
    );
    let nobody = queue_waiting_time(queue, 1, 0);
    assert_eq!((nobody.nanos, nobody.found, nobody.refusal), (0, false, 0));
    assert_eq!(queue_waiting_time(queue, 1, LATE).refusal, 4);
    let gone = time_duration_since(LATE - 1, 1);
    assert_eq!((gone.nanos, gone.refusal), (LATE - 2, 0));
    assert_eq!(time_duration_since(LATE, 0).refusal, 4);
    let told = time_as_secs_f64(1_500_000_000);
    assert_eq!((told.seconds, told.refusal), (1.5, 0));
    assert_eq!(time_as_secs_f64(LATE).refusal, 4);
}

/// Each column must be as long as the others, and a region code at most 4.
#[test]
fn columns_of_a_roster() {
    let check = |len: [usize; 6]| {
        roster_check(
            &[1, 2][..len[0]],
            &[1.0, 2.0][..len[1]],
            &[3.0, 4.0][..len[2]],
            &[0, 0][..len[3]],
            &[0, 0][..len[4]],
            &[4, 5][..len[5]],
        )
    };
    assert_eq!(check([1; 6]), 0);
    for column in 0..6 {
        assert_eq!(check(from_fn(|n| if n == column { 2 } else { 1 })), 2);
    }
    assert_eq!(check([2; 6]), 2);
}

/// With one guest rostered, the quality says whether he is seated, at each of the 16 seats.
#[test]
fn seats_of_a_match() {
    for n in 0..16 {
        let rating = 160.0 * (n + 1) as f64;
        let seated = match_quality(full_match(), &[wide(n)], &[rating]);
        assert_eq!(seated.value, 1.0 - 20.0 * (n + 1) as f64 / 400.0);
        assert_eq!(seated.refusal, 0);
        let mut without = full_match();
        let side = if n < 8 {
            &mut without.a
        } else {
            &mut without.b
        };
        side.players[n as usize % 8] = 0;
        assert_eq!(match_quality(without, &[wide(n)], &[rating]).value, 1.0);
    }
    let (mut long_a, mut long_b) = (full_match(), full_match());
    long_a.a.len = 9;
    long_b.b.len = 9;
    assert_eq!(match_quality(long_a, &[], &[]).refusal, 1);
    assert_eq!(match_quality(long_b, &[], &[]).refusal, 1);
}

/// Quality 0.75, a wait of 2 minutes, an average deviation of 175 / 350. The ping is 0.0: only an infinite weight shows.
#[test]
fn weights_of_a_score() {
    let first = QueueEntry {
        player: 1,
        ..QueueEntry::default()
    };
    let score = |objective, deviations: &[f64]| {
        match_score(
            objective,
            pair(1, 2),
            Queue::of(&[first]),
            &[1, 2],
            &[1000.0, 1100.0],
            deviations,
            120_000_000_000,
        )
    };
    let weights = MatchObjective {
        quality: 1000.0,
        wait: 10.0,
        ping: 1.0,
        uncertainty: 4.0,
    };
    let told = score(weights, &[100.0, 250.0]);
    assert_eq!(
        (told.value, told.refusal),
        (1000.0 * 0.75 - 10.0 * 2.0 - 4.0 * 0.5, 0)
    );
    let ping = f64::INFINITY;
    assert!(
        score(MatchObjective { ping, ..weights }, &[100.0, 250.0])
            .value
            .is_nan()
    );
    assert_eq!(score(weights, &[100.0]).refusal, 2);
}

/// At each of the 8 places, each kind with a weight of its own.
#[test]
fn places_of_soft_objectives() {
    let (ids, ratings) = ([1, 2], [100.0, 60.0]);
    let values = [1.0 - 40.0 / 400.0, 1.0 - 80.0 / 200.0, 0.5];
    for n in 0..8 {
        for kind in 0..3 {
            let mut wished = wishes(0, 0.0);
            wished.kinds[n] = kind;
            wished.weights[n] = 3.0 + n as f64;
            wished.len = 8;
            let value = values[kind as usize];
            let told = soft_score(wished, pair(1, 2), &ids, &ratings);
            assert_eq!((told.value, told.refusal), ((3.0 + n as f64) * value, 0));
            wished.len = n;
            assert_eq!(soft_score(wished, pair(1, 2), &ids, &ratings).value, 0.0);
            assert_eq!(
                soft_value(kind, 7.0, pair(1, 2), &ids, &ratings).value,
                value
            );
        }
    }
    assert_eq!(soft_value(3, 1.0, pair(1, 2), &ids, &ratings).refusal, 1);
}

#[test]
fn coordinates_of_a_vector() {
    let weights = ObjectiveWeights {
        skill: 2.0,
        role: 3.0,
        latency: 5.0,
        party: 7.0,
        wait: 11.0,
        utilization: 13.0,
    };
    let signed = [2.0, 3.0, 5.0, 7.0, -11.0, 13.0];
    let zeros = vector_default();
    assert_eq!(zeros.coordinates(), [0.0; 6]);
    for (n, weight) in signed.into_iter().enumerate() {
        let vector = MatchObjectiveVector::of(from_fn(|at| if at == n { 1.5 } else { 0.0 }));
        assert_eq!(vector_scalarize(vector, weights), 1.5 * weight);
        assert_eq!(vector_dominates(vector, zeros), n != 4);
        assert_eq!(vector_dominates(zeros, vector), n == 4);
    }
    let usual = weights_default();
    assert_eq!((usual.skill, usual.role, usual.latency), (1.0, 0.5, 0.3));
    assert_eq!(
        (usual.party, usual.wait, usual.utilization),
        (0.2, 0.8, 0.0)
    );
}

/// At each of the 8 places, a requirement of its own that fails by its minimum, then by its maximum.
#[test]
fn places_of_requirements() {
    let (ids, roles) = ([1, 2, 3], [0x89ab_cdef, 0x89ab_cdef, 7]);
    let validate = |size, asked| team_validate(size, asked, team([1, 2, 3]), &ids, &roles);
    let satisfied = |asked| roles_satisfied(asked, pair(1, 2), &ids, &roles);
    for n in 0..8 {
        let mut asked = no_requirements();
        asked.len = n + 1;
        asked.of[n].role = 0x89ab_cdef;
        asked.of[n].least = 3;
        let few = validate(3, asked);
        assert_eq!((few.refusal, few.fault, few.place), (0, 2, n));
        asked.of[n].least = 2;
        asked.of[n].most = 1;
        assert_eq!(validate(3, asked).fault, 0);
        assert!(satisfied(asked).satisfied);
        asked.of[n].bounded = true;
        let many = validate(3, asked);
        assert_eq!((many.fault, many.place), (3, n));
        assert!(!satisfied(asked).satisfied);
        assert_eq!(validate(2, asked).fault, 1);
        asked.len = 9;
        assert_eq!(
            (validate(3, asked).refusal, satisfied(asked).refusal),
            (1, 1)
        );
    }
}

/// Region 1 meets region 2 only by the pair at one of the 16 places, which no shorter list has.
#[test]
fn places_of_region_pairs() {
    let told = |allowed| regions_satisfied(allowed, pair(1, 2), &[1, 2], &[1, 2]);
    for n in 0..16 {
        let pairs = from_fn(|at| if at == n { (2, 1) } else { (0, 0) });
        let all = told(region_pairs(pairs, 16));
        assert_eq!((all.satisfied, all.refusal), (true, 0));
        assert!(!told(region_pairs(pairs, n)).satisfied);
        assert!(
            !told(region_pairs(
                from_fn(|at| if at == n { (2, 0) } else { (0, 0) }),
                16
            ))
            .satisfied
        );
    }
    assert_eq!(told(region_pairs([(0, 5); 16], 1)).refusal, 2);
}

/// Constraint n is brought alone and violated, and no other would be; at last all are brought and met.
#[test]
fn parts_of_constraints() {
    for n in 0..6 {
        let mut rules = no_rules();
        let [sizes, roles, parties, latency, regions] = from_fn(|kind| n == kind || n == 5);
        rules.brought = Brought {
            sizes,
            roles,
            parties,
            latency,
            regions,
        };
        rules.sizes = TeamSizeConstraint {
            a: 1,
            b: if n == 0 { 2 } else { 1 },
        };
        rules.roles.of[0].role = 5;
        rules.roles.of[0].least = if n == 1 { 1 } else { 0 };
        rules.roles.len = 1;
        rules.regions = region_pairs([(1, if n == 4 { 1 } else { 2 }); 16], 1);
        let ratings = [if n == 3 { -1.0 } else { 1.0 }, 1.0, 1.0];
        let parties = [9, 0, if n == 2 { 9 } else { 8 }];
        let told = constraints_satisfied(
            rules,
            pair(1, 2),
            &[1, 2, 3],
            &ratings,
            &parties,
            &[0; 3],
            &[1, 2, 1],
        );
        assert_eq!((told.satisfied, told.refusal), (n == 5, 0));
        let score = policy_score(
            rules,
            wishes(2, 6.0),
            pair(1, 2),
            &[1, 2, 3],
            &ratings,
            &parties,
            &[0; 3],
            &[1, 2, 1],
        );
        let due = if n == 5 { 3.0 } else { f64::NEG_INFINITY };
        assert_eq!((score.value, score.refusal), (due, 0));
    }
}

#[test]
fn constraints_by_themselves() {
    let mut proposed = full_match();
    (proposed.a.len, proposed.b.len) = (3, 5);
    assert!(sizes_satisfied(TeamSizeConstraint { a: 3, b: 5 }, proposed).satisfied);
    assert!(!sizes_satisfied(TeamSizeConstraint { a: 5, b: 3 }, proposed).satisfied);
    proposed.a.len = 9;
    assert_eq!(
        sizes_satisfied(TeamSizeConstraint { a: 5, b: 3 }, proposed).refusal,
        1
    );
    assert!(parties_satisfied(pair(1, 3), &[1, 2, 3], &[9, 0, 9]).satisfied);
    assert!(!parties_satisfied(pair(1, 2), &[1, 2, 3], &[9, 0, 9]).satisfied);
    assert!(latency_satisfied(pair(2, 2), &[1, 2], &[-1.0, 1.0]).satisfied);
    assert!(!latency_satisfied(pair(1, 2), &[1, 2], &[-1.0, 1.0]).satisfied);
}

/// 64 candidates of different quality: their order names every place.
#[test]
fn places_of_candidates() {
    let ids: [u64; 65] = from_fn(|n| wide(n as u64));
    let ratings: [f64; 65] = from_fn(|n| 1000.0 + (n * 37 % 64) as f64);
    let mut all = Candidates {
        of: from_fn(|n| pair(wide(n as u64), wide(64))),
        len: 64,
    };
    let skill = wishes(0, 1.0);
    let mut weights = vector_default();
    weights.skill = 1.0;
    let order = select_weighted(weights, all, &ids, &ratings);
    assert_eq!((order.refusal, order.len), (0, 64));
    assert!((0..64).all(|n| order.places[n] < 64 && order.places[n] * 37 % 64 == n));
    assert_eq!(select_greedy(skill, all, &ids, &ratings).chosen(), [0]);
    assert_eq!(
        select_threshold(0.9975, skill, all, &ids, &ratings).chosen(),
        [0]
    );
    assert_eq!(
        select_lexicographic(skill, all, &ids, &ratings).chosen(),
        [0]
    );
    all.len = 65;
    assert_eq!(select_greedy(skill, all, &ids, &ratings).refusal, 1);
}

/// Four guests wait.
const IDS: [u64; 4] = [1, 2, 3, 4];
const RATINGS: [f64; 4] = [1000.0, 1280.0, 1010.0, 1090.0];
const TWO_ONE: TeamComposition = TeamComposition { a: 2, b: 1 };
const ONE_TWO: TeamComposition = TeamComposition { a: 1, b: 2 };
const QUALITY: MatchObjective = MatchObjective {
    quality: 1.0,
    wait: 0.0,
    ping: 0.0,
    uncertainty: 0.0,
};

fn four() -> Queue {
    Queue::of(&from_fn::<QueueEntry, 4, _>(|n| QueueEntry {
        player: IDS[n],
        rating: RATINGS[n],
        ..QueueEntry::default()
    }))
}

/// Sheets whose untouched places can be told.
fn sheets() -> ([u64; 64], [f64; 64]) {
    ([u64::MAX; 64], [-1.0; 64])
}

/// Teams of 2 and 1 are not teams of 1 and 2.
#[test]
fn sizes_and_sheets_of_searches() {
    let (mut players, mut qualities) = sheets();
    let told = search_greedy(
        four(),
        TWO_ONE,
        &IDS,
        &RATINGS,
        &mut players,
        &mut qualities,
    );
    assert_eq!((told.refusal, told.count), (0, 1));
    assert_eq!(
        (&players[..4], qualities[1]),
        (&[1, 4, 3, u64::MAX][..], -1.0)
    );
    let short = search_greedy(
        four(),
        TWO_ONE,
        &IDS,
        &RATINGS,
        &mut players[1..],
        &mut qualities,
    );
    assert_eq!(short.refusal, 3);
    let (mut players, mut qualities) = sheets();
    search_greedy(
        four(),
        ONE_TWO,
        &IDS,
        &RATINGS,
        &mut players,
        &mut qualities,
    );
    assert_eq!(
        (&players[..4], qualities[0]),
        (&[1, 3, 4, u64::MAX][..], 1.0 - 50.0 / 400.0)
    );
}

#[test]
fn width_of_a_beam() {
    let (mut players, mut qualities) = sheets();
    let mut beam = |width| {
        search_beam(
            BeamSearch { width },
            four(),
            ONE_TWO,
            QUALITY,
            &IDS,
            &RATINGS,
            &[0.0; 4],
            0,
            &mut players,
            &mut qualities,
        )
    };
    assert_eq!((beam(33).refusal, beam(33).count), (1, 0));
    assert_eq!((beam(32).refusal, beam(32).count), (0, 1));
    assert_eq!(players[..4], [1, 3, 4, u64::MAX]);
}

#[test]
fn matches_of_generators() {
    let (mut players, mut qualities) = sheets();
    let one = GreedyNearestGenerator { max: 1 };
    let near = generate_nearest(
        one,
        four(),
        ONE_TWO,
        &IDS,
        &RATINGS,
        &mut players,
        &mut qualities,
    );
    assert_eq!((near.refusal, near.count), (0, 1));
    assert_eq!(
        (&players[..4], qualities[0]),
        (&[1, 3, 4, u64::MAX][..], 0.0)
    );
    let (mut players, mut qualities) = sheets();
    let all = generate_exhaustive(four(), TWO_ONE, &mut players[..12], &mut qualities[..4]);
    assert_eq!((all.refusal, all.count), (0, 4));
    assert_eq!(players[..6], [1, 2, 3, 1, 2, 4]);
    assert_eq!((players[11], players[12]), (4, u64::MAX));
    assert_eq!((qualities[3], qualities[4]), (0.0, -1.0));
}

/// 16 guests for two teams of 8: one choice, which names every seat of the answer.
#[test]
fn seats_of_a_choice() {
    let queue = Queue::of(&from_fn::<QueueEntry, 16, _>(|n| entry(n as u64)));
    let best = |queue, a, rules| {
        let sizes = TeamComposition { a, b: a };
        best_choice(
            queue,
            sizes,
            rules,
            wishes(2, 1.0),
            &IDS,
            &RATINGS,
            &[0; 4],
            &[0; 4],
            &[0; 4],
        )
    };
    let told = best(queue, 8, no_rules());
    assert_eq!((told.refusal, told.found, told.tried), (0, true, 1));
    assert_eq!(told.teams.a.seated(), full_match().a.seated());
    assert_eq!(told.teams.b.seated(), full_match().b.seated());
    let mut rules = no_rules();
    rules.brought.sizes = true;
    let none = best(queue, 1, rules);
    assert_eq!((none.refusal, none.found, none.tried), (0, false, 120));
    let wide = best(full_queue(), 1, rules);
    assert_eq!((wide.refusal, wide.found, wide.tried), (6, false, 0));
}

/// A note that holds its guest alone.
fn note_of_guest(player: u64, kind: u8, answer: u8) -> Note {
    Note {
        player,
        kind,
        answer,
        ..Note::default()
    }
}

/// The n-th booking, for each game by turns.
fn booking(n: u64) -> Booking {
    Booking {
        game: n as u8 % 8,
        ..Booking::of(&entry(n))
    }
}

fn answered(hall: &Hall) -> Vec<(u64, Note)> {
    hall.answered().collect()
}

/// Is it the same hall, in every field that means anything?
fn same(one: &Hall, other: &Hall) -> bool {
    (one.waiting, one.noted, one.served) == (other.waiting, other.noted, other.served)
        && one.booked() == other.booked()
        && one.answered().eq(other.answered())
        && one.sizes == other.sizes
}

/// The answer of a call that leaves the hall as it was.
fn idle(hall: &Hall, told: Keyed) -> u8 {
    assert!(same(&told.hall, hall));
    told.refusal
}

/// What a booking gets that changes nothing.
fn books(hall: &Hall, key: u64, booking: Booking) -> u8 {
    idle(hall, hall_book(*hall, key, booking))
}

/// And a withdrawal.
fn leaves(hall: &Hall, key: u64, player: u64) -> u8 {
    idle(hall, hall_withdraw(*hall, key, player))
}

/// Eight games of nine seats, no two alike: 1 and 8, 2 and 7, .., 8 and 1.
fn nines() -> Games {
    Games::of::<8>(from_fn(|g| TeamComposition { a: g + 1, b: 8 - g }))
}

/// The sizes of all games stand in the empty hall. Those over 8 are refused by the next call, which hands them back.
#[test]
fn sizes_of_all_games() {
    let own = |n| wide(n as u64) as usize;
    let games = Games::of::<8>(from_fn(|g| TeamComposition {
        a: own(2 * g),
        b: own(2 * g + 1),
    }));
    let hall = hall_empty(games);
    assert_eq!((hall.waiting, hall.noted, hall.served), (0, 0, NONE_SERVED));
    assert_eq!(hall.sizes, games.sizes);
    let told = hall_book(hall, 1, booking(0));
    assert_eq!((told.refusal, told.hall.noted), (1, 0));
    assert_eq!(told.hall.sizes, games.sizes);
    assert_eq!(Games::of([TWO_ONE]).sizes[0], TWO_ONE);
    assert_eq!(Games::of([TWO_ONE]).sizes[1..], Games::default().sizes[1..]);
}

/// Each booking waits as it came, and its key gets its note; the 65th meets a full hall, and a resend the noted answer.
#[test]
fn fields_of_bookings() {
    let mut hall = hall_empty(nines());
    hall.served = 3;
    for n in 0..65 {
        let told = hall_book(hall, !wide(n), booking(n));
        assert_eq!(told.refusal, if n == 64 { 10 } else { 0 });
        hall = told.hall;
        let note = Note::of(&booking(n), told.refusal);
        assert_eq!(hall.answered().last(), Some((!wide(n), note)));
        assert_eq!((hall.sizes, hall.served), (nines().sizes, 3));
    }
    let again = hall_book(hall, !wide(64), booking(64));
    assert_eq!((again.refusal, again.hall.noted), (10, 65));
    assert_eq!(again.hall.waiting, 64);
    assert!((0..64).all(|n| again.hall.bookings[n as usize] == booking(n)));
    let left = hall_withdraw(hall, 5, wide(0));
    assert_eq!((left.refusal, left.hall.waiting), (0, 63));
    assert_eq!(left.hall.bookings[62], booking(63));
    assert_eq!(left.hall.bookings[62].entry(), entry(63));
    let gone = hall_withdraw(left.hall, 6, wide(0));
    assert_eq!(gone.refusal, 11);
    let [first, second] = [0, 11].map(|answer| note_of_guest(wide(0), WITHDRAWAL, answer));
    assert_eq!(answered(&gone.hall)[65..], [(5, first), (6, second)]);
    assert_eq!((gone.hall.sizes, gone.hall.served), (nines().sizes, 3));
}

/// The answers that bookings can get, and those of withdrawals.
const BOOKED: [u8; 5] = [0, 4, 9, 10, 13];
const LEFT: [u8; 2] = [0, 11];

/// 1,024 keys and notes, every field of its own, by turns of the three kinds.
fn all_notes() -> Vec<(u64, Note)> {
    let own = |n: u64| {
        let kind = (n / 5 % 3) as u8;
        let note = Note {
            player: 0x99aa_bbcc_ddee_0000 + n,
            joined: 0x5060_7080_90a0_0000 + n,
            rating_bits: 0x7ff1_2345_6789_a000 + n, // a NaN that would be quieted on the way through arithmetic
            party: 0xb0c0_d0e0_f0a1_0000 + n,
            role: 0xbbcc_0000 + n as u32,
            game: (37 * n) as u8,
            kind,
            answer: if kind == WITHDRAWAL {
                LEFT[n as usize % 2]
            } else {
                BOOKED[n as usize % 5]
            },
        };
        (0x1122_3344_5566_0000 + n, note)
    };
    (0..1024).map(own).collect()
}

/// They come back from a call that is refused, and answer by any of them. So does each booking's game, though no call accepts one over 7.
#[test]
fn fields_of_notes() {
    let notes = all_notes();
    let bookings: [Booking; 64] = from_fn(|n| Booking {
        game: 0x95 + n as u8,
        ..Booking::of(&entry(n as u64))
    });
    let hall = Hall::of(nines(), &bookings, &notes);
    let nowhere = Booking {
        game: 8,
        ..booking(0)
    };
    let told = hall_book(hall, 1, nowhere);
    assert_eq!(told.refusal, 8);
    assert_eq!(answered(&told.hall), notes);
    assert_eq!(told.hall.booked(), bookings);
    for &(key, note) in notes.iter().step_by(31) {
        let calls = (
            books(&hall, key, note.booking()),
            leaves(&hall, key, note.player),
        );
        let due = if note.kind == WITHDRAWAL {
            (7, note.answer)
        } else {
            (note.answer, 7)
        };
        assert_eq!(calls, due);
    }
}

/// A kind or an answer that no call notes answers nobody.
#[test]
fn notes_of_no_call() {
    for kind in [BOOKING, WITHDRAWAL, OLDER_BOOKING, 3, 255] {
        for answer in 0..=255 {
            let note = Note {
                kind,
                ..Note::of(&booking(0), answer)
            };
            let hall = Hall::of(Games::default(), &[], &[(1, note)]);
            let booked = [BOOKING, OLDER_BOOKING].contains(&kind) && BOOKED.contains(&answer);
            let left = kind == WITHDRAWAL && LEFT.contains(&answer);
            let due = |known| if known { answer } else { 7 };
            assert_eq!(books(&hall, 1, booking(0)), due(booked));
            assert_eq!(leaves(&hall, 1, wide(0)), due(left));
        }
    }
}

/// Both zeros, both infinities, the least number, NaNs of either sign, quiet and not, with other bits, and 1510.5.
const BITS: [u64; 13] = [
    0,
    1 << 63,
    0x7ff0_0000_0000_0000,
    0xfff0_0000_0000_0000,
    1,
    0x7ff8_0000_0000_0000,
    0xfff8_0000_0000_0000,
    0x7ff8_0000_0000_0001,
    0x7ff0_0000_0000_0001,
    0xfff4_dcba_9876_5432,
    0x7ffe_dcba_9876_5432,
    u64::MAX,
    0x4097_9a00_0000_0000,
];

/// The guest's booking with the n-th of these ratings, by a float.
fn rated(guest: u64, n: usize) -> Booking {
    Booking::of(&QueueEntry {
        rating: f64::from_bits(BITS[n]),
        ..entry(guest)
    })
}

/// All bits of a rating stand in the booking that waits and in its note, and the key stands for all of them: under it neither the
/// other zero nor another NaN is the rating that was sent.
#[test]
fn bits_of_ratings() {
    let mut hall = hall_empty(Games::default());
    for n in 0..BITS.len() {
        let told = hall_book(hall, n as u64, rated(n as u64, n));
        assert_eq!(told.refusal, 0);
        hall = told.hall;
    }
    for (n, bits) in BITS.into_iter().enumerate() {
        assert_eq!(hall.bookings[n].rating_bits, bits);
        assert_eq!(hall.bookings[n].entry().rating.to_bits(), bits);
        assert_eq!(hall.notes[n].rating_bits, bits);
        for m in 0..BITS.len() {
            let due = if m == n { 0 } else { 7 };
            assert_eq!(books(&hall, n as u64, rated(n as u64, m)), due);
        }
    }
    let left = hall_withdraw(hall, 99, wide(0)).hall;
    assert!((1..BITS.len()).all(|n| left.bookings[n - 1].rating_bits == BITS[n]));
}

/// The booking with one of the 296 bits of its fields changed.
fn flipped(mut booking: Booking, bit: u32) -> Booking {
    match bit {
        0..64 => booking.player ^= 1 << bit,
        64..128 => booking.joined ^= 1 << (bit - 64),
        128..192 => booking.rating_bits ^= 1 << (bit - 128),
        192..256 => booking.party ^= 1 << (bit - 192),
        256..288 => booking.role ^= 1 << (bit - 256),
        _ => booking.game ^= 1 << (bit - 288),
    }
    booking
}

/// The key stands for this booking in each of its bits.
fn assert_stands_for(hall: &Hall, key: u64, booking: Booking, answer: u8) {
    assert_eq!(books(hall, key, booking), answer);
    for bit in 0..296 {
        assert_eq!(books(hall, key, flipped(booking, bit)), 7, "bit {bit}");
    }
}

/// For one that was accepted, and for one of each refusal that is noted: corrected, or not refused any more, it is another.
#[test]
fn keys_of_whole_bookings() {
    let of_game = |n, game| Booking { game, ..booking(n) };
    let late = Booking {
        joined: LATE,
        ..booking(70)
    };
    let sent = [
        (booking(63), 0),
        (late, 4),
        (of_game(0, 5), 9),
        (booking(71), 10),
        (of_game(72, 200), 13),
    ];
    let mut hall = (0..63).fold(hall_empty(nines()), |hall, n| {
        hall_book(hall, !wide(n), booking(n)).hall
    });
    for (key, (booking, answer)) in (1..).zip(sent) {
        let told = hall_book(hall, key, booking);
        assert_eq!(told.refusal, answer);
        hall = told.hall;
        let note = Note::of(&booking, answer);
        assert_eq!(hall.answered().last(), Some((key, note)));
    }
    // With a place that is free again, and without the guest of the third, all is as it was.
    let after = hall_withdraw(hall, 9, wide(0)).hall;
    for (key, (booking, answer)) in (1..).zip(sent) {
        assert_stands_for(&hall, key, booking, answer);
        assert_stands_for(&after, key, booking, answer);
    }
    let corrected = Booking {
        joined: LATE - 1,
        ..late
    };
    assert_eq!(books(&after, 2, corrected), 7);
    assert_eq!(books(&after, 5, of_game(72, 7)), 7);
    assert_eq!(books(&after, 1, of_game(63, 8)), 7); // what the key says comes first
    assert_eq!(hall_book(after, 10, corrected).refusal, 0);
}

/// Under an older note every booking of its guest gets the noted answer. What it holds beside the guest is not looked at.
#[test]
fn older_notes() {
    let own = all_notes()[0].1;
    for (note, answer) in BOOKED
        .into_iter()
        .flat_map(|answer| [(own, answer), (Note::default(), answer)])
    {
        let note = Note {
            player: wide(0),
            kind: OLDER_BOOKING,
            answer,
            ..note
        };
        let hall = Hall::of(nines(), &[booking(0)], &[(1, note)]);
        for bit in 0..296 {
            let due = if bit < 64 { 7 } else { answer };
            assert_eq!(books(&hall, 1, flipped(booking(0), bit)), due);
        }
        assert_eq!(leaves(&hall, 1, wide(0)), 7);
        let told = hall_book(hall, 2, booking(1));
        assert_eq!(
            answered(&told.hall),
            [(1, note), (2, Note::of(&booking(1), 0))]
        );
    }
}

/// Guest 9 waits for game 6, which is not used, and then the four for game 5 with these sizes. Game 4 was served last.
fn five_guests(sizes: TeamComposition) -> Hall {
    let mut games = Games::default();
    games.sizes[5] = sizes;
    let rated = |n: usize, player, game| Booking {
        player,
        rating_bits: RATINGS[n].to_bits(),
        game,
        ..Booking::default()
    };
    let [one, two, three, four] = from_fn(|n| rated(n, IDS[n], 5));
    let bookings = [rated(0, 9, 6), one, two, three, four];
    let note = Note::of(&bookings[0], 0);
    let mut hall = Hall::of(games, &bookings, &[(wide(1), note)]);
    hall.served = 4;
    hall
}

/// A call of a round: the hall, the game, the clock, and the sheets.
type Round = fn(Hall, u8, u64, &mut [u64], &mut [f64]) -> Rounded;

fn greedy(hall: Hall, game: u8, clock: u64, players: &mut [u64], qualities: &mut [f64]) -> Rounded {
    hall_greedy_round(hall, game, clock, &IDS, &RATINGS, players, qualities)
}

fn beam(hall: Hall, game: u8, clock: u64, players: &mut [u64], qualities: &mut [f64]) -> Rounded {
    let search = BeamSearch { width: 32 };
    hall_beam_round(
        hall, search, game, QUALITY, clock, &IDS, &RATINGS, &[0.0; 4], players, qualities,
    )
}

/// With these rules, and one soft objective of this kind.
fn full_by(
    (rules, kind): (RoundRules, u8),
    hall: Hall,
    game: u8,
    clock: u64,
    (players, qualities): (&mut [u64], &mut [f64]),
) -> Rounded {
    hall_full_round(
        hall,
        game,
        rules,
        wishes(kind, 1.0),
        clock,
        &IDS,
        &RATINGS,
        &[5, 5, 0, 0],
        &[0; 4],
        &[0; 4],
        players,
        qualities,
    )
}

fn full(hall: Hall, game: u8, clock: u64, players: &mut [u64], qualities: &mut [f64]) -> Rounded {
    let free = (ruled(no_rules()), 0);
    full_by(free, hall, game, clock, (players, qualities))
}

/// It names no game.
fn dispatch(hall: Hall, _: u8, clock: u64, players: &mut [u64], qualities: &mut [f64]) -> Rounded {
    hall_dispatch(hall, clock, &IDS, &RATINGS, players, qualities)
}

const OF_A_GAME: [Round; 3] = [greedy, beam, full];
const ROUNDS: [Round; 4] = [greedy, beam, full, dispatch];

/// The constraints alone, without waiting friends.
fn ruled(constraints: Constraints) -> RoundRules {
    RoundRules {
        constraints,
        waiting_friends: false,
    }
}

/// The numbers of an answer: refusal, matches, choices, and the game served.
fn numbers(told: &Rounded) -> (u8, usize, u64, u8) {
    (told.refusal, told.count, told.tried, told.served)
}

/// Who still waits after a round, and which game was served last, by which the hall's place in the answer shows.
fn left(told: &Rounded, sizes: TeamComposition) -> (Vec<u64>, u8) {
    let before = five_guests(sizes);
    assert_eq!(answered(&told.hall), answered(&before));
    assert_eq!(told.hall.sizes, before.sizes);
    let waiting = told.hall.booked().iter().map(|b| b.player);
    (waiting.collect(), told.hall.served)
}

/// Each hands back the hall without the seated, how many matches and choices there were, and the game served.
#[test]
fn answers_of_rounds() {
    let answer = |round: Round, sizes| {
        let (mut players, mut qualities) = sheets();
        let told = round(five_guests(sizes), 5, 0, &mut players, &mut qualities);
        assert_eq!((players[3], qualities[1]), (u64::MAX, -1.0));
        let seated = [players[0], players[1], players[2]];
        (numbers(&told), seated, left(&told, sizes))
    };
    let none = NONE_SERVED;
    let due = ((0, 1, 0, none), [1, 4, 3], (vec![9, 2], 4));
    assert_eq!(answer(greedy, TWO_ONE), due);
    let due = ((0, 1, 0, none), [1, 3, 4], (vec![9, 2], 4));
    assert_eq!(answer(beam, ONE_TWO), due);
    let due = ((0, 1, 4, none), [1, 2, 4], (vec![9, 3], 4));
    assert_eq!(answer(full, TWO_ONE), due);
    let due = ((0, 1, 0, 5), [1, 4, 3], (vec![9, 2], 5));
    assert_eq!(answer(dispatch, TWO_ONE), due);
}

/// Does nothing but answer so.
fn assert_idle(round: Round, hall: Hall, game: u8, clock: u64, answer: u8) {
    let (mut players, mut qualities) = sheets();
    let told = round(hall, game, clock, &mut players, &mut qualities);
    assert_eq!(numbers(&told), (answer, 0, 0, NONE_SERVED));
    assert_eq!((players, qualities), sheets());
    assert_eq!(told.hall.booked(), hall.booked());
    assert_eq!(told.hall.waiting, hall.waiting);
    assert_eq!((told.hall.sizes, told.hall.served), (hall.sizes, 4));
}

/// A clock, or the joined time of anyone who waits, for another game too.
#[test]
fn late_rounds() {
    for round in ROUNDS {
        let mut hall = five_guests(TWO_ONE);
        assert_idle(round, hall, 5, LATE, 4);
        hall.bookings[0].joined = LATE;
        assert_idle(round, hall, 5, 0, 4);
    }
}

/// Before anything else: the hall is over its limits, the clock late, and the soft kind none.
#[test]
fn rounds_of_no_game() {
    let no_kind: Round = |hall, game, clock, players, qualities| {
        let rules = ruled(no_rules());
        full_by((rules, 3), hall, game, clock, (players, qualities))
    };
    let mut hall = five_guests(TWO_ONE);
    assert_idle(no_kind, hall, 5, LATE, 1);
    hall.waiting = 65;
    for game in [8, 9, 128, 255] {
        for round in OF_A_GAME.into_iter().chain([no_kind]) {
            assert_idle(round, hall, game, LATE, 13);
        }
    }
    assert_idle(dispatch, hall, 255, LATE, 1);
}

/// In a booking it comes behind what the key says and before all else, and it is noted.
#[test]
fn bookings_for_no_game() {
    let hall = five_guests(TWO_ONE);
    let nowhere = Booking {
        player: 9,
        joined: LATE,
        game: 8,
        ..Booking::default()
    };
    let told = hall_book(hall, 7, nowhere);
    assert_eq!((told.refusal, told.hall.waiting), (13, 5));
    assert_eq!(answered(&told.hall)[1..], [(7, Note::of(&nowhere, 13))]);
    let again = hall_book(told.hall, 7, nowhere);
    assert_eq!((again.refusal, again.hall.noted), (13, 2));
    let asks = |key, player, joined, game| {
        let booking = Booking {
            player,
            joined,
            game,
            ..Booking::default()
        };
        hall_book(told.hall, key, booking).refusal
    };
    assert_eq!(asks(7, 8, LATE, 8), 7);
    assert_eq!(asks(70, 9, LATE, 7), 4);
    assert_eq!(asks(70, 9, 0, 7), 9);
    assert_eq!(asks(70, 8, 0, 7), 0);
}

/// What every call answers for this hall, if all answer the same.
fn one_answer(hall: Hall) -> Option<u8> {
    let (mut players, mut qualities) = sheets();
    let refusal = hall_book(hall, 5, booking(0)).refusal;
    let mut same = hall_withdraw(hall, 5, 9).refusal == refusal;
    for round in ROUNDS {
        same &= round(hall, 5, 0, &mut players, &mut qualities).refusal == refusal;
    }
    same.then_some(refusal)
}

/// A size over 8 in any game, used or not; a last game served that is neither a game nor none; too many bookings or keys.
#[test]
fn limits_of_a_hall() {
    for n in 0..16 {
        let sized = |size| {
            let mut hall = five_guests(TWO_ONE);
            let game = &mut hall.sizes[n / 2];
            *(if n % 2 == 0 { &mut game.a } else { &mut game.b }) = size;
            one_answer(hall)
        };
        let answers = [8, 9, usize::MAX].map(sized);
        assert_eq!(answers, [Some(0), Some(1), Some(1)]);
    }
    let mut hall = five_guests(TWO_ONE);
    for served in 0..=255 {
        hall.served = served;
        let due = u8::from(served > 7 && served != NONE_SERVED);
        assert_eq!(one_answer(hall), Some(due));
    }
    hall.waiting = 65;
    assert_eq!(one_answer(hall), Some(1));
    (hall.waiting, hall.noted) = (5, 1025);
    assert_eq!(one_answer(hall), Some(1));
}

/// A round has the sizes of its own game, as the constraint on sizes tells, and seats whoever waits for it; the others wait on.
#[test]
fn sizes_and_bookings_of_each_game() {
    for game in 0..8 {
        let turn = |n: usize| Booking {
            game: (game + n as u8 % 2) % 8,
            ..Booking::of(&entry(n as u64))
        };
        let bookings: [Booking; 18] = from_fn(turn);
        let hall = Hall::of(nines(), &bookings, &[]);
        let (mut players, mut qualities) = sheets();
        let mut round = |a, b| {
            let mut rules = ruled(no_rules());
            rules.constraints.brought.sizes = true;
            rules.constraints.sizes = TeamSizeConstraint { a, b };
            full_by((rules, 0), hall, game, 0, (&mut players, &mut qualities))
        };
        let (a, b) = (game as usize + 1, 8 - game as usize);
        let none = round(b, a);
        assert_eq!(numbers(&none), (0, 0, 1, NONE_SERVED));
        assert_eq!(none.hall.booked(), bookings);
        let told = round(a, b);
        assert_eq!(numbers(&told), (0, 1, 1, NONE_SERVED));
        assert!((0..9).all(|n| players[n] == wide(2 * n as u64)));
        assert_eq!(players[9], u64::MAX);
        assert!((0..9).all(|n| told.hall.booked()[n] == turn(2 * n + 1)));
        assert_eq!(told.hall.waiting, 9);
    }
}

/// Guests 1 and 3 come as friends, and on the roster 1 and 2 are: neither kind looks at the other's parties.
#[test]
fn either_kind_of_party_in_a_full_round() {
    let mut hall = five_guests(TWO_ONE);
    (hall.bookings[1].party, hall.bookings[3].party) = (wide(9), wide(9));
    let seated = |parties, waiting_friends| {
        let (mut players, mut qualities) = sheets();
        let mut rules = ruled(no_rules());
        rules.constraints.brought.parties = parties;
        rules.waiting_friends = waiting_friends;
        let told = full_by((rules, 2), hall, 5, 0, (&mut players, &mut qualities));
        assert_eq!(numbers(&told), (0, 1, 4, NONE_SERVED));
        [players[0], players[1], players[2]]
    };
    assert_eq!(seated(false, false), [2, 3, 4]);
    assert_eq!(seated(false, true), [1, 3, 4]);
    assert_eq!(seated(true, false), [1, 2, 4]);
    assert_eq!(seated(true, true), [1, 2, 3]);
}

#[test]
fn no_choice_meets_the_rules() {
    let mut rules = ruled(no_rules());
    rules.constraints.brought.sizes = true;
    let (mut players, mut qualities) = sheets();
    let told = full_by(
        (rules, 0),
        five_guests(TWO_ONE),
        5,
        0,
        (&mut players, &mut qualities),
    );
    assert_eq!(numbers(&told), (0, 0, 4, NONE_SERVED));
    assert_eq!((players, qualities), sheets());
    assert_eq!(left(&told, TWO_ONE), (vec![9, 1, 2, 3, 4], 4));
}
