//! Corners of the unchanged Rust, run through the stand-ins and the translation that the comparison uses.

use compare::data::Roster;
use compare::function::caught;
use compare::rng::Rng;
use compare::same::Same;
use compare::translate::{from_players, to_entries, to_players, to_queue, to_world};
use matchlab_core::match_::TeamComposition;
use matchlab_core::player::{PlayerId, Region};
use matchlab_core::rng::SimRng;
use matchlab_core::time::SimTime;
use matchlab_core::world::World;
use matchlab_matchmaking::candidate::{
    CandidateGenerator, ExhaustiveGenerator, GreedyNearestGenerator,
};
use matchlab_matchmaking::constraint::{
    HardConstraint, MaxLatencyConstraint, PartyIntegrityConstraint, RegionConstraint,
    RoleConstraint, RoleRequirement,
};
use matchlab_matchmaking::matchmaker::ProposedMatch;
use matchlab_matchmaking::objective::{
    LatencyObjective, MatchObjective, MatchObjectiveVector, ObjectiveWeights,
    SkillBalanceObjective, SoftObjective, WaitTimeObjective,
};
use matchlab_matchmaking::policy::MatchPolicy;
use matchlab_matchmaking::search::{BeamSearch, GreedySearch, SearchStrategy};
use matchlab_matchmaking::selection::{
    GreedySelection, LexicographicSelection, MatchSelectionPolicy, ThresholdSelection,
    WeightedObjectiveSelection,
};
use std::collections::HashSet;
use yilgashe_sys::{Queue, QueueEntry};

const TABLE: [f64; 4] = [1000.0, 1280.0, 1010.0, 1090.0];
const NAN: f64 = f64::NAN;
const INF: f64 = f64::INFINITY;

type Match = (Vec<u64>, Vec<u64>, f64);

/// Guests from 1 with these ratings, joined at 0.
fn guests(ratings: &[f64]) -> Vec<QueueEntry> {
    let ids = 1..;
    let entry = |(player, &rating)| QueueEntry {
        player,
        rating,
        ..QueueEntry::default()
    };
    ids.zip(ratings).map(entry).collect()
}

/// The same guests with rows: no deviation, party, role or record.
fn rostered(ratings: &[f64]) -> Roster {
    let rows = ratings.len();
    Roster {
        ids: (1..=rows as u64).collect(),
        ratings: ratings.to_vec(),
        deviations: vec![0.0; rows],
        parties: vec![0; rows],
        roles: vec![0; rows],
        regions: vec![4; rows],
    }
}

fn world(ratings: &[f64]) -> World {
    to_world(&rostered(ratings), 0)
}

fn sizes(team_size_a: usize, team_size_b: usize) -> TeamComposition {
    TeamComposition {
        team_size_a,
        team_size_b,
    }
}

fn read(matches: Vec<ProposedMatch>) -> Vec<Match> {
    let teams = |m: &ProposedMatch| (from_players(&m.team_a), from_players(&m.team_b));
    let all = matches.iter().map(|m| (teams(m), m.quality_score));
    all.map(|((a, b), quality)| (a, b, quality)).collect()
}

/// The teams alone.
fn seats(matches: Vec<Match>) -> Vec<(Vec<u64>, Vec<u64>)> {
    matches.into_iter().map(|(a, b, _)| (a, b)).collect()
}

fn search(
    strategy: &dyn SearchStrategy,
    queue: &[QueueEntry],
    (a, b): (usize, usize),
    weights: [f64; 4],
    world: &World,
) -> Vec<Match> {
    let [quality, wait, ping, uncertainty] = weights;
    let objective = MatchObjective::new(quality, wait, ping, uncertainty);
    let mut rng = SimRng::from_seed(0);
    let queue = to_entries(queue);
    read(strategy.search(&queue, &objective, &sizes(a, b), world, &mut rng))
}

fn greedy(ratings: &[f64], teams: (usize, usize)) -> Vec<Match> {
    let world = world(ratings);
    search(&GreedySearch, &guests(ratings), teams, [1.0; 4], &world)
}

fn beam(ratings: &[f64], teams: (usize, usize), width: usize) -> Vec<Match> {
    let world = world(ratings);
    let weights = [1.0, 0.0, 0.0, 0.0];
    let strategy = BeamSearch { width };
    search(&strategy, &guests(ratings), teams, weights, &world)
}

fn generate(
    generator: &dyn CandidateGenerator,
    ratings: &[f64],
    (a, b): (usize, usize),
) -> Vec<Match> {
    let queue = to_queue(&Queue::of(&guests(ratings)));
    let mut rng = SimRng::from_seed(0);
    let world = world(ratings);
    let now = SimTime::ZERO;
    read(generator.generate_candidates(&queue, &sizes(a, b), &world, now, &mut rng))
}

fn nearest(ratings: &[f64], teams: (usize, usize)) -> Vec<Match> {
    generate(
        &GreedyNearestGenerator { max_candidates: 9 },
        ratings,
        teams,
    )
}

fn proposed(a: &[u64], b: &[u64]) -> ProposedMatch {
    ProposedMatch {
        team_a: to_players(a),
        team_b: to_players(b),
        quality_score: 0.0,
    }
}

/// Candidates 1+1 of neighbours: (1,2), (3,4) and so on.
fn pairs(count: u64) -> Vec<ProposedMatch> {
    let pair = |i| proposed(&[2 * i + 1], &[2 * i + 2]);
    (0..count).map(pair).collect()
}

/// The first guest of team A of each chosen pair.
fn chosen(policy: &dyn MatchSelectionPolicy, count: u64, world: &World) -> Vec<u64> {
    let matches = policy.select(pairs(count), world);
    matches.iter().map(|m| m.team_a[0].0).collect()
}

fn skill() -> Vec<(Box<dyn SoftObjective>, f64)> {
    vec![(Box::new(SkillBalanceObjective), 1.0)]
}

#[test]
fn greedy_at_the_table() {
    assert_eq!(greedy(&TABLE, (2, 2)), [(vec![1, 4], vec![3, 2], 0.75)]);
    assert_eq!(seats(greedy(&TABLE, (3, 0))), [(vec![1, 3, 4], vec![])]);
    assert_eq!(greedy(&TABLE, (0, 1)), []);
    let nearer_first = greedy(&[1000.0, 1010.0, 990.0], (1, 1));
    assert_eq!(seats(nearer_first), [(vec![1], vec![2])]);
}

/// Request 2.2 wants another guest where 990 joined before 1010.
#[test]
fn greedy_goes_by_place_whatever_the_joined_times() {
    let ratings = [1000.0, 1010.0, 990.0];
    for joined in [[0, 0, 0], [5, 7, 0], [9, 5, 0]] {
        let mut queue = guests(&ratings);
        for (entry, joined) in queue.iter_mut().zip(joined) {
            entry.joined = joined;
        }
        let formed = search(&GreedySearch, &queue, (1, 1), [1.0; 4], &world(&ratings));
        assert_eq!(seats(formed), [(vec![1], vec![2])]);
    }
}

#[test]
fn greedy_without_a_roster() {
    let world = world(&[]);
    let formed = search(&GreedySearch, &guests(&TABLE), (2, 2), [1.0; 4], &world);
    assert_eq!(formed, [(vec![1, 4], vec![3, 2], 1.0)]);
}

#[test]
fn greedy_never_picks_an_infinite_distance() {
    let overflow = greedy(&[1e308, -1e308, 1e308], (1, 1));
    assert_eq!(seats(overflow), [(vec![1], vec![3])]);
    let infinite = greedy(&[INF, INF, 5.0, 6.0], (1, 1));
    assert_eq!(seats(infinite), [(vec![3], vec![4])]);
    assert_eq!(greedy(&[1e308; 4], (2, 2)), []);
}

#[test]
fn greedy_keeps_leftovers_used() {
    let mut roster = rostered(&[1000.0; 7]);
    roster.ratings[2] = NAN;
    let world = to_world(&roster, 0);
    let queue = guests(&[1000.0; 7]);
    let formed = search(&GreedySearch, &queue, (2, 2), [1.0; 4], &world);
    assert_eq!(seats(formed), [(vec![4, 6], vec![5, 7])]);
}

#[test]
fn beam_at_the_table() {
    let formed = beam(&TABLE, (2, 2), 4);
    assert_eq!(formed.len(), 1);
    assert_eq!(formed[0].0, [1, 2]);
    assert_eq!(formed[0].1, [4, 3]);
    assert!((formed[0].2 - 0.775).abs() < 1e-12);
}

#[test]
fn beam_of_width_0() {
    assert_eq!(beam(&TABLE, (1, 1), 0), []);
    assert_eq!(beam(&TABLE, (1, 0), 0).len(), 4);
    assert_eq!(beam(&TABLE, (0, 1), 3), []);
}

#[test]
fn beam_counts_the_seated() {
    let ratings = [1250.0, 1050.0, 1300.0];
    let mut roster = rostered(&ratings);
    roster.deviations = vec![100.0, 0.0, 350.0];
    let world = to_world(&roster, 0);
    let weights = [1.0, 0.0, 0.0, 1.0];
    let strategy = BeamSearch { width: 1 };
    let formed = search(&strategy, &guests(&ratings), (1, 2), weights, &world);
    assert_eq!(seats(formed), [(vec![1], vec![2, 3])]);
}

#[test]
fn beam_expands_each_copy_of_a_guest() {
    let ratings = [1000.0, 1300.0, 1050.0, 1200.0];
    let mut queue = guests(&ratings);
    queue.extend([queue[2], queue[2]]);
    let weights = [1.0, 0.0, 0.0, 0.0];
    let strategy = BeamSearch { width: 3 };
    let formed = search(&strategy, &queue, (3, 1), weights, &world(&ratings));
    assert_eq!(seats(formed), [(vec![1, 4, 2], vec![3])]);
}

#[test]
fn beam_forms_as_many_matches_as_distinct_guests_fill() {
    for case in 0..300 {
        let mut rng = Rng::for_case(3, "beam", case);
        let (a, b) = (rng.below(4), rng.below(4));
        let width = rng.below(4);
        let players: Vec<u64> = (0..rng.below(16)).map(|_| rng.below(12) as u64).collect();
        let entry = |&player| QueueEntry {
            player,
            rating: 10.0 * player as f64,
            ..QueueEntry::default()
        };
        let queue: Vec<QueueEntry> = players.iter().map(entry).collect();
        let world = world(&[100.0, 20.0, 30.0, 20.0, 0.0, 7.0]);
        let formed = search(&BeamSearch { width }, &queue, (a, b), [1.0; 4], &world);
        let distinct = players.iter().collect::<HashSet<_>>().len();
        let possible = a > 0 && (width > 0 || a + b == 1);
        let expected = if possible { distinct / (a + b) } else { 0 };
        assert_eq!(
            formed.len(),
            expected,
            "{a}+{b}, width {width}, {players:?}"
        );
    }
}

#[test]
fn exhaustive_lists_choices_in_order() {
    let table = generate(&ExhaustiveGenerator, &TABLE, (2, 2));
    assert_eq!(table, [(vec![1, 2], vec![3, 4], 0.0)]);
    let three = seats(generate(&ExhaustiveGenerator, &TABLE[..3], (1, 1)));
    let expected = [(1, 2), (1, 3), (2, 3)].map(|(a, b)| (vec![a], vec![b]));
    assert_eq!(three, expected);
    assert_eq!(generate(&ExhaustiveGenerator, &[], (0, 0)).len(), 1);
    assert_eq!(generate(&ExhaustiveGenerator, &TABLE[..3], (2, 2)), []);
}

#[test]
fn nearest_sorts_stably_and_panics_where_it_is_refused() {
    let formed = seats(nearest(&[0.0, -0.0, -1.0, 0.0], (1, 1)));
    assert_eq!(formed, [(vec![3], vec![1]), (vec![2], vec![4])]);
    assert_eq!(nearest(&[NAN], (1, 1)), []);
    assert_eq!(nearest(&[NAN], (1, 0)).len(), 1);
    assert!(caught(|| nearest(&[NAN, 1.0], (1, 1))).is_none());
    assert!(caught(|| nearest(&TABLE, (0, 0))).is_none());
}

#[test]
fn quality_of_differences() {
    let quality = |difference| {
        let world = world(&[1000.0, 1000.0 + difference]);
        ProposedMatch::match_quality(&[PlayerId(1)], &[PlayerId(2)], &world)
    };
    let differences = [0.0, 100.0, 400.0, NAN, -100.0, INF];
    assert_eq!(differences.map(quality), [1.0, 0.75, 0.0, 0.0, 0.75, 0.0]);
}

#[test]
fn score_reads_the_first_entry_and_counts_the_seated() {
    let mut queue = guests(&[1000.0, 1000.0]);
    queue.push(queue[0]);
    queue[0].joined = 60_000_000_000;
    let mut roster = rostered(&[1000.0, 1000.0]);
    roster.deviations = vec![350.0, 0.0];
    let world = to_world(&roster, 120_000_000_000);
    let score = |weights: [f64; 4], m: &ProposedMatch| {
        let [quality, wait, ping, uncertainty] = weights;
        let objective = MatchObjective::new(quality, wait, ping, uncertainty);
        objective.score(m, &to_entries(&queue), &world)
    };
    let alone = proposed(&[1], &[]);
    assert_eq!(score([0.0, 1.0, 0.0, 0.0], &alone), -1.0);
    assert_eq!(score([0.0, 0.0, 0.0, 1.0], &alone), -1.0);
    let both = proposed(&[1], &[2]);
    assert_eq!(score([0.0, 0.0, 0.0, 1.0], &both), -0.5);
    assert!(score([1.0, 0.0, INF, 0.0], &both).is_nan());
}

#[test]
fn latency_has_no_upper_bound() {
    let value =
        |ratings: &[f64], a: &[u64]| LatencyObjective.score(&proposed(a, &[]), &world(ratings));
    assert_eq!(value(&[-200.0], &[1]), 2.0);
    assert_eq!(value(&[-INF], &[1]), INF);
    assert_eq!(value(&[NAN], &[1]), 0.0);
    assert_eq!(value(&[100.0], &[1, 2]), 0.75);
    assert_eq!(value(&[], &[]), 1.0);
}

#[test]
fn policy_sums_from_minus_zero() {
    let score = MatchPolicy::new().score(&proposed(&[1], &[]), &world(&[]));
    assert_eq!(score.to_bits(), (-0.0f64).to_bits());
    assert!(score.same(&0.0));
    let barred = MatchPolicy::new().with_constraint(Box::new(MaxLatencyConstraint {
        max_latency_ms: 1.0,
    }));
    assert_eq!(barred.score(&proposed(&[1], &[]), &world(&[0.0])), -INF);
}

#[test]
fn max_latency_looks_at_seated_ratings() {
    let constraint = MaxLatencyConstraint {
        max_latency_ms: 1.0,
    };
    let passes = |rating| constraint.is_satisfied(&proposed(&[1, 9], &[]), &world(&[rating]));
    let ratings = [1.0, f64::from_bits(1), 0.0, -0.0, -1.0, NAN];
    assert_eq!(
        ratings.map(passes),
        [true, true, false, false, false, false]
    );
}

#[test]
fn party_looks_at_every_row() {
    let mut roster = rostered(&TABLE);
    roster.parties = vec![5, 0, 5, 0];
    let world = to_world(&roster, 0);
    let passes = |a: &[u64]| PartyIntegrityConstraint.is_satisfied(&proposed(a, &[]), &world);
    assert!(passes(&[1, 3]) && passes(&[2]) && passes(&[2, 4, 9]));
    assert!(!passes(&[1]) && !passes(&[3, 2]));
}

#[test]
fn roles_count_a_guest_seated_twice_twice() {
    let mut roster = rostered(&TABLE[..1]);
    roster.roles = vec![2];
    let world = to_world(&roster, 0);
    let constraint = RoleConstraint {
        requirements: vec![RoleRequirement {
            role: "r2".into(),
            min_count: 2,
            max_count: None,
        }],
    };
    assert!(constraint.is_satisfied(&proposed(&[1], &[1]), &world));
    assert!(!constraint.is_satisfied(&proposed(&[1], &[]), &world));
}

#[test]
fn regions_go_either_way_round() {
    let mut roster = rostered(&TABLE[..3]);
    roster.regions = vec![0, 1, 4];
    let world = to_world(&roster, 0);
    let allowing = |allowed_pairs| RegionConstraint { allowed_pairs };
    let allowed = allowing(vec![(Region::EU, Region::NA)]);
    assert!(allowed.is_satisfied(&proposed(&[1], &[2]), &world));
    assert!(allowed.is_satisfied(&proposed(&[2], &[1, 3, 9]), &world));
    assert!(!allowed.is_satisfied(&proposed(&[1], &[1]), &world));
    let nothing = allowing(vec![]);
    assert!(!nothing.is_satisfied(&proposed(&[1], &[2]), &world));
    assert!(nothing.is_satisfied(&proposed(&[1], &[3]), &world));
}

#[test]
fn greedy_selection_takes_the_last_of_equal_best() {
    let policy = |objectives| GreedySelection { objectives };
    let world = world(&[0.0, 50.0, 0.0, 0.0, 0.0, 0.0]);
    assert_eq!(chosen(&policy(skill()), 3, &world), [5]);
    let wait: Box<dyn SoftObjective> = Box::new(WaitTimeObjective);
    assert_eq!(chosen(&policy(vec![(wait, 1.0)]), 3, &world), [5]);
    let unranked = || {
        let objective: Box<dyn SoftObjective> = Box::new(WaitTimeObjective);
        policy(vec![(objective, NAN)])
    };
    assert_eq!(chosen(&unranked(), 1, &world), [1]);
    assert!(caught(|| chosen(&unranked(), 2, &world)).is_none());
}

#[test]
fn full_round_of_three_with_wait_alone() {
    let matches = ExhaustiveGenerator.generate_candidates(
        &to_queue(&Queue::of(&guests(&TABLE[..3]))),
        &sizes(1, 1),
        &world(&TABLE),
        SimTime::ZERO,
        &mut SimRng::from_seed(0),
    );
    assert_eq!(matches.len(), 3);
    let objective: Box<dyn SoftObjective> = Box::new(WaitTimeObjective);
    let policy = GreedySelection {
        objectives: vec![(objective, 1.0)],
    };
    let best = read(policy.select(matches, &world(&TABLE)));
    assert_eq!(seats(best), [(vec![2], vec![3])]);
}

#[test]
fn weighted_selection_ends_only_where_scores_rise() {
    let policy = WeightedObjectiveSelection {
        weights: ObjectiveWeights::default(),
    };
    let run = |ratings: [f64; 6], count| caught(|| chosen(&policy, count, &world(&ratings)));
    let rising = [0.0, 90.0, 0.0, 50.0, 0.0, 10.0];
    assert_eq!(run(rising, 3), Some(vec![5, 3, 1]));
    assert_eq!(run([0.0; 6], 1), Some(vec![1]));
    assert_eq!(run([0.0; 6], 2), None);
    assert_eq!(run([0.0, 10.0, 0.0, 90.0, 0.0, 0.0], 2), None);
    assert_eq!(run([0.0, 50.0, 0.0, 90.0, 0.0, 10.0], 3), None);
}

#[test]
fn lexicographic_keeps_within_a_thousandth() {
    let policy = LexicographicSelection {
        objectives: skill(),
    };
    let world = world(&[0.0, 0.3, 0.0, 0.0, 0.0, 0.5]);
    assert_eq!(chosen(&policy, 3, &world), [1, 3]);
    let none = LexicographicSelection { objectives: vec![] };
    assert_eq!(chosen(&none, 3, &world), [1, 3, 5]);
}

#[test]
fn threshold_takes_the_first_that_reaches_it() {
    let policy = |min_quality| ThresholdSelection {
        min_quality,
        objectives: skill(),
    };
    let world = world(&[0.0, 200.0, 0.0, 100.0, 0.0, 0.0]);
    assert_eq!(chosen(&policy(0.75), 3, &world), [3]);
    assert_eq!(chosen(&policy(NAN), 3, &world), []);
    assert_eq!(chosen(&policy(1.5), 3, &world), []);
}

#[test]
fn dominance() {
    let base = MatchObjectiveVector::default();
    assert!(!base.dominates(&base));
    let cheaper = MatchObjectiveVector {
        wait_cost: -1.0,
        ..base.clone()
    };
    assert!(cheaper.dominates(&base) && !base.dominates(&cheaper));
    let unknown = MatchObjectiveVector {
        role_quality: NAN,
        ..cheaper.clone()
    };
    assert!(unknown.dominates(&base));
    assert_eq!(base.scalarize(&ObjectiveWeights::default()), 0.0);
    assert_eq!(cheaper.scalarize(&ObjectiveWeights::default()), 0.8);
}

#[test]
fn removal_from_a_doubled_queue() {
    let mut entries = guests(&TABLE[..2]);
    entries.push(QueueEntry {
        joined: 9,
        ..entries[0]
    });
    let mut queue = to_queue(&Queue::of(&entries));
    let now = SimTime(5);
    assert_eq!(queue.waiting_time(PlayerId(1), now), Some(now));
    assert_eq!(
        queue.remove(PlayerId(1)).map(|e| e.joined_at),
        Some(SimTime(0))
    );
    assert_eq!(queue.waiting_time(PlayerId(1), now), Some(SimTime(0)));
    let mut queue = to_queue(&Queue::of(&entries));
    assert_eq!(queue.remove_batch(&[PlayerId(1)]).len(), 2);
    assert_eq!(queue.len(), 1);
}

#[test]
fn seconds_at_the_clock_limit() {
    assert_eq!(SimTime(1 << 53).as_secs_f64(), 9_007_199.254_740_992);
}
