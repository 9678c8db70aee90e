//! Matches, columns, weights and vectors.

use super::{LONG, ODD_IDS, Scale, WILD, everybody, player, pool, row_count, row_ids};
use crate::data::Columns;
use crate::model::{LAST_KIND, OBJECTIVE_LIMIT, ROSTER_LIMIT, TEAM_LIMIT};
use crate::rng::Rng;
use std::array::from_fn;
use yilgashe_sys::{
    MatchObjective, MatchObjectiveVector, ObjectiveWeights, ProposedMatch, Queue, SoftObjectives,
    Team,
};

/// How the floats of one column are spread.
#[derive(Clone, Copy)]
enum Spread {
    Equal,
    /// A few values: differences of just 400 among them.
    Steps,
    /// All bits of the fraction in use: the order of a sum shows.
    Fine,
    /// Fine, but 1 in 16 is wild.
    Seldom,
    /// 1 in 2 is wild.
    Wild,
}

/// Kinds that refusal 1 is for.
const UNKNOWN_KINDS: [u8; 4] = [LAST_KIND + 1, LAST_KIND + 2, 1 << 7, u8::MAX];

/// Team and list lengths that refusal 1 is for: 9, then those of a queue.
pub(super) fn long_len(rng: &mut Rng) -> usize {
    if rng.one_in(2) {
        TEAM_LIMIT + 1
    } else {
        rng.pick(&LONG)
    }
}

fn team_len(rng: &mut Rng, scale: Scale) -> usize {
    let long = rng.one_in(40);
    match scale {
        Scale::Stored if long => TEAM_LIMIT + 1,
        Scale::Full if long => long_len(rng),
        _ => rng.below(TEAM_LIMIT + 1),
    }
}

/// All 8 places are filled: a call that reads past `len` meets players that look real.
fn team(rng: &mut Rng, scale: Scale, seat: &mut impl FnMut(&mut Rng) -> u64) -> Team {
    Team {
        len: team_len(rng, scale),
        players: from_fn(|_| seat(rng)),
    }
}

/// A match of few or many players, copies and guest 0 among them.
pub fn proposed(rng: &mut Rng, scale: Scale) -> ProposedMatch {
    let ids = pool(rng);
    let mut seat = |rng: &mut Rng| match rng.below(24) {
        0 => 0,
        1 => rng.pick(&ODD_IDS),
        _ => rng.pick(&ids),
    };
    ProposedMatch {
        a: team(rng, scale, &mut seat),
        b: team(rng, scale, &mut seat),
    }
}

/// A match of players who wait in `queue`, strangers among them.
pub fn queued_match(rng: &mut Rng, scale: Scale, queue: &Queue) -> ProposedMatch {
    let mut seat = |rng: &mut Rng| player(rng, queue);
    ProposedMatch {
        a: team(rng, scale, &mut seat),
        b: team(rng, scale, &mut seat),
    }
}

/// From 0.0 up to 1.0.
fn unit(rng: &mut Rng) -> f64 {
    (rng.next_u64() >> 11) as f64 / (1u64 << 53) as f64
}

pub(super) fn fine(rng: &mut Rng, low: f64, high: f64) -> f64 {
    low + (high - low) * unit(rng)
}

/// So many floats from `low` to `high`, or wild.
pub(super) fn floats(rng: &mut Rng, rows: usize, low: f64, high: f64) -> Vec<f64> {
    let spread = rng.weighted(&[
        (1, Spread::Equal),
        (2, Spread::Steps),
        (5, Spread::Fine),
        (2, Spread::Seldom),
        (2, Spread::Wild),
    ]);
    let equal = fine(rng, low, high);
    let float = |rng: &mut Rng| match spread {
        Spread::Equal => equal,
        Spread::Steps => 100.0 * (low / 100.0).round() + 100.0 * rng.below(6) as f64,
        Spread::Seldom if rng.one_in(16) => rng.pick(&WILD),
        Spread::Wild if rng.one_in(2) => rng.pick(&WILD),
        _ => fine(rng, low, high),
    };
    (0..rows).map(|_| float(rng)).collect()
}

/// Mostly near 0, where latency tells ratings apart; near 1000; or far apart.
pub(super) fn rating_range(rng: &mut Rng) -> (f64, f64) {
    rng.weighted(&[
        (5, (-150.0, 290.0)),
        (3, (850.0, 1350.0)),
        (1, (-100.0, 2900.0)),
        (1, (-8e307, 8e307)),
    ])
}

/// Ids and ratings for the seated.
pub fn rated(rng: &mut Rng, scale: Scale, proposed: &ProposedMatch) -> Columns {
    columns(rng, scale, &everybody(proposed), false)
}

/// Ids, ratings and deviations for the seated.
pub fn rated_with_deviations(rng: &mut Rng, scale: Scale, proposed: &ProposedMatch) -> Columns {
    columns(rng, scale, &everybody(proposed), true)
}

/// Ids, ratings and, where they are taken, deviations for `players`.
pub(super) fn columns(rng: &mut Rng, scale: Scale, players: &[u64], deviations: bool) -> Columns {
    let rows = match scale {
        Scale::Stored if rng.one_in(20) => return long_ids(deviations),
        Scale::Stored => rng.below(13),
        Scale::Full => row_count(rng, scale),
    };
    let (low, high) = rating_range(rng);
    let mut columns = Columns {
        ids: row_ids(rng, rows, players),
        ratings: floats(rng, rows, low, high),
        deviations: deviations.then(|| floats(rng, rows, 0.0, 350.0)),
    };
    if rng.one_in(10) {
        spoil_columns(rng, scale, &mut columns);
    }
    columns
}

/// A stored line holds no more than the length of a column over limit.
fn long_ids(deviations: bool) -> Columns {
    Columns {
        ids: (0..=ROSTER_LIMIT as u64).collect(),
        ratings: Vec::new(),
        deviations: deviations.then(Vec::new),
    }
}

/// One id doubled, or one column of another length: stored ones keep within 12 rows.
fn spoil_columns(rng: &mut Rng, scale: Scale, columns: &mut Columns) {
    let rows = columns.ids.len();
    let shorter = rows.saturating_sub(1);
    let length = match scale {
        Scale::Stored => rng.pick(&[(rows + 1).min(12), shorter, 0]),
        Scale::Full => rng.pick(&[rows + 1, shorter, 0, ROSTER_LIMIT, ROSTER_LIMIT + 1]),
    };
    match (rng.below(5), &mut columns.deviations) {
        (0, _) => columns.ids.resize(length, u64::MAX),
        (1, _) => columns.ratings.resize(length, 100.0),
        (2, Some(deviations)) => deviations.resize(length, 10.0),
        _ if rows > 1 => {
            let (from, to) = rng.pick(&[(0, rows - 1), (0, 1), (rows - 2, rows - 1)]);
            columns.ids[to] = columns.ids[from];
        }
        _ => {}
    }
}

/// A plain weight; at times 0, 1 or negative, seldom infinite, huge, tiny or NaN.
pub fn weight(rng: &mut Rng) -> f64 {
    match rng.below(16) {
        0 => rng.pick(&WILD),
        1..=3 => rng.pick(&[0.0, -0.0, 1.0, -1.0]),
        _ => fine(rng, -1.0, 4.0),
    }
}

/// All four count, or one alone.
pub fn match_objective(rng: &mut Rng) -> MatchObjective {
    let mut weights: [f64; 4] = from_fn(|_| weight(rng));
    if rng.one_in(3) {
        let alone = rng.below(4);
        let others = (0..4).filter(|&place| place != alone);
        others.for_each(|place| weights[place] = 0.0);
    }
    let [quality, wait, ping, uncertainty] = weights;
    MatchObjective {
        quality,
        wait,
        ping,
        uncertainty,
    }
}

/// Skill, latency or wait; seldom unknown.
pub fn kind(rng: &mut Rng) -> u8 {
    if rng.one_in(25) {
        rng.pick(&UNKNOWN_KINDS)
    } else {
        rng.below(usize::from(LAST_KIND) + 1) as u8
    }
}

/// All 8 places are filled; a stored list is never over limit.
pub fn soft_objectives(rng: &mut Rng, scale: Scale) -> SoftObjectives {
    let len = match scale {
        Scale::Full if rng.one_in(25) => long_len(rng),
        _ => rng.below(OBJECTIVE_LIMIT + 1),
    };
    let mut objectives = SoftObjectives {
        kinds: from_fn(|_| rng.below(usize::from(LAST_KIND) + 1) as u8),
        weights: from_fn(|_| weight(rng)),
        len,
    };
    if rng.one_in(6) {
        spoil_a_kind(rng, &mut objectives);
    }
    objectives
}

/// One unknown kind in the list, or just past it, where nobody may look.
fn spoil_a_kind(rng: &mut Rng, objectives: &mut SoftObjectives) {
    let len = objectives.listed().len();
    let place = match rng.below(4) {
        0 => len.saturating_sub(1),
        1 => rng.below(len),
        _ => len,
    };
    objectives.kinds[place.min(OBJECTIVE_LIMIT - 1)] = rng.pick(&UNKNOWN_KINDS);
}

pub fn vector(rng: &mut Rng) -> MatchObjectiveVector {
    let coordinates = floats(rng, 6, -1.0, 1.0);
    MatchObjectiveVector::of(from_fn(|place| coordinates[place]))
}

/// Those of the Rust at times.
pub fn weights(rng: &mut Rng) -> ObjectiveWeights {
    if rng.one_in(4) {
        ObjectiveWeights::of([1.0, 0.5, 0.3, 0.2, 0.8, 0.0])
    } else {
        ObjectiveWeights::of(from_fn(|_| weight(rng)))
    }
}

/// Two vectors that share most coordinates; the others rise, fall or go either way.
pub fn vectors(rng: &mut Rng) -> (MatchObjectiveVector, MatchObjectiveVector) {
    let one = vector(rng);
    let (lower, higher) = rng.pick(&[(1, 0), (0, 1), (1, 1)]);
    let mut other = one.coordinates();
    // A lower wait is a better one.
    for (place, coordinate) in other.iter_mut().enumerate() {
        let (lower, higher) = match place {
            4 => (higher, lower),
            _ => (lower, higher),
        };
        let step = rng.weighted(&[(5, 0.0), (lower, -0.5), (higher, 0.5)]);
        // A NaN keeps its bits.
        if !coordinate.is_nan() {
            *coordinate += step;
        }
    }
    if rng.one_in(6) {
        other[rng.below(6)] = rng.pick(&WILD);
    }
    (one, MatchObjectiveVector::of(other))
}

#[cfg(test)]
mod tests {
    use super::*;
    use crate::model;

    fn drawn<T>(draw: impl Fn(&mut Rng) -> T) -> Vec<T> {
        let mut rng = Rng::new(1);
        (0..4000).map(|_| draw(&mut rng)).collect()
    }

    fn rosters(scale: Scale) -> Vec<(ProposedMatch, Columns)> {
        drawn(|rng| {
            let proposed = proposed(rng, scale);
            let columns = rated_with_deviations(rng, scale, &proposed);
            (proposed, columns)
        })
    }

    #[test]
    fn teams_reach_every_boundary() {
        let teams = drawn(|rng| proposed(rng, Scale::Full).b);
        for len in [0, 1, 2, 3, 4, 5, 6, 7, 8, 9, (1 << 32) + 3, usize::MAX] {
            assert!(teams.iter().any(|team| team.len == len), "{len}");
        }
        let seated = |wanted: fn(&[u64]) -> bool| {
            let wanted = teams.iter().filter(|team| wanted(team.seated()));
            wanted.count()
        };
        assert!(seated(|players| players.contains(&0)) > 500);
        assert!(seated(model::doubled) > 500);
        assert!(seated(|players| players.len() > 3 && !model::doubled(players)) > 500);
    }

    #[test]
    fn stored_matches_are_short() {
        for (proposed, columns) in rosters(Scale::Stored) {
            assert!(proposed.a.len <= 9 && proposed.b.len <= 9);
            let lengths = columns.lengths();
            assert!(lengths == [129, 0, 0] || lengths.iter().all(|&length| length <= 12));
        }
    }

    #[test]
    fn columns_reach_every_refusal() {
        for scale in [Scale::Full, Scale::Stored] {
            let refusals = rosters(scale)
                .into_iter()
                .map(|(proposed, columns)| model::match_quality(&proposed, &columns));
            let mut seen = [0; 3];
            refusals.for_each(|refusal| seen[usize::from(refusal)] += 1);
            assert!(
                seen[0] > 3000 && seen[1] > 100 && seen[2] > 100,
                "{scale:?}: {seen:?}"
            );
        }
    }

    #[test]
    fn seated_players_with_rows_and_without() {
        let rosters = rosters(Scale::Full);
        let all = |(proposed, columns): &&(ProposedMatch, Columns)| {
            let mut seated = proposed.a.seated().iter().chain(proposed.b.seated());
            seated.all(|player| columns.ids.contains(player))
        };
        assert!((1500..3500).contains(&rosters.iter().filter(all).count()));
    }

    #[test]
    fn every_wild_weight_is_drawn() {
        let weights = drawn(weight);
        let drawn = |bits| weights.iter().any(|weight| weight.to_bits() == bits);
        assert!(WILD.iter().all(|wild| drawn(wild.to_bits())));
    }

    #[test]
    fn objectives_of_every_length_and_kind() {
        let lists = drawn(|rng| soft_objectives(rng, Scale::Full));
        for len in (0..=9).chain([usize::MAX]) {
            assert!(lists.iter().any(|list| list.len == len), "{len}");
        }
        let unknown_past = |list: &SoftObjectives| {
            let len = list.listed().len();
            list.kinds[len..].iter().any(|&kind| kind > LAST_KIND)
        };
        let unknown = |list: &SoftObjectives| list.listed().any(|(kind, _)| kind > LAST_KIND);
        assert!(lists.iter().filter(|list| unknown(list)).count() > 100);
        assert!(lists.iter().filter(|list| unknown_past(list)).count() > 100);
        let stored = drawn(|rng| soft_objectives(rng, Scale::Stored));
        assert!(stored.iter().all(|list| list.len <= 8));
    }

    #[test]
    fn kinds_known_and_unknown() {
        let kinds = drawn(kind);
        for wanted in [0, 1, 2].into_iter().chain(UNKNOWN_KINDS) {
            assert!(kinds.contains(&wanted), "{wanted}");
        }
    }
}
