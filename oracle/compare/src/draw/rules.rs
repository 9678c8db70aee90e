//! Constraints, candidates and the columns that they read.

use super::scores::{fine, floats, long_len, rating_range};
use super::{LONG, ODD_IDS, Scale, WILD, party, region, row_count, row_ids, soft_objectives};
use crate::data::Rows;
use crate::model::{
    self, CANDIDATE_LIMIT, NO_RECORD, OBJECTIVE_LIMIT, PAIR_LIMIT, REQUIREMENT_LIMIT, ROSTER_LIMIT,
    TEAM_LIMIT,
};
use crate::rng::Rng;
use std::array::from_fn;
use yilgashe_sys::{
    Brought, Candidates, Constraints, ProposedMatch, RegionConstraint, RegionPair, RoleRequirement,
    RoleRequirements, SoftObjectives, Team, TeamSizeConstraint,
};

/// The columns that a call takes besides ids.
#[derive(Clone, Copy)]
pub struct Takes {
    ratings: bool,
    parties: bool,
    roles: bool,
    regions: bool,
}

impl Takes {
    const NONE: Takes = Takes {
        ratings: false,
        parties: false,
        roles: false,
        regions: false,
    };
    pub const RATINGS: Takes = Takes {
        ratings: true,
        ..Takes::NONE
    };
    pub const PARTIES: Takes = Takes {
        parties: true,
        ..Takes::NONE
    };
    pub const ROLES: Takes = Takes {
        roles: true,
        ..Takes::NONE
    };
    pub const REGIONS: Takes = Takes {
        regions: true,
        ..Takes::NONE
    };
    pub const ALL: Takes = Takes {
        ratings: true,
        parties: true,
        roles: true,
        regions: true,
    };
}

/// Region codes that refusal 2 is for.
const UNKNOWN_REGIONS: [u8; 4] = [NO_RECORD + 1, NO_RECORD + 2, 1 << 7, u8::MAX];

/// Ratings that a latency constraint does not pass.
pub(super) const NOT_ABOVE_ZERO: [f64; 6] = [0.0, -0.0, f64::NAN, -1.0, f64::NEG_INFINITY, -1e-300];

/// Those seated in A, then those in B.
pub fn everybody(proposed: &ProposedMatch) -> Vec<u64> {
    [proposed.a.seated(), proposed.b.seated()].concat()
}

/// Rows for the seated, rarely such that are refused.
pub fn rows(rng: &mut Rng, scale: Scale, seated: &[u64], takes: Takes) -> Rows {
    let count = match scale {
        Scale::Stored if rng.one_in(20) => return long_rows(takes),
        Scale::Stored => rng.below(13),
        Scale::Full => row_count(rng, scale),
    };
    let ids = row_ids(rng, count, seated);
    let mut rows = Rows {
        ratings: takes.ratings.then(|| ratings(rng, count)),
        parties: takes.parties.then(|| parties(rng, &ids, seated)),
        roles: takes.roles.then(|| roles(rng, count)),
        regions: takes.regions.then(|| regions(rng, count)),
        ids,
    };
    if rng.one_in(10) {
        spoil_rows(rng, scale, &mut rows);
    }
    rows
}

/// A stored line holds no more than the length of a column over limit.
fn long_rows(takes: Takes) -> Rows {
    Rows {
        ids: (0..=ROSTER_LIMIT as u64).collect(),
        ratings: takes.ratings.then(Vec::new),
        parties: takes.parties.then(Vec::new),
        roles: takes.roles.then(Vec::new),
        regions: takes.regions.then(Vec::new),
    }
}

/// All above zero, all but one, close to each other, far apart, or of any kind.
fn ratings(rng: &mut Rng, count: usize) -> Vec<f64> {
    match rng.below(8) {
        0 | 1 => (0..count).map(|_| fine(rng, 1.0, 390.0)).collect(),
        2 => {
            let mut ratings: Vec<f64> = (0..count).map(|_| fine(rng, 1.0, 390.0)).collect();
            if count > 0 {
                // The first rows are as often those of the seated.
                let row = rng.below(count.min(6));
                ratings[row] = rng.pick(&NOT_ABOVE_ZERO);
            }
            ratings
        }
        // Steps of a lexicographic bound: 0.4 of a quality's, 0.2 of a latency's.
        3 => (0..count)
            .map(|_| 100.0 + 0.1 * rng.below(8) as f64)
            .collect(),
        4 => (0..count).map(|_| 100.0 * rng.below(12) as f64).collect(),
        _ => {
            let (low, high) = rating_range(rng);
            floats(rng, count, low, high)
        }
    }
}

/// Nobody's, those of the seated, those and one more beside, or any.
fn parties(rng: &mut Rng, ids: &[u64], seated: &[u64]) -> Vec<u64> {
    let spread = rng.below(8);
    let own = |rng: &mut Rng, id: &u64| match seated.contains(id) {
        true => rng.pick(&[0, 1, 2, u64::MAX]),
        false => rng.pick(&[0, 3, 4]),
    };
    let mut parties: Vec<u64> = match spread {
        0 => vec![0; ids.len()],
        1..=5 => ids.iter().map(|id| own(rng, id)).collect(),
        _ => ids.iter().map(|_| party(rng)).collect(),
    };
    if spread > 3 && !ids.is_empty() {
        let row = rng.below(ids.len());
        parties[row] = rng.pick(&[1, 2, u64::MAX]);
    }
    parties
}

/// Few codes, so that one role is had by many.
fn roles(rng: &mut Rng, count: usize) -> Vec<u32> {
    let last = rng.between(1, 4);
    let odd = rng.one_in(6);
    let role = |rng: &mut Rng| match odd && rng.one_in(3) {
        true => u32::MAX,
        false => rng.below(last + 1) as u32,
    };
    (0..count).map(|_| role(rng)).collect()
}

/// One region, two, mostly no record, or any.
fn regions(rng: &mut Rng, count: usize) -> Vec<u8> {
    let few = [region(rng), region(rng)];
    let spread = rng.below(5);
    let code = |rng: &mut Rng| match spread {
        0 => few[0],
        1 | 2 => rng.pick(&few),
        3 if rng.one_in(2) => NO_RECORD,
        _ => region(rng),
    };
    (0..count).map(|_| code(rng)).collect()
}

/// One id doubled, one column of another length or one unknown region: stored ones keep within 12 rows.
fn spoil_rows(rng: &mut Rng, scale: Scale, rows: &mut Rows) {
    let count = rows.ids.len();
    let shorter = count.saturating_sub(1);
    let length = match scale {
        Scale::Stored => rng.pick(&[(count + 1).min(12), shorter, 0]),
        Scale::Full => rng.pick(&[count + 1, shorter, 0, ROSTER_LIMIT, ROSTER_LIMIT + 1]),
    };
    let place = rng.pick(&[0, count / 2, shorter]);
    match rng.below(8) {
        0 => rows.ids.resize(length, u64::MAX),
        1 => resize(&mut rows.ratings, length, 100.0),
        2 => resize(&mut rows.parties, length, 0),
        3 => resize(&mut rows.roles, length, 0),
        4 => resize(&mut rows.regions, length, 0),
        5 if count > 0 => {
            let regions = rows.regions.iter_mut();
            regions.for_each(|regions| regions[place] = rng.pick(&UNKNOWN_REGIONS));
        }
        _ if count > 1 => {
            let (from, to) = rng.pick(&[(0, shorter), (0, 1), (count - 2, shorter)]);
            rows.ids[to] = rows.ids[from];
        }
        _ => {}
    }
}

fn resize<T: Clone>(column: &mut Option<Vec<T>>, length: usize, value: T) {
    if let Some(column) = column {
        column.resize(length, value);
    }
}

/// Lengths of a list of constraints: mostly short, at times full; over limit seldom.
fn list_len(rng: &mut Rng, scale: Scale, limit: usize) -> usize {
    let long = rng.one_in(25);
    match scale {
        Scale::Stored if long => limit + 1,
        Scale::Full if long && rng.one_in(2) => rng.pick(&LONG),
        Scale::Full if long => limit + 1,
        _ if rng.one_in(8) => limit - rng.below(2),
        _ => rng.below(4),
    }
}

/// The sizes of the match mostly; swapped, one off, or over limit.
pub fn sizes(rng: &mut Rng, proposed: &ProposedMatch) -> TeamSizeConstraint {
    let (a, b) = (proposed.a.seated().len(), proposed.b.seated().len());
    let (a, b) = match rng.below(12) {
        0 => (b, a),
        1 => (a + 1, b),
        2 => (a, b + 1),
        3 => (a.saturating_sub(1), b),
        4 => (a, b.saturating_sub(1)),
        5 if rng.one_in(2) => (long_len(rng), b),
        6 if rng.one_in(2) => (a, long_len(rng)),
        _ => (a, b),
    };
    TeamSizeConstraint { a, b }
}

/// The size of the team mostly.
pub fn size(rng: &mut Rng, team: &Team) -> usize {
    let len = team.seated().len();
    match rng.below(16) {
        0 => len + 1,
        1 => len.saturating_sub(1),
        2 => rng.below(TEAM_LIMIT + 1),
        3 => long_len(rng),
        _ => len,
    }
}

/// Often met: few are asked for; at times more at least than at most.
fn requirement(rng: &mut Rng) -> RoleRequirement {
    RoleRequirement {
        role: rng.weighted(&[(2, 0), (6, 1), (4, 2), (2, 3), (1, 4), (1, u32::MAX)]),
        least: rng.weighted(&[(10, 0), (6, 1), (3, 2), (2, 3), (1, 8), (1, usize::MAX)]),
        bounded: rng.one_in(2),
        most: rng.weighted(&[
            (2, 0),
            (2, 1),
            (3, 2),
            (3, 4),
            (3, 8),
            (4, 16),
            (2, usize::MAX),
        ]),
    }
}

/// All 8 places are filled: a call that reads past `len` meets requirements that look real.
pub fn requirements(rng: &mut Rng, scale: Scale) -> RoleRequirements {
    RoleRequirements {
        of: from_fn(|_| requirement(rng)),
        len: list_len(rng, scale, REQUIREMENT_LIMIT),
    }
}

/// Pairs of the regions that are in the rows mostly, one way round; at times all there are.
pub fn allowed(rng: &mut Rng, scale: Scale, rows: &Rows) -> RegionConstraint {
    let known: Vec<u8> = rows.regions().iter().copied().take(8).collect();
    let code = |rng: &mut Rng| match known.is_empty() || rng.one_in(4) {
        true => region(rng),
        false => rng.pick(&known).min(NO_RECORD),
    };
    let mut allowed = RegionConstraint {
        pairs: from_fn(|_| RegionPair {
            first: code(rng),
            second: code(rng),
        }),
        count: list_len(rng, scale, PAIR_LIMIT),
    };
    if rng.one_in(3) {
        allow_all(rng, &mut allowed);
    }
    if rng.one_in(8) {
        spoil_a_pair(rng, &mut allowed);
    }
    allowed
}

/// Each pair of known regions, either way round, or each but one.
fn allow_all(rng: &mut Rng, allowed: &mut RegionConstraint) {
    let codes = 0..NO_RECORD;
    let pairs = codes.flat_map(|first| (0..=first).map(move |second| (first, second)));
    let mut pairs: Vec<(u8, u8)> = pairs.collect();
    rng.shuffle(&mut pairs);
    for (place, &(first, second)) in pairs.iter().enumerate() {
        let turned = rng.one_in(2);
        let (first, second) = if turned {
            (second, first)
        } else {
            (first, second)
        };
        allowed.pairs[place] = RegionPair { first, second };
    }
    allowed.count = pairs.len() - rng.below(2);
}

/// One unknown code in the list, or just past it, where nobody may look.
fn spoil_a_pair(rng: &mut Rng, allowed: &mut RegionConstraint) {
    let count = allowed.listed().len();
    let place = match rng.below(4) {
        0 => count.saturating_sub(1),
        1 => rng.below(count),
        _ => count,
    };
    let pair = &mut allowed.pairs[place.min(PAIR_LIMIT - 1)];
    let code = rng.pick(&UNKNOWN_REGIONS);
    if rng.one_in(2) {
        pair.first = code;
    } else {
        pair.second = code;
    }
}

/// Some kinds are brought, or none, or all; the others are filled nonetheless.
pub fn constraints(
    rng: &mut Rng,
    scale: Scale,
    proposed: &ProposedMatch,
    rows: &Rows,
) -> Constraints {
    let share = rng.pick(&[0, 1, 1, 2, 2, 3, 4]);
    let mut brings = || rng.below(4) < share;
    Constraints {
        brought: Brought {
            sizes: brings(),
            roles: brings(),
            parties: brings(),
            latency: brings(),
            regions: brings(),
        },
        sizes: sizes(rng, proposed),
        roles: requirements(rng, scale),
        regions: allowed(rng, scale, rows),
    }
}

fn candidates_len(rng: &mut Rng, scale: Scale) -> usize {
    let long = rng.one_in(25);
    match scale {
        Scale::Stored if long => CANDIDATE_LIMIT + 1,
        Scale::Full if long => rng.pick(&LONG),
        _ if rng.one_in(12) => CANDIDATE_LIMIT,
        Scale::Full if rng.one_in(12) => rng.below(CANDIDATE_LIMIT),
        _ => rng.below(7),
    }
}

/// A team of up to `widest`, all 8 places filled.
fn small_team(rng: &mut Rng, ids: &[u64], widest: usize) -> Team {
    Team {
        players: from_fn(|_| rng.pick(ids)),
        len: rng.below(widest + 1),
    }
}

/// Few different matches, each many times or with a seat changed; all 64 places are filled.
pub fn candidates(rng: &mut Rng, scale: Scale) -> Candidates {
    let len = candidates_len(rng, scale);
    let narrow = len == CANDIDATE_LIMIT || rng.one_in(2);
    let widest = if narrow { 2 } else { TEAM_LIMIT };
    let mut ids: Vec<u64> = (0..rng.pick(&[2, 4, 8, 16])).collect();
    if rng.one_in(6) {
        ids[0] = rng.pick(&ODD_IDS);
    }
    let different = rng.pick(&[1, 2, 3, 8]);
    let matches: Vec<ProposedMatch> = (0..different)
        .map(|_| ProposedMatch {
            a: small_team(rng, &ids, widest),
            b: small_team(rng, &ids, widest),
        })
        .collect();
    let changes = rng.one_in(3);
    let alike = |rng: &mut Rng| {
        let mut one = rng.pick(&matches);
        if changes {
            one.a.players[0] = rng.pick(&ids);
        }
        one
    };
    let mut candidates = Candidates {
        of: from_fn(|_| alike(rng)),
        len,
    };
    if rng.one_in(10) {
        widen(rng, scale, &mut candidates);
    }
    candidates
}

/// One team over limit among the listed, or just past them, where nobody may look.
fn widen(rng: &mut Rng, scale: Scale, candidates: &mut Candidates) {
    let listed = candidates.listed().len();
    let place = match rng.below(4) {
        0 => listed.saturating_sub(1),
        1 => rng.below(listed),
        2 => 0,
        _ => listed,
    };
    let proposed = &mut candidates.of[place.min(CANDIDATE_LIMIT - 1)];
    let len = match scale {
        Scale::Stored => TEAM_LIMIT + 1,
        Scale::Full => long_len(rng),
    };
    if rng.one_in(2) {
        proposed.a.len = len;
    } else {
        proposed.b.len = len;
    }
}

/// Rows for all who sit in a listed candidate.
pub fn candidate_rows(rng: &mut Rng, scale: Scale, candidates: &Candidates) -> Rows {
    let seated: Vec<u64> = candidates.listed().iter().flat_map(everybody).collect();
    rows(rng, scale, &seated, Takes::RATINGS)
}

/// Few objectives mostly.
pub fn ranking_objectives(rng: &mut Rng, scale: Scale) -> SoftObjectives {
    let mut objectives = soft_objectives(rng, scale);
    if objectives.len <= OBJECTIVE_LIMIT && rng.one_in(2) {
        objectives.len = objectives.len.min(2);
    }
    objectives
}

/// A skill weight under which quality 0.0 scores NaN, and no other quality.
pub fn infinite(rng: &mut Rng) -> f64 {
    rng.pick(&[f64::INFINITY, f64::NEG_INFINITY])
}

/// Skill alone, of infinite weight.
pub fn infinite_skill(rng: &mut Rng) -> SoftObjectives {
    SoftObjectives {
        kinds: [0; OBJECTIVE_LIMIT],
        weights: [infinite(rng); OBJECTIVE_LIMIT],
        len: 1,
    }
}

/// Makes one listed candidate of quality 0.0 and the others of quality 1.0, where two rows allow it.
pub fn single_out(rng: &mut Rng, candidates: &mut Candidates, rows: &mut Rows) {
    let listed = candidates.listed().len();
    let (&[one, other, ..], Some([low, high, ..])) = (&rows.ids[..], rows.ratings.as_deref_mut())
    else {
        return;
    };
    (*low, *high) = (0.0, 1000.0);
    let alone = |player| Team {
        players: [player; TEAM_LIMIT],
        len: 1,
    };
    let place = rng.pick(&[0, listed / 2, listed.saturating_sub(1)]);
    for (at, proposed) in candidates.of.iter_mut().enumerate() {
        let b = alone(if at == place { other } else { one });
        *proposed = ProposedMatch { a: alone(one), b };
    }
}

/// The score of a listed candidate, just above or below it; or any.
pub fn minimum(
    rng: &mut Rng,
    objectives: &SoftObjectives,
    candidates: &Candidates,
    rows: &Rows,
) -> f64 {
    let scored = model::selection(objectives, candidates, rows) == 0;
    if !scored || candidates.len == 0 || rng.one_in(6) {
        return match rng.one_in(3) {
            true => rng.pick(&WILD),
            false => fine(rng, -1.0, 4.0),
        };
    }
    let score = rng.pick(&model::soft_scores(objectives, candidates, rows));
    match rng.below(4) {
        0 => score.next_up(),
        1 => score.next_down(),
        _ => score,
    }
}

/// Leaves of the listed those that strictly rise in `scores`, from the lowest to the highest.
pub fn rise(candidates: &mut Candidates, scores: &[f64]) {
    let mut places = model::falling(scores);
    places.reverse();
    places.dedup_by(|place, before| scores[*place] == scores[*before]);
    let listed = candidates.of;
    for (to, &from) in places.iter().enumerate() {
        candidates.of[to] = listed[from];
    }
    candidates.len = places.len();
}

#[cfg(test)]
mod tests {
    use super::*;
    use crate::draw::proposed;

    fn drawn<T>(draw: impl Fn(&mut Rng) -> T) -> Vec<T> {
        let mut rng = Rng::new(1);
        (0..4000).map(|_| draw(&mut rng)).collect()
    }

    #[test]
    fn rows_reach_every_refusal() {
        for scale in [Scale::Full, Scale::Stored] {
            let rows = drawn(|rng| rows(rng, scale, &[3, 3, 500], Takes::ALL));
            let none = ProposedMatch {
                a: small_team(&mut Rng::new(1), &[1], 0),
                b: small_team(&mut Rng::new(1), &[1], 0),
            };
            let mut seen = [0; 3];
            rows.iter()
                .for_each(|rows| seen[usize::from(model::seated(&none, rows))] += 1);
            assert!(
                seen[0] > 3000 && seen[1] > 100 && seen[2] > 100,
                "{scale:?}: {seen:?}"
            );
            let short = |rows: &Rows| {
                let lengths = rows.lengths();
                lengths == [129, 0, 0, 0, 0] || lengths.iter().all(|&length| length <= 12)
            };
            assert!(scale == Scale::Full || rows.iter().all(short));
        }
    }

    #[test]
    fn lists_reach_every_boundary() {
        let wanted = drawn(|rng| requirements(rng, Scale::Full));
        for len in [0, 1, 2, 3, 7, 8, 9, 65, usize::MAX] {
            assert!(wanted.iter().any(|list| list.len == len), "{len}");
        }
        let allowed = drawn(|rng| allowed(rng, Scale::Full, &Rows::default()));
        for count in [0, 1, 2, 3, 9, 10, 15, 16, 17, usize::MAX] {
            assert!(allowed.iter().any(|list| list.count == count), "{count}");
        }
        let candidates = drawn(|rng| candidates(rng, Scale::Full));
        for len in [0, 1, 2, 6, 63, 64, 65, usize::MAX] {
            assert!(candidates.iter().any(|list| list.len == len), "{len}");
        }
    }

    #[test]
    fn requirements_that_nobody_can_meet() {
        let wanted = drawn(requirement);
        let crossed = |r: &&RoleRequirement| r.bounded && r.least > r.most;
        assert!(wanted.iter().filter(crossed).count() > 100);
        assert!(wanted.iter().any(|r| r.role == 0 && r.least > 0));
        assert!(wanted.iter().any(|r| !r.bounded && r.most == 0));
    }

    #[test]
    fn constraints_brought_and_not() {
        let constraints = drawn(|rng| {
            let proposed = proposed(rng, Scale::Full);
            constraints(rng, Scale::Full, &proposed, &Rows::default())
        });
        let brought = |c: &Constraints| {
            let Brought {
                sizes,
                roles,
                parties,
                latency,
                regions,
            } = c.brought;
            let each = [sizes, roles, parties, latency, regions];
            each.into_iter().filter(|&brought| brought).count()
        };
        for count in 0..=5 {
            let such = constraints.iter().filter(|c| brought(c) == count);
            assert!(such.count() > 100, "{count}");
        }
        let empty = |c: &&Constraints| c.brought.regions && c.regions.count == 0;
        assert!(constraints.iter().filter(empty).count() > 50);
    }

    #[test]
    fn candidates_score_alike_and_rise() {
        let skill = infinite_skill(&mut Rng::new(1));
        let lists = drawn(|rng| {
            let mut candidates = candidates(rng, Scale::Full);
            let rows = candidate_rows(rng, Scale::Full, &candidates);
            let good = model::greedy(&skill, &candidates, &rows) == 0;
            let scores = |c: &Candidates| model::soft_scores(&skill, c, &rows);
            let equal = good
                && scores(&candidates)
                    .windows(2)
                    .any(|pair| pair[0] == pair[1]);
            if good {
                let before = scores(&candidates);
                rise(&mut candidates, &before);
                assert!(scores(&candidates).windows(2).all(|pair| pair[0] < pair[1]));
            }
            equal
        });
        assert!(lists.into_iter().filter(|&equal| equal).count() > 500);
    }

    #[test]
    fn one_candidate_is_singled_out() {
        let mut rng = Rng::new(1);
        let mut candidates = candidates(&mut rng, Scale::Full);
        candidates.len = 5;
        let mut rows = Rows {
            ids: vec![7, 8, 9],
            ratings: Some(vec![f64::NAN; 3]),
            ..Rows::default()
        };
        single_out(&mut rng, &mut candidates, &mut rows);
        let scores = model::soft_scores(&infinite_skill(&mut rng), &candidates, &rows);
        assert_eq!(scores.iter().filter(|score| score.is_nan()).count(), 1);
    }
}
