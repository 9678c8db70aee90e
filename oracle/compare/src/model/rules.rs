//! Refusals of constraints, policies and selections, and the scores that refusal 5 and the falling order look at.

use super::{
    BAD_ROSTER, LAST_KIND, NO_RECORD, OBJECTIVE_LIMIT, OVER_LIMIT, ROSTER_LIMIT, TEAM_LIMIT,
    doubled, first, wide,
};
use crate::data::Rows;
use yilgashe_sys::{
    Candidates, Constraints, ObjectiveWeights, ProposedMatch, RegionConstraint, RoleRequirements,
    SoftObjectives, Team, TeamSizeConstraint,
};

/// A list of role requirements holds this many.
pub const REQUIREMENT_LIMIT: usize = 8;
/// A list of region pairs holds this many.
pub const PAIR_LIMIT: usize = 16;
/// A list of candidates holds this many.
pub const CANDIDATE_LIMIT: usize = 64;

pub const UNRANKED: u8 = 5;

pub fn sizes(sizes: &TeamSizeConstraint, proposed: &ProposedMatch) -> u8 {
    let over = large(sizes) || wide(proposed);
    first(&[(over, OVER_LIMIT)])
}

pub fn roles(requirements: &RoleRequirements, proposed: &ProposedMatch, rows: &Rows) -> u8 {
    let over = demanding(requirements) || wide(proposed) || long(rows);
    first(&[(over, OVER_LIMIT), (bad(rows), BAD_ROSTER)])
}

/// Of party and latency, which bring nothing of their own.
pub fn seated(proposed: &ProposedMatch, rows: &Rows) -> u8 {
    let over = wide(proposed) || long(rows);
    first(&[(over, OVER_LIMIT), (bad(rows), BAD_ROSTER)])
}

pub fn regions(allowed: &RegionConstraint, proposed: &ProposedMatch, rows: &Rows) -> u8 {
    let over = many(allowed) || wide(proposed) || long(rows);
    first(&[
        (over, OVER_LIMIT),
        (bad(rows) || unknown(allowed), BAD_ROSTER),
    ])
}

pub fn constraints(constraints: &Constraints, proposed: &ProposedMatch, rows: &Rows) -> u8 {
    let over = over_limit(constraints) || wide(proposed) || long(rows);
    first(&[
        (over, OVER_LIMIT),
        (bad(rows) || bad_pairs(constraints), BAD_ROSTER),
    ])
}

pub fn validate(size: usize, requirements: &RoleRequirements, team: &Team, rows: &Rows) -> u8 {
    let wide = size > TEAM_LIMIT || team.len > TEAM_LIMIT;
    let over = wide || demanding(requirements) || long(rows);
    first(&[(over, OVER_LIMIT), (bad(rows), BAD_ROSTER)])
}

pub fn policy(
    constraints: &Constraints,
    objectives: &SoftObjectives,
    proposed: &ProposedMatch,
    rows: &Rows,
) -> u8 {
    let brought_over = over_limit(constraints) || unlisted(objectives);
    let over = brought_over || wide(proposed) || long(rows);
    first(&[
        (over, OVER_LIMIT),
        (bad(rows) || bad_pairs(constraints), BAD_ROSTER),
    ])
}

/// Of threshold and lexicographic, which rank without refusal 5.
pub fn selection(objectives: &SoftObjectives, candidates: &Candidates, rows: &Rows) -> u8 {
    let over = unlisted(objectives) || crowded(candidates) || long(rows);
    first(&[(over, OVER_LIMIT), (bad(rows), BAD_ROSTER)])
}

pub fn greedy(objectives: &SoftObjectives, candidates: &Candidates, rows: &Rows) -> u8 {
    match selection(objectives, candidates, rows) {
        0 => first(&[(
            unranked(&soft_scores(objectives, candidates, rows)),
            UNRANKED,
        )]),
        number => number,
    }
}

pub fn weighted(weights: &ObjectiveWeights, candidates: &Candidates, rows: &Rows) -> u8 {
    let over = crowded(candidates) || long(rows);
    match first(&[(over, OVER_LIMIT), (bad(rows), BAD_ROSTER)]) {
        0 => first(&[(unranked(&skill_scores(weights, candidates, rows)), UNRANKED)]),
        number => number,
    }
}

/// The score of each candidate by a weighted list of objectives; columns of equal length.
pub fn soft_scores(objectives: &SoftObjectives, candidates: &Candidates, rows: &Rows) -> Vec<f64> {
    let score = |proposed: &ProposedMatch| weighted_sum(objectives, proposed, rows);
    candidates.listed().iter().map(score).collect()
}

/// The score of one match by a weighted list of objectives; columns of equal length.
pub(super) fn weighted_sum(
    objectives: &SoftObjectives,
    proposed: &ProposedMatch,
    rows: &Rows,
) -> f64 {
    let listed = objectives.listed();
    listed.fold(0.0, |sum, (kind, weight)| {
        sum + weight * soft_value(kind, proposed, rows)
    })
}

/// The score of each candidate by the skill weight alone; columns of equal length.
pub fn skill_scores(weights: &ObjectiveWeights, candidates: &Candidates, rows: &Rows) -> Vec<f64> {
    let score = |proposed: &ProposedMatch| weights.skill * quality(proposed, rows);
    candidates.listed().iter().map(score).collect()
}

/// Places from the highest score to the lowest, equal scores in their order; no NaN among two or more.
pub fn falling(scores: &[f64]) -> Vec<usize> {
    let mut places: Vec<usize> = Vec::new();
    for (place, &score) in scores.iter().enumerate() {
        let before = places.iter().position(|&other| scores[other] < score);
        places.insert(before.unwrap_or(places.len()), place);
    }
    places
}

/// Skill, latency, else wait.
fn soft_value(kind: u8, proposed: &ProposedMatch, rows: &Rows) -> f64 {
    let everybody = || [proposed.a.seated(), proposed.b.seated()].concat();
    match kind {
        0 => quality(proposed, rows),
        1 => from_one(average(&everybody(), &rows.ids, rows.ratings()) / 200.0),
        _ => 0.5,
    }
}

fn quality(proposed: &ProposedMatch, rows: &Rows) -> f64 {
    let (a, b) = (proposed.a.seated(), proposed.b.seated());
    quality_between(a, b, &rows.ids, rows.ratings())
}

pub(super) fn quality_between(a: &[u64], b: &[u64], ids: &[u64], ratings: &[f64]) -> f64 {
    let difference = average(a, ids, ratings) - average(b, ids, ratings);
    from_one(difference.abs() / 400.0)
}

/// 1.0 minus the smaller of share and 1.0; a NaN share is never the smaller.
fn from_one(share: f64) -> f64 {
    1.0 - if share < 1.0 { share } else { 1.0 }
}

/// Of what a column says of the players; those without a row count in the length.
pub(super) fn average(players: &[u64], ids: &[u64], column: &[f64]) -> f64 {
    let of = |player: &u64| {
        let row = ids.iter().position(|id| id == player);
        row.map(|row| column[row])
    };
    let sum = players.iter().filter_map(of).fold(0.0, |sum, x| sum + x);
    sum / players.len().max(1) as f64
}

pub(super) fn unranked(scores: &[f64]) -> bool {
    scores.len() > 1 && scores.iter().any(|score| score.is_nan())
}

fn large(sizes: &TeamSizeConstraint) -> bool {
    sizes.a > TEAM_LIMIT || sizes.b > TEAM_LIMIT
}

fn demanding(requirements: &RoleRequirements) -> bool {
    requirements.len > REQUIREMENT_LIMIT
}

fn many(allowed: &RegionConstraint) -> bool {
    allowed.count > PAIR_LIMIT
}

/// Some pair names a code beyond that of no record.
fn unknown(allowed: &RegionConstraint) -> bool {
    let mut pairs = allowed.listed().iter();
    pairs.any(|pair| pair.first > NO_RECORD || pair.second > NO_RECORD)
}

/// Only what is brought is looked at.
pub(super) fn over_limit(constraints: &Constraints) -> bool {
    let brought = &constraints.brought;
    brought.sizes && large(&constraints.sizes)
        || brought.roles && demanding(&constraints.roles)
        || brought.regions && many(&constraints.regions)
}

pub(super) fn bad_pairs(constraints: &Constraints) -> bool {
    constraints.brought.regions && unknown(&constraints.regions)
}

/// Too many objectives, or one of a kind beyond the last.
pub(super) fn unlisted(objectives: &SoftObjectives) -> bool {
    let unknown = objectives.listed().any(|(kind, _)| kind > LAST_KIND);
    objectives.len > OBJECTIVE_LIMIT || unknown
}

/// Too many candidates, or one with a team over limit.
fn crowded(candidates: &Candidates) -> bool {
    candidates.len > CANDIDATE_LIMIT || candidates.listed().iter().any(wide)
}

pub(super) fn long(rows: &Rows) -> bool {
    rows.lengths().iter().any(|&length| length > ROSTER_LIMIT)
}

/// Columns of unequal length, a player in two rows, or a region code beyond that of no record.
pub(super) fn bad(rows: &Rows) -> bool {
    let unequal = rows.lengths().iter().any(|&n| n != rows.ids.len());
    let region = rows.regions().iter().any(|&code| code > NO_RECORD);
    unequal || doubled(&rows.ids) || region
}

#[cfg(test)]
mod tests {
    use super::*;
    use yilgashe_sys::{Brought, RegionPair, RoleRequirement};

    fn team(len: usize) -> Team {
        Team {
            players: [1; 8],
            len,
        }
    }

    fn teams(a: usize, b: usize) -> ProposedMatch {
        ProposedMatch {
            a: team(a),
            b: team(b),
        }
    }

    fn rows(n: usize) -> Rows {
        Rows {
            ids: (0..n as u64).collect(),
            ratings: Some(vec![100.0; n]),
            parties: Some(vec![0; n]),
            roles: Some(vec![0; n]),
            regions: Some(vec![NO_RECORD; n]),
        }
    }

    fn wanted(len: usize) -> RoleRequirements {
        let requirement = RoleRequirement {
            role: 0,
            least: usize::MAX,
            bounded: true,
            most: 0,
        };
        RoleRequirements {
            of: [requirement; 8],
            len,
        }
    }

    /// The third pair is unknown.
    fn allowed(count: usize) -> RegionConstraint {
        let pair = |first, second| RegionPair { first, second };
        let mut pairs = [pair(NO_RECORD, 0); 16];
        pairs[2] = pair(0, NO_RECORD + 1);
        RegionConstraint { pairs, count }
    }

    fn listed(kind: u8, weight: f64, len: usize) -> SoftObjectives {
        SoftObjectives {
            kinds: [kind; 8],
            weights: [weight; 8],
            len,
        }
    }

    fn candidates(of: &[ProposedMatch]) -> Candidates {
        let mut candidates = Candidates {
            of: [teams(9, 9); 64],
            len: of.len(),
        };
        candidates.of[..of.len()].copy_from_slice(of);
        candidates
    }

    #[test]
    fn sizes_of_constraint_and_match() {
        let of = |a, b| TeamSizeConstraint { a, b };
        assert_eq!(sizes(&of(8, 8), &teams(8, 0)), 0);
        assert_eq!(sizes(&of(9, 8), &teams(8, 0)), 1);
        assert_eq!(sizes(&of(8, usize::MAX), &teams(8, 0)), 1);
        assert_eq!(sizes(&of(8, 8), &teams(8, 9)), 1);
    }

    #[test]
    fn lists_at_their_limits() {
        let (one, none) = (teams(1, 1), rows(0));
        assert_eq!(roles(&wanted(8), &one, &none), 0);
        assert_eq!(roles(&wanted(9), &one, &none), 1);
        assert_eq!(validate(8, &wanted(8), &team(8), &none), 0);
        assert_eq!(validate(9, &wanted(8), &team(8), &none), 1);
        assert_eq!(validate(8, &wanted(9), &team(8), &none), 1);
        assert_eq!(validate(8, &wanted(8), &team(9), &none), 1);
        assert_eq!(regions(&allowed(2), &one, &none), 0);
        assert_eq!(regions(&allowed(3), &one, &none), 2);
        assert_eq!(regions(&allowed(16), &one, &none), 2);
        assert_eq!(regions(&allowed(17), &one, &none), 1);
    }

    #[test]
    fn columns_that_are_taken() {
        let one = teams(1, 1);
        assert_eq!(seated(&one, &rows(128)), 0);
        assert_eq!(seated(&one, &rows(129)), 1);
        let mut unequal = rows(5);
        unequal.roles = Some(vec![0; 4]);
        assert_eq!(seated(&one, &unequal), 2);
        assert_eq!(seated(&teams(9, 1), &unequal), 1);
        unequal.roles = None;
        assert_eq!(seated(&one, &unequal), 0);
        unequal.parties = Some(vec![0; 129]);
        assert_eq!(seated(&one, &unequal), 1);
        let mut region = rows(5);
        region.regions = Some(vec![0, 1, 2, 3, NO_RECORD + 1]);
        assert_eq!(seated(&one, &region), 2);
        let mut twice = rows(5);
        twice.ids[4] = 0;
        assert_eq!(seated(&one, &twice), 2);
    }

    #[test]
    fn only_what_is_brought_is_checked() {
        let bad = |sizes, roles, regions, count| Constraints {
            brought: Brought {
                sizes,
                roles,
                parties: true,
                latency: true,
                regions,
            },
            sizes: TeamSizeConstraint { a: 9, b: 0 },
            roles: wanted(9),
            regions: allowed(count),
        };
        let refusals = |brought: Constraints| {
            let (one, rows, none) = (teams(1, 1), rows(5), listed(0, 1.0, 0));
            let alone = constraints(&brought, &one, &rows);
            assert_eq!(alone, policy(&brought, &none, &one, &rows));
            assert_eq!(policy(&brought, &listed(3, 1.0, 1), &one, &rows), 1);
            assert_eq!(policy(&brought, &listed(0, 1.0, 9), &one, &rows), 1);
            alone
        };
        assert_eq!(refusals(bad(false, false, false, 17)), 0);
        assert_eq!(refusals(bad(true, false, false, 0)), 1);
        assert_eq!(refusals(bad(false, true, false, 0)), 1);
        assert_eq!(refusals(bad(false, false, true, 17)), 1);
        assert_eq!(refusals(bad(false, false, true, 3)), 2);
        assert_eq!(refusals(bad(true, false, true, 3)), 1);
    }

    #[test]
    fn candidates_are_checked_up_to_their_number() {
        let (none, rows) = (listed(0, 1.0, 0), rows(5));
        let refusal = |candidates: &Candidates| selection(&none, candidates, &rows);
        assert_eq!(refusal(&candidates(&[])), 0);
        assert_eq!(refusal(&candidates(&[teams(8, 8); 64])), 0);
        assert_eq!(refusal(&candidates(&[teams(8, 8), teams(8, 9)])), 1);
        let mut many = candidates(&[teams(1, 1); 64]);
        many.len = 65;
        assert_eq!(refusal(&many), 1);
    }

    #[test]
    fn one_nan_among_two_is_unranked() {
        let nan = listed(2, f64::NAN, 1);
        let (one, two) = (candidates(&[teams(1, 1)]), candidates(&[teams(1, 1); 2]));
        assert_eq!(greedy(&nan, &one, &rows(5)), 0);
        assert_eq!(greedy(&nan, &two, &rows(5)), 5);
        assert_eq!(selection(&nan, &two, &rows(5)), 0);
        let mut twice = rows(5);
        twice.ids[4] = 0;
        assert_eq!(greedy(&nan, &two, &twice), 2);
        // Quality 0.0 of the second alone.
        let mut apart = rows(5);
        apart.ratings = Some(vec![0.0, 1000.0, 0.0, 0.0, 0.0]);
        let differing = candidates(&[teams(1, 1), teams(1, 0)]);
        let weights = |skill| ObjectiveWeights::of([skill, f64::NAN, 0.0, 0.0, 0.0, 0.0]);
        assert_eq!(weighted(&weights(f64::INFINITY), &differing, &apart), 5);
        assert_eq!(weighted(&weights(f64::INFINITY), &two, &apart), 0);
        assert_eq!(weighted(&weights(1.0), &differing, &apart), 0);
    }

    #[test]
    fn falling_is_stable() {
        assert_eq!(falling(&[]), []);
        assert_eq!(falling(&[f64::NAN]), [0]);
        assert_eq!(falling(&[1.0, 2.0, 1.0, 3.0, 2.0]), [3, 1, 4, 0, 2]);
        assert_eq!(falling(&[0.0, -0.0, 0.0]), [0, 1, 2]);
    }
}
