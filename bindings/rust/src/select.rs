//! Selections among at most 64 candidates, which answer with places in the given list, from 0.

use crate::proposed::raw_objectives;
use crate::refusal::answered;
use crate::{ProposedMatch, Refusal, Roster, SoftObjective};
use yilgashe_sys as sys;
use yilgashe_sys::ObjectiveWeights;

/// The first 64, with the length that was given: the library refuses a longer list.
fn raw_candidates(candidates: &[ProposedMatch]) -> sys::Candidates {
    let nobody = sys::Team {
        players: [0; 8],
        len: 0,
    };
    let blank = sys::ProposedMatch {
        a: nobody,
        b: nobody,
    };
    let mut raw = sys::Candidates {
        of: [blank; 64],
        len: candidates.len(),
    };
    for (place, candidate) in raw.of.iter_mut().zip(candidates) {
        *place = candidate.0;
    }
    raw
}

fn chosen(answer: &sys::Selected) -> Result<&[usize], Refusal> {
    answered(answer.refusal)?;
    Ok(answer.chosen())
}

/// The best by score, the last of equal best; none of no candidates.
///
/// ```
/// use yilgashe::{ProposedMatch, Roster, SoftObjective, select};
///
/// let tables = [ProposedMatch::new(&[1], &[2])?, ProposedMatch::new(&[1], &[3])?];
/// assert_eq!(select::greedy(&[SoftObjective::Wait(1.0)], &tables, &Roster::new())?, Some(1));
/// # Ok::<(), yilgashe::Refusal>(())
/// ```
pub fn greedy(
    objectives: &[SoftObjective],
    candidates: &[ProposedMatch],
    roster: &Roster,
) -> Result<Option<usize>, Refusal> {
    let answer = sys::select_greedy(
        raw_objectives(objectives),
        raw_candidates(candidates),
        &roster.ids,
        &roster.ratings,
    );
    Ok(chosen(&answer)?.first().copied())
}

/// The first whose score is at or above the minimum.
pub fn threshold(
    minimum: f64,
    objectives: &[SoftObjective],
    candidates: &[ProposedMatch],
    roster: &Roster,
) -> Result<Option<usize>, Refusal> {
    let answer = sys::select_threshold(
        minimum,
        raw_objectives(objectives),
        raw_candidates(candidates),
        &roster.ids,
        &roster.ratings,
    );
    Ok(chosen(&answer)?.first().copied())
}

/// Per objective, without its weight, those within 0.001 of the best, until one is left.
pub fn lexicographic(
    objectives: &[SoftObjective],
    candidates: &[ProposedMatch],
    roster: &Roster,
) -> Result<Vec<usize>, Refusal> {
    let answer = sys::select_lexicographic(
        raw_objectives(objectives),
        raw_candidates(candidates),
        &roster.ids,
        &roster.ratings,
    );
    Ok(chosen(&answer)?.to_vec())
}

/// All of them, the best first, equal ones in the list's order; the score is the skill weight times the quality.
pub fn weighted(
    weights: ObjectiveWeights,
    candidates: &[ProposedMatch],
    roster: &Roster,
) -> Result<Vec<usize>, Refusal> {
    let answer = sys::select_weighted(
        weights,
        raw_candidates(candidates),
        &roster.ids,
        &roster.ratings,
    );
    Ok(chosen(&answer)?.to_vec())
}
