//! Qualities, scores, soft objectives and vectors.

use crate::{
    MatchObjective, MatchObjectiveVector, ObjectiveWeights, ProposedMatch, Queue, Scored,
    SoftObjectives,
};

// Functions without a pointer are safe: each is total over every input.
unsafe extern "C" {
    fn yilgashe_match_quality(
        proposed: ProposedMatch,
        ids: *const u64,
        ids_len: usize,
        ratings: *const f64,
        ratings_len: usize,
    ) -> Scored;
    fn yilgashe_match_score(
        objective: MatchObjective,
        proposed: ProposedMatch,
        queue: Queue,
        ids: *const u64,
        ids_len: usize,
        ratings: *const f64,
        ratings_len: usize,
        deviations: *const f64,
        deviations_len: usize,
        clock: u64,
    ) -> Scored;
    fn yilgashe_soft_value(
        kind: u8,
        weight: f64,
        proposed: ProposedMatch,
        ids: *const u64,
        ids_len: usize,
        ratings: *const f64,
        ratings_len: usize,
    ) -> Scored;
    fn yilgashe_soft_score(
        objectives: SoftObjectives,
        proposed: ProposedMatch,
        ids: *const u64,
        ids_len: usize,
        ratings: *const f64,
        ratings_len: usize,
    ) -> Scored;
    safe fn yilgashe_vector_scalarize(
        vector: MatchObjectiveVector,
        weights: ObjectiveWeights,
    ) -> f64;
    safe fn yilgashe_vector_dominates(
        vector: MatchObjectiveVector,
        other: MatchObjectiveVector,
    ) -> bool;
    safe fn yilgashe_vector_default() -> MatchObjectiveVector;
    safe fn yilgashe_weights_default() -> ObjectiveWeights;
}

pub fn match_quality(proposed: ProposedMatch, ids: &[u64], ratings: &[f64]) -> Scored {
    // SAFETY: each pointer and length come from one slice, which the call only reads.
    unsafe {
        yilgashe_match_quality(
            proposed,
            ids.as_ptr(),
            ids.len(),
            ratings.as_ptr(),
            ratings.len(),
        )
    }
}

pub fn match_score(
    objective: MatchObjective,
    proposed: ProposedMatch,
    queue: Queue,
    ids: &[u64],
    ratings: &[f64],
    deviations: &[f64],
    clock: u64,
) -> Scored {
    // SAFETY: each pointer and length come from one slice, which the call only reads.
    unsafe {
        yilgashe_match_score(
            objective,
            proposed,
            queue,
            ids.as_ptr(),
            ids.len(),
            ratings.as_ptr(),
            ratings.len(),
            deviations.as_ptr(),
            deviations.len(),
            clock,
        )
    }
}

pub fn soft_value(
    kind: u8,
    weight: f64,
    proposed: ProposedMatch,
    ids: &[u64],
    ratings: &[f64],
) -> Scored {
    // SAFETY: each pointer and length come from one slice, which the call only reads.
    unsafe {
        yilgashe_soft_value(
            kind,
            weight,
            proposed,
            ids.as_ptr(),
            ids.len(),
            ratings.as_ptr(),
            ratings.len(),
        )
    }
}

pub fn soft_score(
    objectives: SoftObjectives,
    proposed: ProposedMatch,
    ids: &[u64],
    ratings: &[f64],
) -> Scored {
    // SAFETY: each pointer and length come from one slice, which the call only reads.
    unsafe {
        yilgashe_soft_score(
            objectives,
            proposed,
            ids.as_ptr(),
            ids.len(),
            ratings.as_ptr(),
            ratings.len(),
        )
    }
}

pub fn vector_scalarize(vector: MatchObjectiveVector, weights: ObjectiveWeights) -> f64 {
    yilgashe_vector_scalarize(vector, weights)
}

pub fn vector_dominates(vector: MatchObjectiveVector, other: MatchObjectiveVector) -> bool {
    yilgashe_vector_dominates(vector, other)
}

pub fn vector_default() -> MatchObjectiveVector {
    yilgashe_vector_default()
}

pub fn weights_default() -> ObjectiveWeights {
    yilgashe_weights_default()
}
