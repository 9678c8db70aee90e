//! Constraints, the policy's score and the selections.

use crate::{ObjectiveWeights, ProposedMatch, Scored, SoftObjectives, Team};
use std::fmt::{Debug, Formatter, Result};

/// `most` counts only where `bounded`.
#[repr(C)]
#[derive(Clone, Copy, Debug)]
pub struct RoleRequirement {
    pub role: u32,
    pub least: usize,
    pub bounded: bool,
    pub most: usize,
}

/// The first `len` requirements are listed; places past `len` mean nothing.
#[repr(C)]
#[derive(Clone, Copy)]
pub struct RoleRequirements {
    pub of: [RoleRequirement; 8],
    pub len: usize,
}

#[repr(C)]
#[derive(Clone, Copy, Debug)]
pub struct RegionPair {
    pub first: u8,
    pub second: u8,
}

/// The first `count` pairs are allowed; places past `count` mean nothing.
#[repr(C)]
#[derive(Clone, Copy)]
pub struct RegionConstraint {
    pub pairs: [RegionPair; 16],
    pub count: usize,
}

#[repr(C)]
#[derive(Clone, Copy, Debug)]
pub struct TeamSizeConstraint {
    pub a: usize,
    pub b: usize,
}

/// Which kinds of constraint a call brings; by default none.
#[repr(C)]
#[derive(Clone, Copy, Debug, Default)]
pub struct Brought {
    pub sizes: bool,
    pub roles: bool,
    pub parties: bool,
    pub latency: bool,
    pub regions: bool,
}

/// A kind that is not brought means nothing, whatever stands in its place.
#[repr(C)]
#[derive(Clone, Copy, Debug)]
pub struct Constraints {
    pub brought: Brought,
    pub sizes: TeamSizeConstraint,
    pub roles: RoleRequirements,
    pub regions: RegionConstraint,
}

/// `satisfied` is false where refused.
#[repr(C)]
#[derive(Clone, Copy, Debug)]
pub struct Verdict {
    pub satisfied: bool,
    pub refusal: u8,
}

/// Faults: 0 none, 1 wrong size, 2 too few, 3 too many; `place` is the requirement's for 2 and 3, else 0.
#[repr(C)]
#[derive(Clone, Copy, Debug)]
pub struct Validity {
    pub place: usize,
    pub fault: u8,
    pub refusal: u8,
}

/// The first `len` matches are listed; places past `len` mean nothing.
#[repr(C)]
#[derive(Clone, Copy)]
pub struct Candidates {
    pub of: [ProposedMatch; 64],
    pub len: usize,
}

/// The first `len` places are chosen; what stands behind is free.
#[repr(C)]
#[derive(Clone, Copy, Debug)]
pub struct Selected {
    pub places: [usize; 64],
    pub len: usize,
    pub refusal: u8,
}

impl RoleRequirements {
    /// Those that are listed; all 8 where `len` is over 8.
    pub fn listed(&self) -> &[RoleRequirement] {
        &self.of[..self.len.min(8)]
    }
}

impl RegionConstraint {
    /// The pairs that are allowed; all 16 where `count` is over 16.
    pub fn listed(&self) -> &[RegionPair] {
        &self.pairs[..self.count.min(16)]
    }
}

impl Candidates {
    /// Those that are listed; all 64 where `len` is over 64.
    pub fn listed(&self) -> &[ProposedMatch] {
        &self.of[..self.len.min(64)]
    }
}

impl Selected {
    /// The places that are chosen; all 64 where `len` is over 64.
    pub fn chosen(&self) -> &[usize] {
        &self.places[..self.len.min(64)]
    }
}

impl Debug for RoleRequirements {
    fn fmt(&self, f: &mut Formatter<'_>) -> Result {
        write!(f, "requirements of len {}", self.len)?;
        for requirement in self.listed() {
            write!(f, "\n      {requirement:?}")?;
        }
        Ok(())
    }
}

impl Debug for RegionConstraint {
    fn fmt(&self, f: &mut Formatter<'_>) -> Result {
        let pairs: Vec<(u8, u8)> = self.listed().iter().map(|p| (p.first, p.second)).collect();
        write!(f, "region pairs of count {}: {pairs:?}", self.count)
    }
}

impl Debug for Candidates {
    fn fmt(&self, f: &mut Formatter<'_>) -> Result {
        write!(f, "candidates of len {}", self.len)?;
        for (place, ProposedMatch { a, b }) in self.listed().iter().enumerate() {
            write!(f, "\n      {place:2}: A, {a:?}; B, {b:?}")?;
        }
        Ok(())
    }
}

// Functions without a pointer are safe: each is total over every input.
unsafe extern "C" {
    safe fn yilgashe_sizes_satisfied(sizes: TeamSizeConstraint, proposed: ProposedMatch)
    -> Verdict;
    fn yilgashe_roles_satisfied(
        requirements: RoleRequirements,
        proposed: ProposedMatch,
        ids: *const u64,
        ids_len: usize,
        roles: *const u32,
        roles_len: usize,
    ) -> Verdict;
    fn yilgashe_parties_satisfied(
        proposed: ProposedMatch,
        ids: *const u64,
        ids_len: usize,
        parties: *const u64,
        parties_len: usize,
    ) -> Verdict;
    fn yilgashe_latency_satisfied(
        proposed: ProposedMatch,
        ids: *const u64,
        ids_len: usize,
        ratings: *const f64,
        ratings_len: usize,
    ) -> Verdict;
    fn yilgashe_regions_satisfied(
        allowed: RegionConstraint,
        proposed: ProposedMatch,
        ids: *const u64,
        ids_len: usize,
        regions: *const u8,
        regions_len: usize,
    ) -> Verdict;
    fn yilgashe_constraints_satisfied(
        constraints: Constraints,
        proposed: ProposedMatch,
        ids: *const u64,
        ids_len: usize,
        ratings: *const f64,
        ratings_len: usize,
        parties: *const u64,
        parties_len: usize,
        roles: *const u32,
        roles_len: usize,
        regions: *const u8,
        regions_len: usize,
    ) -> Verdict;
    fn yilgashe_team_validate(
        size: usize,
        requirements: RoleRequirements,
        team: Team,
        ids: *const u64,
        ids_len: usize,
        roles: *const u32,
        roles_len: usize,
    ) -> Validity;
    fn yilgashe_policy_score(
        constraints: Constraints,
        objectives: SoftObjectives,
        proposed: ProposedMatch,
        ids: *const u64,
        ids_len: usize,
        ratings: *const f64,
        ratings_len: usize,
        parties: *const u64,
        parties_len: usize,
        roles: *const u32,
        roles_len: usize,
        regions: *const u8,
        regions_len: usize,
    ) -> Scored;
    fn yilgashe_select_greedy(
        objectives: SoftObjectives,
        candidates: Candidates,
        ids: *const u64,
        ids_len: usize,
        ratings: *const f64,
        ratings_len: usize,
    ) -> Selected;
    fn yilgashe_select_threshold(
        minimum: f64,
        objectives: SoftObjectives,
        candidates: Candidates,
        ids: *const u64,
        ids_len: usize,
        ratings: *const f64,
        ratings_len: usize,
    ) -> Selected;
    fn yilgashe_select_lexicographic(
        objectives: SoftObjectives,
        candidates: Candidates,
        ids: *const u64,
        ids_len: usize,
        ratings: *const f64,
        ratings_len: usize,
    ) -> Selected;
    fn yilgashe_select_weighted(
        weights: ObjectiveWeights,
        candidates: Candidates,
        ids: *const u64,
        ids_len: usize,
        ratings: *const f64,
        ratings_len: usize,
    ) -> Selected;
}

pub fn sizes_satisfied(sizes: TeamSizeConstraint, proposed: ProposedMatch) -> Verdict {
    yilgashe_sizes_satisfied(sizes, proposed)
}

pub fn roles_satisfied(
    requirements: RoleRequirements,
    proposed: ProposedMatch,
    ids: &[u64],
    roles: &[u32],
) -> Verdict {
    // SAFETY: each pointer and length come from one slice, which the call only reads.
    unsafe {
        yilgashe_roles_satisfied(
            requirements,
            proposed,
            ids.as_ptr(),
            ids.len(),
            roles.as_ptr(),
            roles.len(),
        )
    }
}

pub fn parties_satisfied(proposed: ProposedMatch, ids: &[u64], parties: &[u64]) -> Verdict {
    // SAFETY: each pointer and length come from one slice, which the call only reads.
    unsafe {
        yilgashe_parties_satisfied(
            proposed,
            ids.as_ptr(),
            ids.len(),
            parties.as_ptr(),
            parties.len(),
        )
    }
}

pub fn latency_satisfied(proposed: ProposedMatch, ids: &[u64], ratings: &[f64]) -> Verdict {
    // SAFETY: each pointer and length come from one slice, which the call only reads.
    unsafe {
        yilgashe_latency_satisfied(
            proposed,
            ids.as_ptr(),
            ids.len(),
            ratings.as_ptr(),
            ratings.len(),
        )
    }
}

pub fn regions_satisfied(
    allowed: RegionConstraint,
    proposed: ProposedMatch,
    ids: &[u64],
    regions: &[u8],
) -> Verdict {
    // SAFETY: each pointer and length come from one slice, which the call only reads.
    unsafe {
        yilgashe_regions_satisfied(
            allowed,
            proposed,
            ids.as_ptr(),
            ids.len(),
            regions.as_ptr(),
            regions.len(),
        )
    }
}

pub fn constraints_satisfied(
    constraints: Constraints,
    proposed: ProposedMatch,
    ids: &[u64],
    ratings: &[f64],
    parties: &[u64],
    roles: &[u32],
    regions: &[u8],
) -> Verdict {
    // SAFETY: each pointer and length come from one slice, which the call only reads.
    unsafe {
        yilgashe_constraints_satisfied(
            constraints,
            proposed,
            ids.as_ptr(),
            ids.len(),
            ratings.as_ptr(),
            ratings.len(),
            parties.as_ptr(),
            parties.len(),
            roles.as_ptr(),
            roles.len(),
            regions.as_ptr(),
            regions.len(),
        )
    }
}

pub fn team_validate(
    size: usize,
    requirements: RoleRequirements,
    team: Team,
    ids: &[u64],
    roles: &[u32],
) -> Validity {
    // SAFETY: each pointer and length come from one slice, which the call only reads.
    unsafe {
        yilgashe_team_validate(
            size,
            requirements,
            team,
            ids.as_ptr(),
            ids.len(),
            roles.as_ptr(),
            roles.len(),
        )
    }
}

#[allow(clippy::too_many_arguments)] // as many as the library's function takes
pub fn policy_score(
    constraints: Constraints,
    objectives: SoftObjectives,
    proposed: ProposedMatch,
    ids: &[u64],
    ratings: &[f64],
    parties: &[u64],
    roles: &[u32],
    regions: &[u8],
) -> Scored {
    // SAFETY: each pointer and length come from one slice, which the call only reads.
    unsafe {
        yilgashe_policy_score(
            constraints,
            objectives,
            proposed,
            ids.as_ptr(),
            ids.len(),
            ratings.as_ptr(),
            ratings.len(),
            parties.as_ptr(),
            parties.len(),
            roles.as_ptr(),
            roles.len(),
            regions.as_ptr(),
            regions.len(),
        )
    }
}

pub fn select_greedy(
    objectives: SoftObjectives,
    candidates: Candidates,
    ids: &[u64],
    ratings: &[f64],
) -> Selected {
    // SAFETY: each pointer and length come from one slice, which the call only reads.
    unsafe {
        yilgashe_select_greedy(
            objectives,
            candidates,
            ids.as_ptr(),
            ids.len(),
            ratings.as_ptr(),
            ratings.len(),
        )
    }
}

pub fn select_threshold(
    minimum: f64,
    objectives: SoftObjectives,
    candidates: Candidates,
    ids: &[u64],
    ratings: &[f64],
) -> Selected {
    // SAFETY: each pointer and length come from one slice, which the call only reads.
    unsafe {
        yilgashe_select_threshold(
            minimum,
            objectives,
            candidates,
            ids.as_ptr(),
            ids.len(),
            ratings.as_ptr(),
            ratings.len(),
        )
    }
}

pub fn select_lexicographic(
    objectives: SoftObjectives,
    candidates: Candidates,
    ids: &[u64],
    ratings: &[f64],
) -> Selected {
    // SAFETY: each pointer and length come from one slice, which the call only reads.
    unsafe {
        yilgashe_select_lexicographic(
            objectives,
            candidates,
            ids.as_ptr(),
            ids.len(),
            ratings.as_ptr(),
            ratings.len(),
        )
    }
}

pub fn select_weighted(
    weights: ObjectiveWeights,
    candidates: Candidates,
    ids: &[u64],
    ratings: &[f64],
) -> Selected {
    // SAFETY: each pointer and length come from one slice, which the call only reads.
    unsafe {
        yilgashe_select_weighted(
            weights,
            candidates,
            ids.as_ptr(),
            ids.len(),
            ratings.as_ptr(),
            ratings.len(),
        )
    }
}
