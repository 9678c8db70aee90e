//! The best choice of a full round.

use crate::{Constraints, ProposedMatch, Queue, SoftObjectives, TeamComposition};

/// `teams` has a meaning only where `found`; `tried` is 0 where refused.
#[repr(C)]
#[derive(Clone, Copy, Debug)]
pub struct Chosen {
    pub teams: ProposedMatch,
    pub tried: u64,
    pub found: bool,
    pub refusal: u8,
}

unsafe extern "C" {
    fn yilgashe_best_choice(
        queue: Queue,
        sizes: TeamComposition,
        constraints: Constraints,
        objectives: SoftObjectives,
        ids: *const u64,
        ids_len: usize,
        ratings: *const f64,
        ratings_len: usize,
        parties: *const u64,
        parties_len: usize,
        roles: *const u32,
        roles_len: usize,
        regions: *const u8,
        regions_len: usize,
    ) -> Chosen;
}

#[allow(clippy::too_many_arguments)] // as many as the library's function takes
pub fn best_choice(
    queue: Queue,
    sizes: TeamComposition,
    constraints: Constraints,
    objectives: SoftObjectives,
    ids: &[u64],
    ratings: &[f64],
    parties: &[u64],
    roles: &[u32],
    regions: &[u8],
) -> Chosen {
    // SAFETY: each pointer and length come from one slice, which the call only reads.
    unsafe {
        yilgashe_best_choice(
            queue,
            sizes,
            constraints,
            objectives,
            ids.as_ptr(),
            ids.len(),
            ratings.as_ptr(),
            ratings.len(),
            parties.as_ptr(),
            parties.len(),
            roles.as_ptr(),
            roles.len(),
            regions.as_ptr(),
            regions.len(),
        )
    }
}
