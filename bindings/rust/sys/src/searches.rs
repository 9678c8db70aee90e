//! Searches and generators, which write their matches to the sheets that a call lends.

use crate::{MatchObjective, Queue};

/// The sizes of the two teams, each 0 to 8.
#[repr(C)]
#[derive(Clone, Copy, Debug, Default, PartialEq, Eq)]
pub struct TeamComposition {
    /// Of team A.
    pub a: usize,
    /// Of team B.
    pub b: usize,
}

/// How many partial matches are kept.
#[repr(C)]
#[derive(Clone, Copy, Debug)]
pub struct BeamSearch {
    pub width: usize,
}

/// At most `max` matches.
#[repr(C)]
#[derive(Clone, Copy, Debug)]
pub struct GreedyNearestGenerator {
    pub max: usize,
}

/// How many matches were written; 0 where refused.
#[repr(C)]
#[derive(Clone, Copy, Debug)]
pub struct Formed {
    pub count: usize,
    pub refusal: u8,
}

unsafe extern "C" {
    fn yilgashe_search_greedy(
        queue: Queue,
        sizes: TeamComposition,
        ids: *const u64,
        ids_len: usize,
        ratings: *const f64,
        ratings_len: usize,
        players: *mut u64,
        players_len: usize,
        qualities: *mut f64,
        qualities_len: usize,
    ) -> Formed;
    fn yilgashe_search_beam(
        search: BeamSearch,
        queue: Queue,
        sizes: TeamComposition,
        objective: MatchObjective,
        ids: *const u64,
        ids_len: usize,
        ratings: *const f64,
        ratings_len: usize,
        deviations: *const f64,
        deviations_len: usize,
        clock: u64,
        players: *mut u64,
        players_len: usize,
        qualities: *mut f64,
        qualities_len: usize,
    ) -> Formed;
    fn yilgashe_generate_nearest(
        generator: GreedyNearestGenerator,
        queue: Queue,
        sizes: TeamComposition,
        ids: *const u64,
        ids_len: usize,
        ratings: *const f64,
        ratings_len: usize,
        players: *mut u64,
        players_len: usize,
        qualities: *mut f64,
        qualities_len: usize,
    ) -> Formed;
    fn yilgashe_generate_exhaustive(
        queue: Queue,
        sizes: TeamComposition,
        players: *mut u64,
        players_len: usize,
        qualities: *mut f64,
        qualities_len: usize,
    ) -> Formed;
}

pub fn search_greedy(
    queue: Queue,
    sizes: TeamComposition,
    ids: &[u64],
    ratings: &[f64],
    players: &mut [u64],
    qualities: &mut [f64],
) -> Formed {
    // SAFETY: each pointer and length come from one slice; the call writes to the two lent to be changed alone.
    unsafe {
        yilgashe_search_greedy(
            queue,
            sizes,
            ids.as_ptr(),
            ids.len(),
            ratings.as_ptr(),
            ratings.len(),
            players.as_mut_ptr(),
            players.len(),
            qualities.as_mut_ptr(),
            qualities.len(),
        )
    }
}

#[allow(clippy::too_many_arguments)] // as many as the library's function takes
pub fn search_beam(
    search: BeamSearch,
    queue: Queue,
    sizes: TeamComposition,
    objective: MatchObjective,
    ids: &[u64],
    ratings: &[f64],
    deviations: &[f64],
    clock: u64,
    players: &mut [u64],
    qualities: &mut [f64],
) -> Formed {
    // SAFETY: each pointer and length come from one slice; the call writes to the two lent to be changed alone.
    unsafe {
        yilgashe_search_beam(
            search,
            queue,
            sizes,
            objective,
            ids.as_ptr(),
            ids.len(),
            ratings.as_ptr(),
            ratings.len(),
            deviations.as_ptr(),
            deviations.len(),
            clock,
            players.as_mut_ptr(),
            players.len(),
            qualities.as_mut_ptr(),
            qualities.len(),
        )
    }
}

pub fn generate_nearest(
    generator: GreedyNearestGenerator,
    queue: Queue,
    sizes: TeamComposition,
    ids: &[u64],
    ratings: &[f64],
    players: &mut [u64],
    qualities: &mut [f64],
) -> Formed {
    // SAFETY: each pointer and length come from one slice; the call writes to the two lent to be changed alone.
    unsafe {
        yilgashe_generate_nearest(
            generator,
            queue,
            sizes,
            ids.as_ptr(),
            ids.len(),
            ratings.as_ptr(),
            ratings.len(),
            players.as_mut_ptr(),
            players.len(),
            qualities.as_mut_ptr(),
            qualities.len(),
        )
    }
}

pub fn generate_exhaustive(
    queue: Queue,
    sizes: TeamComposition,
    players: &mut [u64],
    qualities: &mut [f64],
) -> Formed {
    // SAFETY: each pointer and length come from one slice; the call writes to these two alone.
    unsafe {
        yilgashe_generate_exhaustive(
            queue,
            sizes,
            players.as_mut_ptr(),
            players.len(),
            qualities.as_mut_ptr(),
            qualities.len(),
        )
    }
}
