//! The C interface of libcapi.a: its structs, its functions, and thin safe wrappers over slices.
//!
//! A refusal is 0 for none, else the number of document 01. `include/yilgashe.h` says what each function does; the crate
//! `yilgashe` has the same with types that cannot be filled wrongly.

mod choices;
mod halls;
mod layout;
mod rules;
mod scores;
mod searches;
mod show;

pub use choices::*;
pub use halls::*;
pub use rules::*;
pub use scores::*;
pub use searches::*;

/// One waiting player.
#[repr(C)]
#[derive(Clone, Copy, Default, PartialEq)]
pub struct QueueEntry {
    /// Any number, 0 too.
    pub player: u64,
    /// Since when, in nanoseconds.
    pub joined: u64,
    /// The rating that searches go by.
    pub rating: f64,
    /// 0 for none.
    pub party: u64,
    /// 0 for none.
    pub role: u32,
}

/// The first `len` entries wait; places past `len` mean nothing.
#[repr(C)]
#[derive(Clone, Copy)]
pub struct Queue {
    pub entries: [QueueEntry; 64],
    pub len: usize,
}

/// The queue afterwards.
#[repr(C)]
#[derive(Clone, Copy)]
pub struct Enqueued {
    pub queue: Queue,
    pub refusal: u8,
}

/// `entry` has a meaning only where `found`.
#[repr(C)]
#[derive(Clone, Copy)]
pub struct Removed {
    pub queue: Queue,
    pub entry: QueueEntry,
    pub found: bool,
    pub refusal: u8,
}

/// Who stays and who goes, each in the order of the queue.
#[repr(C)]
#[derive(Clone, Copy)]
pub struct Batch {
    pub kept: Queue,
    pub removed: Queue,
    pub refusal: u8,
}

/// `nanos` is 0 where not found or refused.
#[repr(C)]
#[derive(Clone, Copy, Debug)]
pub struct Wait {
    pub nanos: u64,
    pub found: bool,
    pub refusal: u8,
}

/// `nanos` is 0 where refused.
#[repr(C)]
#[derive(Clone, Copy, Debug)]
pub struct Duration {
    pub nanos: u64,
    pub refusal: u8,
}

/// `seconds` is 0.0 where refused.
#[repr(C)]
#[derive(Clone, Copy, Debug)]
pub struct Seconds {
    pub seconds: f64,
    pub refusal: u8,
}

/// The first `len` players are seated; places past `len` mean nothing.
#[repr(C)]
#[derive(Clone, Copy)]
pub struct Team {
    pub players: [u64; 8],
    pub len: usize,
}

/// Two teams.
#[repr(C)]
#[derive(Clone, Copy)]
pub struct ProposedMatch {
    pub a: Team,
    pub b: Team,
}

/// The weights of a match's score.
#[repr(C)]
#[derive(Clone, Copy, Debug, Default, PartialEq)]
pub struct MatchObjective {
    /// Of the match's quality.
    pub quality: f64,
    /// Of the longest wait, in minutes, which is taken off.
    pub wait: f64,
    /// Of the ping, which is 0.0.
    pub ping: f64,
    /// Of the average rating deviation / 350.0, which is taken off.
    pub uncertainty: f64,
}

/// `value` is 0.0 where refused.
#[repr(C)]
#[derive(Clone, Copy, Debug)]
pub struct Scored {
    pub value: f64,
    pub refusal: u8,
}

/// The first `len` kinds and weights are listed. Kinds: 0 skill, 1 latency, 2 wait.
#[repr(C)]
#[derive(Clone, Copy)]
pub struct SoftObjectives {
    pub kinds: [u8; 8],
    pub weights: [f64; 8],
    pub len: usize,
}

/// What a match is worth by each of six measures.
#[repr(C)]
#[derive(Clone, Copy, Debug, PartialEq)]
pub struct MatchObjectiveVector {
    /// More is better.
    pub skill: f64,
    /// More is better.
    pub role: f64,
    /// More is better.
    pub latency: f64,
    /// More is better.
    pub party: f64,
    /// Less is better.
    pub wait: f64,
    /// More is better.
    pub utilization: f64,
}

/// A weight for each coordinate.
pub type ObjectiveWeights = MatchObjectiveVector;

impl Queue {
    /// Holds `entries`, with `len` saying so; at most 64.
    pub fn of(entries: &[QueueEntry]) -> Self {
        let mut queue = Queue {
            entries: [QueueEntry::default(); 64],
            len: entries.len(),
        };
        queue.entries[..entries.len()].copy_from_slice(entries);
        queue
    }

    /// The entries that wait; all 64 where `len` is over 64.
    pub fn waiting(&self) -> &[QueueEntry] {
        &self.entries[..self.len.min(64)]
    }
}

impl Team {
    /// The players who are seated; all 8 where `len` is over 8.
    pub fn seated(&self) -> &[u64] {
        &self.players[..self.len.min(8)]
    }
}

impl SoftObjectives {
    /// The kinds and weights that are listed; all 8 where `len` is over 8.
    pub fn listed(&self) -> impl ExactSizeIterator<Item = (u8, f64)> {
        (0..self.len.min(8)).map(|place| (self.kinds[place], self.weights[place]))
    }
}

impl MatchObjectiveVector {
    /// Skill, role, latency, party, wait, utilization.
    pub fn of([skill, role, latency, party, wait, utilization]: [f64; 6]) -> Self {
        MatchObjectiveVector {
            skill,
            role,
            latency,
            party,
            wait,
            utilization,
        }
    }

    /// In the order of `of`.
    pub fn coordinates(&self) -> [f64; 6] {
        [
            self.skill,
            self.role,
            self.latency,
            self.party,
            self.wait,
            self.utilization,
        ]
    }
}

// Functions without a pointer are safe: each is total over every input.
unsafe extern "C" {
    safe fn yilgashe_queue_empty() -> Queue;
    safe fn yilgashe_queue_enqueue(queue: Queue, entry: QueueEntry) -> Enqueued;
    safe fn yilgashe_queue_remove(queue: Queue, player: u64) -> Removed;
    fn yilgashe_queue_remove_batch(queue: Queue, players: *const u64, players_len: usize) -> Batch;
    safe fn yilgashe_queue_waiting_time(queue: Queue, player: u64, clock: u64) -> Wait;
    safe fn yilgashe_time_duration_since(later: u64, earlier: u64) -> Duration;
    safe fn yilgashe_time_as_secs_f64(nanos: u64) -> Seconds;
    fn yilgashe_roster_check(
        ids: *const u64,
        ids_len: usize,
        ratings: *const f64,
        ratings_len: usize,
        deviations: *const f64,
        deviations_len: usize,
        parties: *const u64,
        parties_len: usize,
        roles: *const u32,
        roles_len: usize,
        regions: *const u8,
        regions_len: usize,
    ) -> u8;
}

pub fn queue_empty() -> Queue {
    yilgashe_queue_empty()
}

pub fn queue_enqueue(queue: Queue, entry: QueueEntry) -> Enqueued {
    yilgashe_queue_enqueue(queue, entry)
}

pub fn queue_remove(queue: Queue, player: u64) -> Removed {
    yilgashe_queue_remove(queue, player)
}

pub fn queue_remove_batch(queue: Queue, players: &[u64]) -> Batch {
    // SAFETY: pointer and length come from one slice, which the call only reads.
    unsafe { yilgashe_queue_remove_batch(queue, players.as_ptr(), players.len()) }
}

pub fn queue_waiting_time(queue: Queue, player: u64, clock: u64) -> Wait {
    yilgashe_queue_waiting_time(queue, player, clock)
}

pub fn time_duration_since(later: u64, earlier: u64) -> Duration {
    yilgashe_time_duration_since(later, earlier)
}

pub fn time_as_secs_f64(nanos: u64) -> Seconds {
    yilgashe_time_as_secs_f64(nanos)
}

pub fn roster_check(
    ids: &[u64],
    ratings: &[f64],
    deviations: &[f64],
    parties: &[u64],
    roles: &[u32],
    regions: &[u8],
) -> u8 {
    // SAFETY: each pointer and length come from one slice, which the call only reads.
    unsafe {
        yilgashe_roster_check(
            ids.as_ptr(),
            ids.len(),
            ratings.as_ptr(),
            ratings.len(),
            deviations.as_ptr(),
            deviations.len(),
            parties.as_ptr(),
            parties.len(),
            roles.as_ptr(),
            roles.len(),
            regions.as_ptr(),
            regions.len(),
        )
    }
}
