//! From the library's plain numbers to the Rust's types, and back.

mod rules;
mod searches;

pub use rules::*;
pub use searches::*;

use crate::data::{Columns, Roster};
use crate::model::NO_RECORD;
use matchlab_core::player::{
    GeoLocation, PlayerId, PlayerObservation, PlayerReality, Region, SkillVector, VisibleRank,
};
use matchlab_core::time::SimTime;
use matchlab_core::world::World;
use matchlab_matchmaking::queue as matchlab;
use matchlab_matchmaking::{matchmaker, objective};
use yilgashe_sys::{
    MatchObjective, MatchObjectiveVector, ObjectiveWeights, ProposedMatch, Queue, QueueEntry,
};

/// Fields that the library leaves out get a constant: nothing compared reads them.
pub fn to_entry(entry: &QueueEntry) -> matchlab::QueueEntry {
    matchlab::QueueEntry {
        player_id: PlayerId(entry.player),
        joined_at: SimTime(entry.joined),
        observation: matchlab::LeanObservation {
            rating: entry.rating,
            rating_deviation: 0.0,
            games_played: 0,
            win_rate: 0.0,
        },
        region: Region::Other,
        party_id: to_party(entry.party),
        game_mode: String::new(),
        role: to_role(entry.role),
        latency_ms: 0.0,
    }
}

pub fn from_entry(entry: &matchlab::QueueEntry) -> QueueEntry {
    QueueEntry {
        player: entry.player_id.0,
        joined: entry.joined_at.0,
        rating: entry.observation.rating,
        party: entry.party_id.unwrap_or(0),
        role: from_role(entry.role.as_deref()),
    }
}

pub fn to_entries(entries: &[QueueEntry]) -> Vec<matchlab::QueueEntry> {
    entries.iter().map(to_entry).collect()
}

pub fn to_queue(queue: &Queue) -> matchlab::Queue {
    matchlab::Queue::from_entries(to_entries(queue.waiting()))
}

pub fn from_entries(entries: &[matchlab::QueueEntry]) -> Queue {
    let entries: Vec<QueueEntry> = entries.iter().map(from_entry).collect();
    Queue::of(&entries)
}

/// The Rust's `World` for a roster without doubled ids; `now` is its clock.
pub fn to_world(roster: &Roster, now: u64) -> World {
    let rows = 0..roster.ids.len();
    World {
        observations: rows
            .clone()
            .map(|row| (PlayerId(roster.ids[row]), observation(roster, row)))
            .collect(),
        players: rows
            .filter_map(|row| Some((PlayerId(roster.ids[row]), reality(roster, row)?)))
            .collect(),
        time: SimTime(now),
    }
}

/// The Rust's `World` for columns of equal length; those that are not taken get constants.
pub fn to_rated_world(columns: &Columns, now: u64) -> World {
    let rows = columns.ids.len();
    let none = || vec![0.0; rows];
    let roster = Roster {
        ids: columns.ids.clone(),
        ratings: columns.ratings.clone(),
        deviations: columns.deviations.clone().unwrap_or_else(none),
        parties: vec![0; rows],
        roles: vec![0; rows],
        regions: vec![NO_RECORD; rows],
    };
    to_world(&roster, now)
}

/// The Rust's quality field is not read by what is compared.
pub fn to_proposed(proposed: &ProposedMatch) -> matchmaker::ProposedMatch {
    matchmaker::ProposedMatch {
        team_a: to_players(proposed.a.seated()),
        team_b: to_players(proposed.b.seated()),
        quality_score: 0.0,
    }
}

pub fn to_objective(weights: &MatchObjective) -> objective::MatchObjective {
    objective::MatchObjective {
        weight_quality: weights.quality,
        weight_queue_time: weights.wait,
        weight_ping: weights.ping,
        weight_rating_uncertainty: weights.uncertainty,
    }
}

/// Kinds over 2 are refused and never come here.
pub fn to_soft_objective(kind: u8) -> Box<dyn objective::SoftObjective> {
    match kind {
        0 => Box::new(objective::SkillBalanceObjective),
        1 => Box::new(objective::LatencyObjective),
        2 => Box::new(objective::WaitTimeObjective),
        _ => unreachable!("a soft objective of kind {kind}"),
    }
}

pub fn to_vector(vector: &MatchObjectiveVector) -> objective::MatchObjectiveVector {
    objective::MatchObjectiveVector {
        skill_quality: vector.skill,
        role_quality: vector.role,
        latency_quality: vector.latency,
        party_quality: vector.party,
        wait_cost: vector.wait,
        utilization: vector.utilization,
    }
}

pub fn from_vector(vector: &objective::MatchObjectiveVector) -> MatchObjectiveVector {
    MatchObjectiveVector {
        skill: vector.skill_quality,
        role: vector.role_quality,
        latency: vector.latency_quality,
        party: vector.party_quality,
        wait: vector.wait_cost,
        utilization: vector.utilization,
    }
}

pub fn to_weights(weights: &ObjectiveWeights) -> objective::ObjectiveWeights {
    objective::ObjectiveWeights {
        skill_quality: weights.skill,
        role_quality: weights.role,
        latency_quality: weights.latency,
        party_quality: weights.party,
        wait_cost: weights.wait,
        utilization: weights.utilization,
    }
}

pub fn from_weights(weights: &objective::ObjectiveWeights) -> ObjectiveWeights {
    ObjectiveWeights {
        skill: weights.skill_quality,
        role: weights.role_quality,
        latency: weights.latency_quality,
        party: weights.party_quality,
        wait: weights.wait_cost,
        utilization: weights.utilization,
    }
}

pub fn to_players(ids: &[u64]) -> Vec<PlayerId> {
    ids.iter().copied().map(PlayerId).collect()
}

pub fn from_players(players: &[PlayerId]) -> Vec<u64> {
    players.iter().map(|player| player.0).collect()
}

/// Role names are the codes with an r before them; 0 is none.
pub fn to_role(code: u32) -> Option<String> {
    (code > 0).then(|| format!("r{code}"))
}

pub fn from_role(role: Option<&str>) -> u32 {
    let code = role.map(|name| name.strip_prefix('r').and_then(|code| code.parse().ok()));
    code.map_or(0, |code| code.expect("role names are r and a code"))
}

/// 0 is none.
pub fn to_party(party: u64) -> Option<u64> {
    (party > 0).then_some(party)
}

/// Code 4 and above: no region.
pub fn to_region(code: u8) -> Option<Region> {
    [Region::NA, Region::EU, Region::Asia, Region::Other]
        .get(usize::from(code))
        .copied()
}

fn observation(roster: &Roster, row: usize) -> PlayerObservation {
    PlayerObservation {
        id: PlayerId(roster.ids[row]),
        rating: roster.ratings[row],
        hidden_mmr: 0.0,
        visible_rank: VisibleRank {
            tier: String::new(),
            division: 0,
        },
        rating_deviation: roster.deviations[row],
        volatility: 0.0,
        games_played: 0,
        win_rate: 0.0,
        recent_performances: Vec::new(),
        queue_joined_at: None,
        is_online: true,
        party_id: to_party(roster.parties[row]),
        tilt_level: 0.0,
        game_mode: String::new(),
        role: to_role(roster.roles[row]),
        skill_vector: SkillVector::default(),
        detection_flags: Vec::new(),
    }
}

/// No record for region code 4; only the region of a record is read.
fn reality(roster: &Roster, row: usize) -> Option<PlayerReality> {
    let region = to_region(roster.regions[row])?;
    Some(PlayerReality {
        id: PlayerId(roster.ids[row]),
        skill: SkillVector::default(),
        skill_volatility: 0.0,
        improvement_rate: 0.0,
        consistency: 0.0,
        play_frequency: 0.0,
        session_length: 0.0,
        quit_probability: 0.0,
        party_id: None,
        region,
        location: GeoLocation::new(region, 0.0, 0.0),
        account_age: 0,
        games_played: 0,
        fatigue: 0.0,
        tilt: 0.0,
        experience: 0,
        is_online: true,
        archetype: String::new(),
        role: None,
    })
}

#[cfg(test)]
mod tests {
    use super::*;
    use crate::same::Same;

    #[test]
    fn entries_come_back() {
        let entry = QueueEntry {
            player: u64::MAX,
            joined: 1 << 53,
            rating: -0.5,
            party: 7,
            role: u32::MAX,
        };
        let none = QueueEntry {
            party: 0,
            role: 0,
            ..entry
        };
        assert!(from_entry(&to_entry(&entry)).same(&entry));
        assert!(from_entry(&to_entry(&none)).same(&none));
        assert_eq!(to_entry(&none).party_id, None);
        assert_eq!(to_entry(&none).role, None);
    }

    #[test]
    fn no_record_has_no_region() {
        assert_eq!(to_region(0), Some(Region::NA));
        assert_eq!(to_region(3), Some(Region::Other));
        assert_eq!(to_region(4), None);
    }
}
