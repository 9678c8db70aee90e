//! Constraints, policies and candidates.

use super::{to_players, to_region, to_role, to_soft_objective, to_world};
use crate::data::{Roster, Rows};
use crate::model::NO_RECORD;
use matchlab_core::player::Region;
use matchlab_core::world::World;
use matchlab_matchmaking::matchmaker::ProposedMatch;
use matchlab_matchmaking::objective::SoftObjective;
use matchlab_matchmaking::{constraint, policy::MatchPolicy};
use yilgashe_sys::{
    Candidates, Constraints, RegionConstraint, RoleRequirement, SoftObjectives, TeamSizeConstraint,
};

/// A role that no player has.
const NOBODY: &str = "nobody";

/// The Rust's `World` for columns of equal length; those that are not taken get constants.
pub fn to_ruled_world(rows: &Rows) -> World {
    let n = rows.ids.len();
    let roster = Roster {
        ids: rows.ids.clone(),
        ratings: rows.ratings.clone().unwrap_or_else(|| vec![0.0; n]),
        deviations: vec![0.0; n],
        parties: rows.parties.clone().unwrap_or_else(|| vec![0; n]),
        roles: rows.roles.clone().unwrap_or_else(|| vec![0; n]),
        regions: rows.regions.clone().unwrap_or_else(|| vec![NO_RECORD; n]),
    };
    to_world(&roster, 0)
}

pub fn to_sizes(sizes: &TeamSizeConstraint) -> constraint::TeamSizeConstraint {
    constraint::TeamSizeConstraint {
        size_a: sizes.a,
        size_b: sizes.b,
    }
}

pub fn to_requirements(listed: &[RoleRequirement]) -> Vec<constraint::RoleRequirement> {
    let requirement = |listed: &RoleRequirement| constraint::RoleRequirement {
        role: to_role(listed.role).unwrap_or_else(|| NOBODY.into()),
        min_count: listed.least,
        max_count: listed.bounded.then_some(listed.most),
    };
    listed.iter().map(requirement).collect()
}

pub fn to_roles(listed: &[RoleRequirement]) -> constraint::RoleConstraint {
    constraint::RoleConstraint {
        requirements: to_requirements(listed),
    }
}

/// The limit in ms is not read by the Rust.
pub fn to_latency() -> constraint::MaxLatencyConstraint {
    constraint::MaxLatencyConstraint {
        max_latency_ms: 0.0,
    }
}

/// A pair with the code of no record allows nothing and is left out.
pub fn to_allowed(allowed: &RegionConstraint) -> constraint::RegionConstraint {
    let pairs = allowed.listed().iter();
    let known = pairs.filter_map(|p| Some((to_region(p.first)?, to_region(p.second)?)));
    let allowed_pairs: Vec<(Region, Region)> = known.collect();
    constraint::RegionConstraint { allowed_pairs }
}

/// Its constraints in the order sizes, roles, party, latency, region.
pub fn to_policy(constraints: &Constraints, objectives: &SoftObjectives) -> MatchPolicy {
    let brought = &constraints.brought;
    let mut policy = MatchPolicy::new();
    if brought.sizes {
        policy = policy.with_constraint(Box::new(to_sizes(&constraints.sizes)));
    }
    if brought.roles {
        policy = policy.with_constraint(Box::new(to_roles(constraints.roles.listed())));
    }
    if brought.parties {
        policy = policy.with_constraint(Box::new(constraint::PartyIntegrityConstraint));
    }
    if brought.latency {
        policy = policy.with_constraint(Box::new(to_latency()));
    }
    if brought.regions {
        policy = policy.with_constraint(Box::new(to_allowed(&constraints.regions)));
    }
    let listed = objectives.listed();
    listed.fold(policy, |policy, (kind, weight)| {
        policy.with_objective(to_soft_objective(kind), weight)
    })
}

pub fn to_objectives(objectives: &SoftObjectives) -> Vec<(Box<dyn SoftObjective>, f64)> {
    let listed = objectives.listed();
    let each = listed.map(|(kind, weight)| (to_soft_objective(kind), weight));
    each.collect()
}

/// Each carries its place as its quality, which no selection reads.
pub fn to_candidates(candidates: &Candidates) -> Vec<ProposedMatch> {
    let listed = candidates.listed().iter().enumerate();
    let each = listed.map(|(place, proposed)| ProposedMatch {
        team_a: to_players(proposed.a.seated()),
        team_b: to_players(proposed.b.seated()),
        quality_score: place as f64,
    });
    each.collect()
}

/// The places of chosen candidates.
pub fn from_chosen(chosen: &[ProposedMatch]) -> Vec<usize> {
    let places = chosen.iter().map(|proposed| proposed.quality_score);
    places.map(|place| place as usize).collect()
}
