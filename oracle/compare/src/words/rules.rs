//! Words of constraints and candidates.

use super::Words;
use crate::data::Rows;
use crate::model::{CANDIDATE_LIMIT, PAIR_LIMIT, REQUIREMENT_LIMIT};
use yilgashe_sys::{
    Candidates, Constraints, RegionConstraint, RoleRequirements, SoftObjectives, TeamSizeConstraint,
};

impl Words {
    pub fn sizes(&mut self, sizes: &TeamSizeConstraint) {
        self.number(sizes.a as u64);
        self.number(sizes.b as u64);
    }

    /// How many, then each; a list over limit is its `len` alone.
    pub fn requirements(&mut self, requirements: &RoleRequirements) {
        self.number(requirements.len as u64);
        if requirements.len <= REQUIREMENT_LIMIT {
            for requirement in requirements.listed() {
                self.number(u64::from(requirement.role));
                self.number(requirement.least as u64);
                self.flag(requirement.bounded);
                self.number(requirement.most as u64);
            }
        }
    }

    /// How many, then each; a list over limit is its `count` alone.
    pub fn pairs(&mut self, allowed: &RegionConstraint) {
        self.number(allowed.count as u64);
        if allowed.count <= PAIR_LIMIT {
            for pair in allowed.listed() {
                self.number(u64::from(pair.first));
                self.number(u64::from(pair.second));
            }
        }
    }

    /// What is brought, then all three, brought or not.
    pub fn constraints(&mut self, constraints: &Constraints) {
        let brought = &constraints.brought;
        self.flag(brought.sizes);
        self.flag(brought.roles);
        self.flag(brought.parties);
        self.flag(brought.latency);
        self.flag(brought.regions);
        self.sizes(&constraints.sizes);
        self.requirements(&constraints.roles);
        self.pairs(&constraints.regions);
    }

    /// How many, then each; never over limit.
    pub fn objectives(&mut self, objectives: &SoftObjectives) {
        self.number(objectives.len as u64);
        for (kind, weight) in objectives.listed() {
            self.number(u64::from(kind));
            self.float(weight);
        }
    }

    /// How many, then each; a list over limit is its `len` alone.
    pub fn candidates(&mut self, candidates: &Candidates) {
        self.number(candidates.len as u64);
        if candidates.len <= CANDIDATE_LIMIT {
            let listed = candidates.listed().iter();
            listed.for_each(|proposed| self.proposed(proposed));
        }
    }

    /// The columns that are taken, ids first.
    pub fn rows(&mut self, rows: &Rows) {
        self.column(rows.ids.iter().copied());
        if let Some(ratings) = &rows.ratings {
            self.column(ratings.iter().map(|rating| rating.to_bits()));
        }
        if let Some(parties) = &rows.parties {
            self.column(parties.iter().copied());
        }
        if let Some(roles) = &rows.roles {
            self.column(roles.iter().map(|&role| u64::from(role)));
        }
        if let Some(regions) = &rows.regions {
            self.column(regions.iter().map(|&region| u64::from(region)));
        }
    }
}
