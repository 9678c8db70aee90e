//! Constraints, a full round's rules, one team's rule, and the policy's score.

use crate::proposed::{raw_objectives, scored};
use crate::refusal::answered;
use crate::{ProposedMatch, Refusal, Region, Roster, SoftObjective};
use yilgashe_sys as sys;
use yilgashe_sys::TeamComposition;

/// How many of a role there must be, and at most may be. A requirement for role 0 counts nobody.
#[derive(Clone, Copy, Debug, PartialEq, Eq)]
pub struct RoleRequirement {
    /// Which role.
    pub role: u32,
    /// At least so many.
    pub least: usize,
    /// At most so many, if bounded.
    pub most: Option<usize>,
}

/// What a match must meet. The default asks nothing.
///
/// ```
/// use yilgashe::{Constraints, ProposedMatch, RoleRequirement, Roster, Row};
///
/// let healer = RoleRequirement { role: 1, least: 1, most: None };
/// let rules = Constraints { roles: Some(vec![healer]), ..Constraints::default() };
/// let roster: Roster = [Row { player: 7, role: 1, ..Row::default() }].into_iter().collect();
/// assert!(rules.are_satisfied(&ProposedMatch::new(&[6], &[7])?, &roster)?);
/// assert!(!rules.are_satisfied(&ProposedMatch::new(&[5], &[6])?, &roster)?);
/// # Ok::<(), yilgashe::Refusal>(())
/// ```
#[derive(Clone, Debug, Default, PartialEq)]
pub struct Constraints {
    /// The teams are of just these sizes.
    pub sizes: Option<TeamComposition>,
    /// The roster's roles, counted over both teams, meet these; at most 8.
    pub roles: Option<Vec<RoleRequirement>>,
    /// Every roster row of a seated guest's party is seated.
    pub parties: bool,
    /// Every rostered rating is above 0.0.
    pub latency: bool,
    /// Each recorded guest of team A with each of team B is one of these pairs, either way round; at most 16.
    pub regions: Option<Vec<(Region, Region)>>,
}

/// What the match of a [`Hall::full_round`](crate::Hall::full_round) must meet. The default asks nothing, and constraints alone make
/// rules [`from`](RoundRules::from) them.
///
/// Guests 1 and 3 come together. Whoever is seated with them, they are not parted:
///
/// ```
/// use yilgashe::{Booking, Games, Hall, Refusal, Roster, RoundRules, TeamComposition};
///
/// let mut hall = Hall::new(Games::of([TeamComposition { a: 1, b: 1 }]));
/// for (player, party) in [(1, 7), (2, 0), (3, 7)] {
///     hall.book(player, Booking { player, party, ..Booking::default() })?;
/// }
/// let together = RoundRules { waiting_friends: true, ..RoundRules::default() };
/// let round = hall.full_round(0, &together, &[], 0, &Roster::new())?;
/// assert_eq!(round.matches.players(), [1, 3]);
/// # Ok::<(), Refusal>(())
/// ```
#[derive(Clone, Debug, Default, PartialEq)]
pub struct RoundRules {
    /// As other calls take them. Its parties are those of the roster, where a friend who stayed at home holds his whole party back.
    pub constraints: Constraints,
    /// Everyone is seated, in either team, who waits for the round's game with the party of a booking of somebody seated. Party 0 is none,
    /// and the roster's parties do not count: whoever stayed at home, or waits for another game, holds nobody back.
    pub waiting_friends: bool,
}

/// Without waiting friends.
impl From<Constraints> for RoundRules {
    fn from(constraints: Constraints) -> RoundRules {
        RoundRules {
            constraints,
            waiting_friends: false,
        }
    }
}

/// What one team must be like.
#[derive(Clone, Debug, PartialEq, Eq)]
pub struct TeamRule {
    /// Just so many guests.
    pub size: usize,
    /// The roster's roles meet these; at most 8.
    pub roles: Vec<RoleRequirement>,
}

/// The first fault of a team.
#[derive(Clone, Copy, Debug, PartialEq, Eq)]
pub enum Fault {
    /// The wrong size.
    WrongSize,
    /// Too few of the requirement at this place.
    TooFew(usize),
    /// Too many of the requirement at this place.
    TooMany(usize),
}

/// The first 8, with the length that was given: the library refuses a longer list.
fn raw_roles(roles: &[RoleRequirement]) -> sys::RoleRequirements {
    let blank = sys::RoleRequirement {
        role: 0,
        least: 0,
        bounded: false,
        most: 0,
    };
    let mut raw = sys::RoleRequirements {
        of: [blank; 8],
        len: roles.len(),
    };
    for (place, given) in raw.of.iter_mut().zip(roles) {
        *place = sys::RoleRequirement {
            role: given.role,
            least: given.least,
            bounded: given.most.is_some(),
            most: given.most.unwrap_or(0),
        };
    }
    raw
}

/// The first 16, with the length that was given: the library refuses a longer list.
fn raw_regions(pairs: &[(Region, Region)]) -> sys::RegionConstraint {
    let blank = sys::RegionPair {
        first: 0,
        second: 0,
    };
    let mut raw = sys::RegionConstraint {
        pairs: [blank; 16],
        count: pairs.len(),
    };
    for (place, &(first, second)) in raw.pairs.iter_mut().zip(pairs) {
        *place = sys::RegionPair {
            first: first as u8,
            second: second as u8,
        };
    }
    raw
}

fn satisfied(verdict: sys::Verdict) -> Result<bool, Refusal> {
    answered(verdict.refusal)?;
    Ok(verdict.satisfied)
}

impl Constraints {
    pub(crate) fn raw(&self) -> sys::Constraints {
        let sizes = self.sizes.unwrap_or(TeamComposition { a: 0, b: 0 });
        sys::Constraints {
            brought: sys::Brought {
                sizes: self.sizes.is_some(),
                roles: self.roles.is_some(),
                parties: self.parties,
                latency: self.latency,
                regions: self.regions.is_some(),
            },
            sizes: sys::TeamSizeConstraint {
                a: sizes.a,
                b: sizes.b,
            },
            roles: raw_roles(self.roles.as_deref().unwrap_or(&[])),
            regions: raw_regions(self.regions.as_deref().unwrap_or(&[])),
        }
    }

    /// Does the match meet all of them?
    pub fn are_satisfied(
        &self,
        proposed: &ProposedMatch,
        roster: &Roster,
    ) -> Result<bool, Refusal> {
        satisfied(sys::constraints_satisfied(
            self.raw(),
            proposed.0,
            &roster.ids,
            &roster.ratings,
            &roster.parties,
            &roster.roles,
            &roster.regions,
        ))
    }

    /// The soft objectives' score of the match, minus infinity where a constraint is violated.
    pub fn score(
        &self,
        objectives: &[SoftObjective],
        proposed: &ProposedMatch,
        roster: &Roster,
    ) -> Result<f64, Refusal> {
        scored(sys::policy_score(
            self.raw(),
            raw_objectives(objectives),
            proposed.0,
            &roster.ids,
            &roster.ratings,
            &roster.parties,
            &roster.roles,
            &roster.regions,
        ))
    }
}

impl RoundRules {
    pub(crate) fn raw(&self) -> sys::RoundRules {
        sys::RoundRules {
            constraints: self.constraints.raw(),
            waiting_friends: self.waiting_friends,
        }
    }
}

/// One constraint each, which reads just its own columns.
impl ProposedMatch {
    /// Are the teams of just these sizes?
    pub fn has_sizes(&self, sizes: TeamComposition) -> Result<bool, Refusal> {
        let TeamComposition { a, b } = sizes;
        satisfied(sys::sizes_satisfied(
            sys::TeamSizeConstraint { a, b },
            self.0,
        ))
    }

    /// Do the roster's roles, counted over both teams, meet the requirements?
    pub fn has_roles(&self, roles: &[RoleRequirement], roster: &Roster) -> Result<bool, Refusal> {
        satisfied(sys::roles_satisfied(
            raw_roles(roles),
            self.0,
            &roster.ids,
            &roster.roles,
        ))
    }

    /// Is every roster row of a seated guest's party seated?
    pub fn keeps_parties(&self, roster: &Roster) -> Result<bool, Refusal> {
        satisfied(sys::parties_satisfied(self.0, &roster.ids, &roster.parties))
    }

    /// Is every rostered rating above 0.0?
    pub fn meets_latency(&self, roster: &Roster) -> Result<bool, Refusal> {
        satisfied(sys::latency_satisfied(self.0, &roster.ids, &roster.ratings))
    }

    /// Is each recorded guest of team A with each of team B an allowed pair, either way round?
    pub fn keeps_regions(
        &self,
        pairs: &[(Region, Region)],
        roster: &Roster,
    ) -> Result<bool, Refusal> {
        satisfied(sys::regions_satisfied(
            raw_regions(pairs),
            self.0,
            &roster.ids,
            &roster.regions,
        ))
    }
}

impl TeamRule {
    /// The team's first fault: its size, then for each requirement the minimum, then the maximum.
    pub fn validate(&self, team: &[u64], roster: &Roster) -> Result<Option<Fault>, Refusal> {
        let team = ProposedMatch::new(team, &[])?.0.a;
        let answer = sys::team_validate(
            self.size,
            raw_roles(&self.roles),
            team,
            &roster.ids,
            &roster.roles,
        );
        answered(answer.refusal)?;
        Ok(match answer.fault {
            0 => None,
            1 => Some(Fault::WrongSize),
            2 => Some(Fault::TooFew(answer.place)),
            _ => Some(Fault::TooMany(answer.place)),
        })
    }
}
