//! constraint.rs: the five hard constraints, alone and together, and TeamConstraint::validate.

use crate::data::Rows;
use crate::draw::{self, Scale, Takes};
use crate::function::{Function, Listed, Stored, stored};
use crate::model;
use crate::rng::Rng;
use crate::translate::{
    to_allowed, to_latency, to_players, to_policy, to_proposed, to_requirements, to_roles,
    to_ruled_world, to_sizes,
};
use crate::words::Words;
use matchlab_matchmaking::constraint::{HardConstraint, PartyIntegrityConstraint, TeamConstraint};
use yilgashe_sys::{
    self as library, Constraints, ProposedMatch, RegionConstraint, RoleRequirements,
    SoftObjectives, Team, TeamSizeConstraint, Verdict,
};

pub const FUNCTIONS: &[Listed] = &[
    stored::<Sizes>(),
    stored::<Roles>(),
    stored::<Parties>(),
    stored::<Latency>(),
    stored::<Regions>(),
    stored::<Together>(),
    stored::<Validate>(),
];

fn answer(given: Verdict) -> (u8, bool) {
    (given.refusal, given.satisfied)
}

fn satisfied(constraint: &dyn HardConstraint, proposed: &ProposedMatch, rows: &Rows) -> bool {
    constraint.is_satisfied(&to_proposed(proposed), &to_ruled_world(rows))
}

/// A match and rows for it.
fn match_and_rows(rng: &mut Rng, scale: Scale, takes: Takes) -> (ProposedMatch, Rows) {
    let proposed = draw::proposed(rng, scale);
    let rows = draw::rows(rng, scale, &draw::everybody(&proposed), takes);
    (proposed, rows)
}

struct Sizes;

impl Function for Sizes {
    const NAME: &'static str = "sizes";
    type Case = (TeamSizeConstraint, ProposedMatch);
    type Answer = bool;

    fn draw(rng: &mut Rng, scale: Scale) -> Self::Case {
        let proposed = draw::proposed(rng, scale);
        (draw::sizes(rng, &proposed), proposed)
    }

    fn refusal((sizes, proposed): &Self::Case) -> u8 {
        model::sizes(sizes, proposed)
    }

    fn refused(_: &Self::Case) -> bool {
        false
    }

    fn rust((sizes, proposed): &Self::Case) -> bool {
        satisfied(&to_sizes(sizes), proposed, &Rows::default())
    }

    fn library((sizes, proposed): &Self::Case) -> (u8, bool) {
        answer(library::sizes_satisfied(*sizes, *proposed))
    }
}

impl Stored for Sizes {
    const CODE: u64 = 13;

    fn write_case((sizes, proposed): &Self::Case, words: &mut Words) {
        words.sizes(sizes);
        words.proposed(proposed);
    }

    fn write_answer(_: &Self::Case, satisfied: &bool, words: &mut Words) {
        words.flag(*satisfied);
    }
}

struct Roles;

impl Function for Roles {
    const NAME: &'static str = "roles";
    type Case = (RoleRequirements, ProposedMatch, Rows);
    type Answer = bool;

    fn draw(rng: &mut Rng, scale: Scale) -> Self::Case {
        let (proposed, rows) = match_and_rows(rng, scale, Takes::ROLES);
        (draw::requirements(rng, scale), proposed, rows)
    }

    fn refusal((requirements, proposed, rows): &Self::Case) -> u8 {
        model::roles(requirements, proposed, rows)
    }

    fn refused(_: &Self::Case) -> bool {
        false
    }

    fn rust((requirements, proposed, rows): &Self::Case) -> bool {
        satisfied(&to_roles(requirements.listed()), proposed, rows)
    }

    fn library((requirements, proposed, rows): &Self::Case) -> (u8, bool) {
        let given = library::roles_satisfied(*requirements, *proposed, &rows.ids, rows.roles());
        answer(given)
    }
}

impl Stored for Roles {
    const CODE: u64 = 14;

    fn write_case((requirements, proposed, rows): &Self::Case, words: &mut Words) {
        words.requirements(requirements);
        words.proposed(proposed);
        words.rows(rows);
    }

    fn write_answer(_: &Self::Case, satisfied: &bool, words: &mut Words) {
        words.flag(*satisfied);
    }
}

struct Parties;

impl Function for Parties {
    const NAME: &'static str = "parties";
    type Case = (ProposedMatch, Rows);
    type Answer = bool;

    fn draw(rng: &mut Rng, scale: Scale) -> Self::Case {
        match_and_rows(rng, scale, Takes::PARTIES)
    }

    fn refusal((proposed, rows): &Self::Case) -> u8 {
        model::seated(proposed, rows)
    }

    fn refused(_: &Self::Case) -> bool {
        false
    }

    fn rust((proposed, rows): &Self::Case) -> bool {
        satisfied(&PartyIntegrityConstraint, proposed, rows)
    }

    fn library((proposed, rows): &Self::Case) -> (u8, bool) {
        let given = library::parties_satisfied(*proposed, &rows.ids, rows.parties());
        answer(given)
    }
}

impl Stored for Parties {
    const CODE: u64 = 15;

    fn write_case((proposed, rows): &Self::Case, words: &mut Words) {
        words.proposed(proposed);
        words.rows(rows);
    }

    fn write_answer(_: &Self::Case, satisfied: &bool, words: &mut Words) {
        words.flag(*satisfied);
    }
}

struct Latency;

impl Function for Latency {
    const NAME: &'static str = "latency";
    type Case = (ProposedMatch, Rows);
    type Answer = bool;

    fn draw(rng: &mut Rng, scale: Scale) -> Self::Case {
        match_and_rows(rng, scale, Takes::RATINGS)
    }

    fn refusal((proposed, rows): &Self::Case) -> u8 {
        model::seated(proposed, rows)
    }

    fn refused(_: &Self::Case) -> bool {
        false
    }

    fn rust((proposed, rows): &Self::Case) -> bool {
        satisfied(&to_latency(), proposed, rows)
    }

    fn library((proposed, rows): &Self::Case) -> (u8, bool) {
        let given = library::latency_satisfied(*proposed, &rows.ids, rows.ratings());
        answer(given)
    }
}

impl Stored for Latency {
    const CODE: u64 = 16;

    fn write_case((proposed, rows): &Self::Case, words: &mut Words) {
        words.proposed(proposed);
        words.rows(rows);
    }

    fn write_answer(_: &Self::Case, satisfied: &bool, words: &mut Words) {
        words.flag(*satisfied);
    }
}

struct Regions;

impl Function for Regions {
    const NAME: &'static str = "regions";
    type Case = (RegionConstraint, ProposedMatch, Rows);
    type Answer = bool;

    fn draw(rng: &mut Rng, scale: Scale) -> Self::Case {
        let (proposed, rows) = match_and_rows(rng, scale, Takes::REGIONS);
        (draw::allowed(rng, scale, &rows), proposed, rows)
    }

    fn refusal((allowed, proposed, rows): &Self::Case) -> u8 {
        model::regions(allowed, proposed, rows)
    }

    fn refused(_: &Self::Case) -> bool {
        false
    }

    fn rust((allowed, proposed, rows): &Self::Case) -> bool {
        satisfied(&to_allowed(allowed), proposed, rows)
    }

    fn library((allowed, proposed, rows): &Self::Case) -> (u8, bool) {
        let given = library::regions_satisfied(*allowed, *proposed, &rows.ids, rows.regions());
        answer(given)
    }
}

impl Stored for Regions {
    const CODE: u64 = 17;

    fn write_case((allowed, proposed, rows): &Self::Case, words: &mut Words) {
        words.pairs(allowed);
        words.proposed(proposed);
        words.rows(rows);
    }

    fn write_answer(_: &Self::Case, satisfied: &bool, words: &mut Words) {
        words.flag(*satisfied);
    }
}

struct Together;

impl Function for Together {
    const NAME: &'static str = "constraints";
    type Case = (Constraints, ProposedMatch, Rows);
    type Answer = bool;

    fn draw(rng: &mut Rng, scale: Scale) -> Self::Case {
        let (proposed, rows) = match_and_rows(rng, scale, Takes::ALL);
        let constraints = draw::constraints(rng, scale, &proposed, &rows);
        (constraints, proposed, rows)
    }

    fn refusal((constraints, proposed, rows): &Self::Case) -> u8 {
        model::constraints(constraints, proposed, rows)
    }

    fn refused(_: &Self::Case) -> bool {
        false
    }

    /// A policy without objectives is its constraints alone.
    fn rust((constraints, proposed, rows): &Self::Case) -> bool {
        let none = SoftObjectives {
            kinds: [0; 8],
            weights: [0.0; 8],
            len: 0,
        };
        let policy = to_policy(constraints, &none);
        policy.satisfies_constraints(&to_proposed(proposed), &to_ruled_world(rows))
    }

    fn library((constraints, proposed, rows): &Self::Case) -> (u8, bool) {
        let given = library::constraints_satisfied(
            *constraints,
            *proposed,
            &rows.ids,
            rows.ratings(),
            rows.parties(),
            rows.roles(),
            rows.regions(),
        );
        answer(given)
    }
}

impl Stored for Together {
    const CODE: u64 = 18;

    fn write_case((constraints, proposed, rows): &Self::Case, words: &mut Words) {
        words.constraints(constraints);
        words.proposed(proposed);
        words.rows(rows);
    }

    fn write_answer(_: &Self::Case, satisfied: &bool, words: &mut Words) {
        words.flag(*satisfied);
    }
}

struct Validate;

impl Function for Validate {
    const NAME: &'static str = "validate";
    /// Size, requirements, team, rows.
    type Case = (usize, RoleRequirements, Team, Rows);
    /// Place and fault.
    type Answer = (usize, u8);

    fn draw(rng: &mut Rng, scale: Scale) -> Self::Case {
        let (proposed, rows) = match_and_rows(rng, scale, Takes::ROLES);
        let team = proposed.a;
        let size = draw::size(rng, &team);
        (size, draw::requirements(rng, scale), team, rows)
    }

    fn refusal((size, requirements, team, rows): &Self::Case) -> u8 {
        model::validate(*size, requirements, team, rows)
    }

    fn refused(_: &Self::Case) -> (usize, u8) {
        (0, 0)
    }

    /// The Rust names no place: it is that of the last requirement in the shortest list that is not met.
    fn rust((size, requirements, team, rows): &Self::Case) -> (usize, u8) {
        let (team, world) = (to_players(team.seated()), to_ruled_world(rows));
        let listed = requirements.listed();
        let fault = |count: usize| {
            let constraint = TeamConstraint {
                required_roles: to_requirements(&listed[..count]),
                team_size: *size,
                asymmetric: false,
            };
            let violation = constraint.validate(&team, &world).err();
            violation.map(|violation| match violation.code.as_str() {
                "TEAM_SIZE" => 1,
                "ROLE_MIN" => 2,
                "ROLE_MAX" => 3,
                code => unreachable!("a violation of code {code}"),
            })
        };
        let shortest = (0..=listed.len()).find(|&count| fault(count).is_some());
        let place = shortest.map_or(0, |count| count.saturating_sub(1));
        (place, fault(listed.len()).unwrap_or(0))
    }

    fn library((size, requirements, team, rows): &Self::Case) -> (u8, (usize, u8)) {
        let given = library::team_validate(*size, *requirements, *team, &rows.ids, rows.roles());
        (given.refusal, (given.place, given.fault))
    }
}

impl Stored for Validate {
    const CODE: u64 = 19;

    fn write_case((size, requirements, team, rows): &Self::Case, words: &mut Words) {
        words.number(*size as u64);
        words.requirements(requirements);
        words.team(team);
        words.rows(rows);
    }

    fn write_answer(_: &Self::Case, (place, fault): &(usize, u8), words: &mut Words) {
        words.number(*place as u64);
        words.number(u64::from(*fault));
    }
}
