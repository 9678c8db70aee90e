//! The best choice of a full round: every kind of constraint, every kind of soft objective. And a full round of the hall, with waiting
//! friends besides.

use crate::call::{Call, Row};
use crate::crowd::{CLOCK, Crowd, sheets};
use crate::rows::Scene;
use compare::data::{Roster, Sheets};
use compare::model::friends_seated;
use compare::rng::Rng;
use compare::translate::{from_players, to_objectives, to_policy, to_queue, to_teams};
use matchlab_core::match_;
use matchlab_core::rng::SimRng;
use matchlab_core::time::SimTime;
use matchlab_core::world::World;
use matchlab_matchmaking::candidate::{CandidateGenerator, ExhaustiveGenerator};
use matchlab_matchmaking::matchmaker::ProposedMatch;
use matchlab_matchmaking::policy::MatchPolicy;
use matchlab_matchmaking::queue;
use matchlab_matchmaking::selection::{GreedySelection, MatchSelectionPolicy};
use yilgashe_sys::{
    self as library, Booking, Brought, Chosen, Constraints, Games, Hall, Queue, RegionConstraint,
    RegionPair, RoleRequirement, RoleRequirements, RoundRules, Rounded, SoftObjectives,
    TeamComposition, TeamSizeConstraint,
};

const ASIA: u8 = 2;
const OTHER: u8 = 3;
/// So many pairs of guests wait as friends.
const PAIRS: u64 = 6;

pub fn row(seed: u64, scene: Scene) -> Row {
    Row::of(
        format!("full round, {scene}"),
        vec![Round::drawn(seed, scene, objectives())],
    )
}

/// With the wait alone, which scores every choice alike: the library's worst case, since no score spares a constraint.
pub fn alike(seed: u64, scene: Scene) -> Row {
    Row::of(
        format!("full round, {scene}, equal scores"),
        vec![Round::drawn(seed, scene, wait())],
    )
}

/// Of the hall, with friends among those who wait, whom the Rust knows nothing of: its call is that of the first row.
pub fn befriended(seed: u64, scene: Scene) -> Row {
    Row::of(
        format!("full round, {scene}, waiting friends"),
        vec![Befriended::drawn(seed, scene)],
    )
}

pub struct Round {
    queue: Queue,
    sizes: TeamComposition,
    constraints: Constraints,
    objectives: SoftObjectives,
    roster: Roster,
    waiting: queue::Queue,
    teams: match_::TeamComposition,
    policy: MatchPolicy,
    selection: GreedySelection,
    world: World,
}

impl Round {
    /// Two guests are friends; two others come from regions that may not meet.
    pub fn drawn(seed: u64, scene: Scene, objectives: SoftObjectives) -> Self {
        let mut rng = Rng::for_case(seed, "round", 0);
        let mut crowd = Crowd::drawn(&mut rng, &scene);
        let mut rows: Vec<usize> = (0..scene.entries).collect();
        rng.shuffle(&mut rows);
        crowd.roster.parties[rows[0]] = 1;
        crowd.roster.parties[rows[1]] = 1;
        crowd.roster.regions[rows[2]] = ASIA;
        crowd.roster.regions[rows[3]] = OTHER;
        crowd.roster.regions[rows[4]] = 1;
        crowd.roster.regions[rows[5]] = 1;
        let sizes = scene.sizes();
        let constraints = constraints(&sizes);
        Round {
            queue: crowd.queue,
            waiting: to_queue(&crowd.queue),
            teams: to_teams(&sizes),
            policy: to_policy(&constraints, &objectives),
            selection: GreedySelection {
                objectives: to_objectives(&objectives),
            },
            world: crowd.world(),
            roster: crowd.roster,
            sizes,
            constraints,
            objectives,
        }
    }

    fn listed(&self) -> Vec<ProposedMatch> {
        ExhaustiveGenerator.generate_candidates(
            &self.waiting,
            &self.teams,
            &self.world,
            SimTime::ZERO,
            &mut SimRng::from_seed(0),
        )
    }

    fn passes(&self, proposed: &ProposedMatch) -> bool {
        self.policy.satisfies_constraints(proposed, &self.world)
    }
}

impl Call for Round {
    /// The number tried, and the best if one passes.
    type Rust = (u64, Vec<ProposedMatch>);
    type Library = Chosen;

    fn rust(&self) -> Self::Rust {
        let mut matches = self.listed();
        let tried = matches.len() as u64;
        matches.retain(|proposed| self.passes(proposed));
        (tried, self.selection.select(matches, &self.world))
    }

    fn library(&mut self) -> Chosen {
        library::best_choice(
            self.queue,
            self.sizes,
            self.constraints,
            self.objectives,
            &self.roster.ids,
            &self.roster.ratings,
            &self.roster.parties,
            &self.roster.roles,
            &self.roster.regions,
        )
    }

    fn agree(&mut self) -> String {
        let (tried, best) = self.rust();
        let chosen = self.library();
        assert_eq!((chosen.refusal, chosen.tried), (0, tried));
        assert_eq!(chosen.found, !best.is_empty());
        for best in &best {
            assert_eq!(from_players(&best.team_a), chosen.teams.a.seated());
            assert_eq!(from_players(&best.team_b), chosen.teams.b.seated());
        }
        let listed = self.listed();
        let passed = listed.iter().filter(|proposed| self.passes(proposed));
        let share = 100.0 * passed.count() as f64 / tried as f64;
        format!("{tried} tried, {share:.0}% pass")
    }
}

/// The round of game 0 in a hall where friends wait in pairs, by their bookings; the friends of the roster are others or the same.
struct Befriended {
    round: Round,
    hall: Hall,
    sheets: Sheets,
}

impl Befriended {
    fn drawn(seed: u64, scene: Scene) -> Self {
        let mut round = Round::drawn(seed, scene, objectives());
        let mut places: Vec<usize> = (0..scene.entries).collect();
        Rng::for_case(seed, "friends", 0).shuffle(&mut places);
        for (party, pair) in (1..=PAIRS).zip(places.chunks(2)) {
            for &place in pair {
                round.queue.entries[place].party = party;
            }
        }
        round.waiting = to_queue(&round.queue);
        let waiting = round.queue.waiting().iter();
        let bookings: Vec<Booking> = waiting.map(Booking::of).collect();
        Befriended {
            hall: Hall::of(Games::of([scene.sizes()]), &bookings, &[]),
            sheets: sheets(),
            round,
        }
    }

    fn passes(&self, proposed: &ProposedMatch) -> bool {
        self.round.passes(proposed) && friends_seated(self.round.queue.waiting(), &seats(proposed))
    }
}

/// Of team A, then of team B.
fn seats(proposed: &ProposedMatch) -> Vec<u64> {
    from_players(&[&proposed.team_a[..], &proposed.team_b].concat())
}

impl Call for Befriended {
    type Rust = (u64, Vec<ProposedMatch>);
    type Library = Rounded;

    /// Without waiting friends.
    fn rust(&self) -> Self::Rust {
        self.round.rust()
    }

    fn library(&mut self) -> Rounded {
        let Round {
            constraints,
            objectives,
            roster,
            ..
        } = &self.round;
        let rules = RoundRules {
            constraints: *constraints,
            waiting_friends: true,
        };
        library::hall_full_round(
            self.hall,
            0,
            rules,
            *objectives,
            CLOCK,
            &roster.ids,
            &roster.ratings,
            &roster.parties,
            &roster.roles,
            &roster.regions,
            &mut self.sheets.players,
            &mut self.sheets.qualities,
        )
    }

    /// Of the Rust's choices those that part friends are left out before it selects; some pass.
    fn agree(&mut self) -> String {
        let mut matches = self.round.listed();
        let tried = matches.len();
        matches.retain(|proposed| self.passes(proposed));
        let passed = matches.len();
        assert!(passed > 0, "friends bar every choice");
        let best = self.round.selection.select(matches, &self.round.world);
        let rounded = self.library();
        let numbers = (rounded.refusal, rounded.count, rounded.tried);
        assert_eq!(numbers, (0, 1, tried as u64));
        let best = seats(&best[0]);
        assert_eq!(self.sheets.players[..best.len()], best);
        let share = 100.0 * passed as f64 / tried as f64;
        format!("{tried} tried, {share:.1}% pass, Rust without friends")
    }
}

fn constraints(sizes: &TeamComposition) -> Constraints {
    Constraints {
        brought: Brought {
            sizes: true,
            roles: true,
            parties: true,
            latency: true,
            regions: true,
        },
        sizes: TeamSizeConstraint {
            a: sizes.a,
            b: sizes.b,
        },
        roles: roles(),
        regions: regions(),
    }
}

/// One to four players of each role.
fn roles() -> RoleRequirements {
    let of = [1, 2, 3, 4, 0, 0, 0, 0].map(|role| RoleRequirement {
        role,
        least: 1,
        bounded: true,
        most: 4,
    });
    RoleRequirements { of, len: 4 }
}

/// All regions with each other, but not Asia with Other.
fn regions() -> RegionConstraint {
    let all = (0..=OTHER).flat_map(|first| (first..=OTHER).map(move |second| (first, second)));
    let allowed = all.filter(|&pair| pair != (ASIA, OTHER));
    let mut listed = RegionConstraint {
        pairs: [RegionPair {
            first: 0,
            second: 0,
        }; 16],
        count: 0,
    };
    for (first, second) in allowed {
        listed.pairs[listed.count] = RegionPair { first, second };
        listed.count += 1;
    }
    listed
}

/// Skill, latency and wait.
fn objectives() -> SoftObjectives {
    SoftObjectives {
        kinds: [0, 1, 2, 0, 0, 0, 0, 0],
        weights: [1.0, 0.3, 0.8, 0.0, 0.0, 0.0, 0.0, 0.0],
        len: 3,
    }
}

/// Wait alone.
fn wait() -> SoftObjectives {
    SoftObjectives {
        kinds: [2, 0, 0, 0, 0, 0, 0, 0],
        len: 1,
        ..objectives()
    }
}
