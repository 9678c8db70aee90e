//! Quality and score of one match of waiting guests.

use crate::call::{Call, Row};
use crate::crowd::{CLOCK, Crowd, objective};
use crate::rows::Scene;
use compare::data::Columns;
use compare::rng::Rng;
use compare::same::Same;
use compare::translate::{to_objective, to_proposed};
use matchlab_core::world::World;
use matchlab_matchmaking::matchmaker;
use matchlab_matchmaking::objective;
use matchlab_matchmaking::queue::QueueEntry;
use std::sync::Arc;
use yilgashe_sys::{self as library, MatchObjective, ProposedMatch, Queue, Scored, Team};

const CASES: usize = 256;

pub fn quality(seed: u64, scene: Scene) -> Row {
    let matches = drawn(seed, scene).into_iter().map(Quality);
    Row::of(format!("match_quality, {scene}"), matches.collect())
}

pub fn score(seed: u64, scene: Scene) -> Row {
    let matches = drawn(seed, scene).into_iter().map(Score);
    Row::of(format!("MatchObjective::score, {scene}"), matches.collect())
}

/// Matches of one crowd.
fn drawn(seed: u64, scene: Scene) -> Vec<Seated> {
    let mut rng = Rng::for_case(seed, "seated", 0);
    let crowd = Crowd::drawn(&mut rng, &scene);
    let hall = Arc::new(Hall {
        queue: crowd.queue,
        columns: crowd.columns(),
        objective: objective(),
        entries: crowd.entries(),
        weights: to_objective(&objective()),
        world: crowd.world(),
    });
    let mut guests = crowd.roster.ids;
    let mut one = || {
        rng.shuffle(&mut guests);
        let proposed = ProposedMatch {
            a: team(&guests[..scene.a]),
            b: team(&guests[scene.a..scene.a + scene.b]),
        };
        Seated {
            hall: hall.clone(),
            given: to_proposed(&proposed),
            proposed,
        }
    };
    (0..CASES).map(|_| one()).collect()
}

fn team(seated: &[u64]) -> Team {
    let mut players = [0; 8];
    players[..seated.len()].copy_from_slice(seated);
    Team {
        players,
        len: seated.len(),
    }
}

/// What all matches of a row share.
struct Hall {
    queue: Queue,
    columns: Columns,
    objective: MatchObjective,
    entries: Vec<QueueEntry>,
    weights: objective::MatchObjective,
    world: World,
}

struct Seated {
    hall: Arc<Hall>,
    proposed: ProposedMatch,
    given: matchmaker::ProposedMatch,
}

struct Quality(Seated);

impl Call for Quality {
    type Rust = f64;
    type Library = Scored;

    fn rust(&self) -> f64 {
        let matchmaker::ProposedMatch { team_a, team_b, .. } = &self.0.given;
        matchmaker::ProposedMatch::match_quality(team_a, team_b, &self.0.hall.world)
    }

    fn library(&mut self) -> Scored {
        let columns = &self.0.hall.columns;
        library::match_quality(self.0.proposed, &columns.ids, &columns.ratings)
    }

    fn agree(&mut self) -> String {
        same(self.rust(), self.library())
    }
}

struct Score(Seated);

impl Call for Score {
    type Rust = f64;
    type Library = Scored;

    fn rust(&self) -> f64 {
        let hall = &self.0.hall;
        hall.weights
            .score(&self.0.given, &hall.entries, &hall.world)
    }

    fn library(&mut self) -> Scored {
        let hall = &self.0.hall;
        library::match_score(
            hall.objective,
            self.0.proposed,
            hall.queue,
            &hall.columns.ids,
            &hall.columns.ratings,
            hall.columns.deviations.as_deref().unwrap_or_default(),
            CLOCK,
        )
    }

    fn agree(&mut self) -> String {
        same(self.rust(), self.library())
    }
}

fn same(rust: f64, library: Scored) -> String {
    assert_eq!(library.refusal, 0);
    assert!(rust.same(&library.value), "not the Rust's value");
    "1 match".into()
}

#[cfg(test)]
mod tests {
    use super::*;

    /// Of the matches in a row, how many are 400 points and more apart.
    fn far(scene: Scene) -> usize {
        let matches = drawn(1, scene).into_iter().map(Quality);
        matches.filter(|quality| quality.rust() == 0.0).count()
    }

    #[test]
    fn most_teams_of_a_crowd_far_apart_are_400_points_apart() {
        let scene = Scene::of(64, (5, 5));
        assert!(far(scene) < CASES / 4);
        assert!(far(scene.apart()) > CASES * 3 / 4);
    }
}
