//! Greedy search.

use crate::call::{Call, Row};
use crate::crowd::{Crowd, sheets};
use crate::rows::{Scene, agreed};
use compare::data::{Columns, Sheets};
use compare::model::{self, longer_wait, never_falls};
use compare::rng::Rng;
use compare::translate::{laid_on, to_teams};
use matchlab_core::match_;
use matchlab_core::rng::SimRng;
use matchlab_core::world::World;
use matchlab_matchmaking::matchmaker::ProposedMatch;
use matchlab_matchmaking::objective::MatchObjective;
use matchlab_matchmaking::queue::QueueEntry;
use matchlab_matchmaking::search::{GreedySearch, SearchStrategy};
use yilgashe_sys::{self as library, Formed, Queue, TeamComposition};

const CASES: usize = 16;

/// Longest waiting first, ratings drawn.
pub fn row(seed: u64, scene: Scene) -> Row {
    named(scene, "", drawn(seed, scene, |_, _| ()))
}

pub fn alike(seed: u64, scene: Scene) -> Row {
    let cases = drawn(seed, scene, |crowd, _| rate_alike(crowd));
    named(scene, ", equal ratings", cases)
}

/// Many distances are equal, but not all.
pub fn stepped(seed: u64, scene: Scene) -> Row {
    let step = |rating: f64| (rating / 200.0).round() * 200.0;
    let cases = drawn(seed, scene, |crowd, _| crowd.rate(step));
    named(scene, ", ratings in steps of 200", cases)
}

pub fn unordered(seed: u64, scene: Scene) -> Row {
    let cases = drawn(seed, scene, Crowd::shuffle_joined);
    named(scene, ", not in joining order", cases)
}

pub fn alike_unordered(seed: u64, scene: Scene) -> Row {
    let cases = drawn(seed, scene, left_to_the_wait);
    named(scene, ", equal ratings, not in joining order", cases)
}

fn rate_alike(crowd: &mut Crowd) {
    crowd.rate(|_| 1500.0);
}

/// All distances are equal, and no two joined times: these decide every pick.
fn left_to_the_wait(crowd: &mut Crowd, rng: &mut Rng) {
    rate_alike(crowd);
    crowd.shuffle_joined(rng);
}

fn named(scene: Scene, words: &str, cases: Vec<Greedy>) -> Row {
    Row::of(format!("greedy search, {scene}{words}"), cases)
}

/// Of crowds changed so.
fn drawn(seed: u64, scene: Scene, change: impl Fn(&mut Crowd, &mut Rng)) -> Vec<Greedy> {
    let one = |case| {
        let mut rng = Rng::for_case(seed, "greedy", case);
        let mut crowd = Crowd::drawn(&mut rng, &scene);
        change(&mut crowd, &mut rng);
        Greedy::of(crowd, scene.sizes())
    };
    (0..CASES as u64).map(one).collect()
}

pub struct Greedy {
    queue: Queue,
    sizes: TeamComposition,
    columns: Columns,
    sheets: Sheets,
    entries: Vec<QueueEntry>,
    teams: match_::TeamComposition,
    world: World,
}

impl Greedy {
    fn of(crowd: Crowd, sizes: TeamComposition) -> Self {
        Greedy {
            queue: crowd.queue,
            columns: crowd.columns(),
            sheets: sheets(),
            entries: crowd.entries(),
            teams: to_teams(&sizes),
            world: crowd.world(),
            sizes,
        }
    }

    fn modelled(&self) -> (usize, Sheets) {
        let search = model::Greedy {
            waiting: self.queue.waiting(),
            sizes: self.sizes,
            columns: &self.columns,
        };
        search.laid_on(&self.sheets, longer_wait)
    }
}

impl Call for Greedy {
    type Rust = Vec<ProposedMatch>;
    type Library = Formed;

    /// The objective is not read.
    fn rust(&self) -> Vec<ProposedMatch> {
        GreedySearch.search(
            &self.entries,
            &MatchObjective::new(0.0, 0.0, 0.0, 0.0),
            &self.teams,
            &self.world,
            &mut SimRng::from_seed(0),
        )
    }

    fn library(&mut self) -> Formed {
        library::search_greedy(
            self.queue,
            self.sizes,
            &self.columns.ids,
            &self.columns.ratings,
            &mut self.sheets.players,
            &mut self.sheets.qualities,
        )
    }

    /// Where joined times fall the Rust, which goes by places, has no say: the library is held to the model instead.
    fn agree(&mut self) -> String {
        let in_order = never_falls(self.queue.waiting());
        let (expected, side) = match in_order {
            true => (laid_on(&self.sheets, &self.rust()), ""),
            false => (self.modelled(), " (beside the model)"),
        };
        let formed = self.library();
        format!("{}{side}", agreed(expected, formed, &self.sheets))
    }
}

#[cfg(test)]
mod tests {
    use super::*;

    const SCENE: Scene = Scene::of(64, (5, 5));

    /// As in each of its cases the Rust forms other matches.
    #[test]
    fn the_wait_decides_among_equal_ratings() {
        for case in drawn(1, SCENE, left_to_the_wait) {
            let (_, rust) = laid_on(&case.sheets, &case.rust());
            let (_, model) = case.modelled();
            assert_ne!(rust.players, model.players);
        }
    }

    #[test]
    fn rows_say_where_the_model_was_asked() {
        let by_model = |row: Row| row.answer.contains("beside the model");
        assert!(
            ![row, alike, stepped]
                .iter()
                .any(|row| by_model(row(1, SCENE)))
        );
        assert!(
            [unordered, alike_unordered]
                .iter()
                .all(|row| by_model(row(1, SCENE)))
        );
    }
}
