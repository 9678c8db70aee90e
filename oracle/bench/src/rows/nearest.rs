//! The nearest generator.

use crate::call::{Call, Row};
use crate::crowd::{Crowd, sheets};
use crate::rows::{Scene, agreed};
use compare::data::{Columns, Sheets};
use compare::model::QUEUE_LIMIT;
use compare::rng::Rng;
use compare::translate::{laid_on, to_queue, to_teams};
use matchlab_core::match_;
use matchlab_core::rng::SimRng;
use matchlab_core::time::SimTime;
use matchlab_core::world::World;
use matchlab_matchmaking::candidate::{self as matchlab, CandidateGenerator};
use matchlab_matchmaking::matchmaker::ProposedMatch;
use matchlab_matchmaking::queue;
use yilgashe_sys::{self as library, Formed, GreedyNearestGenerator, Queue, TeamComposition};

const CASES: usize = 32;

pub fn row(seed: u64, scene: Scene) -> Row {
    let cases = (0..CASES as u64).map(|case| Nearest::drawn(seed, scene, case));
    Row::of(format!("nearest generator, {scene}"), cases.collect())
}

/// No limit to the number of matches but the queue's own.
pub struct Nearest {
    queue: Queue,
    sizes: TeamComposition,
    columns: Columns,
    sheets: Sheets,
    waiting: queue::Queue,
    teams: match_::TeamComposition,
    world: World,
}

impl Nearest {
    pub fn drawn(seed: u64, scene: Scene, case: u64) -> Self {
        let crowd = Crowd::drawn(&mut Rng::for_case(seed, "nearest", case), &scene);
        let sizes = scene.sizes();
        Nearest {
            queue: crowd.queue,
            columns: crowd.columns(),
            sheets: sheets(),
            waiting: to_queue(&crowd.queue),
            teams: to_teams(&sizes),
            world: crowd.world(),
            sizes,
        }
    }
}

impl Call for Nearest {
    type Rust = Vec<ProposedMatch>;
    type Library = Formed;

    /// The clock is not read.
    fn rust(&self) -> Vec<ProposedMatch> {
        let generator = matchlab::GreedyNearestGenerator {
            max_candidates: QUEUE_LIMIT,
        };
        generator.generate_candidates(
            &self.waiting,
            &self.teams,
            &self.world,
            SimTime::ZERO,
            &mut SimRng::from_seed(0),
        )
    }

    fn library(&mut self) -> Formed {
        library::generate_nearest(
            GreedyNearestGenerator { max: QUEUE_LIMIT },
            self.queue,
            self.sizes,
            &self.columns.ids,
            &self.columns.ratings,
            &mut self.sheets.players,
            &mut self.sheets.qualities,
        )
    }

    fn agree(&mut self) -> String {
        let expected = laid_on(&self.sheets, &self.rust());
        let formed = self.library();
        agreed(expected, formed, &self.sheets)
    }
}
