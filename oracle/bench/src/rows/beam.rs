//! Beam search.

use crate::call::{Call, Row};
use crate::crowd::{CLOCK, Crowd, objective, sheets};
use crate::rows::{Scene, agreed};
use compare::data::{Columns, Sheets};
use compare::rng::Rng;
use compare::translate::{laid_on, to_objective, to_teams};
use matchlab_core::match_;
use matchlab_core::rng::SimRng;
use matchlab_core::world::World;
use matchlab_matchmaking::matchmaker::ProposedMatch;
use matchlab_matchmaking::objective;
use matchlab_matchmaking::queue::QueueEntry;
use matchlab_matchmaking::search::{self as matchlab, SearchStrategy};
use yilgashe_sys::{self as library, Formed, MatchObjective, Queue, TeamComposition};

pub fn row(seed: u64, scene: Scene, width: usize) -> Row {
    let name = format!("beam search, width {width}, {scene}");
    Row::of(name, vec![Beam::drawn(seed, scene, width)])
}

pub struct Beam {
    width: usize,
    queue: Queue,
    sizes: TeamComposition,
    objective: MatchObjective,
    columns: Columns,
    sheets: Sheets,
    entries: Vec<QueueEntry>,
    weights: objective::MatchObjective,
    teams: match_::TeamComposition,
    world: World,
}

impl Beam {
    pub fn drawn(seed: u64, scene: Scene, width: usize) -> Self {
        let crowd = Crowd::drawn(&mut Rng::for_case(seed, "beam", 0), &scene);
        let (sizes, objective) = (scene.sizes(), objective());
        Beam {
            width,
            queue: crowd.queue,
            columns: crowd.columns(),
            sheets: sheets(),
            entries: crowd.entries(),
            weights: to_objective(&objective),
            teams: to_teams(&sizes),
            world: crowd.world(),
            sizes,
            objective,
        }
    }
}

impl Call for Beam {
    type Rust = Vec<ProposedMatch>;
    type Library = Formed;

    fn rust(&self) -> Vec<ProposedMatch> {
        matchlab::BeamSearch { width: self.width }.search(
            &self.entries,
            &self.weights,
            &self.teams,
            &self.world,
            &mut SimRng::from_seed(0),
        )
    }

    fn library(&mut self) -> Formed {
        library::search_beam(
            library::BeamSearch { width: self.width },
            self.queue,
            self.sizes,
            self.objective,
            &self.columns.ids,
            &self.columns.ratings,
            self.columns.deviations.as_deref().unwrap_or_default(),
            CLOCK,
            &mut self.sheets.players,
            &mut self.sheets.qualities,
        )
    }

    fn agree(&mut self) -> String {
        let expected = laid_on(&self.sheets, &self.rust());
        let formed = self.library();
        agreed(expected, formed, &self.sheets)
    }
}
