//! objective.rs: MatchObjective::score.

use crate::data::Columns;
use crate::draw::{self, Scale};
use crate::function::{Function, Listed, Stored, stored};
use crate::model;
use crate::rng::Rng;
use crate::translate::{to_entries, to_objective, to_proposed, to_rated_world};
use crate::words::Words;
use yilgashe_sys::{self as library, MatchObjective, ProposedMatch, Queue};

pub const FUNCTIONS: &[Listed] = &[stored::<MatchScore>()];

struct MatchScore;

#[derive(Debug)]
struct Case {
    objective: MatchObjective,
    proposed: ProposedMatch,
    queue: Queue,
    columns: Columns,
    clock: u64,
}

impl Function for MatchScore {
    const NAME: &'static str = "match_score";
    type Case = Case;
    type Answer = f64;

    fn draw(rng: &mut Rng, scale: Scale) -> Case {
        let queue = draw::queue(rng, scale);
        let proposed = draw::queued_match(rng, scale, &queue);
        Case {
            objective: draw::match_objective(rng),
            columns: draw::rated_with_deviations(rng, scale, &proposed),
            clock: draw::clock(rng, &queue),
            proposed,
            queue,
        }
    }

    fn refusal(case: &Case) -> u8 {
        model::match_score(&case.proposed, &case.queue, &case.columns, case.clock)
    }

    fn refused(_: &Case) -> f64 {
        0.0
    }

    fn rust(case: &Case) -> f64 {
        to_objective(&case.objective).score(
            &to_proposed(&case.proposed),
            &to_entries(case.queue.waiting()),
            &to_rated_world(&case.columns, case.clock),
        )
    }

    fn library(case: &Case) -> (u8, f64) {
        let given = library::match_score(
            case.objective,
            case.proposed,
            case.queue,
            &case.columns.ids,
            &case.columns.ratings,
            case.columns.deviations.as_deref().unwrap_or_default(),
            case.clock,
        );
        (given.refusal, given.value)
    }
}

impl Stored for MatchScore {
    const CODE: u64 = 9;

    fn write_case(case: &Case, words: &mut Words) {
        words.objective(&case.objective);
        words.proposed(&case.proposed);
        words.queue(&case.queue);
        words.columns(&case.columns);
        words.number(case.clock);
    }

    fn write_answer(_: &Case, score: &f64, words: &mut Words) {
        words.value(*score);
    }
}
