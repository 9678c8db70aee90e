//! policy.rs: MatchPolicy::score.

use crate::data::Rows;
use crate::draw::{self, Scale, Takes};
use crate::function::{Function, Listed, Stored, stored};
use crate::model;
use crate::rng::Rng;
use crate::translate::{to_policy, to_proposed, to_ruled_world};
use crate::words::Words;
use yilgashe_sys::{self as library, Constraints, ProposedMatch, SoftObjectives};

pub const FUNCTIONS: &[Listed] = &[stored::<PolicyScore>()];

struct PolicyScore;

impl Function for PolicyScore {
    const NAME: &'static str = "policy_score";
    type Case = (Constraints, SoftObjectives, ProposedMatch, Rows);
    type Answer = f64;

    fn draw(rng: &mut Rng, scale: Scale) -> Self::Case {
        let proposed = draw::proposed(rng, scale);
        let rows = draw::rows(rng, scale, &draw::everybody(&proposed), Takes::ALL);
        let constraints = draw::constraints(rng, scale, &proposed, &rows);
        let objectives = draw::soft_objectives(rng, scale);
        (constraints, objectives, proposed, rows)
    }

    fn refusal((constraints, objectives, proposed, rows): &Self::Case) -> u8 {
        model::policy(constraints, objectives, proposed, rows)
    }

    fn refused(_: &Self::Case) -> f64 {
        0.0
    }

    fn rust((constraints, objectives, proposed, rows): &Self::Case) -> f64 {
        let policy = to_policy(constraints, objectives);
        policy.score(&to_proposed(proposed), &to_ruled_world(rows))
    }

    fn library((constraints, objectives, proposed, rows): &Self::Case) -> (u8, f64) {
        let given = library::policy_score(
            *constraints,
            *objectives,
            *proposed,
            &rows.ids,
            rows.ratings(),
            rows.parties(),
            rows.roles(),
            rows.regions(),
        );
        (given.refusal, given.value)
    }
}

impl Stored for PolicyScore {
    const CODE: u64 = 20;

    fn write_case((constraints, objectives, proposed, rows): &Self::Case, words: &mut Words) {
        words.constraints(constraints);
        words.objectives(objectives);
        words.proposed(proposed);
        words.rows(rows);
    }

    fn write_answer(_: &Self::Case, score: &f64, words: &mut Words) {
        words.value(*score);
    }
}
