//! objective.rs: the three soft objectives; policy.rs: the sum of a weighted list of them.

use crate::data::Columns;
use crate::draw::{self, Scale};
use crate::function::{Function, Listed, Stored, compared, stored};
use crate::model;
use crate::rng::Rng;
use crate::translate::{to_proposed, to_rated_world, to_soft_objective};
use crate::words::Words;
use matchlab_matchmaking::policy::MatchPolicy;
use yilgashe_sys::{self as library, ProposedMatch, SoftObjectives};

pub const FUNCTIONS: &[Listed] = &[compared::<SoftValue>(), stored::<SoftScore>()];

struct SoftValue;

impl Function for SoftValue {
    const NAME: &'static str = "soft_value";
    /// Kind, weight, match, columns.
    type Case = (u8, f64, ProposedMatch, Columns);
    type Answer = f64;

    fn draw(rng: &mut Rng, scale: Scale) -> Self::Case {
        let proposed = draw::proposed(rng, scale);
        let columns = draw::rated(rng, scale, &proposed);
        (draw::kind(rng), draw::weight(rng), proposed, columns)
    }

    fn refusal((kind, _, proposed, columns): &Self::Case) -> u8 {
        model::soft_value(*kind, proposed, columns)
    }

    fn refused(_: &Self::Case) -> f64 {
        0.0
    }

    fn rust((kind, _, proposed, columns): &Self::Case) -> f64 {
        let objective = to_soft_objective(*kind);
        objective.score(&to_proposed(proposed), &to_rated_world(columns, 0))
    }

    fn library((kind, weight, proposed, columns): &Self::Case) -> (u8, f64) {
        let (ids, ratings) = (&columns.ids, &columns.ratings);
        let given = library::soft_value(*kind, *weight, *proposed, ids, ratings);
        (given.refusal, given.value)
    }
}

struct SoftScore;

impl Function for SoftScore {
    const NAME: &'static str = "soft_score";
    type Case = (SoftObjectives, ProposedMatch, Columns);
    type Answer = f64;

    fn draw(rng: &mut Rng, scale: Scale) -> Self::Case {
        let proposed = draw::proposed(rng, scale);
        let columns = draw::rated(rng, scale, &proposed);
        (draw::soft_objectives(rng, scale), proposed, columns)
    }

    fn refusal((objectives, proposed, columns): &Self::Case) -> u8 {
        model::soft_score(objectives, proposed, columns)
    }

    fn refused(_: &Self::Case) -> f64 {
        0.0
    }

    /// A policy without constraints is the sum alone.
    fn rust((objectives, proposed, columns): &Self::Case) -> f64 {
        let listed = objectives.listed();
        let policy = listed.fold(MatchPolicy::new(), |policy, (kind, weight)| {
            policy.with_objective(to_soft_objective(kind), weight)
        });
        policy.score(&to_proposed(proposed), &to_rated_world(columns, 0))
    }

    fn library((objectives, proposed, columns): &Self::Case) -> (u8, f64) {
        let (ids, ratings) = (&columns.ids, &columns.ratings);
        let given = library::soft_score(*objectives, *proposed, ids, ratings);
        (given.refusal, given.value)
    }
}

impl Stored for SoftScore {
    const CODE: u64 = 10;

    fn write_case((objectives, proposed, columns): &Self::Case, words: &mut Words) {
        words.number(objectives.len as u64);
        for (kind, weight) in objectives.listed() {
            words.number(u64::from(kind));
            words.float(weight);
        }
        words.proposed(proposed);
        words.columns(columns);
    }

    fn write_answer(_: &Self::Case, score: &f64, words: &mut Words) {
        words.value(*score);
    }
}
