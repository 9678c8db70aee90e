//! matchmaker.rs: match_quality.

use crate::data::Columns;
use crate::draw::{self, Scale};
use crate::function::{Function, Listed, Stored, stored};
use crate::model;
use crate::rng::Rng;
use crate::translate::{to_proposed, to_rated_world};
use crate::words::Words;
use matchlab_matchmaking::matchmaker as matchlab;
use yilgashe_sys::{self as library, ProposedMatch};

pub const FUNCTIONS: &[Listed] = &[stored::<MatchQuality>()];

struct MatchQuality;

impl Function for MatchQuality {
    const NAME: &'static str = "match_quality";
    type Case = (ProposedMatch, Columns);
    type Answer = f64;

    fn draw(rng: &mut Rng, scale: Scale) -> Self::Case {
        let proposed = draw::proposed(rng, scale);
        let columns = draw::rated(rng, scale, &proposed);
        (proposed, columns)
    }

    fn refusal((proposed, columns): &Self::Case) -> u8 {
        model::match_quality(proposed, columns)
    }

    fn refused(_: &Self::Case) -> f64 {
        0.0
    }

    fn rust((proposed, columns): &Self::Case) -> f64 {
        let proposed = to_proposed(proposed);
        let world = to_rated_world(columns, 0);
        matchlab::ProposedMatch::match_quality(&proposed.team_a, &proposed.team_b, &world)
    }

    fn library((proposed, columns): &Self::Case) -> (u8, f64) {
        let given = library::match_quality(*proposed, &columns.ids, &columns.ratings);
        (given.refusal, given.value)
    }
}

impl Stored for MatchQuality {
    const CODE: u64 = 8;

    fn write_case((proposed, columns): &Self::Case, words: &mut Words) {
        words.proposed(proposed);
        words.columns(columns);
    }

    fn write_answer(_: &Self::Case, quality: &f64, words: &mut Words) {
        words.value(*quality);
    }
}
