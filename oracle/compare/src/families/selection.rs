//! selection.rs: the four selections, which answer places.

use crate::data::Rows;
use crate::draw::{self, Scale};
use crate::function::{Function, Listed, Stored, stored};
use crate::model;
use crate::rng::Rng;
use crate::translate::{from_chosen, to_candidates, to_objectives, to_ruled_world, to_weights};
use crate::words::Words;
use matchlab_matchmaking::selection::{
    GreedySelection, LexicographicSelection, MatchSelectionPolicy, ThresholdSelection,
    WeightedObjectiveSelection,
};
use yilgashe_sys::{self as library, Candidates, ObjectiveWeights, Selected, SoftObjectives};

pub const FUNCTIONS: &[Listed] = &[
    stored::<Greedy>(),
    stored::<Threshold>(),
    stored::<Lexicographic>(),
    stored::<Weighted>(),
];

/// How many, then each.
type Places = (usize, Vec<usize>);

fn places(chosen: Vec<usize>) -> Places {
    (chosen.len(), chosen)
}

fn answer(given: Selected) -> (u8, Places) {
    (given.refusal, (given.len, given.chosen().to_vec()))
}

fn selected(policy: &dyn MatchSelectionPolicy, candidates: &Candidates, rows: &Rows) -> Places {
    let chosen = policy.select(to_candidates(candidates), &to_ruled_world(rows));
    places(from_chosen(&chosen))
}

fn write(places: &Places, words: &mut Words) {
    words.list(places.1.iter().map(|&place| place as u64));
}

/// Candidates, rows and objectives that rank them.
fn ranking(rng: &mut Rng, scale: Scale) -> (SoftObjectives, Candidates, Rows) {
    let mut candidates = draw::candidates(rng, scale);
    let mut rows = draw::candidate_rows(rng, scale, &candidates);
    let mut objectives = draw::ranking_objectives(rng, scale);
    if rng.one_in(16) {
        objectives = draw::infinite_skill(rng);
        draw::single_out(rng, &mut candidates, &mut rows);
    }
    (objectives, candidates, rows)
}

struct Greedy;

impl Function for Greedy {
    const NAME: &'static str = "greedy";
    type Case = (SoftObjectives, Candidates, Rows);
    type Answer = Places;

    fn draw(rng: &mut Rng, scale: Scale) -> Self::Case {
        ranking(rng, scale)
    }

    fn refusal((objectives, candidates, rows): &Self::Case) -> u8 {
        model::greedy(objectives, candidates, rows)
    }

    fn refused(_: &Self::Case) -> Places {
        places(Vec::new())
    }

    fn rust((objectives, candidates, rows): &Self::Case) -> Places {
        let objectives = to_objectives(objectives);
        selected(&GreedySelection { objectives }, candidates, rows)
    }

    fn library((objectives, candidates, rows): &Self::Case) -> (u8, Places) {
        let given = library::select_greedy(*objectives, *candidates, &rows.ids, rows.ratings());
        answer(given)
    }
}

impl Stored for Greedy {
    const CODE: u64 = 21;

    fn write_case((objectives, candidates, rows): &Self::Case, words: &mut Words) {
        words.objectives(objectives);
        words.candidates(candidates);
        words.rows(rows);
    }

    fn write_answer(_: &Self::Case, places: &Places, words: &mut Words) {
        write(places, words);
    }
}

struct Threshold;

impl Function for Threshold {
    const NAME: &'static str = "threshold";
    /// Minimum, objectives, candidates, rows.
    type Case = (f64, SoftObjectives, Candidates, Rows);
    type Answer = Places;

    fn draw(rng: &mut Rng, scale: Scale) -> Self::Case {
        let (objectives, candidates, rows) = ranking(rng, scale);
        let minimum = draw::minimum(rng, &objectives, &candidates, &rows);
        (minimum, objectives, candidates, rows)
    }

    fn refusal((_, objectives, candidates, rows): &Self::Case) -> u8 {
        model::selection(objectives, candidates, rows)
    }

    fn refused(_: &Self::Case) -> Places {
        places(Vec::new())
    }

    fn rust((minimum, objectives, candidates, rows): &Self::Case) -> Places {
        let policy = ThresholdSelection {
            min_quality: *minimum,
            objectives: to_objectives(objectives),
        };
        selected(&policy, candidates, rows)
    }

    fn library((minimum, objectives, candidates, rows): &Self::Case) -> (u8, Places) {
        let (ids, ratings) = (&rows.ids, rows.ratings());
        let given = library::select_threshold(*minimum, *objectives, *candidates, ids, ratings);
        answer(given)
    }
}

impl Stored for Threshold {
    const CODE: u64 = 22;

    fn write_case((minimum, objectives, candidates, rows): &Self::Case, words: &mut Words) {
        words.float(*minimum);
        words.objectives(objectives);
        words.candidates(candidates);
        words.rows(rows);
    }

    fn write_answer(_: &Self::Case, places: &Places, words: &mut Words) {
        write(places, words);
    }
}

struct Lexicographic;

impl Function for Lexicographic {
    const NAME: &'static str = "lexicographic";
    type Case = (SoftObjectives, Candidates, Rows);
    type Answer = Places;

    fn draw(rng: &mut Rng, scale: Scale) -> Self::Case {
        ranking(rng, scale)
    }

    fn refusal((objectives, candidates, rows): &Self::Case) -> u8 {
        model::selection(objectives, candidates, rows)
    }

    fn refused(_: &Self::Case) -> Places {
        places(Vec::new())
    }

    fn rust((objectives, candidates, rows): &Self::Case) -> Places {
        let objectives = to_objectives(objectives);
        selected(&LexicographicSelection { objectives }, candidates, rows)
    }

    fn library((objectives, candidates, rows): &Self::Case) -> (u8, Places) {
        let (ids, ratings) = (&rows.ids, rows.ratings());
        let given = library::select_lexicographic(*objectives, *candidates, ids, ratings);
        answer(given)
    }
}

impl Stored for Lexicographic {
    const CODE: u64 = 23;

    fn write_case((objectives, candidates, rows): &Self::Case, words: &mut Words) {
        words.objectives(objectives);
        words.candidates(candidates);
        words.rows(rows);
    }

    fn write_answer(_: &Self::Case, places: &Places, words: &mut Words) {
        write(places, words);
    }
}

struct Weighted;

impl Function for Weighted {
    const NAME: &'static str = "weighted";
    type Case = (ObjectiveWeights, Candidates, Rows);
    type Answer = Places;

    /// Scores that strictly rise at times, since the Rust ends on no others.
    fn draw(rng: &mut Rng, scale: Scale) -> Self::Case {
        let mut candidates = draw::candidates(rng, scale);
        let mut rows = draw::candidate_rows(rng, scale, &candidates);
        let mut weights = draw::weights(rng);
        if rng.one_in(16) {
            weights.skill = draw::infinite(rng);
            draw::single_out(rng, &mut candidates, &mut rows);
        }
        if rng.one_in(2) && Self::refusal(&(weights, candidates, rows.clone())) == 0 {
            let scores = model::skill_scores(&weights, &candidates, &rows);
            draw::rise(&mut candidates, &scores);
        }
        (weights, candidates, rows)
    }

    fn refusal((weights, candidates, rows): &Self::Case) -> u8 {
        model::weighted(weights, candidates, rows)
    }

    fn refused(_: &Self::Case) -> Places {
        places(Vec::new())
    }

    fn rust((weights, candidates, rows): &Self::Case) -> Places {
        let weights = to_weights(weights);
        selected(&WeightedObjectiveSelection { weights }, candidates, rows)
    }

    /// The Rust removes by stale indices and panics unless scores strictly rise.
    fn model((weights, candidates, rows): &Self::Case) -> Option<Places> {
        let scores = model::skill_scores(weights, candidates, rows);
        let rising = scores.windows(2).all(|pair| pair[0] < pair[1]);
        (!rising).then(|| places(model::falling(&scores)))
    }

    fn library((weights, candidates, rows): &Self::Case) -> (u8, Places) {
        let given = library::select_weighted(*weights, *candidates, &rows.ids, rows.ratings());
        answer(given)
    }
}

impl Stored for Weighted {
    const CODE: u64 = 24;

    fn write_case((weights, candidates, rows): &Self::Case, words: &mut Words) {
        words.vector(weights);
        words.candidates(candidates);
        words.rows(rows);
    }

    fn write_answer(_: &Self::Case, places: &Places, words: &mut Words) {
        write(places, words);
    }
}

#[cfg(test)]
mod tests {
    use super::*;
    use crate::function::caught;

    #[test]
    fn the_rust_ends_just_where_weighted_scores_strictly_rise() {
        let mut seen = [0; 2];
        for case in 0..2000 {
            let case = Weighted::draw(&mut Rng::for_case(1, "rising", case), Scale::Full);
            if Weighted::refusal(&case) == 0 {
                let rust = caught(|| Weighted::rust(&case));
                assert_eq!(rust.is_none(), Weighted::model(&case).is_some());
                seen[usize::from(rust.is_some())] += 1;
            }
        }
        assert!(seen.iter().all(|&count| count > 300), "{seen:?}");
    }
}
