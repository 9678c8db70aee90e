//! objective.rs: scalarize, dominates, and the defaults of vector and weights.

use crate::draw::{self, Scale};
use crate::function::{Function, Listed, Stored, compared, stored};
use crate::rng::Rng;
use crate::translate::{from_vector, from_weights, to_vector, to_weights};
use crate::words::Words;
use matchlab_matchmaking::objective as matchlab;
use yilgashe_sys::{self as library, MatchObjectiveVector, ObjectiveWeights};

pub const FUNCTIONS: &[Listed] = &[
    stored::<Scalarize>(),
    stored::<Dominates>(),
    compared::<VectorDefault>(),
    compared::<WeightsDefault>(),
];

struct Scalarize;

impl Function for Scalarize {
    const NAME: &'static str = "scalarize";
    type Case = (MatchObjectiveVector, ObjectiveWeights);
    type Answer = f64;

    fn draw(rng: &mut Rng, _: Scale) -> Self::Case {
        (draw::vector(rng), draw::weights(rng))
    }

    fn refusal(_: &Self::Case) -> u8 {
        0
    }

    fn refused(_: &Self::Case) -> f64 {
        unreachable!("vectors are never refused")
    }

    fn rust((vector, weights): &Self::Case) -> f64 {
        to_vector(vector).scalarize(&to_weights(weights))
    }

    fn library((vector, weights): &Self::Case) -> (u8, f64) {
        (0, library::vector_scalarize(*vector, *weights))
    }
}

impl Stored for Scalarize {
    const CODE: u64 = 11;
    const REFUSES: bool = false;

    fn write_case((vector, weights): &Self::Case, words: &mut Words) {
        words.vector(vector);
        words.vector(weights);
    }

    fn write_answer(_: &Self::Case, value: &f64, words: &mut Words) {
        words.value(*value);
    }
}

struct Dominates;

impl Function for Dominates {
    const NAME: &'static str = "dominates";
    type Case = (MatchObjectiveVector, MatchObjectiveVector);
    type Answer = bool;

    fn draw(rng: &mut Rng, _: Scale) -> Self::Case {
        draw::vectors(rng)
    }

    fn refusal(_: &Self::Case) -> u8 {
        0
    }

    fn refused(_: &Self::Case) -> bool {
        unreachable!("vectors are never refused")
    }

    fn rust((vector, other): &Self::Case) -> bool {
        to_vector(vector).dominates(&to_vector(other))
    }

    fn library((vector, other): &Self::Case) -> (u8, bool) {
        (0, library::vector_dominates(*vector, *other))
    }
}

impl Stored for Dominates {
    const CODE: u64 = 12;
    const REFUSES: bool = false;

    fn write_case((vector, other): &Self::Case, words: &mut Words) {
        words.vector(vector);
        words.vector(other);
    }

    fn write_answer(_: &Self::Case, dominates: &bool, words: &mut Words) {
        words.flag(*dominates);
    }
}

struct VectorDefault;

impl Function for VectorDefault {
    const NAME: &'static str = "vector_default";
    const ONE_CASE: bool = true;
    type Case = ();
    type Answer = MatchObjectiveVector;

    fn draw(_: &mut Rng, _: Scale) {}

    fn refusal(_: &()) -> u8 {
        0
    }

    fn refused(_: &()) -> MatchObjectiveVector {
        unreachable!("a default is never refused")
    }

    fn rust(_: &()) -> MatchObjectiveVector {
        from_vector(&matchlab::MatchObjectiveVector::default())
    }

    fn library(_: &()) -> (u8, MatchObjectiveVector) {
        (0, library::vector_default())
    }
}

struct WeightsDefault;

impl Function for WeightsDefault {
    const NAME: &'static str = "weights_default";
    const ONE_CASE: bool = true;
    type Case = ();
    type Answer = ObjectiveWeights;

    fn draw(_: &mut Rng, _: Scale) {}

    fn refusal(_: &()) -> u8 {
        0
    }

    fn refused(_: &()) -> ObjectiveWeights {
        unreachable!("a default is never refused")
    }

    fn rust(_: &()) -> ObjectiveWeights {
        from_weights(&matchlab::ObjectiveWeights::default())
    }

    fn library(_: &()) -> (u8, ObjectiveWeights) {
        (0, library::weights_default())
    }
}
