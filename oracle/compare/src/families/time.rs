//! time.rs: duration_since, as_secs_f64.

use crate::draw::{self, Scale};
use crate::function::{Function, Listed, Stored, stored};
use crate::model;
use crate::rng::Rng;
use crate::words::Words;
use matchlab_core::time::SimTime;
use yilgashe_sys as library;

pub const FUNCTIONS: &[Listed] = &[stored::<DurationSince>(), stored::<AsSecs>()];

struct DurationSince;

impl Function for DurationSince {
    const NAME: &'static str = "duration_since";
    /// Later, earlier.
    type Case = (u64, u64);
    type Answer = u64;

    fn draw(rng: &mut Rng, _: Scale) -> Self::Case {
        let later = draw::time(rng);
        match rng.below(6) {
            0 => (later, later),
            1 => (later, later.saturating_add(1)),
            2 => (later, later.saturating_sub(1)),
            _ => (later, draw::time(rng)),
        }
    }

    fn refusal((later, earlier): &Self::Case) -> u8 {
        model::duration_since(*later, *earlier)
    }

    fn refused(_: &Self::Case) -> u64 {
        0
    }

    fn rust((later, earlier): &Self::Case) -> u64 {
        SimTime(*later).duration_since(SimTime(*earlier)).0
    }

    fn library((later, earlier): &Self::Case) -> (u8, u64) {
        let given = library::time_duration_since(*later, *earlier);
        (given.refusal, given.nanos)
    }
}

impl Stored for DurationSince {
    const CODE: u64 = 5;

    fn write_case((later, earlier): &Self::Case, words: &mut Words) {
        words.number(*later);
        words.number(*earlier);
    }

    fn write_answer(_: &Self::Case, nanos: &u64, words: &mut Words) {
        words.number(*nanos);
    }
}

struct AsSecs;

impl Function for AsSecs {
    const NAME: &'static str = "as_secs_f64";
    type Case = u64;
    type Answer = f64;

    fn draw(rng: &mut Rng, _: Scale) -> u64 {
        draw::time(rng)
    }

    fn refusal(time: &u64) -> u8 {
        model::as_secs_f64(*time)
    }

    fn refused(_: &u64) -> f64 {
        0.0
    }

    fn rust(time: &u64) -> f64 {
        SimTime(*time).as_secs_f64()
    }

    fn library(time: &u64) -> (u8, f64) {
        let given = library::time_as_secs_f64(*time);
        (given.refusal, given.seconds)
    }
}

impl Stored for AsSecs {
    const CODE: u64 = 6;

    fn write_case(time: &u64, words: &mut Words) {
        words.number(*time);
    }

    fn write_answer(_: &u64, seconds: &f64, words: &mut Words) {
        words.float(*seconds);
    }
}
