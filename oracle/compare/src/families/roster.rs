//! The check of the six columns, which the Rust's maps do not need.

use crate::data::Roster;
use crate::draw::{self, Scale};
use crate::function::{Function, Listed, Stored, stored};
use crate::model;
use crate::rng::Rng;
use crate::words::Words;
use yilgashe_sys as library;

pub const FUNCTIONS: &[Listed] = &[stored::<Check>()];

struct Check;

impl Function for Check {
    const NAME: &'static str = "check";
    type Case = Roster;
    type Answer = ();

    fn draw(rng: &mut Rng, scale: Scale) -> Roster {
        let queue = draw::queue(rng, scale);
        let queued: Vec<u64> = queue.waiting().iter().map(|entry| entry.player).collect();
        let mut roster = draw::roster(rng, scale, &queued);
        // Only refusals can be told apart here, so let them be common.
        if rng.one_in(3) {
            draw::spoil(rng, &mut roster);
        }
        roster
    }

    fn refusal(roster: &Roster) -> u8 {
        model::roster(roster)
    }

    fn refused(_: &Roster) {}

    fn has_rust(_: &Roster) -> bool {
        false
    }

    fn rust(_: &Roster) {
        unreachable!("there is none")
    }

    fn model(_: &Roster) -> Option<()> {
        Some(())
    }

    fn library(roster: &Roster) -> (u8, ()) {
        let refusal = library::roster_check(
            &roster.ids,
            &roster.ratings,
            &roster.deviations,
            &roster.parties,
            &roster.roles,
            &roster.regions,
        );
        (refusal, ())
    }
}

impl Stored for Check {
    const CODE: u64 = 7;

    fn write_case(roster: &Roster, words: &mut Words) {
        words.list(roster.ids.iter().copied());
        words.list(roster.ratings.iter().map(|rating| rating.to_bits()));
        words.list(
            roster
                .deviations
                .iter()
                .map(|deviation| deviation.to_bits()),
        );
        words.list(roster.parties.iter().copied());
        words.list(roster.roles.iter().map(|&role| u64::from(role)));
        words.list(roster.regions.iter().map(|&region| u64::from(region)));
    }

    fn write_answer(_: &Roster, _: &(), _: &mut Words) {}
}
