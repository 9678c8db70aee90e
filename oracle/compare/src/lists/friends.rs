//! Full rounds that bring waiting friends: whether that matters, and what comes with it.

use super::counter::{Counter, Modelled};
use crate::data::{Answer, Call, Search, entries_for};
use crate::model::of_two_parties;
use crate::same::Same;
use yilgashe_sys::Hall;

/// Of a full round that brings waiting friends and is not refused.
#[derive(Clone, Copy, Debug)]
pub struct Friends {
    /// Does the same round without them answer otherwise?
    pub parted: bool,
    /// Are the roster's parties brought too?
    pub both: bool,
    /// Does somebody wait for the game twice, with two parties?
    pub twofold: bool,
}

/// None of any other call.
pub fn friends(call: &Call, answer: &Answer, before: &Hall) -> Option<Friends> {
    let (round, full) = call.full_round()?;
    let waiting = entries_for(before.booked(), round.game()?);
    if answer.refusal > 0 || !full.rules.waiting_friends {
        return None;
    }
    let without = Modelled::with(before).serve(&without_friends(call));
    Some(Friends {
        parted: !without.same(answer),
        both: full.rules.constraints.brought.parties,
        twofold: of_two_parties(&waiting),
    })
}

/// The same call; a full round brings no waiting friends.
fn without_friends(call: &Call) -> Call {
    let mut call = call.clone();
    if let Call::Round(round) = &mut call
        && let Search::Full(_, full) = &mut round.search
    {
        full.rules.waiting_friends = false;
    }
    call
}
