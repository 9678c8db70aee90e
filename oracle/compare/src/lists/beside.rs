//! Greedy rounds beside the unchanged Rust, which leaves equal distances to the place, and request 2.2 to the longer wait.

use crate::data::{Answer, Call, entries_for, games_of, sizes_for};
use crate::families::search::rust_greedy;
use crate::model::never_falls;
use crate::same::Same;
use yilgashe_sys::Hall;

/// What a greedy round was held to.
#[derive(Clone, Copy, Debug, PartialEq)]
pub enum Beside {
    /// Joined times never fall: to the Rust besides the model.
    Rust,
    /// They do: to the model alone. Does the Rust answer otherwise?
    Model { parted: bool },
}

/// None of a call that is neither greedy round nor dispatch, is refused, or serves no game. An error says how the answer parts from the
/// Rust's where it may not. The Rust gets the entries of the game alone.
pub fn beside_rust(call: &Call, answer: &Answer, before: &Hall) -> Result<Option<Beside>, String> {
    let Some((round, columns)) = call.greedy().filter(|_| answer.refusal == 0) else {
        return Ok(None);
    };
    let Some(game) = round.played(answer) else {
        return Ok(None);
    };
    let (waiting, sizes) = (
        entries_for(before.booked(), game),
        sizes_for(&games_of(before), game),
    );
    let rust = rust_greedy(&waiting, &sizes, columns, &round.sheets);
    let parted = rust.0 != answer.count || !rust.1.same(&answer.sheets);
    match never_falls(&waiting) {
        true if parted => Err(format!(
            "joined times never fall, yet the Rust answers otherwise\n  {call:?}\n  Rust: {rust:?}\n  answer: {answer:?}\n  before: {waiting:?}"
        )),
        true => Ok(Some(Beside::Rust)),
        false => Ok(Some(Beside::Model { parted })),
    }
}
