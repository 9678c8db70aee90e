//! Rounds and dispatches of a hall.

use super::choices::{choice_among, latency};
use super::searches::{seats_of, settle, width};
use super::{Scale, clock, match_objective, searched_columns, sheets};
use crate::data::{BeamRound, FullRound, Round, Rows, Search};
use crate::model::hall::no_such_game;
use crate::model::{
    self, BAD_ROSTER, LAST_KIND, LISTED_LIMIT, OVER_LIMIT, TEAM_LIMIT, WIDTH_LIMIT, choices,
    friends_seated, ways,
};
use crate::rng::Rng;
use yilgashe_sys::{Queue, QueueEntry, RoundRules, SoftObjectives, TeamComposition};

/// So many choices at most, save where no listing is made.
pub(super) const CHOICES: usize = 400;

#[derive(Clone, Copy, Debug)]
pub(super) enum Which {
    Greedy,
    Beam,
    Full,
    Dispatch,
}

/// By their shares.
pub(super) fn which(rng: &mut Rng, [greedy, beam, full, dispatch]: [usize; 4]) -> Which {
    rng.weighted(&[
        (greedy, Which::Greedy),
        (beam, Which::Beam),
        (full, Which::Full),
        (dispatch, Which::Dispatch),
    ])
}

/// A number above 7.
pub(super) fn no_game(rng: &mut Rng) -> u8 {
    rng.pick(&[8, 9, 128, 200, 254, 255])
}

fn round(rng: &mut Rng, queue: &Queue, search: Search) -> Round {
    Round {
        search,
        clock: clock(rng, queue),
        sheets: sheets(rng, Scale::Full),
    }
}

/// Among those who wait for the game.
pub(super) fn greedy_round(rng: &mut Rng, game: u8, own: &Queue) -> Round {
    let columns = searched_columns(rng, Scale::Full, own, false);
    round(rng, own, Search::Greedy(game, columns))
}

/// Among all who wait.
pub(super) fn dispatch(rng: &mut Rng, all: &Queue) -> Round {
    let columns = searched_columns(rng, Scale::Full, all, false);
    round(rng, all, Search::Dispatch(columns))
}

/// The more wait, the narrower.
pub(super) fn beam_round(rng: &mut Rng, game: u8, own: &Queue) -> Round {
    let waiting = own.waiting().len().max(1);
    let mut columns = searched_columns(rng, Scale::Full, own, true);
    if !rng.one_in(4) {
        settle(&mut columns);
    }
    let mut beam = BeamRound {
        width: width(rng, (96 / waiting).clamp(1, WIDTH_LIMIT)),
        objective: match_objective(rng),
        columns,
    };
    if rng.one_in(8) {
        beam.objective.ping = f64::INFINITY; // times 0.0, a NaN
    }
    round(rng, own, Search::Beam(game, beam))
}

/// With the sizes of the game, of which there may not be too many choices.
pub(super) fn full_round(
    rng: &mut Rng,
    game: u8,
    own: &Queue,
    sizes: TeamComposition,
    waiting_friends: bool,
) -> Round {
    let mut choice = choice_among(rng, Scale::Full, *own, sizes);
    let refused = [OVER_LIMIT, BAD_ROSTER].contains(&model::best_choice(&choice));
    if refused && !rng.one_in(4) {
        choice = choice_among(rng, Scale::Full, *own, sizes);
    }
    if rng.one_in(2) {
        choice.constraints.brought = latency(false);
    }
    if rng.one_in(3) {
        agree(&mut choice.rows, own.waiting());
    }
    if no_such_game(game) && rng.one_in(2) {
        name_no_kind(rng, &mut choice.objectives);
    }
    let full = FullRound {
        rules: RoundRules {
            constraints: choice.constraints,
            waiting_friends,
        },
        objectives: choice.objectives,
        rows: choice.rows,
    };
    round(rng, own, Search::Full(game, full))
}

/// Is a listing made of so many who wait, for such a table?
pub(super) fn is_listed(waiting: usize, sizes: &TeamComposition) -> bool {
    waiting <= LISTED_LIMIT && sizes.a.max(sizes.b) <= TEAM_LIMIT
}

/// Is a listing that is made too long for drawn cases?
pub(super) fn is_long(waiting: usize, sizes: &TeamComposition) -> bool {
    is_listed(waiting, sizes) && ways(waiting, sizes.a + sizes.b) > CHOICES
}

/// Do some choices part friends, and others not? Of a listing that is made.
pub(super) fn parts(waiting: &[QueueEntry], sizes: &TeamComposition) -> bool {
    let each = choices(waiting.len(), sizes.a + sizes.b).into_iter();
    let kept: Vec<bool> = each
        .map(|places| {
            let seated: Vec<u64> = places.iter().map(|&at| waiting[at].player).collect();
            friends_seated(waiting, &seated)
        })
        .collect();
    kept.contains(&true) && kept.contains(&false)
}

/// Seats such that some choices part friends and others do not, if such are drawn in a few times.
pub(super) fn part(rng: &mut Rng, waiting: &[QueueEntry], sizes: &mut TeamComposition) {
    let most = waiting.len().clamp(1, 2 * TEAM_LIMIT);
    for _ in 0..8 {
        if parts(waiting, sizes) {
            return;
        }
        *sizes = seats_of(rng, 1..=most, waiting.len(), CHOICES);
    }
}

/// The roster has the parties that guests wait with: a choice may then meet both kinds of parties.
fn agree(rows: &mut Rows, waiting: &[QueueEntry]) {
    for (party, id) in rows.parties.iter_mut().flatten().zip(&rows.ids) {
        let entry = waiting.iter().find(|entry| entry.player == *id);
        *party = entry.map_or(*party, |entry| entry.party);
    }
}

/// A code that stands for no kind.
fn name_no_kind(rng: &mut Rng, objectives: &mut SoftObjectives) {
    objectives.len = objectives.len.max(1);
    objectives.kinds[0] = rng.pick(&[LAST_KIND + 1, u8::MAX]);
}
