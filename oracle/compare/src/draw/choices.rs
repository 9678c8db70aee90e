//! What a full round's choice brings.

use super::rules::NOT_ABOVE_ZERO;
use super::scores::fine;
use super::searches::choosable;
use super::{Scale, Takes, constraints, infinite_skill, ranking_objectives, rows};
use crate::data::Rows;
use crate::model::{self, BAD_ROSTER, Choice, OBJECTIVE_LIMIT, OVER_LIMIT, TEAM_LIMIT};
use crate::rng::Rng;
use yilgashe_sys::{Brought, ProposedMatch, Queue, SoftObjectives, Team, TeamComposition};

/// So much can be over limit or bad that most of what is comes to another draw.
pub fn choice(rng: &mut Rng, scale: Scale) -> Choice {
    let choice = any(rng, scale);
    let refused = [OVER_LIMIT, BAD_ROSTER].contains(&model::best_choice(&choice));
    if refused && !rng.one_in(4) {
        return any(rng, scale);
    }
    choice
}

fn any(rng: &mut Rng, scale: Scale) -> Choice {
    let (queue, sizes) = choosable(rng, scale, 9, 1200);
    choice_among(rng, scale, queue, sizes)
}

/// Any; or such that all score alike, one player makes scores NaN, or one choice alone can pass.
pub(super) fn choice_among(
    rng: &mut Rng,
    scale: Scale,
    queue: Queue,
    sizes: TeamComposition,
) -> Choice {
    let players: Vec<u64> = queue.waiting().iter().map(|entry| entry.player).collect();
    let rows = rows(rng, scale, &players, Takes::ALL);
    let mut choice = Choice {
        constraints: constraints(rng, scale, &seats(&sizes), &rows),
        waiting_friends: false,
        objectives: ranking_objectives(rng, scale),
        queue,
        sizes,
        rows,
    };
    if !rng.one_in(3) {
        part(rng, scale, &mut choice);
    }
    match rng.below(12) {
        0 | 1 => choice.objectives = alone(2, fine(rng, -1.0, 4.0)),
        2 | 3 => set_apart(rng, &mut choice, &players),
        4 => let_one_pass(rng, &mut choice, &players),
        _ => {}
    }
    choice
}

/// Constraints that some choices pass and others do not, if such are drawn in a few times.
fn part(rng: &mut Rng, scale: Scale, choice: &mut Choice) {
    for _ in 0..8 {
        if model::best_choice(choice) == 0 {
            let weighed = choice.weighed();
            let passed = weighed.iter().filter(|(passes, _)| *passes).count();
            if passed > 1 && passed < weighed.len() {
                return;
            }
        }
        choice.constraints = constraints(rng, scale, &seats(&choice.sizes), &choice.rows);
    }
}

/// A match of these sizes: nothing else of it is looked at.
fn seats(sizes: &TeamComposition) -> ProposedMatch {
    let team = |len| Team {
        players: [0; TEAM_LIMIT],
        len,
    };
    ProposedMatch {
        a: team(sizes.a),
        b: team(sizes.b),
    }
}

/// One objective of this kind and weight.
fn alone(kind: u8, weight: f64) -> SoftObjectives {
    SoftObjectives {
        kinds: [kind; OBJECTIVE_LIMIT],
        weights: [weight; OBJECTIVE_LIMIT],
        len: 1,
    }
}

/// Latency alone is brought, or nothing.
pub(super) fn latency(latency: bool) -> Brought {
    Brought {
        latency,
        ..Brought::default()
    }
}

/// Just the choices that seat one player are of quality 0.0 and score NaN; latency bars them, where it is brought.
fn set_apart(rng: &mut Rng, choice: &mut Choice, players: &[u64]) {
    choice.objectives = infinite_skill(rng);
    if players.is_empty() {
        return;
    }
    let apart = rng.pick(players);
    rate(&mut choice.rows, |player| match player == apart {
        true => -1e6,
        false => fine(rng, 1.0, 390.0),
    });
    if rng.one_in(4) {
        choice.constraints.brought.latency = rng.one_in(2);
    } else {
        choice.constraints.brought = latency(rng.one_in(2));
    }
}

/// Of the choices of different rostered players one alone passes, and scores NaN as others do.
fn let_one_pass(rng: &mut Rng, choice: &mut Choice, players: &[u64]) {
    let mut allowed = players.to_vec();
    rng.shuffle(&mut allowed);
    allowed.truncate(choice.sizes.a.saturating_add(choice.sizes.b));
    rate(&mut choice.rows, |player| match allowed.contains(&player) {
        true => fine(rng, 1.0, 390.0),
        false => rng.pick(&NOT_ABOVE_ZERO),
    });
    choice.constraints.brought = latency(true);
    choice.objectives = alone(rng.below(3) as u8, f64::NAN);
}

/// Gives each row another rating.
fn rate(rows: &mut Rows, mut rating: impl FnMut(u64) -> f64) {
    let ratings = rows.ratings.iter_mut().flatten();
    for (rated, &player) in ratings.zip(&rows.ids) {
        *rated = rating(player);
    }
}
