//! A proposed match, its quality and its scores.

use crate::refusal::answered;
use crate::{Queue, Refusal, Roster};
use std::fmt::{Debug, Formatter, Result as Written};
use yilgashe_sys as sys;
use yilgashe_sys::MatchObjective;

/// Two teams of at most 8 guests each.
///
/// ```
/// use yilgashe::{ProposedMatch, Roster, Row};
///
/// let roster: Roster = [(1, 1000.0), (2, 1100.0)]
///     .map(|(player, rating)| Row { player, rating, ..Row::default() })
///     .into_iter()
///     .collect();
/// let table = ProposedMatch::new(&[1], &[2])?;
/// assert_eq!(table.quality(&roster), Ok(0.75));
/// # Ok::<(), yilgashe::Refusal>(())
/// ```
#[derive(Clone, Copy)]
pub struct ProposedMatch(pub(crate) sys::ProposedMatch);

/// A wish for a match, with its weight.
#[derive(Clone, Copy, Debug, PartialEq)]
pub enum SoftObjective {
    /// The match's quality.
    Skill(f64),
    /// 1.0 minus the smaller of the average rating / 200.0 and 1.0, over both teams.
    Latency(f64),
    /// 0.5.
    Wait(f64),
}

/// A team, or the refusal of one that is too long.
fn team(players: &[u64]) -> Result<sys::Team, Refusal> {
    let mut team = sys::Team {
        players: [0; 8],
        len: players.len(),
    };
    team.players
        .get_mut(..players.len())
        .ok_or(Refusal::OverLimit)?
        .copy_from_slice(players);
    Ok(team)
}

impl ProposedMatch {
    /// Team A and team B; a team of more than 8 is over the limit.
    pub fn new(a: &[u64], b: &[u64]) -> Result<ProposedMatch, Refusal> {
        Ok(ProposedMatch(sys::ProposedMatch {
            a: team(a)?,
            b: team(b)?,
        }))
    }

    /// Team A.
    pub fn team_a(&self) -> &[u64] {
        self.0.a.seated()
    }

    /// Team B.
    pub fn team_b(&self) -> &[u64] {
        self.0.b.seated()
    }

    /// 1.0 minus the smaller of 1.0 and the difference of the teams' average ratings / 400.0.
    pub fn quality(&self, roster: &Roster) -> Result<f64, Refusal> {
        scored(sys::match_quality(self.0, &roster.ids, &roster.ratings))
    }

    /// The quality, less the longest wait and the uncertainty, each times its weight.
    pub fn score(
        &self,
        objective: MatchObjective,
        queue: &Queue,
        roster: &Roster,
        clock: u64,
    ) -> Result<f64, Refusal> {
        scored(sys::match_score(
            objective,
            self.0,
            *queue.0,
            &roster.ids,
            &roster.ratings,
            &roster.deviations,
            clock,
        ))
    }
}

impl PartialEq for ProposedMatch {
    fn eq(&self, other: &ProposedMatch) -> bool {
        self.team_a() == other.team_a() && self.team_b() == other.team_b()
    }
}

impl Eq for ProposedMatch {}

impl Debug for ProposedMatch {
    fn fmt(&self, f: &mut Formatter<'_>) -> Written {
        write!(f, "{:?} against {:?}", self.team_a(), self.team_b())
    }
}

impl SoftObjective {
    /// The number of the kind, and the weight.
    fn numbers(self) -> (u8, f64) {
        match self {
            SoftObjective::Skill(weight) => (0, weight),
            SoftObjective::Latency(weight) => (1, weight),
            SoftObjective::Wait(weight) => (2, weight),
        }
    }

    /// The value for a match, without the weight.
    pub fn value(self, proposed: &ProposedMatch, roster: &Roster) -> Result<f64, Refusal> {
        let (kind, weight) = self.numbers();
        scored(sys::soft_value(
            kind,
            weight,
            proposed.0,
            &roster.ids,
            &roster.ratings,
        ))
    }
}

/// The sum of weight times value, in the list's order; at most 8 objectives.
pub fn soft_score(
    objectives: &[SoftObjective],
    proposed: &ProposedMatch,
    roster: &Roster,
) -> Result<f64, Refusal> {
    scored(sys::soft_score(
        raw_objectives(objectives),
        proposed.0,
        &roster.ids,
        &roster.ratings,
    ))
}

pub(crate) fn scored(answer: sys::Scored) -> Result<f64, Refusal> {
    answered(answer.refusal)?;
    Ok(answer.value)
}

/// The first 8, with the length that was given: the library refuses a longer list.
pub(crate) fn raw_objectives(objectives: &[SoftObjective]) -> sys::SoftObjectives {
    let mut raw = sys::SoftObjectives {
        kinds: [0; 8],
        weights: [0.0; 8],
        len: objectives.len(),
    };
    for (place, objective) in objectives.iter().take(8).enumerate() {
        (raw.kinds[place], raw.weights[place]) = objective.numbers();
    }
    raw
}
