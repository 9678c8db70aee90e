//! Searches, generators and the best choice, over a queue.

use crate::matches::Matches;
use crate::proposed::raw_objectives;
use crate::refusal::answered;
use crate::{Constraints, ProposedMatch, Queue, Refusal, Roster, SoftObjective};
use yilgashe_sys as sys;
use yilgashe_sys::{BeamSearch, GreedyNearestGenerator, MatchObjective, TeamComposition};

/// The best of all choices, and how many were tried.
#[derive(Clone, Debug)]
pub struct Choice {
    /// None if no choice meets the constraints.
    pub best: Option<ProposedMatch>,
    /// All ways to choose the guests of two teams among those who wait.
    pub tried: u64,
}

/// All ways to choose k of n; `None` beyond what the library lists.
fn ways(n: usize, k: usize) -> Option<usize> {
    if n > 20 || k > 16 {
        return None;
    }
    Some((0..k).fold(1, |product, taken| {
        product * n.saturating_sub(taken) / (taken + 1)
    }))
}

impl Queue {
    /// In queue order, each guest draws the nearest ratings to the table; of equally near ones the earlier joined time, then the earlier
    /// place. A guest may stand in the queue twice, with other ratings too: nobody is seated twice, and later copies of an entry that
    /// joined no earlier change no match.
    pub fn greedy(&self, sizes: TeamComposition, roster: &Roster) -> Result<Matches, Refusal> {
        let mut matches = Matches::of_64(sizes);
        let (players, qualities) = matches.lent();
        let answer = sys::search_greedy(
            *self.0,
            sizes,
            &roster.ids,
            &roster.ratings,
            players,
            qualities,
        );
        answered(answer.refusal)?;
        Ok(matches.first(answer.count))
    }

    /// In queue order, each guest's table grows by the `width` partial matches of best score; at most 32 are kept. Whoever stands in the
    /// queue twice is seated once at most; but a copy counts as one more guest to draw from, and may change the matches.
    pub fn beam(
        &self,
        width: usize,
        sizes: TeamComposition,
        objective: MatchObjective,
        roster: &Roster,
        clock: u64,
    ) -> Result<Matches, Refusal> {
        let mut matches = Matches::of_64(sizes);
        let (players, qualities) = matches.lent();
        let answer = sys::search_beam(
            BeamSearch { width },
            *self.0,
            sizes,
            objective,
            &roster.ids,
            &roster.ratings,
            &roster.deviations,
            clock,
            players,
            qualities,
        );
        answered(answer.refusal)?;
        Ok(matches.first(answer.count))
    }

    /// Neighbours by rating (1000.0 where it is missing), at most `max` matches.
    pub fn nearest(
        &self,
        max: usize,
        sizes: TeamComposition,
        roster: &Roster,
    ) -> Result<Matches, Refusal> {
        let mut matches = Matches::of_64(sizes);
        let (players, qualities) = matches.lent();
        let answer = sys::generate_nearest(
            GreedyNearestGenerator { max },
            *self.0,
            sizes,
            &roster.ids,
            &roster.ratings,
            players,
            qualities,
        );
        answered(answer.refusal)?;
        Ok(matches.first(answer.count))
    }

    /// Every choice of guests for both teams in ascending lexicographic order; at most 20 may wait, and 184,756 matches may come.
    pub fn exhaustive(&self, sizes: TeamComposition) -> Result<Matches, Refusal> {
        let seats = sizes.a.saturating_add(sizes.b);
        let count = ways(self.0.len, seats).unwrap_or(0);
        let mut matches = Matches::sheets(sizes, count * seats.min(16), count);
        let (players, qualities) = matches.lent();
        let answer = sys::generate_exhaustive(*self.0, sizes, players, qualities);
        answered(answer.refusal)?;
        Ok(matches.first(answer.count))
    }

    /// The best by the soft objectives among all choices that meet the constraints, the last of equal best.
    pub fn best_choice(
        &self,
        sizes: TeamComposition,
        constraints: &Constraints,
        objectives: &[SoftObjective],
        roster: &Roster,
    ) -> Result<Choice, Refusal> {
        let answer = sys::best_choice(
            *self.0,
            sizes,
            constraints.raw(),
            raw_objectives(objectives),
            &roster.ids,
            &roster.ratings,
            &roster.parties,
            &roster.roles,
            &roster.regions,
        );
        answered(answer.refusal)?;
        Ok(Choice {
            best: answer.found.then_some(ProposedMatch(answer.teams)),
            tried: answer.tried,
        })
    }
}

#[cfg(test)]
mod tests {
    use super::ways;

    #[test]
    fn ways_are_binomials() {
        assert_eq!(ways(20, 10), Some(184_756));
        assert_eq!(ways(20, 16), Some(4_845));
        assert_eq!(ways(0, 0), Some(1));
        assert_eq!(ways(3, 4), Some(0));
        assert_eq!(ways(21, 2), None);
    }
}
