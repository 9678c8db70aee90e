//! Refusals of searches and generators, and the beam that refusal 5 looks at.

use super::{
    BAD_ROSTER, CLOCK, OVER_LIMIT, TEAM_LIMIT, UNRANKED, average, bad, falling, first, joined_late,
    late, long, over, quality_between, unranked,
};
use crate::data::{Columns, Sheets};
use yilgashe_sys::{MatchObjective, Queue, TeamComposition};

/// A beam keeps this many partial matches.
pub const WIDTH_LIMIT: usize = 32;
/// A sheet has at least this many places.
pub const SHEET_LEAST: usize = 64;
/// Every choice is listed of this many entries.
pub const LISTED_LIMIT: usize = 20;
/// The generator's rating of a player without a row.
const MISSING: f64 = 1000.0;

pub const SHORT_SHEET: u8 = 3;
pub const TOO_WIDE: u8 = 6;
pub const NO_SEATS: u8 = 12;

/// Team A, team B.
pub type Teams = (Vec<u64>, Vec<u64>);

/// What a beam search brings besides its sheets.
#[derive(Debug)]
pub struct Beam {
    pub width: usize,
    pub queue: Queue,
    pub sizes: TeamComposition,
    pub objective: MatchObjective,
    pub columns: Columns,
    pub clock: u64,
}

pub fn greedy_search(
    queue: &Queue,
    sizes: &TeamComposition,
    columns: &Columns,
    sheets: &Sheets,
) -> u8 {
    let over = over(queue) || large(sizes) || long(columns);
    first(&[
        (over, OVER_LIMIT),
        (bad(columns), BAD_ROSTER),
        (short(sheets), SHORT_SHEET),
        (joined_late(queue), CLOCK),
    ])
}

pub fn beam_search(beam: &Beam, sheets: &Sheets) -> u8 {
    let wide = beam.width > WIDTH_LIMIT;
    let over = over(&beam.queue) || large(&beam.sizes) || wide || long(&beam.columns);
    let checked = first(&[
        (over, OVER_LIMIT),
        (bad(&beam.columns), BAD_ROSTER),
        (short(sheets), SHORT_SHEET),
        (late(beam.clock) || joined_late(&beam.queue), CLOCK),
    ]);
    match checked {
        0 => first(&[(beam.matches().is_none(), UNRANKED)]),
        number => number,
    }
}

pub fn nearest(queue: &Queue, sizes: &TeamComposition, columns: &Columns, sheets: &Sheets) -> u8 {
    match greedy_search(queue, sizes, columns, sheets) {
        0 => {
            let seats = sizes.a + sizes.b;
            let ranks = queue.len >= seats;
            first(&[
                (seats == 0, NO_SEATS),
                (ranks && unranked(&ratings(queue, columns)), UNRANKED),
            ])
        }
        number => number,
    }
}

pub fn exhaustive(queue: &Queue, sizes: &TeamComposition, sheets: &Sheets) -> u8 {
    let checked = first(&[
        (over(queue) || large(sizes), OVER_LIMIT),
        (joined_late(queue), CLOCK),
        (queue.len > LISTED_LIMIT, TOO_WIDE),
    ]);
    match checked {
        0 => {
            let seats = sizes.a + sizes.b;
            let count = ways(queue.len, seats);
            let players = sheets.players.len() < count * seats;
            first(&[(players || sheets.qualities.len() < count, SHORT_SHEET)])
        }
        number => number,
    }
}

/// How many ways there are to choose `k` of `n`, by Pascal's rule.
pub fn ways(n: usize, k: usize) -> usize {
    let mut row = vec![0; k + 1];
    row[0] = 1;
    for _ in 0..n {
        for place in (1..=k).rev() {
            row[place] += row[place - 1];
        }
    }
    row[k]
}

/// The rating that the generator sorts each entry by; columns of equal length.
fn ratings(queue: &Queue, columns: &Columns) -> Vec<f64> {
    let row = |player| columns.ids.iter().position(|&id| id == player);
    let rating = |player| row(player).map_or(MISSING, |row| columns.ratings[row]);
    let waiting = queue.waiting().iter();
    waiting.map(|entry| rating(entry.player)).collect()
}

pub(super) fn large(sizes: &TeamComposition) -> bool {
    sizes.a > TEAM_LIMIT || sizes.b > TEAM_LIMIT
}

pub(super) fn short(sheets: &Sheets) -> bool {
    sheets.players.len() < SHEET_LEAST || sheets.qualities.len() < SHEET_LEAST
}

/// Does team A pick next, of teams of these lengths, or B?
pub(super) fn takes_a(sizes: &TeamComposition, a: usize, b: usize) -> bool {
    a < sizes.a && (a <= b || b == sizes.b)
}

/// Each match with its quality by the roster's ratings.
pub fn rated(matches: Vec<Teams>, columns: &Columns) -> Vec<(Teams, f64)> {
    let Columns { ids, ratings, .. } = columns;
    let with_quality = |(a, b): Teams| {
        let quality = quality_between(&a, &b, ids, ratings);
        ((a, b), quality)
    };
    matches.into_iter().map(with_quality).collect()
}

/// Writes the matches, team A then B, and their qualities from the first place on; gives all who are seated.
pub fn lay(matches: &[(Teams, f64)], sheets: &mut Sheets) -> Vec<u64> {
    let teams = matches.iter().flat_map(|((a, b), _)| a.iter().chain(b));
    let seated: Vec<u64> = teams.copied().collect();
    sheets.players[..seated.len()].copy_from_slice(&seated);
    for (place, (_, quality)) in sheets.qualities.iter_mut().zip(matches) {
        *place = *quality;
    }
    seated
}

/// The search itself, for input within the limits; none where a step ranks two or more and one is NaN.
impl Beam {
    pub fn matches(&self) -> Option<Vec<Teams>> {
        let mut used: Vec<u64> = Vec::new();
        let mut formed = Vec::new();
        for anchor in self.queue.waiting() {
            if used.contains(&anchor.player) {
                continue;
            }
            if let Some((a, b)) = self.climb(anchor.player, &used)? {
                used.extend(a.iter().chain(&b));
                formed.push((a, b));
            }
        }
        Some(formed)
    }

    /// From the anchor alone, seat by seat, to the first complete match.
    fn climb(&self, anchor: u64, used: &[u64]) -> Option<Option<Teams>> {
        let TeamComposition { a, b } = self.sizes;
        let mut kept = vec![(vec![anchor], Vec::new())];
        while kept
            .iter()
            .any(|(of_a, of_b)| of_a.len() < a || of_b.len() < b)
        {
            let grown: Vec<Teams> = kept.iter().flat_map(|m| self.expand(m, used)).collect();
            let scores: Vec<f64> = grown.iter().map(|m| self.score(m)).collect();
            if unranked(&scores) {
                return None;
            }
            let best = falling(&scores).into_iter().take(self.width);
            kept = best.map(|place| grown[place].clone()).collect();
        }
        let complete = |(of_a, of_b): &Teams| of_a.len() == a && of_b.len() == b;
        Some(kept.into_iter().find(complete))
    }

    /// One more seat for each entry in order whose player is neither used nor seated.
    fn expand(&self, teams: &Teams, used: &[u64]) -> Vec<Teams> {
        let (of_a, of_b) = teams;
        let free = |player: &u64| ![used, of_a, of_b].iter().any(|of| of.contains(player));
        let players = self.queue.waiting().iter().map(|entry| entry.player);
        let to_a = takes_a(&self.sizes, of_a.len(), of_b.len());
        let seated = |player| {
            let (mut of_a, mut of_b) = teams.clone();
            if to_a {
                of_a.push(player);
            } else {
                of_b.push(player);
            }
            (of_a, of_b)
        };
        players.filter(free).map(seated).collect()
    }

    /// `MatchObjective::score` of a partial match.
    fn score(&self, (a, b): &Teams) -> f64 {
        let Columns { ids, ratings, .. } = &self.columns;
        let deviations = self.columns.deviations.as_deref().unwrap_or_default();
        let seated = [&a[..], b].concat();
        self.objective.quality * quality_between(a, b, ids, ratings)
            - self.objective.wait * (self.longest_wait(&seated) / 60.0)
            - self.objective.ping * 0.0
            - self.objective.uncertainty * (average(&seated, ids, deviations) / 350.0)
    }

    /// In seconds, each from the player's first entry.
    fn longest_wait(&self, seated: &[u64]) -> f64 {
        let first = |player| self.queue.waiting().iter().find(|e| e.player == player);
        let waits = seated.iter().filter_map(|&player| first(player));
        let nanos = waits.map(|entry| self.clock.saturating_sub(entry.joined));
        nanos.max().unwrap_or(0) as f64 / 1_000_000_000.0
    }
}

#[cfg(test)]
mod tests {
    use super::super::CLOCK_LIMIT;
    use super::*;
    use yilgashe_sys::QueueEntry;

    const LATE: u64 = CLOCK_LIMIT + 1;

    fn queue(ratings: &[f64]) -> Queue {
        let entry = |(player, &rating)| QueueEntry {
            player,
            rating,
            ..QueueEntry::default()
        };
        let entries: Vec<QueueEntry> = (1..).zip(ratings).map(entry).collect();
        Queue::of(&entries)
    }

    fn columns(ratings: &[f64], deviations: Option<&[f64]>) -> Columns {
        Columns {
            ids: (1..=ratings.len() as u64).collect(),
            ratings: ratings.to_vec(),
            deviations: deviations.map(<[f64]>::to_vec),
        }
    }

    fn sizes(a: usize, b: usize) -> TeamComposition {
        TeamComposition { a, b }
    }

    fn sheets(players: usize, qualities: usize) -> Sheets {
        Sheets {
            players: vec![0; players],
            qualities: vec![0.0; qualities],
        }
    }

    fn beam(deviations: &[f64], teams: (usize, usize), width: usize) -> Beam {
        let ratings = vec![1000.0; deviations.len()];
        Beam {
            width,
            queue: queue(&ratings),
            sizes: sizes(teams.0, teams.1),
            objective: MatchObjective {
                quality: 1.0,
                wait: 0.0,
                ping: 0.0,
                uncertainty: 1.0,
            },
            columns: columns(&ratings, Some(deviations)),
            clock: 0,
        }
    }

    /// Mends one check after another, each showing the next.
    #[test]
    fn greedy_checks_in_order() {
        let mut queue = queue(&[1.0; 64]);
        let mut columns = columns(&[1.0; 5], None);
        (queue.len, queue.entries[63].joined) = (65, LATE);
        columns.ids[0] = 5;
        columns.ratings.resize(129, 0.0);
        let mut brought = (sizes(9, 0), sheets(63, 64));
        let refusal = |queue: &Queue, columns: &Columns, (sizes, sheets): &(_, _)| {
            greedy_search(queue, sizes, columns, sheets)
        };
        assert_eq!(refusal(&queue, &columns, &brought), 1);
        queue.len = 64;
        assert_eq!(refusal(&queue, &columns, &brought), 1);
        brought.0 = sizes(8, 8);
        assert_eq!(refusal(&queue, &columns, &brought), 1);
        columns.ratings.truncate(5);
        assert_eq!(refusal(&queue, &columns, &brought), 2);
        columns.ids[0] = 0;
        assert_eq!(refusal(&queue, &columns, &brought), 3);
        brought.1 = sheets(64, 63);
        assert_eq!(refusal(&queue, &columns, &brought), 3);
        brought.1 = sheets(64, 64);
        assert_eq!(refusal(&queue, &columns, &brought), 4);
        queue.entries[63].joined = CLOCK_LIMIT;
        assert_eq!(refusal(&queue, &columns, &brought), 0);
    }

    #[test]
    fn beam_checks_width_and_clock() {
        let good = sheets(64, 64);
        let mut search = beam(&[0.0; 3], (1, 1), 33);
        search.clock = LATE;
        assert_eq!(beam_search(&search, &sheets(0, 64)), 1);
        search.width = 32;
        assert_eq!(beam_search(&search, &sheets(0, 64)), 3);
        assert_eq!(beam_search(&search, &good), 4);
        search.clock = CLOCK_LIMIT;
        assert_eq!(beam_search(&search, &good), 0);
    }

    #[test]
    fn beam_refuses_a_nan_among_two_or_more() {
        let refusal = |deviations: &[f64], teams, width| {
            beam_search(&beam(deviations, teams, width), &sheets(64, 64))
        };
        let nan = f64::NAN;
        assert_eq!(refusal(&[0.0, 0.0, nan], (1, 1), 1), 5);
        assert_eq!(refusal(&[0.0, 0.0, nan], (1, 1), 0), 5);
        assert_eq!(refusal(&[0.0, 0.0, nan], (0, 1), 3), 5);
        assert_eq!(refusal(&[0.0, 0.0, nan], (8, 8), 3), 5);
        // One expansion alone is no ranking, and nobody is ranked beside the anchor.
        assert_eq!(refusal(&[0.0, nan], (1, 1), 3), 0);
        assert_eq!(refusal(&[nan; 4], (1, 0), 3), 0);
        assert_eq!(refusal(&[nan; 4], (0, 0), 3), 0);
    }

    #[test]
    fn beam_frees_only_the_anchor() {
        let infinite = f64::INFINITY;
        let search = beam(&[0.0, infinite, -infinite], (2, 2), 1);
        assert_eq!(search.climb(1, &[]), Some(None));
        assert_eq!(search.climb(2, &[]), None);
        assert_eq!(search.climb(2, &[1]), Some(None));
        assert_eq!(beam_search(&search, &sheets(64, 64)), 5);
    }

    #[test]
    fn nearest_checks_seats_then_ratings() {
        let rated = |ratings: &[f64], teams: (usize, usize)| {
            let (queue, columns) = (queue(&[f64::NAN; 4]), columns(ratings, None));
            nearest(&queue, &sizes(teams.0, teams.1), &columns, &sheets(64, 64))
        };
        let (good, bad) = ([1.0; 4], [1.0, 1.0, 1.0, f64::NAN]);
        assert_eq!(rated(&good, (0, 0)), 12);
        assert_eq!(rated(&bad, (0, 0)), 12);
        assert_eq!(rated(&bad, (1, 1)), 5);
        assert_eq!(rated(&bad, (4, 1)), 0);
        assert_eq!(rated(&bad[..3], (1, 1)), 0);
        let short = nearest(
            &queue(&good),
            &sizes(0, 0),
            &columns(&good, None),
            &sheets(64, 0),
        );
        assert_eq!(short, 3);
        let one = Columns {
            ratings: vec![f64::NAN],
            ids: vec![1],
            deviations: None,
        };
        let alone = nearest(&queue(&good[..1]), &sizes(1, 0), &one, &sheets(64, 64));
        assert_eq!(alone, 0);
    }
    #[test]
    fn ways_to_choose() {
        assert_eq!([0, 1, 2, 3, 4, 5].map(|k| ways(4, k)), [1, 4, 6, 4, 1, 0]);
        assert_eq!((ways(0, 0), ways(0, 1)), (1, 0));
        assert_eq!((ways(20, 10), ways(20, 16)), (184_756, 4845));
    }

    /// Mends one check after another, each showing the next.
    #[test]
    fn exhaustive_checks_in_order() {
        let mut queue = queue(&[1.0; 21]);
        queue.entries[0].joined = LATE;
        assert_eq!(exhaustive(&queue, &sizes(9, 0), &sheets(0, 0)), 1);
        assert_eq!(exhaustive(&queue, &sizes(0, usize::MAX), &sheets(0, 0)), 1);
        assert_eq!(exhaustive(&queue, &sizes(8, 8), &sheets(0, 0)), 4);
        queue.entries[0].joined = CLOCK_LIMIT;
        assert_eq!(exhaustive(&queue, &sizes(8, 8), &sheets(0, 0)), 6);
        queue.len = 20;
        let refusal = |players, qualities| {
            let sheets = sheets(players, qualities);
            exhaustive(&queue, &sizes(1, 2), &sheets)
        };
        assert_eq!(refusal(3 * 1140 - 1, 1140), 3);
        assert_eq!(refusal(3 * 1140, 1139), 3);
        assert_eq!(refusal(3 * 1140, 1140), 0);
        queue.len = 65;
        assert_eq!(exhaustive(&queue, &sizes(1, 2), &sheets(0, 0)), 1);
    }

    #[test]
    fn a_listing_of_nothing_wants_no_places() {
        let three = queue(&[1.0; 3]);
        assert_eq!(exhaustive(&three, &sizes(2, 2), &sheets(0, 0)), 0);
        assert_eq!(exhaustive(&three, &sizes(0, 0), &sheets(0, 1)), 0);
        assert_eq!(exhaustive(&three, &sizes(0, 0), &sheets(0, 0)), 3);
    }
}
