//! Which refusal each call must get, written from document 01 and its readings alone. 0 is none. The hall is here whole.

mod choices;
mod greedy;
pub mod hall;
mod rules;
mod searches;

pub use choices::*;
pub use greedy::*;
pub use rules::*;
pub use searches::*;

use crate::data::{Columns, Roster};
use yilgashe_sys::{ProposedMatch, Queue, QueueEntry, SoftObjectives};

/// A queue holds this many entries.
pub const QUEUE_LIMIT: usize = 64;
/// A roster column has this many rows.
pub const ROSTER_LIMIT: usize = 128;
/// A team seats this many players.
pub const TEAM_LIMIT: usize = 8;
/// A list of soft objectives holds this many.
pub const OBJECTIVE_LIMIT: usize = 8;
/// The last kind of soft objective: skill, latency, wait. A code beyond it is over limit.
pub const LAST_KIND: u8 = 2;
/// The last time that passes: 2^53 ns.
pub const CLOCK_LIMIT: u64 = 9_007_199_254_740_992;
/// The code of a player without a record.
pub const NO_RECORD: u8 = 4;

pub const OVER_LIMIT: u8 = 1;
pub const BAD_ROSTER: u8 = 2;
pub const CLOCK: u8 = 4;

/// The number of the first check that fails.
pub fn first(checks: &[(bool, u8)]) -> u8 {
    let failed = checks.iter().find(|(fails, _)| *fails);
    failed.map_or(0, |(_, number)| *number)
}

pub fn enqueue(queue: &Queue, entry: &QueueEntry) -> u8 {
    first(&[
        (queue.len >= QUEUE_LIMIT, OVER_LIMIT),
        (late(entry.joined) || joined_late(queue), CLOCK),
    ])
}

pub fn remove(queue: &Queue) -> u8 {
    first(&[(over(queue), OVER_LIMIT), (joined_late(queue), CLOCK)])
}

pub fn remove_batch(queue: &Queue) -> u8 {
    first(&[(over(queue), OVER_LIMIT), (joined_late(queue), CLOCK)])
}

pub fn waiting_time(queue: &Queue, now: u64) -> u8 {
    first(&[
        (over(queue), OVER_LIMIT),
        (late(now) || joined_late(queue), CLOCK),
    ])
}

pub fn duration_since(later: u64, earlier: u64) -> u8 {
    first(&[(late(later) || late(earlier), CLOCK)])
}

pub fn as_secs_f64(time: u64) -> u8 {
    first(&[(late(time), CLOCK)])
}

pub fn roster(roster: &Roster) -> u8 {
    let lengths = roster.lengths();
    let long = lengths.iter().any(|&length| length > ROSTER_LIMIT);
    let unequal = lengths.iter().any(|&length| length != lengths[0]);
    let region = roster.regions.iter().any(|&code| code > NO_RECORD);
    first(&[
        (long, OVER_LIMIT),
        (unequal || doubled(&roster.ids) || region, BAD_ROSTER),
    ])
}

pub fn match_quality(proposed: &ProposedMatch, columns: &Columns) -> u8 {
    let over = wide(proposed) || long(columns);
    first(&[(over, OVER_LIMIT), (bad(columns), BAD_ROSTER)])
}

pub fn match_score(proposed: &ProposedMatch, queue: &Queue, columns: &Columns, clock: u64) -> u8 {
    first(&[
        (wide(proposed) || over(queue) || long(columns), OVER_LIMIT),
        (bad(columns), BAD_ROSTER),
        (late(clock) || joined_late(queue), CLOCK),
    ])
}

pub fn soft_value(kind: u8, proposed: &ProposedMatch, columns: &Columns) -> u8 {
    let over = kind > LAST_KIND || wide(proposed) || long(columns);
    first(&[(over, OVER_LIMIT), (bad(columns), BAD_ROSTER)])
}

pub fn soft_score(objectives: &SoftObjectives, proposed: &ProposedMatch, columns: &Columns) -> u8 {
    let unknown = objectives.listed().any(|(kind, _)| kind > LAST_KIND);
    let listed_over = objectives.len > OBJECTIVE_LIMIT || unknown;
    let over = listed_over || wide(proposed) || long(columns);
    first(&[(over, OVER_LIMIT), (bad(columns), BAD_ROSTER)])
}

fn wide(proposed: &ProposedMatch) -> bool {
    proposed.a.len > TEAM_LIMIT || proposed.b.len > TEAM_LIMIT
}

fn long(columns: &Columns) -> bool {
    let mut lengths = columns.lengths().into_iter();
    lengths.any(|length| length > ROSTER_LIMIT)
}

/// Columns of unequal length or a player in two rows.
fn bad(columns: &Columns) -> bool {
    let rows = columns.ids.len();
    let mut lengths = columns.lengths().into_iter();
    lengths.any(|length| length != rows) || doubled(&columns.ids)
}

pub fn over(queue: &Queue) -> bool {
    queue.len > QUEUE_LIMIT
}

pub fn late(time: u64) -> bool {
    time > CLOCK_LIMIT
}

/// Only the waiting entries have a joined time.
pub fn joined_late(queue: &Queue) -> bool {
    queue.waiting().iter().any(|entry| late(entry.joined))
}

/// Some id stands in two rows.
pub fn doubled(ids: &[u64]) -> bool {
    (0..ids.len()).any(|row| ids[..row].contains(&ids[row]))
}

#[cfg(test)]
mod tests {
    use super::*;
    use yilgashe_sys::Team;

    fn entry(player: u64, joined: u64) -> QueueEntry {
        QueueEntry {
            player,
            joined,
            ..QueueEntry::default()
        }
    }

    fn queue(len: usize, joined: u64) -> Queue {
        let mut queue = Queue::of(&[entry(1, joined); 64]);
        queue.len = len;
        queue
    }

    #[test]
    fn enqueue_at_the_limit() {
        assert_eq!(enqueue(&queue(63, 0), &entry(1, 0)), 0);
        assert_eq!(enqueue(&queue(64, 0), &entry(1, 0)), 1);
        assert_eq!(enqueue(&queue(65, 0), &entry(1, 0)), 1);
        assert_eq!(enqueue(&queue(usize::MAX, 0), &entry(1, 0)), 1);
    }

    #[test]
    fn enqueue_checks_both_times_after_the_limit() {
        let late = CLOCK_LIMIT + 1;
        assert_eq!(enqueue(&queue(63, CLOCK_LIMIT), &entry(1, CLOCK_LIMIT)), 0);
        assert_eq!(enqueue(&queue(0, late), &entry(1, 0)), 0);
        assert_eq!(enqueue(&queue(1, late), &entry(1, 0)), 4);
        assert_eq!(enqueue(&queue(0, 0), &entry(1, late)), 4);
        assert_eq!(enqueue(&queue(64, late), &entry(1, late)), 1);
    }

    #[test]
    fn removal_at_the_limit() {
        let late = CLOCK_LIMIT + 1;
        assert_eq!(remove(&queue(64, 0)), 0);
        assert_eq!(remove(&queue(65, 0)), 1);
        assert_eq!(remove(&queue(64, late)), 4);
        assert_eq!(remove(&queue(65, late)), 1);
        assert_eq!(remove_batch(&queue(64, CLOCK_LIMIT)), 0);
        assert_eq!(remove_batch(&queue(64, late)), 4);
        assert_eq!(remove_batch(&queue(65, late)), 1);
    }

    #[test]
    fn places_past_len_are_not_read() {
        let mut short = queue(3, 0);
        short.entries[3].joined = u64::MAX;
        assert_eq!(remove(&short), 0);
        short.len = 4;
        assert_eq!(remove(&short), 4);
    }

    #[test]
    fn waiting_time_checks_now() {
        assert_eq!(waiting_time(&queue(64, 0), CLOCK_LIMIT), 0);
        assert_eq!(waiting_time(&queue(0, 0), CLOCK_LIMIT + 1), 4);
        assert_eq!(waiting_time(&queue(65, 0), CLOCK_LIMIT + 1), 1);
        assert_eq!(waiting_time(&queue(1, CLOCK_LIMIT + 1), 0), 4);
    }

    #[test]
    fn times() {
        assert_eq!(as_secs_f64(CLOCK_LIMIT), 0);
        assert_eq!(as_secs_f64(CLOCK_LIMIT + 1), 4);
        assert_eq!(duration_since(CLOCK_LIMIT, CLOCK_LIMIT), 0);
        assert_eq!(duration_since(CLOCK_LIMIT + 1, 0), 4);
        assert_eq!(duration_since(0, CLOCK_LIMIT + 1), 4);
    }

    fn rows(n: usize) -> Roster {
        Roster {
            ids: (0..n as u64).collect(),
            ratings: vec![f64::NAN; n],
            deviations: vec![0.0; n],
            parties: vec![0; n],
            roles: vec![0; n],
            regions: vec![NO_RECORD; n],
        }
    }

    #[test]
    fn roster_at_the_limit() {
        assert_eq!(roster(&rows(0)), 0);
        assert_eq!(roster(&rows(128)), 0);
        assert_eq!(roster(&rows(129)), 1);
    }

    #[test]
    fn one_long_column_is_over_limit_before_unequal() {
        let mut long = rows(128);
        long.roles.push(0);
        assert_eq!(roster(&long), 1);
        let mut unequal = rows(127);
        unequal.roles.push(0);
        assert_eq!(roster(&unequal), 2);
    }

    #[test]
    fn bad_rows() {
        let mut doubled = rows(5);
        doubled.ids[4] = 0;
        assert_eq!(roster(&doubled), 2);
        let mut region = rows(5);
        region.regions[4] = 5;
        assert_eq!(roster(&region), 2);
        let mut long = rows(129);
        long.ids[4] = 0;
        long.regions[4] = 5;
        assert_eq!(roster(&long), 1);
    }

    fn teams(a: usize, b: usize) -> ProposedMatch {
        let team = |len| Team {
            players: [1; 8],
            len,
        };
        ProposedMatch {
            a: team(a),
            b: team(b),
        }
    }

    fn columns(n: usize, deviations: Option<usize>) -> Columns {
        Columns {
            ids: (0..n as u64).collect(),
            ratings: vec![f64::NAN; n],
            deviations: deviations.map(|n| vec![0.0; n]),
        }
    }

    #[test]
    fn quality_at_the_limits() {
        assert_eq!(match_quality(&teams(8, 8), &columns(128, None)), 0);
        assert_eq!(match_quality(&teams(0, 0), &columns(0, None)), 0);
        assert_eq!(match_quality(&teams(9, 0), &columns(0, None)), 1);
        assert_eq!(match_quality(&teams(0, usize::MAX), &columns(0, None)), 1);
        assert_eq!(match_quality(&teams(1, 1), &columns(129, None)), 1);
    }

    #[test]
    fn quality_checks_columns_after_limits() {
        let mut unequal = columns(5, None);
        unequal.ratings.pop();
        assert_eq!(match_quality(&teams(1, 1), &unequal), 2);
        assert_eq!(match_quality(&teams(1, 9), &unequal), 1);
        let mut long = columns(5, None);
        long.ratings.resize(129, 0.0);
        assert_eq!(match_quality(&teams(1, 1), &long), 1);
        let mut doubled = columns(5, None);
        doubled.ids[0] = 4;
        assert_eq!(match_quality(&teams(1, 1), &doubled), 2);
    }

    #[test]
    fn score_checks_limits_then_columns_then_times() {
        let (late, good) = (CLOCK_LIMIT + 1, columns(5, Some(5)));
        let score = |b, queue: &Queue, columns: &Columns, clock| {
            match_score(&teams(8, b), queue, columns, clock)
        };
        assert_eq!(score(8, &queue(64, CLOCK_LIMIT), &good, CLOCK_LIMIT), 0);
        assert_eq!(score(8, &queue(65, 0), &good, 0), 1);
        assert_eq!(score(9, &queue(64, 0), &good, 0), 1);
        assert_eq!(score(8, &queue(1, late), &good, 0), 4);
        assert_eq!(score(8, &queue(0, late), &good, 0), 0);
        assert_eq!(score(8, &queue(0, 0), &good, late), 4);
        let unequal = columns(5, Some(4));
        assert_eq!(score(8, &queue(1, late), &unequal, late), 2);
        assert_eq!(score(9, &queue(1, late), &unequal, late), 1);
        assert_eq!(score(8, &queue(1, 0), &columns(5, Some(129)), 0), 1);
    }

    #[test]
    fn soft_objectives_check_listed_kinds_first() {
        let (teams, good) = (teams(1, 1), columns(5, None));
        let mut bad = columns(5, None);
        bad.ratings.clear();
        for (kind, with_good, with_bad) in [(0, 0, 2), (2, 0, 2), (3, 1, 1), (255, 1, 1)] {
            assert_eq!(soft_value(kind, &teams, &good), with_good);
            assert_eq!(soft_value(kind, &teams, &bad), with_bad);
        }
        let list = |len| SoftObjectives {
            kinds: [0, 1, 2, 3, 0, 0, 0, 0],
            weights: [1.0; 8],
            len,
        };
        assert_eq!(soft_score(&list(3), &teams, &good), 0);
        assert_eq!(soft_score(&list(3), &teams, &bad), 2);
        assert_eq!(soft_score(&list(4), &teams, &bad), 1);
        assert_eq!(soft_score(&list(9), &teams, &good), 1);
    }
}
