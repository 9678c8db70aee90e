//! Counts of calls and answers, and their lines in the report.

use super::beside::Beside;
use super::corners::{Corners, Seen};
use super::fair::Windows;
use super::friends::Friends;
use crate::data::{Answer, Call};
use std::array::from_fn;
use yilgashe_sys::Hall;

/// Refusals are numbered up to 13.
const NUMBERS: usize = 14;

/// The kinds of call, each with the refusals that lists have to reach; then calls on halls that no list need lead to.
const ROWS: [(&str, &[usize]); 7] = [
    ("book", &[1, 7, 8, 13, 4, 9, 10]),
    ("withdraw", &[1, 7, 8, 11]),
    ("greedy_round", &[13, 1, 2, 3, 4]),
    ("beam_round", &[13, 1, 2, 3, 4, 5]),
    ("full_round", &[13, 1, 2, 3, 4, 6, 5]),
    ("dispatch", &[1, 2, 3, 4]),
    (SINGLE, &[1, 2, 3, 4, 5, 6, 7, 8, 9, 10, 11, 13]),
];
const SINGLE: &str = "single calls";

/// Of one kind of call: how often it was answered with 0, with refusal 1, and so on.
#[derive(Clone, Copy, Default)]
struct Row {
    answers: [usize; NUMBERS],
    matches: usize,
}

/// What greedy rounds that were not refused were held to.
#[derive(Clone, Copy, Debug, Default)]
pub struct Held {
    /// Joined times never fall: to the Rust too.
    pub rust: usize,
    /// They do: to the model alone.
    pub model: usize,
    /// Of these the Rust answers otherwise.
    pub parted: usize,
}

impl Held {
    pub(super) fn count(&mut self, beside: Option<Beside>) {
        match beside {
            None => {}
            Some(Beside::Rust) => self.rust += 1,
            Some(Beside::Model { parted }) => {
                self.model += 1;
                self.parted += usize::from(parted);
            }
        }
    }
}

/// Full rounds that bring waiting friends and were not refused.
#[derive(Clone, Copy, Debug, Default)]
pub struct Befriended {
    pub brought: usize,
    /// Of these, how many answer otherwise than the same round without them.
    pub parted: usize,
    /// How many bring the roster's parties too.
    pub both: usize,
    /// In how many somebody waits twice, with two parties.
    pub twofold: usize,
}

impl Befriended {
    pub(super) fn count(&mut self, friends: Option<Friends>) {
        if let Some(friends) = friends {
            self.brought += 1;
            self.parted += usize::from(friends.parted);
            self.both += usize::from(friends.both);
            self.twofold += usize::from(friends.twofold);
        }
    }
}

#[derive(Default)]
pub struct Counts {
    pub lists: u64,
    /// Those of the lists; of a list with a difference not all are made.
    pub calls: u64,
    pub resends: u64,
    /// Those that bring an original's key and anything else.
    pub changed: u64,
    pub differences: usize,
    /// Greedy rounds of lists, and single ones.
    pub held: Held,
    pub held_single: Held,
    /// Full rounds of lists, and single ones.
    pub befriended: Befriended,
    pub befriended_single: Befriended,
    /// Dispatches of lists.
    pub windows: Windows,
    corners: Corners,
    corners_single: Corners,
    rows: [Row; ROWS.len()],
}

impl Counts {
    /// A call of a list, on this hall.
    pub fn count(&mut self, call: &Call, answer: &Answer, before: &Hall) {
        self.enter(call.name(), answer);
        self.corners.count(&Seen {
            call,
            answer,
            before,
        });
    }

    pub fn count_single(&mut self, call: &Call, answer: &Answer, before: &Hall) {
        self.enter(SINGLE, answer);
        self.corners_single.count(&Seen {
            call,
            answer,
            before,
        });
    }

    fn enter(&mut self, name: &str, answer: &Answer) {
        let rows = self.rows.iter_mut().zip(ROWS);
        for (row, _) in rows.filter(|(_, (of, _))| *of == name) {
            row.answers[usize::from(answer.refusal).min(NUMBERS - 1)] += 1;
            row.matches += answer.count;
        }
    }

    /// How often calls of lists were answered with this refusal.
    pub fn refused(&self, number: usize) -> usize {
        self.in_lists().answers[number]
    }

    /// How many matches calls of lists handed out.
    pub fn matches(&self) -> usize {
        self.in_lists().matches
    }

    /// The refusals and the corners that were never reached, though enough calls always do.
    pub fn missing(&self) -> Vec<String> {
        let rows = ROWS.iter().zip(&self.rows);
        let refusals = rows.flat_map(|((name, due), row)| {
            let missed = due.iter().filter(|number| row.answers[**number] == 0);
            missed.map(move |number| format!("{number} in {name}"))
        });
        let mut missing: Vec<String> = refusals.collect();
        missing.extend(Corners::missing(&self.corners, &self.corners_single));
        if self.windows.kept == 0 || self.windows.tight == 0 {
            missing.push("a game that has enough for eight dispatches".into());
        }
        missing
    }

    fn in_lists(&self) -> Row {
        let rows = &self.rows[..ROWS.len() - 1];
        Row {
            answers: from_fn(|number| rows.iter().map(|row| row.answers[number]).sum()),
            matches: rows.iter().map(|row| row.matches).sum(),
        }
    }

    /// A line for each row, one for all calls of lists, what greedy rounds were held to, full rounds with waiting friends, the corners of
    /// games, and the turns of dispatches.
    pub fn lines(&self) -> String {
        let heading = format!(
            "{:24} {:>9} {:>11} {:>9}  refused",
            "hall", "calls", "not refused", "matches"
        );
        let names = ROWS.into_iter().map(|(name, _)| name);
        let rows = names.zip(self.rows);
        let all = ("all of lists", self.in_lists());
        let lines: Vec<String> = rows.chain([all]).map(line).collect();
        let lists = format!(
            "hall: {} lists, {} calls, {} resends, {} changed, {} matches, {} differences",
            self.lists,
            self.calls,
            self.resends,
            self.changed,
            self.matches(),
            self.differences
        );
        format!(
            "{heading}\n{}\n{lists}\n{}\n{}\n{}\n{}",
            lines.join("\n"),
            self.held_lines(),
            self.befriended_lines(),
            Corners::lines(&self.corners, &self.corners_single).join("\n"),
            self.windows_line()
        )
    }

    fn windows_line(&self) -> String {
        let Windows { all, kept, tight } = self.windows;
        format!(
            "hall: {all} times eight dispatches in a row, in {kept} a game had enough throughout and was served, in {tight} by the eighth alone"
        )
    }

    fn held_lines(&self) -> String {
        let heading = format!(
            "{:24} {:>9} {:>10} {:>15}",
            "hall greedy rounds", "with Rust", "model only", "Rust otherwise"
        );
        let line = |name: &str, held: Held| {
            let Held {
                rust,
                model,
                parted,
            } = held;
            format!("{name:24} {rust:>9} {model:>10} {parted:>15}")
        };
        let lists = line("hall all of lists", self.held);
        let single = line("hall single calls", self.held_single);
        format!("{heading}\n{lists}\n{single}")
    }

    fn befriended_lines(&self) -> String {
        let heading = format!(
            "{:24} {:>9} {:>10} {:>11} {:>12}",
            "hall waiting friends", "brought", "otherwise", "both kinds", "two parties"
        );
        let line = |name: &str, befriended: Befriended| {
            let Befriended {
                brought,
                parted,
                both,
                twofold,
            } = befriended;
            format!("{name:24} {brought:>9} {parted:>10} {both:>11} {twofold:>12}")
        };
        let lists = line("hall all of lists", self.befriended);
        let single = line("hall single calls", self.befriended_single);
        format!("{heading}\n{lists}\n{single}")
    }
}

fn line((name, row): (&str, Row)) -> String {
    let calls: usize = row.answers.iter().sum();
    let given = row.answers.iter().enumerate().skip(1);
    let given = given.filter(|(_, count)| **count > 0);
    let refused: Vec<String> = given.map(|(n, count)| format!("{n}: {count}")).collect();
    let (accepted, matches) = (row.answers[0], row.matches);
    let name = format!("hall {name}");
    let line = format!(
        "{name:24} {calls:>9} {accepted:>11} {matches:>9}  {}",
        refused.join("  ")
    );
    line.trim_end().to_string()
}
