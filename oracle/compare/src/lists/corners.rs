//! Corners of requests: which calls reach them, and whether lists or single calls have to.

mod games;
mod keys;

use crate::data::{Answer, Call};
use yilgashe_sys::{Booking, Hall, Note};

/// A call, its answer, and the hall before it.
pub struct Seen<'a> {
    pub call: &'a Call,
    pub answer: &'a Answer,
    pub before: &'a Hall,
}

/// Who has to reach a corner.
#[derive(Clone, Copy, PartialEq)]
enum Due {
    Both,
    Lists,
    /// The halls that lists lead to reach it seldom or never.
    Single,
}

struct Corner {
    name: &'static str,
    due: Due,
    reached: fn(&Seen) -> bool,
}

const fn both(name: &'static str, reached: fn(&Seen) -> bool) -> Corner {
    let due = Due::Both;
    Corner { name, due, reached }
}

const fn lists(name: &'static str, reached: fn(&Seen) -> bool) -> Corner {
    let due = Due::Lists;
    Corner { name, due, reached }
}

const fn single(name: &'static str, reached: fn(&Seen) -> bool) -> Corner {
    let due = Due::Single;
    Corner { name, due, reached }
}

/// Those of a request, under a heading.
struct Table {
    heading: &'static str,
    corners: &'static [Corner],
}

const TABLES: [Table; 2] = [games::TABLE, keys::TABLE];

impl Seen<'_> {
    fn booking(&self) -> Option<&Booking> {
        match self.call {
            Call::Book { booking, .. } => Some(booking),
            _ => None,
        }
    }

    /// What is noted beside the call's key.
    fn noted(&self) -> Option<Note> {
        let key = self.call.key()?;
        let mut notes = self.before.answered();
        notes.find(|(noted, _)| *noted == key).map(|(_, note)| note)
    }
}

/// How many calls reached each, table by table.
pub struct Corners([Vec<usize>; TABLES.len()]);

impl Default for Corners {
    fn default() -> Self {
        Corners(TABLES.map(|table| vec![0; table.corners.len()]))
    }
}

impl Corners {
    pub fn count(&mut self, seen: &Seen) {
        for (counts, table) in self.0.iter_mut().zip(&TABLES) {
            for (count, corner) in counts.iter_mut().zip(table.corners) {
                *count += usize::from((corner.reached)(seen));
            }
        }
    }

    /// Of each table a heading, and a line for each corner.
    pub fn lines(lists: &Corners, single: &Corners) -> Vec<String> {
        let line = |name: &str, lists: &str, single: &str| {
            format!("{:42} {lists:>8} {single:>13}", format!("hall {name}"))
        };
        let mut lines = Vec::new();
        for (table, (lists, single)) in TABLES.iter().zip(lists.0.iter().zip(&single.0)) {
            lines.push(line(table.heading, "in lists", "single calls"));
            let counts = lists.iter().zip(single).zip(table.corners);
            lines.extend(counts.map(|((lists, single), corner)| {
                line(corner.name, &lists.to_string(), &single.to_string())
            }));
        }
        lines
    }

    /// Those that nothing reached which has to.
    pub fn missing(lists: &Corners, single: &Corners) -> Vec<String> {
        let corners = TABLES.iter().flat_map(|table| table.corners);
        let counts = lists.0.iter().flatten().zip(single.0.iter().flatten());
        let missed = corners.zip(counts).filter(|(corner, (lists, single))| {
            (corner.due != Due::Single && **lists == 0)
                || (corner.due != Due::Lists && **single == 0)
        });
        missed.map(|(corner, _)| corner.name.into()).collect()
    }
}
