//! The calls that are timed, a file for each kind, and the rows of the first table.

pub mod beam;
pub mod booking;
pub mod by_value;
pub mod dispatch;
pub mod greedy;
pub mod nearest;
pub mod round;
pub mod seated;

use crate::call::Row;
use compare::data::Sheets;
use compare::same::Same;
use std::fmt::{Display, Formatter, Result};
use yilgashe_sys::{Formed, TeamComposition};

/// The first table, each row made when it is its turn.
pub const ROWS: &[fn(u64) -> Row] = &[
    |seed| greedy::row(seed, Scene::of(64, (5, 5))).target(5.0),
    |seed| greedy::alike(seed, Scene::of(64, (5, 5))).target(5.0),
    |seed| greedy::stepped(seed, Scene::of(64, (5, 5))).target(5.0),
    |seed| greedy::unordered(seed, Scene::of(64, (5, 5))).target(5.0),
    |seed| greedy::alike_unordered(seed, Scene::of(64, (5, 5))).target(5.0),
    |seed| beam::row(seed, Scene::of(64, (5, 5)), 32).target(100.0),
    |seed| beam::row(seed, Scene::of(64, (8, 8)), 32).target(100.0),
    |seed| beam::row(seed, Scene::of(64, (5, 5)).apart(), 32).target(100.0),
    |seed| round::row(seed, Scene::of(20, (5, 5))).target(30.0),
    |seed| round::row(seed, Scene::of(20, (5, 5)).apart()).target(30.0),
    |seed| round::befriended(seed, Scene::of(20, (5, 5))).target(30.0),
    |seed| nearest::row(seed, Scene::of(64, (5, 5))).target(2.0),
    |seed| seated::quality(seed, Scene::of(64, (5, 5))).target(1.0),
    |seed| seated::quality(seed, Scene::of(64, (5, 5)).apart()).target(1.0),
    |seed| seated::score(seed, Scene::of(64, (5, 5))).target(1.0),
    |seed| seated::score(seed, Scene::of(64, (5, 5)).apart()).target(1.0),
    |seed| round::alike(seed, Scene::of(20, (5, 5))),
    |seed| seated::quality(seed, Scene::of(64, (5, 5)).unsorted()),
    |seed| seated::score(seed, Scene::of(64, (5, 5)).unsorted()),
    booking::row,
    |seed| by_value::booking(seed).target(0.5),
    |seed| by_value::booking_again(seed).target(0.5),
    |seed| by_value::booking_changed(seed).target(0.5),
    |seed| by_value::withdrawal(seed).target(0.5),
    |seed| by_value::round(seed).target(0.5),
    |seed| dispatch::row(seed).target(0.5),
];

/// How many wait, the sizes of the teams, whether the roster's rows ascend, and whether most teams are 400 points and more apart.
#[derive(Clone, Copy)]
pub struct Scene {
    pub entries: usize,
    pub a: usize,
    pub b: usize,
    pub ascending: bool,
    pub apart: bool,
}

impl Scene {
    pub const fn of(entries: usize, (a, b): (usize, usize)) -> Self {
        Scene {
            entries,
            a,
            b,
            ascending: true,
            apart: false,
        }
    }

    /// With its rows in any order.
    pub const fn unsorted(self) -> Self {
        Scene {
            ascending: false,
            ..self
        }
    }

    /// With ratings ten times as far apart.
    pub const fn apart(self) -> Self {
        Scene {
            apart: true,
            ..self
        }
    }

    pub fn sizes(&self) -> TeamComposition {
        TeamComposition {
            a: self.a,
            b: self.b,
        }
    }
}

impl Display for Scene {
    fn fmt(&self, f: &mut Formatter<'_>) -> Result {
        write!(f, "{} entries, {}+{}", self.entries, self.a, self.b)?;
        if !self.ascending {
            write!(f, ", rows in any order")?;
        }
        if self.apart {
            write!(f, ", far apart")?;
        }
        Ok(())
    }
}

/// Fails unless the library has laid the expected matches on its sheets, and as many; says how many.
fn agreed((count, laid): (usize, Sheets), formed: Formed, after: &Sheets) -> String {
    assert_eq!((formed.refusal, formed.count), (0, count));
    assert!(laid.same(after), "other matches than expected");
    format!("{count} formed")
}

#[cfg(test)]
mod tests {
    use super::*;
    use crate::crowd::{CLOCK, Crowd, objective, sheets};
    use crate::stack::depth;
    use compare::rng::Rng;
    use yilgashe_sys::{self as library, BeamSearch, Booking, Games, Hall};

    /// Half of what a caller is told to leave; an unoptimised one makes two copies of the hall more.
    const LIMIT: usize = if cfg!(debug_assertions) {
        384 << 10
    } else {
        256 << 10
    };
    /// Of a booking and a withdrawal, with the caller's copies of the hall and of the answer: one copy more is over it.
    const KEYED_LIMIT: usize = if cfg!(debug_assertions) {
        LIMIT
    } else {
        175_000
    };

    /// Making a row holds both sides' answers against each other. Few entries keep the Rust's beam short, and are as deep for the
    /// library.
    #[test]
    fn both_sides_agree_and_the_stack_stays_small() {
        let rows = vec![
            greedy::row(1, Scene::of(64, (5, 5))),
            greedy::alike(1, Scene::of(64, (5, 5))),
            greedy::stepped(1, Scene::of(64, (5, 5))),
            greedy::unordered(1, Scene::of(64, (5, 5))),
            greedy::alike_unordered(1, Scene::of(64, (5, 5))),
            beam::row(1, Scene::of(18, (8, 8)), 32),
            beam::row(1, Scene::of(18, (8, 8)).apart(), 32),
            round::row(1, Scene::of(20, (8, 8))),
            round::row(1, Scene::of(20, (8, 8)).apart()),
            round::befriended(1, Scene::of(20, (8, 8))),
            nearest::row(1, Scene::of(64, (5, 5))),
            seated::quality(1, Scene::of(64, (5, 5))),
            seated::quality(1, Scene::of(64, (5, 5)).apart()),
            seated::score(1, Scene::of(64, (5, 5)).unsorted()),
            seated::score(1, Scene::of(64, (5, 5)).apart()),
            by_value::round(1),
            dispatch::row(1),
        ];
        let keyed = vec![
            booking::row(1),
            by_value::booking(1),
            by_value::booking_again(1),
            by_value::booking_changed(1),
            by_value::withdrawal(1),
        ];
        are_within(rows, LIMIT);
        are_within(keyed, KEYED_LIMIT);
    }

    fn are_within(rows: Vec<Row>, limit: usize) {
        for mut row in rows {
            let depth = depth(|| {
                row.sides.library();
            });
            assert!(depth <= limit, "{}: {depth} bytes", row.name);
        }
    }

    /// The deepest call of the hall, which is no row: the Rust's beam takes long.
    #[test]
    fn the_stack_of_a_beam_round_stays_small() {
        let scene = Scene::of(64, (8, 8));
        let crowd = Crowd::drawn(&mut Rng::new(1), &scene);
        let bookings: Vec<Booking> = crowd.queue.waiting().iter().map(Booking::of).collect();
        let hall = Hall::of(Games::of([scene.sizes()]), &bookings, &[]);
        let (columns, mut sheets, mut count) = (crowd.columns(), sheets(), 0);
        let depth = depth(|| {
            let told = library::hall_beam_round(
                hall,
                BeamSearch { width: 32 },
                0,
                objective(),
                CLOCK,
                &columns.ids,
                &columns.ratings,
                &crowd.roster.deviations,
                &mut sheets.players,
                &mut sheets.qualities,
            );
            count = told.count;
        });
        assert_eq!(count, 4);
        assert!(depth <= LIMIT, "{depth} bytes");
    }

    /// No match of the Rust's, and a sheet that was written to.
    #[test]
    #[should_panic(expected = "other matches")]
    fn another_sheet_is_no_agreement() {
        let (formed, mut after) = (
            Formed {
                count: 0,
                refusal: 0,
            },
            sheets(),
        );
        after.players[0] = 1;
        agreed((0, sheets()), formed, &after);
    }
}
