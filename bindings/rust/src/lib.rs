//! The matchmaking hall of a chain of game lounges, as a safe crate over the proved library `libcapi.a`.
//!
//! Guests book for one of up to eight [`Games`] and wait in a [`Hall`]; a round seats some of them in two teams for each table. The parts
//! that a hall is made of can be had alone: a [`Queue`] with its searches and generators, the quality and the scores of a
//! [`ProposedMatch`], [`Constraints`], and the selections of [`select`]. Whoever has observations of guests brings them as a [`Roster`].
//!
//! What the library says no to is a [`Refusal`]. This crate adds no rule of its own: each call passes on what it is given, and hands
//! back what the library answers.
//!
//! ```
//! use yilgashe::{Booking, Games, Hall, Roster, Row, TeamComposition};
//!
//! let ratings = [(1, 1000.0), (2, 1280.0), (3, 1010.0), (4, 1090.0)];
//! let roster: Roster = ratings.map(|(player, rating)| Row { player, rating, ..Row::default() }).into_iter().collect();
//! let mut hall = Hall::new(Games::of([TeamComposition { a: 2, b: 2 }]));
//! for (player, rating) in ratings {
//!     hall.book(100 + player, Booking { player, rating, ..Booking::default() })?; // for game 0
//! }
//! let tables = hall.greedy_round(0, 0, &roster)?;
//! let table = tables.get(0).unwrap();
//! assert_eq!((table.team_a, table.team_b, table.quality), (&[1, 4][..], &[3, 2][..], 0.75));
//! assert!(hall.waiting().is_empty());
//! # Ok::<(), yilgashe::Refusal>(())
//! ```

#![forbid(unsafe_code)]
#![deny(missing_docs)]

mod booking;
mod hall;
mod matches;
mod notes;
mod proposed;
mod queue;
mod refusal;
mod roster;
mod rules;
mod searches;
pub mod select;
pub mod time;
pub mod vector;

pub use booking::Booking;
pub use hall::{Dispatch, FullRound, Hall};
pub use matches::{Iter, Match, Matches};
pub use notes::{KeyRecord, Noted};
pub use proposed::{ProposedMatch, SoftObjective, soft_score};
pub use queue::Queue;
pub use refusal::Refusal;
pub use roster::{Region, Roster, Row};
pub use rules::{Constraints, Fault, RoleRequirement, RoundRules, TeamRule};
pub use searches::Choice;
pub use yilgashe_sys as sys;
pub use yilgashe_sys::{
    Games, MatchObjective, MatchObjectiveVector, ObjectiveWeights, QueueEntry, TeamComposition,
};
