//! Request 2.4's promise of turns, held against the library's own halls and answers: of eight dispatches in a row, refused ones not
//! counted, one serves each game that has enough before every one of them.

use crate::data::{Answer, Call, GAMES};
use std::array::from_fn;
use yilgashe_sys::Hall;

/// So many dispatches in a row.
const TURNS: usize = 8;

/// A dispatch that was not refused.
struct Turn {
    /// Which games had enough before it.
    enough: [bool; GAMES],
    served: Option<u8>,
}

/// The dispatches of a list that were not refused.
#[derive(Default)]
pub struct Turns(Vec<Turn>);

/// Of windows of eight dispatches in a row.
#[derive(Clone, Copy, Debug, Default, PartialEq)]
pub struct Windows {
    pub all: usize,
    /// Some game had enough throughout.
    pub kept: usize,
    /// Some such game was served by the eighth, and by no other.
    pub tight: usize,
}

impl Windows {
    pub fn add(&mut self, other: Windows) {
        self.all += other.all;
        self.kept += other.kept;
        self.tight += other.tight;
    }
}

impl Turns {
    /// Any call.
    pub fn enter(&mut self, call: &Call, answer: &Answer, before: &Hall) {
        if call.dispatch().is_some() && answer.refusal == 0 {
            self.0.push(Turn {
                enough: from_fn(|game| enough(before, game)),
                served: answer.served,
            });
        }
    }

    /// How many windows there are, or which game waited in vain.
    pub fn windows(&self) -> Result<Windows, String> {
        let mut windows = Windows::default();
        for (first, window) in self.0.windows(TURNS).enumerate() {
            let kept = (0..GAMES).filter(|&game| window.iter().all(|turn| turn.enough[game]));
            let first_turns: Vec<Option<usize>> =
                kept.clone().map(|game| turn_of(window, game)).collect();
            if let Some((game, _)) = kept.zip(&first_turns).find(|(_, turn)| turn.is_none()) {
                return Err(format!(
                    "fairness: game {game} has enough before dispatches {first} to {}, refused ones not counted, and none serves it",
                    first + TURNS - 1
                ));
            }
            windows.all += 1;
            windows.kept += usize::from(!first_turns.is_empty());
            windows.tight += usize::from(first_turns.contains(&Some(TURNS - 1)));
        }
        Ok(windows)
    }
}

/// Which of these dispatches serves the game first.
fn turn_of(window: &[Turn], game: usize) -> Option<usize> {
    let mut served = window.iter().map(|turn| turn.served.map(usize::from));
    served.position(|served| served == Some(game))
}

/// Counted on the hall itself.
fn enough(hall: &Hall, game: usize) -> bool {
    let seats = hall.sizes[game].a + hall.sizes[game].b;
    let waiting = hall.booked().iter();
    let waiting = waiting.filter(|booking| usize::from(booking.game) == game);
    seats > 0 && waiting.count() >= seats
}

#[cfg(test)]
mod tests {
    use super::*;

    /// Dispatches that serve these games; those of `ready` have enough before each.
    fn turns(ready: &[usize], served: &[u8]) -> Turns {
        let turn = |&served| Turn {
            enough: from_fn(|game| ready.contains(&game)),
            served: Some(served),
        };
        Turns(served.iter().map(turn).collect())
    }

    #[test]
    fn a_game_served_by_the_eighth_is_served_in_time() {
        let windows = turns(&[7], &[0, 1, 2, 3, 4, 5, 6, 7]).windows();
        let tight = Windows {
            all: 1,
            kept: 1,
            tight: 1,
        };
        assert_eq!(windows, Ok(tight));
        let windows = turns(&[7, 3], &[3, 7, 3, 7, 3, 7, 3, 7, 3]).windows();
        let early = Windows {
            all: 2,
            kept: 2,
            tight: 0,
        };
        assert_eq!(windows, Ok(early));
    }

    #[test]
    fn a_game_that_is_passed_over_eight_times_is_named() {
        let served = [7, 0, 1, 2, 3, 4, 5, 6, 0, 7];
        let broken = turns(&[7], &served).windows();
        assert!(
            broken.is_err_and(|said| said.contains("game 7 has enough before dispatches 1 to 8"))
        );
        // Not before each of them.
        let mut paused = turns(&[7], &served);
        paused.0[4].enough[7] = false;
        assert_eq!(paused.windows().map(|windows| windows.all), Ok(3));
        assert_eq!(turns(&[7], &served[1..8]).windows(), Ok(Windows::default()));
    }
}
