//! A dispatch beside plain C that takes and hands back the same structs by value. Guests wait for eight games, and the one that has enough
//! is the last in the circle: the one served last.

use crate::call::{Call, Row};
use crate::crowd::{CLOCK, Crowd, sheets};
use crate::plain;
use crate::rows::Scene;
use compare::data::{Columns, GAMES, Sheets, booking};
use compare::rng::Rng;
use compare::same::Same;
use std::cell::RefCell;
use yilgashe_sys::{self as library, Booking, Games, Hall, Rounded, TeamComposition};

const CASES: u64 = 16;
/// Eight for each game.
const SCENE: Scene = Scene::of(64, (4, 4));
/// Two more than wait for it.
const TOO_LARGE: TeamComposition = TeamComposition { a: 5, b: 5 };

pub fn row(seed: u64) -> Row {
    let cases = (0..CASES).map(|case| Dispatch::drawn(&mut Rng::for_case(seed, "dispatch", case)));
    Row::of(
        "dispatch, 8 games, 64 entries, the eighth in turn has enough, beside C by value",
        cases.collect(),
    )
}

struct Dispatch {
    hall: Hall,
    columns: Columns,
    sheets: Sheets,
    /// The C's.
    other_sheets: RefCell<Sheets>,
}

impl Dispatch {
    fn drawn(rng: &mut Rng) -> Self {
        let crowd = Crowd::drawn(rng, &SCENE);
        let ready = rng.below(GAMES);
        let mut games = Games {
            sizes: [TOO_LARGE; GAMES],
        };
        games.sizes[ready] = SCENE.sizes();
        let numbers = (0..GAMES as u8).cycle();
        let waiting = crowd.queue.waiting().iter().zip(numbers);
        let bookings: Vec<Booking> = waiting.map(|(entry, game)| booking(entry, game)).collect();
        Dispatch {
            hall: Hall {
                served: ready as u8,
                ..Hall::of(games, &bookings, &[])
            },
            columns: crowd.columns(),
            sheets: sheets(),
            other_sheets: RefCell::new(sheets()),
        }
    }
}

impl Call for Dispatch {
    type Rust = Rounded;
    type Library = Rounded;

    /// The C's, on sheets of its own.
    fn rust(&self) -> Rounded {
        let mut sheets = self.other_sheets.borrow_mut();
        plain::dispatch(self.hall, CLOCK, &self.columns, &mut sheets)
    }

    fn library(&mut self) -> Rounded {
        library::hall_dispatch(
            self.hall,
            CLOCK,
            &self.columns.ids,
            &self.columns.ratings,
            &mut self.sheets.players,
            &mut self.sheets.qualities,
        )
    }

    fn agree(&mut self) -> String {
        let (plain, library) = (self.rust(), self.library());
        let numbers = |told: &Rounded| (told.refusal, told.count, told.tried, told.served);
        assert_eq!(numbers(&plain), numbers(&library));
        assert_eq!(numbers(&library), (0, 1, 0, self.hall.served));
        assert!(plain.hall.same(&library.hall), "not the C's hall");
        assert!(
            self.other_sheets.borrow().same(&self.sheets),
            "not the C's match"
        );
        format!("{} formed", library.count)
    }
}
