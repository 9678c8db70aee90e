//! Who serves calls: the library, or the model.

use crate::data::{Answer, BeamRound, Call, FullRound, Round, Search, Start, game_in};
use crate::model::OVER_LIMIT;
use crate::model::hall::{self, NO_SUCH_GAME, no_such_game, over_limit};
use yilgashe_sys::{self as library, BeamSearch, Games, Hall, Keyed, Rounded};

pub trait Counter: Sized {
    /// Nobody waits, no key is noted, and no game was served.
    fn open(games: Games) -> Self;
    /// With this hall, of any kind.
    fn with(hall: &Hall) -> Self;
    /// As a list begins.
    fn start(start: &Start) -> Self {
        match start {
            Start::Empty(games) => Self::open(*games),
            Start::Kept(hall) => Self::with(hall),
        }
    }
    fn serve(&mut self, call: &Call) -> Answer;
    /// As the last call left it.
    fn hall(&self) -> Hall;
}

/// The hall that the library gave last.
pub struct Library(Box<Hall>);

impl Counter for Library {
    fn open(games: Games) -> Self {
        Library(Box::new(library::hall_empty(games)))
    }

    fn with(hall: &Hall) -> Self {
        Library(Box::new(*hall))
    }

    fn serve(&mut self, call: &Call) -> Answer {
        match call {
            Call::Book { key, booking } => self.keyed(library::hall_book(*self.0, *key, *booking)),
            Call::Withdraw { key, player } => {
                self.keyed(library::hall_withdraw(*self.0, *key, *player))
            }
            Call::Round(round) => self.round(round),
        }
    }

    fn hall(&self) -> Hall {
        *self.0
    }
}

impl Library {
    fn keyed(&mut self, given: Keyed) -> Answer {
        *self.0 = given.hall;
        Answer::keyed(given.refusal)
    }

    fn round(&mut self, round: &Round) -> Answer {
        let mut sheets = round.sheets.clone();
        let given = rounded(*self.0, round, &mut sheets.players, &mut sheets.qualities);
        *self.0 = given.hall;
        Answer {
            refusal: given.refusal,
            count: given.count,
            tried: given.tried,
            served: game_in(given.served),
            sheets,
        }
    }
}

fn rounded(hall: Hall, round: &Round, players: &mut [u64], qualities: &mut [f64]) -> Rounded {
    let clock = round.clock;
    match &round.search {
        Search::Greedy(game, columns) => library::hall_greedy_round(
            hall,
            *game,
            clock,
            &columns.ids,
            &columns.ratings,
            players,
            qualities,
        ),
        Search::Beam(game, beam) => beamed(hall, *game, beam, clock, players, qualities),
        Search::Full(game, full) => chosen(hall, *game, full, clock, players, qualities),
        Search::Dispatch(columns) => library::hall_dispatch(
            hall,
            clock,
            &columns.ids,
            &columns.ratings,
            players,
            qualities,
        ),
    }
}

fn beamed(
    hall: Hall,
    game: u8,
    beam: &BeamRound,
    clock: u64,
    players: &mut [u64],
    qualities: &mut [f64],
) -> Rounded {
    let columns = &beam.columns;
    library::hall_beam_round(
        hall,
        BeamSearch { width: beam.width },
        game,
        beam.objective,
        clock,
        &columns.ids,
        &columns.ratings,
        columns.deviations.as_deref().unwrap_or_default(),
        players,
        qualities,
    )
}

fn chosen(
    hall: Hall,
    game: u8,
    full: &FullRound,
    clock: u64,
    players: &mut [u64],
    qualities: &mut [f64],
) -> Rounded {
    let rows = &full.rows;
    library::hall_full_round(
        hall,
        game,
        full.rules,
        full.objectives,
        clock,
        &rows.ids,
        rows.ratings(),
        rows.parties(),
        rows.roles(),
        rows.regions(),
        players,
        qualities,
    )
}

/// The model's lists, or a hall that states more than lists hold.
pub enum Modelled {
    Within(hall::Hall),
    Over(Box<Hall>),
}

impl Counter for Modelled {
    fn open(games: Games) -> Self {
        Modelled::Within(hall::Hall::open(games))
    }

    fn with(hall: &Hall) -> Self {
        if over_limit(hall.waiting, hall.noted) {
            return Modelled::Over(Box::new(*hall));
        }
        Modelled::Within(hall::Hall::read(hall))
    }

    /// Over its limits a hall gives 1 to every call, but 13 to a round of no game, and nothing changes.
    fn serve(&mut self, call: &Call) -> Answer {
        match (self, call) {
            (Modelled::Within(hall), _) => hall.answer(call),
            (Modelled::Over(_), Call::Round(round)) if round.game().is_some_and(no_such_game) => {
                Answer::refused(call, NO_SUCH_GAME)
            }
            (Modelled::Over(_), _) => Answer::refused(call, OVER_LIMIT),
        }
    }

    fn hall(&self) -> Hall {
        match self {
            Modelled::Within(hall) => hall.stored(),
            Modelled::Over(hall) => **hall,
        }
    }
}
