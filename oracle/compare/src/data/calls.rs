//! The calls of the hall, and what they answer.

use super::{Columns, Rows, Sheets, games_of};
use yilgashe_sys::{Booking, Games, Hall, MatchObjective, RoundRules, SoftObjectives};

/// The calls of an evening.
#[derive(Clone, Debug)]
pub struct List {
    pub start: Start,
    pub calls: Vec<Call>,
}

/// What an evening's first call finds.
#[derive(Clone, Debug)]
pub enum Start {
    /// An empty hall with these games.
    Empty(Games),
    /// A hall that was kept from before request 2.5.
    Kept(Box<Hall>),
}

impl Start {
    pub fn games(&self) -> Games {
        match self {
            Start::Empty(games) => *games,
            Start::Kept(hall) => games_of(hall),
        }
    }
}

#[derive(Clone, Debug)]
pub enum Call {
    Book { key: u64, booking: Booking },
    Withdraw { key: u64, player: u64 },
    Round(Box<Round>),
}

/// What every round brings, and what its search brings.
#[derive(Clone, Debug)]
pub struct Round {
    pub search: Search,
    pub clock: u64,
    pub sheets: Sheets,
}

/// With the game that is named; a dispatch names none.
#[allow(clippy::large_enum_variant)] // a round stands in a box of its own
#[derive(Clone, Debug)]
pub enum Search {
    Greedy(u8, Columns),
    Beam(u8, BeamRound),
    Full(u8, FullRound),
    Dispatch(Columns),
}

#[derive(Clone, Debug)]
pub struct BeamRound {
    pub width: usize,
    pub objective: MatchObjective,
    pub columns: Columns,
}

#[derive(Clone, Debug)]
pub struct FullRound {
    pub rules: RoundRules,
    pub objectives: SoftObjectives,
    pub rows: Rows,
}

/// What a call gives besides the hall, with its sheets as it leaves them. A keyed call has no matches and no sheets.
#[derive(Clone, Debug, Default)]
pub struct Answer {
    pub refusal: u8,
    pub count: usize,
    pub tried: u64,
    /// The game that a dispatch served.
    pub served: Option<u8>,
    pub sheets: Sheets,
}

impl Round {
    /// The game that it names.
    pub fn game(&self) -> Option<u8> {
        match &self.search {
            Search::Greedy(game, _) | Search::Beam(game, _) | Search::Full(game, _) => Some(*game),
            Search::Dispatch(_) => None,
        }
    }

    /// The game that it played, by its answer: the one that it names, or the one that was served.
    pub fn played(&self, answer: &Answer) -> Option<u8> {
        self.game().or(answer.served)
    }
}

impl Answer {
    /// Of a booking or a withdrawal.
    pub fn keyed(refusal: u8) -> Self {
        Answer {
            refusal,
            ..Answer::default()
        }
    }

    /// Of a refused call: its sheets are as they came.
    pub fn refused(call: &Call, refusal: u8) -> Self {
        let sheets = match call {
            Call::Round(round) => round.sheets.clone(),
            _ => Sheets::default(),
        };
        Answer {
            refusal,
            sheets,
            ..Answer::default()
        }
    }
}

impl Call {
    /// A round has none.
    pub fn key(&self) -> Option<u64> {
        match self {
            Call::Book { key, .. } | Call::Withdraw { key, .. } => Some(*key),
            Call::Round(_) => None,
        }
    }

    /// What a full round brings; none of any other call.
    pub fn full_round(&self) -> Option<(&Round, &FullRound)> {
        match self {
            Call::Round(round) => match &round.search {
                Search::Full(_, full) => Some((round, full)),
                _ => None,
            },
            _ => None,
        }
    }

    /// What a greedy round or a dispatch brings; none of any other call.
    pub fn greedy(&self) -> Option<(&Round, &Columns)> {
        match self {
            Call::Round(round) => match &round.search {
                Search::Greedy(_, columns) | Search::Dispatch(columns) => Some((round, columns)),
                _ => None,
            },
            _ => None,
        }
    }

    /// What a dispatch brings; none of any other call.
    pub fn dispatch(&self) -> Option<(&Round, &Columns)> {
        self.greedy().filter(|(round, _)| round.game().is_none())
    }

    /// The game that a booking or a round names.
    pub fn game(&self) -> Option<u8> {
        match self {
            Call::Book { booking, .. } => Some(booking.game),
            Call::Withdraw { .. } => None,
            Call::Round(round) => round.game(),
        }
    }

    /// What it is, in the words of the report.
    pub fn name(&self) -> &'static str {
        match self {
            Call::Book { .. } => "book",
            Call::Withdraw { .. } => "withdraw",
            Call::Round(round) => match round.search {
                Search::Greedy(..) => "greedy_round",
                Search::Beam(..) => "beam_round",
                Search::Full(..) => "full_round",
                Search::Dispatch(_) => "dispatch",
            },
        }
    }
}
