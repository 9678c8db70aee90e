//! What the library says no with.

use std::error::Error;
use std::fmt::{Display, Formatter, Result as Written};

/// What a call was refused for. It prints as number and word.
///
/// ```
/// use yilgashe::{Booking, Games, Hall, Refusal, TeamComposition};
///
/// let mut hall = Hall::new(Games::of([TeamComposition { a: 5, b: 5 }]));
/// hall.book(7, Booking { player: 1, ..Booking::default() })?;
/// let again = hall.book(8, Booking { player: 1, ..Booking::default() }).unwrap_err();
/// assert_eq!(again, Refusal::AlreadyWaiting);
/// assert_eq!(again.to_string(), "9 already waiting");
/// # Ok::<(), Refusal>(())
/// ```
#[derive(Clone, Copy, Debug, PartialEq, Eq, PartialOrd, Ord, Hash)]
#[repr(u8)]
pub enum Refusal {
    /// A list is longer than its limit, or a hall has a game with a size over 8, or a last game served that is none.
    OverLimit = 1,
    /// A guest stands in two rows of the roster, its columns differ in length, or a region code is over 4.
    BadRoster = 2,
    /// A sheet has fewer places than the matches may need. The calls of this crate bring sheets that are long enough.
    ShortSheet = 3,
    /// A clock or a joined time is above 2^53 ns; in a round, the joined time of anyone who waits, for whatever game.
    Clock = 4,
    /// Two or more scores or ratings are to be ranked, and one is NaN.
    Unranked = 5,
    /// An exhaustive listing of more than 20 entries, or a full round of a game that more than 20 wait for.
    TooWide = 6,
    /// The key is noted for another kind of call, another guest, or a booking that differs in any field.
    KeyClash = 7,
    /// An unknown key, and 1,024 keys are noted.
    BookFull = 8,
    /// A booking for a waiting guest, whatever the games.
    AlreadyWaiting = 9,
    /// 64 are waiting, for all games together.
    HallFull = 10,
    /// A withdrawal of a guest who isn't waiting.
    NotWaiting = 11,
    /// The nearest generator with two teams of 0.
    NoSeats = 12,
    /// A booking or a round for a game number over 7.
    NoSuchGame = 13,
}

impl Refusal {
    /// All of them, by number.
    pub const ALL: [Refusal; 13] = [
        Refusal::OverLimit,
        Refusal::BadRoster,
        Refusal::ShortSheet,
        Refusal::Clock,
        Refusal::Unranked,
        Refusal::TooWide,
        Refusal::KeyClash,
        Refusal::BookFull,
        Refusal::AlreadyWaiting,
        Refusal::HallFull,
        Refusal::NotWaiting,
        Refusal::NoSeats,
        Refusal::NoSuchGame,
    ];

    /// 1 to 13.
    pub fn number(self) -> u8 {
        self as u8
    }

    /// The refusal of this number, if there is one.
    pub fn from_number(number: u8) -> Option<Refusal> {
        Refusal::ALL
            .into_iter()
            .find(|refusal| refusal.number() == number)
    }

    /// The word of the table of refusals.
    pub fn word(self) -> &'static str {
        match self {
            Refusal::OverLimit => "over limit",
            Refusal::BadRoster => "bad roster",
            Refusal::ShortSheet => "short sheet",
            Refusal::Clock => "clock",
            Refusal::Unranked => "unranked",
            Refusal::TooWide => "too wide",
            Refusal::KeyClash => "key clash",
            Refusal::BookFull => "book full",
            Refusal::AlreadyWaiting => "already waiting",
            Refusal::HallFull => "hall full",
            Refusal::NotWaiting => "not waiting",
            Refusal::NoSeats => "no seats",
            Refusal::NoSuchGame => "no such game",
        }
    }
}

impl Display for Refusal {
    fn fmt(&self, f: &mut Formatter<'_>) -> Written {
        write!(f, "{} {}", self.number(), self.word())
    }
}

impl Error for Refusal {}

/// The library's answer in a number: 0 is none.
pub(crate) fn answered(number: u8) -> Result<(), Refusal> {
    match number {
        0 => Ok(()),
        _ => Err(Refusal::from_number(number).expect("the library refuses with 1 to 13 alone")),
    }
}
