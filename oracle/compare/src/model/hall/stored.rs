//! The model's hall as the library lays it out, and back.

use super::{Asked, Hall, Kind, Note};
use crate::data::{game_in, games_of};
use yilgashe_sys::{self as library, BOOKING, NONE_SERVED, OLDER_BOOKING, WITHDRAWAL};

impl Hall {
    /// Of a hall that states no more than 64 and 1,024.
    pub fn read(hall: &library::Hall) -> Self {
        Hall {
            waiting: hall.booked().to_vec(),
            notes: hall.answered().map(Note::read).collect(),
            games: games_of(hall),
            served: game_in(hall.served),
        }
    }

    pub fn stored(&self) -> library::Hall {
        let answered: Vec<(u64, library::Note)> = self.notes.iter().map(Note::stored).collect();
        library::Hall {
            served: self.served.unwrap_or(NONE_SERVED),
            ..library::Hall::of(self.games, &self.waiting, &answered)
        }
    }
}

impl Note {
    /// Of a key and what stands beside it.
    pub fn read((key, beside): (u64, library::Note)) -> Self {
        let kind = match beside.kind {
            BOOKING => Kind::Booking,
            WITHDRAWAL => Kind::Withdrawal,
            OLDER_BOOKING => Kind::Older,
            number => Kind::Neither(number),
        };
        let asked = Asked {
            kind,
            booking: beside.booking(),
        };
        let answer = beside.answer;
        Note { key, asked, answer }
    }

    /// Its key, and what stands beside it.
    pub fn stored(&self) -> (u64, library::Note) {
        let kind = match self.asked.kind {
            Kind::Booking => BOOKING,
            Kind::Withdrawal => WITHDRAWAL,
            Kind::Older => OLDER_BOOKING,
            Kind::Neither(number) => number,
        };
        let whole = library::Note::of(&self.asked.booking, self.answer);
        (self.key, library::Note { kind, ..whole })
    }
}
