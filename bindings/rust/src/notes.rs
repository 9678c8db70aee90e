//! What a hall notes with its keys.

use crate::Booking;
use yilgashe_sys as sys;

/// One keyed call that was answered.
#[derive(Clone, Copy, Debug, PartialEq, Eq)]
pub struct KeyRecord {
    /// The caller's key.
    pub key: u64,
    /// What the key stands for.
    pub noted: Noted,
    /// 0 accepted, else the refusal's number.
    pub answer: u8,
}

/// What a key stands for. Whoever calls with the key and brings anything else gets [`KeyClash`](crate::Refusal::KeyClash).
#[derive(Clone, Copy, Debug, PartialEq, Eq)]
pub enum Noted {
    /// This booking in every field, as it was sent, also where it was refused.
    Booking(Booking),
    /// A withdrawal of this guest.
    Withdrawal(u64),
    /// Any booking of this guest: it was noted when a key stood for no more. No call notes this; it comes with a hall that was brought over.
    OlderBooking(u64),
    /// Nothing: the note is of a kind that no call notes, and answers nobody.
    Nothing {
        /// Over 2.
        kind: u8,
        /// Whom it names.
        player: u64,
    },
}

impl Noted {
    /// Whom the call was for.
    pub fn player(&self) -> u64 {
        match *self {
            Noted::Booking(Booking { player, .. })
            | Noted::Withdrawal(player)
            | Noted::OlderBooking(player)
            | Noted::Nothing { player, .. } => player,
        }
    }
}

impl KeyRecord {
    /// A key and the note at its place.
    pub(crate) fn of((key, note): (u64, sys::Note)) -> KeyRecord {
        let player = note.player;
        let noted = match note.kind {
            sys::BOOKING => Noted::Booking(note.booking().into()),
            sys::WITHDRAWAL => Noted::Withdrawal(player),
            sys::OLDER_BOOKING => Noted::OlderBooking(player),
            kind => Noted::Nothing { kind, player },
        };
        KeyRecord {
            key,
            noted,
            answer: note.answer,
        }
    }
}
