//! Corners of request 2.5.

use super::{Corner, Seen, Table, both, single};
use crate::data::{Call, Field, differing};
use crate::model::hall::{
    ALREADY_WAITING, Asked, BOOK_FULL, HALL_FULL, KEY_CLASH, Kind, NO_SUCH_GAME, Note, guest_alone,
    no_such_game,
};
use crate::model::{CLOCK, OVER_LIMIT, late};
use yilgashe_sys::Booking;

pub(super) const TABLE: Table = Table {
    heading: "keys",
    corners: &CORNERS,
};

const CORNERS: [Corner; 46] = [
    both("accepted, sent again", |seen| seen.is_again(0)),
    both("4 sent again", |seen| seen.is_again(CLOCK)),
    both("9 sent again", |seen| seen.is_again(ALREADY_WAITING)),
    both("10 sent again", |seen| seen.is_again(HALL_FULL)),
    both("13 sent again", |seen| seen.is_again(NO_SUCH_GAME)),
    both("a NaN sent again", |seen| {
        seen.again().is_some_and(|note| rating(&note).is_nan())
    }),
    both("a zero with a sign sent again", |seen| {
        let signed = |note: Note| rating(&note) == 0.0 && rating(&note).is_sign_negative();
        seen.again().is_some_and(signed)
    }),
    both("7 by the guest alone", |seen| seen.is_changed(Field::Guest)),
    both("7 by the game alone", |seen| seen.is_changed(Field::Game)),
    both("7 by the joined time alone", |seen| {
        seen.is_changed(Field::Joined)
    }),
    both("7 by the rating alone", |seen| {
        seen.is_changed(Field::Rating)
    }),
    both("7 by the party alone", |seen| seen.is_changed(Field::Party)),
    both("7 by the role alone", |seen| seen.is_changed(Field::Role)),
    both("7 by all but the guest", |seen| seen.changes_all()),
    both("7 by the sign of a zero", |seen| {
        seen.is_rerated(|noted, now| noted == 0.0 && now == 0.0)
    }),
    both("7 by the bits of a NaN", |seen| {
        seen.is_rerated(|noted, now| noted.is_nan() && now.is_nan())
    }),
    both("7 by a bit of a number", |seen| {
        seen.is_rerated(|noted, now| {
            let bits = (noted.to_bits() ^ now.to_bits()).count_ones();
            bits == 1 && noted.is_finite() && now.is_finite() && noted != now
        })
    }),
    both("7 where 4 was noted", |seen| seen.is_changed_from(CLOCK)),
    both("7 where 9 was noted", |seen| {
        seen.is_changed_from(ALREADY_WAITING)
    }),
    both("7 where 10 was noted", |seen| {
        seen.is_changed_from(HALL_FULL)
    }),
    both("7 where 13 was noted", |seen| {
        seen.is_changed_from(NO_SUCH_GAME)
    }),
    both("7 by a corrected time", |seen| {
        let corrected = |changed: Changed| {
            let (noted, now) = (changed.note.asked.booking, changed.now);
            changed.note.answer == CLOCK && late(noted.joined) && !late(now.joined)
        };
        seen.changed().is_some_and(corrected)
    }),
    both("7 by a corrected game", |seen| {
        let corrected = |changed: Changed| {
            let (noted, now) = (changed.note.asked.booking, changed.now);
            let mended = no_such_game(noted.game) && !no_such_game(now.game);
            changed.note.answer == NO_SUCH_GAME && mended
        };
        seen.changed().is_some_and(corrected)
    }),
    both("7 in the place of 4", |seen| {
        let late = |changed: Changed| changed.field == Field::Joined && late(changed.now.joined);
        seen.changed().is_some_and(late)
    }),
    both("7 in the place of 13", |seen| {
        let none =
            |changed: Changed| changed.field == Field::Game && no_such_game(changed.now.game);
        seen.changed().is_some_and(none)
    }),
    both("7 to a booking, a withdrawal's key", |seen| {
        let left = |(_, note): (Booking, Note)| note.asked.kind == Kind::Withdrawal;
        seen.clashed().is_some_and(left)
    }),
    both("7 to a withdrawal, a booking's key", |seen| {
        let booked = |note: Note| note.asked.kind == Kind::Booking;
        seen.left_in_vain().is_some_and(booked)
    }),
    both("older, sent again", |seen| seen.is_older_again(0)),
    both("older 4 sent again", |seen| seen.is_older_again(CLOCK)),
    both("older 9 sent again", |seen| {
        seen.is_older_again(ALREADY_WAITING)
    }),
    both("older 10 sent again", |seen| seen.is_older_again(HALL_FULL)),
    both("older 13 sent again", |seen| {
        seen.is_older_again(NO_SUCH_GAME)
    }),
    both("older, sent again for no game", |seen| {
        let none =
            |(now, note): (Booking, Note)| no_such_game(now.game) && note.answer != NO_SUCH_GAME;
        seen.older().is_some_and(none)
    }),
    both("older, sent again late", |seen| {
        let late = |(now, note): (Booking, Note)| late(now.joined) && note.answer != CLOCK;
        seen.older().is_some_and(late)
    }),
    both("older 13, sent again for a game", |seen| {
        let mended = |(now, _): (Booking, Note)| !no_such_game(now.game);
        seen.is_older_again(NO_SUCH_GAME) && seen.older().is_some_and(mended)
    }),
    both("older with odd fields, sent again", |seen| {
        let odd = |(now, note): (Booking, Note)| has_odd_fields(&note) && note.asked.booking != now;
        seen.older().is_some_and(odd)
    }),
    both("older, 7 to another guest", |seen| {
        let other = |(now, note): (Booking, Note)| {
            note.asked.kind == Kind::Older && now.player != note.asked.booking.player
        };
        seen.rebooked().is_some_and(other) && seen.answer.refusal == KEY_CLASH
    }),
    both("older, 7 to a withdrawal", |seen| {
        let older = |note: Note| note.asked.kind == Kind::Older;
        seen.left_in_vain().is_some_and(older)
    }),
    both("older ones stay, another is noted", |seen| {
        let mut notes = seen.before.answered().map(Note::read);
        seen.is_noted() && notes.any(|note| note.asked.kind == Kind::Older)
    }),
    single("withdrawal with odd fields, sent again", |seen| {
        let odd = |note: Note| has_odd_fields(&note) && seen.answer.refusal == note.answer;
        seen.left_again().is_some_and(odd)
    }),
    single("older, 7 by its answer", |seen| {
        let own = |(_, note): (Booking, Note)| note.asked.kind == Kind::Older;
        seen.clashed().is_some_and(own)
    }),
    single("sent again, 7 by its answer", |seen| {
        let own = |(now, note): (Booking, Note)| note.asked == Asked::booking(now);
        seen.clashed().is_some_and(own)
    }),
    single("withdrawal sent again, 7 by its answer", |seen| {
        let left = |note: Note| note.asked.kind == Kind::Withdrawal;
        seen.left_in_vain().is_some_and(left)
    }),
    single("7 to a booking, the note of no kind", |seen| {
        let none = |(_, note): (Booking, Note)| is_of_no_kind(&note);
        seen.clashed().is_some_and(none)
    }),
    single("7 to that booking, the note of no kind", |seen| {
        let own = |(now, note): (Booking, Note)| is_of_no_kind(&note) && note.asked.booking == now;
        seen.clashed().is_some_and(own)
    }),
    single("7 to a withdrawal, the note of no kind", |seen| {
        let none = |note: Note| is_of_no_kind(&note);
        seen.left_in_vain().is_some_and(none)
    }),
];

/// A booking that is refused with 7, since it differs from the noted one in one field alone.
struct Changed {
    field: Field,
    note: Note,
    now: Booking,
}

fn is_of_no_kind(note: &Note) -> bool {
    matches!(note.asked.kind, Kind::Neither(_))
}

fn rating(note: &Note) -> f64 {
    f64::from_bits(note.asked.booking.rating_bits)
}

/// Fields besides the guest that no call sets, of a withdrawal or an older booking.
fn has_odd_fields(note: &Note) -> bool {
    let booking = note.asked.booking;
    booking != guest_alone(booking.player)
}

impl Seen<'_> {
    /// The note of the call's key, unless the hall is over its limits.
    fn known(&self) -> Option<Note> {
        let noted = self.noted().filter(|_| self.answer.refusal != OVER_LIMIT);
        self.call.key().zip(noted).map(Note::read)
    }

    /// A booking under a noted key.
    fn rebooked(&self) -> Option<(Booking, Note)> {
        self.booking().copied().zip(self.known())
    }

    /// A booking as it was noted, which gets the noted answer.
    fn again(&self) -> Option<Note> {
        let heard = |(now, note): &(Booking, Note)| {
            note.asked == Asked::booking(*now) && self.answer.refusal == note.answer
        };
        self.rebooked().filter(heard).map(|(_, note)| note)
    }

    fn is_again(&self, answer: u8) -> bool {
        self.again().is_some_and(|note| note.answer == answer)
    }

    fn changed(&self) -> Option<Changed> {
        let (now, note) = self.rebooked()?;
        let whole = note.asked.kind == Kind::Booking && note.is_readable();
        match differing(&note.asked.booking, &now)[..] {
            [field] if whole && self.answer.refusal == KEY_CLASH => {
                Some(Changed { field, note, now })
            }
            _ => None,
        }
    }

    fn is_changed(&self, field: Field) -> bool {
        self.changed().is_some_and(|changed| changed.field == field)
    }

    fn is_changed_from(&self, answer: u8) -> bool {
        self.changed()
            .is_some_and(|changed| changed.note.answer == answer)
    }

    /// Another rating alone, of such two.
    fn is_rerated(&self, such: impl Fn(f64, f64) -> bool) -> bool {
        let rerated = |changed: &Changed| changed.field == Field::Rating;
        let ratings = |changed: Changed| {
            let now = f64::from_bits(changed.now.rating_bits);
            such(rating(&changed.note), now)
        };
        self.changed().filter(rerated).is_some_and(ratings)
    }

    /// Of a whole booking every field but the guest.
    fn changes_all(&self) -> bool {
        let others = |(now, note): (Booking, Note)| {
            let differing = differing(&note.asked.booking, &now);
            let all = differing.len() == 5 && !differing.contains(&Field::Guest);
            note.asked.kind == Kind::Booking && all
        };
        self.clashed().is_some_and(others)
    }

    /// A booking of the noted guest that is refused with 7.
    fn clashed(&self) -> Option<(Booking, Note)> {
        let own = |(now, note): &(Booking, Note)| now.player == note.asked.booking.player;
        let refused = self.answer.refusal == KEY_CLASH;
        self.rebooked().filter(|pair| refused && own(pair))
    }

    /// The note of a withdrawal's key, where it names that guest.
    fn left(&self) -> Option<Note> {
        let Call::Withdraw { player, .. } = self.call else {
            return None;
        };
        let own = |note: &Note| note.asked.booking.player == *player;
        self.known().filter(own)
    }

    /// A withdrawal of the noted guest that is refused with 7.
    fn left_in_vain(&self) -> Option<Note> {
        self.left().filter(|_| self.answer.refusal == KEY_CLASH)
    }

    /// A withdrawal that was noted.
    fn left_again(&self) -> Option<Note> {
        let again = |note: &Note| note.asked.kind == Kind::Withdrawal;
        self.left().filter(again)
    }

    /// A booking that gets the answer of its guest's older note.
    fn older(&self) -> Option<(Booking, Note)> {
        let heard = |(now, note): &(Booking, Note)| {
            let own = note.asked.kind == Kind::Older && now.player == note.asked.booking.player;
            own && note.is_readable() && self.answer.refusal == note.answer
        };
        self.rebooked().filter(heard)
    }

    fn is_older_again(&self, answer: u8) -> bool {
        self.older().is_some_and(|(_, note)| note.answer == answer)
    }

    /// The call makes a note.
    fn is_noted(&self) -> bool {
        let unnoted = [OVER_LIMIT, BOOK_FULL];
        self.call.key().is_some()
            && self.noted().is_none()
            && !unnoted.contains(&self.answer.refusal)
    }
}
