//! The hall: who waits, which keys are noted, the games and the last one served, as lists that grow and shrink, with the checks in the
//! paper's order.

mod rounds;
mod stored;

use super::{CLOCK, OVER_LIMIT, QUEUE_LIMIT, first, large, late};
use crate::data::{Answer, Call, GAMES, entries_for, sizes_for};
use yilgashe_sys::{Booking, Games, QueueEntry, TeamComposition};

/// The key book holds this many notes.
pub const NOTE_LIMIT: usize = 1024;

pub const KEY_CLASH: u8 = 7;
pub const BOOK_FULL: u8 = 8;
pub const ALREADY_WAITING: u8 = 9;
pub const HALL_FULL: u8 = 10;
pub const NOT_WAITING: u8 = 11;
pub const NO_SUCH_GAME: u8 = 13;

#[derive(Clone, Copy, Debug, PartialEq)]
pub enum Kind {
    Booking,
    Withdrawal,
    /// A booking that was noted before request 2.5, by its guest alone. No call notes it.
    Older,
    /// A number that stands for none, which no call notes.
    Neither(u8),
}

impl Kind {
    /// What a new key's call of this kind can be answered.
    fn answers(self) -> &'static [u8] {
        match self {
            Kind::Booking | Kind::Older => &[0, CLOCK, ALREADY_WAITING, HALL_FULL, NO_SUCH_GAME],
            Kind::Withdrawal => &[0, NOT_WAITING],
            Kind::Neither(_) => &[],
        }
    }
}

/// What a keyed call asks for; of a withdrawal the guest alone is set.
#[derive(Clone, Copy, Debug, PartialEq)]
pub struct Asked {
    pub kind: Kind,
    pub booking: Booking,
}

impl Asked {
    pub fn booking(booking: Booking) -> Self {
        let kind = Kind::Booking;
        Asked { kind, booking }
    }

    pub fn withdrawal(guest: u64) -> Self {
        Asked {
            kind: Kind::Withdrawal,
            booking: guest_alone(guest),
        }
    }

    /// Does a key that was noted for this stand for the other call? For a whole booking, every field of it; of what was noted before request 2.5, for
    /// any booking of the guest.
    pub fn stands_for(&self, other: &Asked) -> bool {
        let guest = self.booking.player == other.booking.player;
        match (self.kind, other.kind) {
            (Kind::Booking, Kind::Booking) => self.booking == other.booking,
            (Kind::Withdrawal, Kind::Withdrawal) | (Kind::Older, Kind::Booking) => guest,
            _ => false,
        }
    }
}

/// A booking of which nothing but the guest is known.
pub fn guest_alone(player: u64) -> Booking {
    Booking {
        player,
        ..Booking::default()
    }
}

/// A keyed call and its answer: 0 is accepted, n is refusal n. In a hall that was handed in fields may be set that no call sets.
#[derive(Clone, Copy, Debug, PartialEq)]
pub struct Note {
    pub key: u64,
    pub asked: Asked,
    pub answer: u8,
}

impl Note {
    /// Is its answer one that such a call can get?
    pub fn is_readable(&self) -> bool {
        self.asked.kind.answers().contains(&self.answer)
    }

    /// What it says to a call with its key, if anything.
    fn says(&self, asked: &Asked) -> Option<u8> {
        (self.is_readable() && self.asked.stands_for(asked)).then_some(self.answer)
    }
}

/// The default one is empty, and uses no game.
#[derive(Clone, Debug, Default)]
pub struct Hall {
    pub waiting: Vec<Booking>,
    pub notes: Vec<Note>,
    pub games: Games,
    /// The last game served, if one was.
    pub served: Option<u8>,
}

/// Is a hall that states these lengths over limit?
pub fn over_limit(waiting: usize, notes: usize) -> bool {
    waiting > QUEUE_LIMIT || notes > NOTE_LIMIT
}

/// Is it a number above 7?
pub fn no_such_game(game: u8) -> bool {
    usize::from(game) >= GAMES
}

impl Hall {
    /// Empty: nobody waits, no key is noted, and no game was served.
    pub fn open(games: Games) -> Self {
        Hall {
            games,
            ..Hall::default()
        }
    }

    /// A booking under a key; the answer is 0 or a refusal.
    pub fn book(&mut self, key: u64, booking: Booking) -> u8 {
        self.keyed(key, Asked::booking(booking), |hall| hall.append(booking))
    }

    /// A withdrawal under a key; the answer is 0 or a refusal.
    pub fn withdraw(&mut self, key: u64, guest: u64) -> u8 {
        self.keyed(key, Asked::withdrawal(guest), |hall| hall.remove(guest))
    }

    /// Any call.
    pub fn answer(&mut self, call: &Call) -> Answer {
        match call {
            Call::Book { key, booking } => Answer::keyed(self.book(*key, *booking)),
            Call::Withdraw { key, player } => Answer::keyed(self.withdraw(*key, *player)),
            Call::Round(round) => self.round(round),
        }
    }

    /// Too many wait or are noted, a game has a size over 8, or the last one served is none.
    pub fn is_over(&self) -> bool {
        over_limit(self.waiting.len(), self.notes.len())
            || self.games.sizes.iter().any(large)
            || self.served.is_some_and(no_such_game)
    }

    /// Whom a round of the game may seat.
    pub fn entries(&self, game: u8) -> Vec<QueueEntry> {
        entries_for(&self.waiting, game)
    }

    pub fn sizes(&self, game: u8) -> TeamComposition {
        sizes_for(&self.games, game)
    }

    /// Has the game A + B above 0, and at least that many waiting?
    pub fn has_enough(&self, game: u8) -> bool {
        let TeamComposition { a, b } = self.sizes(game);
        a + b > 0 && self.entries(game).len() >= a + b
    }

    /// The game whose turn it is: the next one that has enough, round the circle behind the last one served, from game 0 at first.
    pub fn next_game(&self) -> Option<u8> {
        let games = 0..GAMES as u8;
        let (up_to_last, behind): (Vec<u8>, Vec<u8>) =
            games.partition(|game| self.served.is_some_and(|last| *game <= last));
        let mut circle = behind.into_iter().chain(up_to_last);
        circle.find(|game| self.has_enough(*game))
    }

    fn keyed(&mut self, key: u64, asked: Asked, act: impl FnOnce(&mut Hall) -> u8) -> u8 {
        if self.is_over() {
            return OVER_LIMIT;
        }
        match self.notes.iter().find(|note| note.key == key) {
            Some(note) => note.says(&asked).unwrap_or(KEY_CLASH),
            None if self.notes.len() == NOTE_LIMIT => BOOK_FULL,
            None => {
                let answer = act(self);
                self.notes.push(Note { key, asked, answer });
                answer
            }
        }
    }

    /// Whoever waits for any game already waits.
    fn append(&mut self, booking: Booking) -> u8 {
        let refusal = first(&[
            (no_such_game(booking.game), NO_SUCH_GAME),
            (late(booking.joined), CLOCK),
            (self.place(booking.player).is_some(), ALREADY_WAITING),
            (self.waiting.len() == QUEUE_LIMIT, HALL_FULL),
        ]);
        if refusal == 0 {
            self.waiting.push(booking);
        }
        refusal
    }

    fn remove(&mut self, guest: u64) -> u8 {
        match self.place(guest) {
            Some(place) => {
                self.waiting.remove(place);
                0
            }
            None => NOT_WAITING,
        }
    }

    /// Of the guest's first booking, for whatever game.
    fn place(&self, guest: u64) -> Option<usize> {
        let mut guests = self.waiting.iter().map(|booking| booking.player);
        guests.position(|waiting| waiting == guest)
    }
}

#[cfg(test)]
mod tests {
    use super::super::CLOCK_LIMIT;
    use super::*;

    fn booking(player: u64) -> Booking {
        guest_alone(player)
    }

    fn for_game(player: u64, game: u8) -> Booking {
        Booking {
            game,
            ..booking(player)
        }
    }

    fn players(hall: &Hall) -> Vec<u64> {
        hall.waiting.iter().map(|booking| booking.player).collect()
    }

    #[test]
    fn the_starred_line() {
        let mut hall = Hall::default();
        assert_eq!(hall.book(7, booking(1)), 0);
        assert_eq!(hall.book(7, booking(1)), 0);
        assert_eq!(hall.waiting.len(), 1);
        assert_eq!(hall.book(7, booking(2)), 7);
        assert_eq!(hall.book(8, booking(1)), 9);
    }

    #[test]
    fn noted_refusals_come_again() {
        let mut hall = Hall::default();
        let late = Booking {
            joined: CLOCK_LIMIT + 1,
            ..booking(1)
        };
        assert_eq!(hall.book(1, late), 4);
        assert_eq!(hall.book(1, late), 4);
        assert_eq!(hall.book(1, booking(1)), 7);
        assert_eq!(hall.withdraw(2, 1), 11);
        assert_eq!(hall.book(3, booking(1)), 0);
        assert_eq!(hall.book(4, late), 4);
        assert_eq!(hall.book(5, booking(1)), 9);
        assert_eq!(hall.withdraw(2, 1), 11);
        assert_eq!(hall.withdraw(6, 1), 0);
        assert_eq!(hall.book(5, booking(1)), 9);
        assert_eq!(hall.withdraw(3, 1), 7);
        assert_eq!(hall.withdraw(2, 9), 7);
        assert_eq!(players(&hall), []);
        assert_eq!(hall.notes.len(), 6);
    }

    #[test]
    fn sixty_four_may_wait() {
        let mut hall = Hall::default();
        for guest in 0..64 {
            assert_eq!(hall.book(guest, booking(guest)), 0);
        }
        assert_eq!(hall.book(64, booking(64)), 10);
        assert_eq!(hall.book(65, booking(63)), 9);
        assert_eq!(hall.withdraw(66, 3), 0);
        assert_eq!(hall.book(64, booking(64)), 10);
        assert_eq!(hall.book(67, booking(64)), 0);
        assert_eq!(players(&hall)[62..], [63, 64]);
        hall.waiting.push(booking(9));
        assert_eq!(hall.book(0, booking(0)), 1);
        assert_eq!(hall.withdraw(0, 0), 1);
    }

    #[test]
    fn a_full_book_knows_its_keys_alone() {
        let mut hall = Hall::default();
        for key in 0..1024 {
            assert_eq!(hall.withdraw(key, 5), 11);
        }
        assert_eq!(hall.withdraw(1024, 5), 8);
        assert_eq!(hall.book(1024, booking(5)), 8);
        assert_eq!(hall.withdraw(1023, 5), 11);
        assert_eq!(hall.book(1023, booking(5)), 7);
        assert_eq!(hall.notes.len(), 1024);
        hall.notes.push(hall.notes[0]);
        assert_eq!(hall.withdraw(0, 5), 1);
    }

    #[test]
    fn a_note_of_no_call_clashes() {
        let answered = |kind, answer| {
            let mut hall = noting(kind, booking(1), answer);
            (hall.book(7, booking(1)), hall.withdraw(7, 1))
        };
        for answer in 0..=14 {
            let booked = [0, 4, 9, 10, 13].contains(&answer).then_some(answer);
            let left = [0, 11].contains(&answer).then_some(answer);
            assert_eq!(answered(Kind::Booking, answer), (booked.unwrap_or(7), 7));
            assert_eq!(answered(Kind::Older, answer), (booked.unwrap_or(7), 7));
            assert_eq!(answered(Kind::Withdrawal, answer), (7, left.unwrap_or(7)));
            assert_eq!(answered(Kind::Neither(3), answer), (7, 7));
        }
    }

    /// Key 7 is noted, with this beside it, and nobody waits.
    fn noting(kind: Kind, booking: Booking, answer: u8) -> Hall {
        let asked = Asked { kind, booking };
        Hall {
            notes: vec![Note {
                key: 7,
                asked,
                answer,
            }],
            ..Hall::default()
        }
    }

    /// Guest 1 with something in every field, and the same with one field changed.
    fn whole_and_changed() -> (Booking, [Booking; 6]) {
        let whole = Booking {
            player: 1,
            joined: 2,
            rating_bits: 1000.0f64.to_bits(),
            party: 3,
            role: 4,
            game: 5,
        };
        let rating_bits = whole.rating_bits + 1;
        let changed = [
            Booking { player: 9, ..whole },
            Booking { joined: 9, ..whole },
            Booking {
                rating_bits,
                ..whole
            },
            Booking { party: 9, ..whole },
            Booking { role: 9, ..whole },
            Booking { game: 7, ..whole },
        ];
        (whole, changed)
    }

    #[test]
    fn a_key_stands_for_the_whole_booking() {
        let (whole, changed) = whole_and_changed();
        let mut hall = Hall::default();
        assert_eq!(hall.book(7, whole), 0);
        for other in changed {
            assert_eq!(hall.book(7, other), 7, "{other:?}");
            assert_eq!(hall.book(7, whole), 0);
        }
        assert_eq!((hall.waiting.len(), hall.notes.len()), (1, 1));
        assert_eq!(hall.notes[0].asked, Asked::booking(whole));
    }

    /// Both zeros differ, and NaNs with other bits.
    #[test]
    fn a_key_stands_for_the_bits_of_the_rating() {
        let rated = |rating_bits| Booking {
            rating_bits,
            ..booking(1)
        };
        let (zero, nan) = (0.0f64.to_bits(), f64::NAN.to_bits());
        for bits in [zero, zero | 1 << 63, nan, nan + 1, (nan + 1) ^ 1 << 51] {
            let mut hall = Hall::default();
            assert_eq!(hall.book(7, rated(bits)), 0);
            assert_eq!(hall.book(7, rated(bits)), 0);
            for bit in 0..64 {
                assert_eq!(hall.book(7, rated(bits ^ 1 << bit)), 7, "{bits:x} {bit}");
            }
            assert_eq!(hall.waiting, [rated(bits)]);
        }
    }

    /// Noted with 4, 13, 9 and 10: the same again, and 7 with anything changed, corrected or worse.
    #[test]
    fn a_refused_key_stands_for_the_whole_booking() {
        let (whole, changed) = whole_and_changed();
        let late = Booking {
            joined: CLOCK_LIMIT + 1,
            ..whole
        };
        let no_game = Booking { game: 200, ..whole };
        let mut hall = Hall::default();
        assert_eq!((hall.book(1, late), hall.book(1, late)), (4, 4));
        assert_eq!((hall.book(2, no_game), hall.book(2, no_game)), (13, 13));
        assert_eq!((hall.book(3, whole), hall.book(4, whole)), (0, 9));
        hall.waiting.resize(QUEUE_LIMIT, booking(8));
        assert_eq!(hall.book(5, changed[0]), 10);
        assert_eq!(hall.withdraw(6, 1), 0);
        assert_eq!((hall.book(4, whole), hall.book(5, changed[0])), (9, 10));
        for key in 1..=5 {
            let noted = hall.notes[key as usize - 1].asked.booking;
            let mut others = changed.to_vec();
            others.extend([whole, late, no_game]);
            others.retain(|other| *other != noted);
            for other in others {
                assert_eq!(hall.book(key, other), 7, "{key} {other:?}");
            }
        }
        assert_eq!((hall.waiting.len(), hall.notes.len()), (63, 6));
    }

    /// Whatever else the note holds, and whatever else the booking brings; it stays as it is.
    #[test]
    fn an_older_note_stands_for_its_guest() {
        let (whole, mut changed) = whole_and_changed();
        changed[5].game = 200;
        changed[1].joined = u64::MAX;
        for held in [booking(1), whole] {
            for answer in [0, 4, 9, 10, 13] {
                let mut hall = noting(Kind::Older, held, answer);
                let before = hall.notes.clone();
                assert_eq!(hall.book(7, whole), answer);
                assert_eq!(hall.book(7, changed[0]), 7);
                for other in &changed[1..] {
                    assert_eq!(hall.book(7, *other), answer, "{other:?}");
                }
                assert_eq!(hall.withdraw(7, 1), 7);
                assert!(hall.waiting.is_empty() && hall.notes == before);
            }
        }
    }

    /// Whatever else the note holds.
    #[test]
    fn a_withdrawal_is_noted_by_its_guest() {
        let mut hall = Hall::default();
        assert_eq!(hall.withdraw(7, 1), 11);
        assert_eq!(hall.notes[0].asked.booking, booking(1));
        let mut odd = noting(Kind::Withdrawal, whole_and_changed().0, 11);
        assert_eq!((odd.withdraw(7, 1), odd.withdraw(7, 2)), (11, 7));
        assert_eq!(odd.book(7, whole_and_changed().0), 7);
    }

    #[test]
    fn a_withdrawal_takes_the_first_entry() {
        let mut hall = Hall {
            waiting: vec![for_game(1, 3), booking(2), booking(1)],
            ..Hall::default()
        };
        assert_eq!(hall.withdraw(1, 1), 0);
        assert_eq!(players(&hall), [2, 1]);
    }

    /// After 7 and 8, before 4, 9 and 10; an unused game is one.
    #[test]
    fn no_game_above_seven() {
        let mut hall = Hall::default();
        assert_eq!(hall.book(1, for_game(1, 7)), 0);
        assert_eq!(hall.book(2, for_game(2, 8)), 13);
        assert_eq!(hall.book(2, for_game(2, 8)), 13);
        assert_eq!(hall.book(2, for_game(2, 0)), 7);
        assert_eq!(hall.book(2, for_game(3, 8)), 7);
        assert_eq!(hall.withdraw(2, 2), 7);
        assert_eq!(hall.book(3, for_game(1, 255)), 13);
        let late = Booking {
            joined: CLOCK_LIMIT + 1,
            ..for_game(1, 8)
        };
        assert_eq!(hall.book(4, late), 13);
        assert_eq!(hall.notes.len(), 4);
        hall.notes.resize(1024, hall.notes[0]);
        assert_eq!(hall.book(5, for_game(5, 8)), 8);
    }

    #[test]
    fn a_guest_waits_for_one_game() {
        let mut hall = Hall::default();
        assert_eq!(hall.book(1, for_game(1, 0)), 0);
        assert_eq!(hall.book(2, for_game(1, 1)), 9);
        assert_eq!(hall.withdraw(3, 1), 0);
        assert_eq!(hall.book(4, for_game(1, 1)), 0);
    }

    #[test]
    fn halls_over_limit_by_their_games() {
        let answers = |hall: &Hall| {
            let mut hall = hall.clone();
            [hall.book(1, booking(1)), hall.withdraw(2, 1)]
        };
        let mut hall = Hall::default();
        for served in [None, Some(0), Some(7)] {
            hall.served = served;
            assert_eq!(answers(&hall), [0, 0]);
        }
        for served in [8, 9, 254] {
            hall.served = Some(served);
            assert_eq!(answers(&hall), [1, 1]);
        }
        hall.served = None;
        hall.games.sizes[7].b = 8;
        assert_eq!(answers(&hall), [0, 0]);
        hall.games.sizes[7].b = 9;
        assert_eq!(answers(&hall), [1, 1]);
    }

    /// Games 1, 4 and 6 of 1+1 have enough, game 2 too few, and game 3 is not used.
    #[test]
    fn turns_go_round() {
        let mut hall = Hall::default();
        for game in [1, 2, 4, 6] {
            hall.games.sizes[game] = TeamComposition { a: 1, b: 1 };
        }
        let games = [1, 6, 4, 3, 2, 4, 6, 1, 3, 6, 200];
        hall.waiting = (0..)
            .zip(games)
            .map(|(n, game)| for_game(n, game))
            .collect();
        let mut next = |served| {
            hall.served = served;
            hall.next_game()
        };
        assert_eq!(next(None), Some(1));
        let turns = [1, 4, 4, 4, 6, 6, 1, 1];
        for (last, turn) in (0..).zip(turns) {
            assert_eq!(next(Some(last)), Some(turn), "behind {last}");
        }
        hall.waiting
            .retain(|booking| booking.game != 6 && booking.game != 4);
        hall.served = Some(1);
        assert_eq!(hall.next_game(), Some(1));
        hall.waiting.remove(0);
        assert_eq!(hall.next_game(), None);
    }
}
