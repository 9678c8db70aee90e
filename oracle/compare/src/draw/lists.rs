//! Lists of calls from an empty hall, or from one that was kept.

use super::keys::{changed, odd_rating, spoil};
use super::rounds::{
    Which, beam_round, dispatch, full_round, greedy_round, is_listed, is_long, no_game, parts,
    which,
};
use super::searches::team_sizes;
use super::{ODD_IDS, Ratings, Times, joined, late_time, later, rating, role, times};
use crate::data::{Call, GAMES, List, Round, Start};
use crate::model::TEAM_LIMIT;
use crate::model::hall::{self, Asked, Kind, Note, guest_alone, no_such_game};
use crate::rng::Rng;
use std::array::from_fn;
use yilgashe_sys::{Booking, Games, Queue, TeamComposition};

/// How a list goes.
#[derive(Clone, Copy, Debug)]
enum Mood {
    /// Few guests come, go and play.
    Plain,
    /// Few are seated, by full rounds mostly, so that friends wait.
    Friends,
    /// More come than the hall holds.
    Crowd,
    /// Many games, and dispatches in a row.
    Turns,
    /// More keys come than the book holds.
    Long,
    /// From a hall that was kept from before request 2.5, with many resends and clashes.
    Kept,
    /// A size is over 8, that of a game in use: nobody gets in.
    Closed,
    /// A size is over 8, of a game that is not used, if there is one.
    ClosedElsewhere,
}

/// What the next call of a list is.
#[derive(Clone, Copy, Debug)]
enum Next {
    Book,
    Withdraw,
    Resend,
    Clash,
    Round,
}

/// A list while it is drawn: the hall as the calls so far leave it, and what calls are drawn from.
struct Evening {
    mood: Mood,
    hall: hall::Hall,
    /// Those that are used.
    games: Vec<u8>,
    /// So many more dispatches come, but for a few other calls between them.
    dispatches: usize,
    /// The bookings and withdrawals so far.
    keyed: Vec<Call>,
    fresh: u64,
    guests: Vec<u64>,
    ratings: Ratings,
    /// Those that friends book with.
    parties: Vec<u64>,
    times: Times,
    /// Nobody comes who joined before the last of those who wait.
    in_order: bool,
}

/// Such that distances are often equal.
fn tying_ratings(rng: &mut Rng) -> Ratings {
    rng.weighted(&[
        (2, Ratings::Equal),
        (5, Ratings::Few),
        (2, Ratings::Plain),
        (2, Ratings::Wild),
    ])
}

/// So few that friends wait together, or one for two guests.
pub(super) fn parties(rng: &mut Rng, guests: usize) -> Vec<u64> {
    let count = rng.pick(&[1, 2, 4, guests.div_ceil(2)]);
    let mut parties: Vec<u64> = (1..=count as u64).collect();
    if rng.one_in(3) {
        parties[0] = u64::MAX;
    }
    parties
}

/// One of these, or none.
pub(super) fn party(rng: &mut Rng, parties: &[u64]) -> u64 {
    match rng.one_in(3) {
        true => 0,
        false => rng.pick(parties),
    }
}

/// Few seats mostly, so that matches come often; never none.
pub(super) fn seats(rng: &mut Rng) -> TeamComposition {
    if rng.one_in(12) {
        let TeamComposition { a, b } = team_sizes(rng);
        let a = a.clamp(1, TEAM_LIMIT);
        return TeamComposition {
            a,
            b: b.min(TEAM_LIMIT),
        };
    }
    let (a, b) = rng.weighted(&[
        (6, (1, 1)),
        (5, (2, 2)),
        (3, (1, 2)),
        (3, (2, 1)),
        (2, (3, 2)),
        (2, (3, 3)),
        (1, (1, 0)),
        (1, (0, 1)),
        (1, (0, 3)),
    ]);
    TeamComposition { a, b }
}

/// One of the sizes is over 8: 9, mostly.
pub(super) fn enlarge(rng: &mut Rng, sizes: &mut TeamComposition) {
    let large = rng.weighted(&[(6, 9), (1, 10), (1, (1 << 32) + 3), (1, usize::MAX)]);
    match rng.one_in(2) {
        true => sizes.a = large,
        false => sizes.b = large,
    }
}

/// The numbers of so many games, in any order.
pub(super) fn some_games(rng: &mut Rng, count: usize) -> Vec<u8> {
    let mut numbers: Vec<u8> = (0..GAMES as u8).collect();
    rng.shuffle(&mut numbers);
    numbers.truncate(count);
    numbers
}

/// By its number, so that every sort of list comes early.
fn mood(number: u64) -> Mood {
    match number % 16 {
        3 => Mood::Long,
        1 | 6 | 11 => Mood::Crowd,
        4 | 8 | 14 => Mood::Friends,
        2 | 7 | 12 | 15 => Mood::Turns,
        5 | 13 => Mood::Kept,
        9 if number % 32 == 9 => Mood::Closed,
        9 => Mood::ClosedElsewhere,
        _ => Mood::Plain,
    }
}

pub fn list(rng: &mut Rng, number: u64) -> List {
    let mood = mood(number);
    let calls = match mood {
        Mood::Plain => rng.between(50, 300),
        Mood::Friends | Mood::Crowd => rng.between(150, 300),
        Mood::Kept => rng.between(250, 400),
        Mood::Turns => rng.between(200, 400),
        Mood::Long => rng.between(1300, 1400),
        Mood::Closed | Mood::ClosedElsewhere => rng.between(50, 80),
    };
    let mut evening = match mood {
        Mood::Kept => Evening::under_way(rng, number),
        _ => Evening::open(rng, mood),
    };
    List {
        start: match mood {
            Mood::Kept => Start::Kept(Box::new(evening.hall.stored())),
            _ => Start::Empty(evening.hall.games),
        },
        calls: (0..calls).map(|_| evening.next(rng)).collect(),
    }
}

impl Evening {
    /// After some calls, as it was kept before request 2.5; with a full hall or with few guests, by its number.
    fn under_way(rng: &mut Rng, number: u64) -> Self {
        let (mood, calls) = match number % 16 {
            5 => (Mood::Crowd, rng.between(160, 240)),
            _ => (Mood::Plain, rng.between(40, 80)),
        };
        let mut evening = Evening::open(rng, mood);
        for _ in 0..calls {
            evening.next(rng);
        }
        let notes = evening.hall.notes.iter();
        let notes = notes.map(|note| evening.brought_over(rng, note));
        evening.hall.notes = notes.collect();
        evening.mood = Mood::Kept;
        evening
    }

    /// A note as it was kept, by kind and guest. Every other one holds anything else besides, which counts for nothing.
    fn brought_over(&self, rng: &mut Rng, note: &Note) -> Note {
        let Asked { kind, booking } = note.asked;
        let asked = Asked {
            kind: match kind {
                Kind::Booking => Kind::Older,
                other => other,
            },
            booking: match rng.one_in(2) {
                true => self.booking(rng, booking.player),
                false => guest_alone(booking.player),
            },
        };
        Note { asked, ..*note }
    }

    fn open(rng: &mut Rng, mood: Mood) -> Self {
        let size = match mood {
            Mood::Plain | Mood::Closed | Mood::ClosedElsewhere => rng.pick(&[3, 6, 12, 24, 40]),
            Mood::Friends => rng.pick(&[8, 12, 18]),
            Mood::Crowd | Mood::Turns => 100,
            Mood::Long | Mood::Kept => rng.pick(&[8, 30]),
        };
        let start = u64::from(rng.one_in(4));
        let mut guests: Vec<u64> = (start..start + size).collect();
        if rng.one_in(3) {
            guests[0] = rng.pick(&ODD_IDS);
        }
        let (games, sizes) = games(rng, mood);
        Evening {
            mood,
            hall: hall::Hall::open(sizes),
            games,
            dispatches: 0,
            keyed: Vec::new(),
            fresh: u64::from(rng.one_in(2)),
            parties: parties(rng, guests.len()),
            guests,
            ratings: tying_ratings(rng),
            times: times(rng),
            in_order: rng.one_in(2),
        }
    }

    /// A call, which the hall answers at once.
    fn next(&mut self, rng: &mut Rng) -> Call {
        let call = self.call(rng);
        if !matches!(call, Call::Round(_)) {
            self.keyed.push(call.clone());
        }
        self.hall.answer(&call);
        call
    }

    fn call(&mut self, rng: &mut Rng) -> Call {
        if self.dispatches > 0 && !rng.one_in(6) {
            self.dispatches -= 1;
            return Call::Round(Box::new(dispatch(rng, &self.queue())));
        }
        let shares = match self.mood {
            Mood::Plain | Mood::Closed | Mood::ClosedElsewhere => [10, 3, 4, 5, 5],
            Mood::Friends => [16, 2, 2, 2, 8],
            Mood::Crowd => [60, 2, 5, 7, 3],
            Mood::Turns => [60, 1, 3, 3, 2],
            Mood::Long => [20, 12, 2, 2, 1],
            Mood::Kept => [8, 4, 8, 8, 4],
        };
        let kinds = [
            Next::Book,
            Next::Withdraw,
            Next::Resend,
            Next::Clash,
            Next::Round,
        ];
        let weighted: [(usize, Next); 5] = from_fn(|place| (shares[place], kinds[place]));
        match rng.weighted(&weighted) {
            Next::Resend if !self.keyed.is_empty() => self.resend(rng),
            Next::Clash if !self.keyed.is_empty() => self.clash(rng),
            Next::Withdraw => Call::Withdraw {
                key: self.key(rng),
                player: self.leaving(rng),
            },
            Next::Round => Call::Round(Box::new(self.round(rng))),
            _ => {
                let player = self.coming(rng);
                self.book(rng, player)
            }
        }
    }

    /// A crowd stays one, and friends go on waiting: greedy and beam rounds would seat them.
    fn round(&mut self, rng: &mut Rng) -> Round {
        let shares = match self.mood {
            Mood::Friends => [1, 0, 9, 1],
            Mood::Crowd => [2, 1, 6, 1],
            Mood::Turns => [1, 1, 1, 6],
            _ => [2, 2, 1, 1],
        };
        match which(rng, shares) {
            Which::Greedy => {
                let game = self.game(rng);
                greedy_round(rng, game, &self.queue_for(game))
            }
            Which::Beam => {
                let game = self.game(rng);
                beam_round(rng, game, &self.queue_for(game))
            }
            Which::Full => self.full_round(rng),
            Which::Dispatch => {
                if let Mood::Turns = self.mood {
                    self.dispatches = rng.pick(&[0, 9, 16]);
                }
                dispatch(rng, &self.queue())
            }
        }
    }

    /// Of a game with few choices; a greedy one, where none is drawn in a few times.
    fn full_round(&self, rng: &mut Rng) -> Round {
        let waiting_friends = rng.one_in(2);
        let parting = waiting_friends && !rng.one_in(4);
        let drawn: Vec<u8> = (0..8).map(|_| self.game(rng)).collect();
        let few = drawn.iter().copied().filter(|game| !self.is_long(*game));
        let wanted = few.clone().find(|game| !parting || self.parts(*game));
        match wanted.or(few.clone().next()) {
            Some(game) => {
                let (own, sizes) = (self.queue_for(game), self.hall.sizes(game));
                full_round(rng, game, &own, sizes, waiting_friends)
            }
            None => greedy_round(rng, drawn[0], &self.queue_for(drawn[0])),
        }
    }

    fn is_long(&self, game: u8) -> bool {
        is_long(self.hall.entries(game).len(), &self.hall.sizes(game))
    }

    fn parts(&self, game: u8) -> bool {
        let (own, sizes) = (self.hall.entries(game), self.hall.sizes(game));
        is_listed(own.len(), &sizes) && parts(&own, &sizes)
    }

    /// Those who wait, for whatever game.
    fn queue(&self) -> Queue {
        let entries: Vec<_> = self.hall.waiting.iter().map(Booking::entry).collect();
        Queue::of(&entries)
    }

    fn queue_for(&self, game: u8) -> Queue {
        Queue::of(&self.hall.entries(game))
    }

    /// One that somebody waits for, mostly; else one that is used, any, or none.
    fn game(&self, rng: &mut Rng) -> u8 {
        match rng.below(24) {
            0 => no_game(rng),
            1 => rng.below(GAMES) as u8,
            2 | 3 => rng.pick(&self.games),
            _ if self.hall.waiting.is_empty() => rng.pick(&self.games),
            _ => rng.pick(&self.hall.waiting).game,
        }
    }

    fn book(&mut self, rng: &mut Rng, player: u64) -> Call {
        Call::Book {
            key: self.key(rng),
            booking: self.booking(rng, player),
        }
    }

    /// A new key mostly, from 0 or 1 up; one of a few odd ones at times.
    fn key(&mut self, rng: &mut Rng) -> u64 {
        if rng.one_in(40) {
            return rng.pick(&ODD_IDS);
        }
        self.fresh += 1;
        self.fresh - 1
    }

    /// For a game that is used, mostly; else for any, or for none.
    fn booking(&self, rng: &mut Rng, player: u64) -> Booking {
        let game = match rng.below(24) {
            0 => no_game(rng),
            1 | 2 => rng.below(GAMES) as u8,
            _ => rng.pick(&self.games),
        };
        let late_share = if no_such_game(game) { 4 } else { 20 };
        Booking {
            player,
            joined: match rng.one_in(late_share) {
                true => late_time(rng),
                false => self.joined(rng),
            },
            rating_bits: match rng.one_in(12) {
                true => odd_rating(rng),
                false => rating(rng, self.ratings).to_bits(),
            },
            party: party(rng, &self.parties),
            role: role(rng),
            game,
        }
    }

    fn joined(&self, rng: &mut Rng) -> u64 {
        match self.hall.waiting.last() {
            Some(last) if self.in_order => later(rng, last.joined),
            _ => joined(rng, self.times),
        }
    }

    /// Somebody who does not wait, mostly.
    fn coming(&self, rng: &mut Rng) -> u64 {
        let waits = |guest: &u64| self.hall.waiting.iter().any(|b| b.player == *guest);
        let away: Vec<u64> = self.guests.iter().copied().filter(|g| !waits(g)).collect();
        match away.is_empty() || rng.one_in(8) {
            true => rng.pick(&self.guests),
            false => rng.pick(&away),
        }
    }

    /// Somebody who waits, mostly.
    fn leaving(&self, rng: &mut Rng) -> u64 {
        match self.hall.waiting.is_empty() || rng.one_in(4) {
            true => rng.pick(&self.guests),
            false => rng.pick(&self.hall.waiting).player,
        }
    }

    /// One with a refused key often.
    fn earlier(&self, rng: &mut Rng) -> Call {
        let any = |rng: &mut Rng| self.keyed[rng.below(self.keyed.len())].clone();
        let one = any(rng);
        let accepted = |note: &Note| note.answer == 0;
        match self.noted(&one).is_some_and(accepted) && rng.one_in(2) {
            true => any(rng),
            false => one,
        }
    }

    /// What is noted beside the call's key.
    fn noted(&self, call: &Call) -> Option<&Note> {
        let mut notes = self.hall.notes.iter();
        notes.find(|note| Some(note.key) == call.key())
    }

    /// An earlier call again; a booking that was noted before request 2.5 with all but its guest changed, at times.
    fn resend(&self, rng: &mut Rng) -> Call {
        let mut call = self.earlier(rng);
        let noted = self.noted(&call).map(|note| note.asked.kind);
        if let Call::Book { booking, .. } = &mut call
            && noted == Some(Kind::Older)
            && rng.one_in(2)
        {
            *booking = self.booking(rng, booking.player);
            spoil(rng, booking);
        }
        call
    }

    /// An earlier call's key for what it does not stand for: one field of the booking or all but its guest are others, or it comes from another
    /// guest or with another kind of call.
    fn clash(&self, rng: &mut Rng) -> Call {
        let other = rng.pick(&self.guests);
        match (self.earlier(rng), rng.below(8)) {
            (Call::Book { key, booking }, 0) => Call::Withdraw {
                key,
                player: booking.player,
            },
            (Call::Book { key, booking }, 1) => Call::Book {
                key,
                booking: self.booking(rng, booking.player),
            },
            (Call::Book { key, .. }, 2) => Call::Book {
                key,
                booking: self.booking(rng, other),
            },
            (Call::Book { key, booking }, _) => Call::Book {
                key,
                booking: changed(rng, booking),
            },
            (Call::Withdraw { key, player }, ..4) => Call::Book {
                key,
                booking: self.booking(rng, player),
            },
            (Call::Withdraw { key, .. }, _) => Call::Withdraw { key, player: other },
            (Call::Round(_), _) => unreachable!("a round has no key"),
        }
    }
}

/// One game or some, with those between them unused; and their sizes.
fn games(rng: &mut Rng, mood: Mood) -> (Vec<u8>, Games) {
    let count = match mood {
        Mood::Plain | Mood::Kept | Mood::Closed | Mood::ClosedElsewhere => {
            rng.pick(&[1, 2, 3, GAMES])
        }
        Mood::Friends => rng.pick(&[1, 2, 3]),
        Mood::Crowd => rng.pick(&[1, 1, 2, 3]),
        Mood::Turns => rng.pick(&[3, 5, GAMES, GAMES]),
        Mood::Long => rng.pick(&[1, 2, 4]),
    };
    let mut used = some_games(rng, GAMES);
    let large = match mood {
        Mood::Closed => used.first(),
        Mood::ClosedElsewhere => used.last(),
        _ => None,
    };
    let mut games = Games::default();
    if let Some(game) = large {
        enlarge(rng, &mut games.sizes[usize::from(*game)]);
    }
    used.truncate(count);
    for &game in &used {
        let sizes = &mut games.sizes[usize::from(game)];
        if *sizes == TeamComposition::default() {
            *sizes = seats(rng);
        }
    }
    (used, games)
}

#[cfg(test)]
mod tests {
    use super::*;

    #[test]
    fn lists_by_their_number() {
        let len = |number| {
            list(&mut Rng::for_case(1, "lists", number), number)
                .calls
                .len()
        };
        for number in 0..32 {
            let calls = len(number);
            let long = number % 16 == 3;
            assert!(calls >= 50 && (calls > 1024) == long, "{number}: {calls}");
        }
    }

    /// In order: after every call of the list.
    #[test]
    fn lists_in_joining_order_and_others() {
        let in_order = |number: &u64| {
            let list = list(&mut Rng::for_case(1, "hall", *number), *number);
            let Start::Empty(games) = list.start else {
                return false;
            };
            let mut hall = hall::Hall::open(games);
            list.calls.iter().all(|call| {
                hall.answer(call);
                hall.waiting.is_sorted_by_key(|booking| booking.joined)
            })
        };
        let kept = (0..64).filter(in_order).count();
        assert!((20..48).contains(&kept), "{kept}");
    }

    /// Two of sixteen, with no whole note at first; both full halls and others, and notes with and without what counts for nothing.
    #[test]
    fn lists_from_a_kept_hall() {
        let kept = (0..64).filter_map(|number| {
            let list = list(&mut Rng::for_case(1, "hall", number), number);
            match list.start {
                Start::Kept(hall) => Some(hall::Hall::read(&hall)),
                Start::Empty(_) => None,
            }
        });
        let kept: Vec<hall::Hall> = kept.collect();
        assert_eq!(kept.len(), 8);
        let full = kept.iter().filter(|hall| hall.waiting.len() > 40).count();
        assert!((2..7).contains(&full), "{full}");
        for hall in kept {
            let kinds = hall.notes.iter().map(|note| note.asked.kind);
            let (older, left): (Vec<Kind>, Vec<Kind>) = kinds.partition(|k| *k == Kind::Older);
            assert!(older.len() > 10 && left.iter().all(|k| *k == Kind::Withdrawal));
            let alone = |note: &&Note| note.asked.booking == guest_alone(note.asked.booking.player);
            let alone = hall.notes.iter().filter(alone).count();
            assert!((5..hall.notes.len() - 5).contains(&alone), "{alone}");
        }
    }

    #[test]
    fn half_of_the_full_rounds_bring_waiting_friends() {
        let lists = (0..32).flat_map(|number| {
            let mut rng = Rng::for_case(1, "hall", number);
            list(&mut rng, number).calls
        });
        let full = lists.filter_map(|call| Some(call.full_round()?.1.rules));
        let brought: Vec<bool> = full.map(|rules| rules.waiting_friends).collect();
        let share = brought.iter().filter(|brought| **brought).count() * 100 / brought.len();
        assert!((40..60).contains(&share), "{share}% of {}", brought.len());
    }

    /// One game alone, some, or all; a size over 8 in one list of sixteen.
    #[test]
    fn lists_of_few_games_and_of_many() {
        let games = (0..320).map(|number| {
            list(&mut Rng::for_case(1, "hall", number), number)
                .start
                .games()
        });
        let games: Vec<Games> = games.collect();
        let used = |games: &Games| games.sizes.iter().filter(|s| s.a.max(s.b) > 0).count();
        for count in [1, 2, 3, GAMES] {
            let such = games.iter().filter(|games| used(games) == count);
            assert!(such.count() > 20, "{count}");
        }
        let large = |games: &&Games| games.sizes.iter().any(|s| s.a.max(s.b) > TEAM_LIMIT);
        assert_eq!(games.iter().filter(large).count(), 20);
    }
}
