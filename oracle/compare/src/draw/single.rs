//! Single calls on halls of any kind, which no list of calls need lead to.

use super::keys::{changed, odd_rating, spoil};
use super::lists::{enlarge, parties, party, seats, some_games};
use super::rounds::{
    CHOICES, Which, beam_round, dispatch, full_round, greedy_round, is_listed, is_long, no_game,
    part, which,
};
use super::searches::{some_seats, tie};
use super::{LONG, ODD_IDS, Scale, entry, late_time, player, queue};
use crate::data::{Call, GAMES, Round, Search, booking, entries_for, games_of, sizes_for};
use crate::model::QUEUE_LIMIT;
use crate::model::hall::{NOTE_LIMIT, guest_alone};
use crate::rng::Rng;
use std::array::from_fn;
use yilgashe_sys::{
    BOOKING, Booking, Hall, NONE_SERVED, Note, OLDER_BOOKING, Queue, QueueEntry, TeamComposition,
    WITHDRAWAL,
};

/// A hall and a call. Guests may wait twice, for two games too, or for none, or have joined late; the hall may be over its limits, and
/// what is noted beside the call's key may be none of any call.
pub fn single(rng: &mut Rng) -> (Hall, Call) {
    let waiting = waiting(rng);
    let mut hall = noting(rng, &waiting);
    let call = match rng.below(8) {
        0 | 1 => Call::Book {
            key: key(rng, &hall),
            booking: asked(rng, &waiting),
        },
        2 => Call::Withdraw {
            key: key(rng, &hall),
            player: player(rng, &waiting),
        },
        _ => Call::Round(Box::new(round(rng, &mut hall))),
    };
    let call = if rng.one_in(3) {
        call
    } else {
        again(rng, &hall, call)
    };
    if rng.one_in(3) {
        misnote(rng, &mut hall, &call);
    }
    (hall, call)
}

/// All 64 places are filled.
fn waiting(rng: &mut Rng) -> Queue {
    let mut waiting = queue(rng, Scale::Full);
    if waiting.len <= QUEUE_LIMIT && rng.one_in(2) {
        waiting.len = waiting.len.min(rng.below(13));
    }
    let len = waiting.waiting().len();
    tie(rng, &mut waiting.entries[..len]);
    if len > 1 && !rng.one_in(3) {
        befriend(rng, &mut waiting.entries[..len]);
    }
    waiting
}

/// Parties as lists have them. In half of the halls everyone waits once, but for one guest: with two parties, if both are drawn.
fn befriend(rng: &mut Rng, waiting: &mut [QueueEntry]) {
    let parties = parties(rng, waiting.len());
    for entry in &mut *waiting {
        entry.party = party(rng, &parties);
    }
    if rng.one_in(2) {
        for (player, entry) in (1..).zip(&mut *waiting) {
            entry.player = player;
        }
        let (one, other) = (rng.below(waiting.len()), rng.below(waiting.len()));
        waiting[other].player = waiting[one].player;
    }
}

/// A booking for any game, at times for none; its rating is a zero or a NaN in one of two.
fn asked(rng: &mut Rng, waiting: &Queue) -> Booking {
    let entry = entry(rng, waiting);
    let mut asked = booking(&entry, rng.below(GAMES) as u8);
    if rng.one_in(6) {
        asked.game = no_game(rng);
        if rng.one_in(4) {
            asked.joined = late_time(rng);
        }
    }
    if rng.one_in(2) {
        asked.rating_bits = odd_rating(rng);
    }
    asked
}

/// A round of a game that somebody waits for, mostly; or a dispatch.
fn round(rng: &mut Rng, hall: &mut Hall) -> Round {
    let game = game(rng, hall);
    let own = Queue::of(&entries_for(hall.booked(), game));
    let round = match which(rng, [3, 2, 6, 3]) {
        Which::Greedy => greedy_round(rng, game, &own),
        Which::Beam => beam_round(rng, game, &own),
        Which::Full => {
            let waiting_friends = rng.one_in(2);
            fit(rng, hall, game, &own, waiting_friends);
            let sizes = sizes_for(&games_of(hall), game);
            let mut full = full_round(rng, game, &own, sizes, waiting_friends);
            if rng.one_in(5) {
                unrank(&mut full);
            }
            full
        }
        Which::Dispatch => dispatch(rng, &hall.queue()),
    };
    if rng.one_in(6) {
        delay_another(rng, hall, game);
    }
    round
}

fn game(rng: &mut Rng, hall: &Hall) -> u8 {
    let waiting = hall.booked();
    match rng.below(12) {
        0 => no_game(rng),
        1 => rng.below(GAMES) as u8,
        _ if waiting.is_empty() => rng.below(GAMES) as u8,
        _ => rng.pick(waiting).game,
    }
}

/// Gives the game such seats that its choices are few, and mostly such that some part waiting friends, where these are brought.
fn fit(rng: &mut Rng, hall: &mut Hall, game: u8, own: &Queue, waiting_friends: bool) {
    let Some(sizes) = hall.sizes.get_mut(usize::from(game)) else {
        return;
    };
    if is_long(own.len, sizes) {
        *sizes = some_seats(rng, own.len, CHOICES);
    }
    if is_listed(own.len, sizes) && waiting_friends && !rng.one_in(4) {
        part(rng, own.waiting(), sizes);
    }
}

/// Every choice of the full round scores NaN.
fn unrank(round: &mut Round) {
    if let Search::Full(_, full) = &mut round.search {
        full.objectives.len = full.objectives.len.max(1);
        full.objectives.weights[0] = f64::NAN;
    }
}

/// Somebody who waits for another game joined late, if there is one.
fn delay_another(rng: &mut Rng, hall: &mut Hall, game: u8) {
    let len = hall.booked().len();
    let others = hall.bookings[..len].iter_mut().filter(|b| b.game != game);
    let mut others: Vec<&mut Booking> = others.collect();
    let one = rng.below(others.len());
    if let Some(booking) = others.get_mut(one) {
        booking.joined = late_time(rng);
    }
}

/// The queue's guests wait. All 1,024 places for keys are filled, each with its own key and an answer that its kind can get.
fn noting(rng: &mut Rng, queue: &Queue) -> Hall {
    let noted = match rng.below(12) {
        0 => rng.pick(&[NOTE_LIMIT + 1, NOTE_LIMIT + 2, LONG[3], LONG[4], LONG[5]]),
        1 | 2 => NOTE_LIMIT - rng.below(2),
        3 => rng.below(NOTE_LIMIT),
        _ => rng.below(8),
    };
    let mut keys: Vec<u64> = (0..NOTE_LIMIT as u64).collect();
    rng.shuffle(&mut keys);
    let mut hall = Hall {
        bookings: queue.entries.map(|entry| Booking::of(&entry)),
        waiting: queue.len,
        notes: from_fn(|_| some_note(rng, queue)),
        keys: from_fn(|place| keys[place]),
        noted,
        sizes: [TeamComposition::default(); GAMES],
        served: NONE_SERVED,
    };
    open_games(rng, &mut hall);
    hall
}

/// Of a whole booking, mostly one that gets such an answer, of a withdrawal, or of an older booking; of the last two the guest alone is
/// set, mostly.
fn some_note(rng: &mut Rng, queue: &Queue) -> Note {
    let kind = rng.weighted(&[(3, BOOKING), (2, WITHDRAWAL), (2, OLDER_BOOKING)]);
    let answer = match kind {
        WITHDRAWAL => rng.pick(&[0, 11]),
        _ => rng.pick(&[0, 4, 9, 10, 13]),
    };
    let mut held = match kind != BOOKING && !rng.one_in(3) {
        true => guest_alone(player(rng, queue)),
        false => asked(rng, queue),
    };
    match answer {
        4 if kind == BOOKING && !rng.one_in(3) => held.joined = late_time(rng),
        13 if kind == BOOKING && !rng.one_in(3) => held.game = no_game(rng),
        _ => {}
    }
    Note {
        kind,
        ..Note::of(&held, answer)
    }
}

/// Spreads the bookings over one game or more, some of them over none, and gives games their sizes, one over 8 at times. Any game was
/// served last, or none, or what is no game.
fn open_games(rng: &mut Rng, hall: &mut Hall) {
    let count = rng.pick(&[1, 1, 2, 3, GAMES]);
    let games = some_games(rng, count);
    let strays = rng.one_in(3);
    for booking in &mut hall.bookings {
        booking.game = match strays && rng.one_in(8) {
            true => no_game(rng),
            false => rng.pick(&games),
        };
    }
    for (game, sizes) in (0..).zip(&mut hall.sizes) {
        if games.contains(&game) != rng.one_in(8) {
            *sizes = seats(rng);
        }
    }
    if rng.one_in(16) {
        let large = rng.below(GAMES);
        enlarge(rng, &mut hall.sizes[large]);
    }
    hall.served = match rng.below(16) {
        0 => rng.pick(&[8, 9, 128, 254]),
        1..=5 => NONE_SERVED,
        _ => rng.below(GAMES) as u8,
    };
}

/// Noted or not, or noted only past the noted ones, where nobody may look.
fn key(rng: &mut Rng, hall: &Hall) -> u64 {
    match rng.below(4) {
        0 => rng.pick(&ODD_IDS),
        1 if hall.noted > 0 => hall.keys[noted_place(rng, hall)],
        _ => rng.pick(&hall.keys),
    }
}

fn noted_place(rng: &mut Rng, hall: &Hall) -> usize {
    rng.below(hall.answered().len())
}

/// The call with a noted key and its guest, where there is one: the noted booking, or one with a field changed; of an older note's guest any
/// booking. Where the kinds differ it is a clash.
fn again(rng: &mut Rng, hall: &Hall, other: Call) -> Call {
    if hall.noted == 0 {
        return other;
    }
    let place = noted_place(rng, hall);
    let (key, note) = (hall.keys[place], hall.notes[place]);
    let player = note.player;
    match other {
        Call::Book { .. } if note.kind == BOOKING => {
            let held = note.booking();
            let booking = match rng.one_in(3) {
                true => held,
                false => changed(rng, held),
            };
            Call::Book { key, booking }
        }
        Call::Book { mut booking, .. } => {
            booking.player = player;
            spoil(rng, &mut booking);
            Call::Book { key, booking }
        }
        Call::Withdraw { .. } => Call::Withdraw { key, player },
        other => other,
    }
}

/// Where the call's key is noted, its note gets any kind or any answer: no call need make such a note.
fn misnote(rng: &mut Rng, hall: &mut Hall, call: &Call) {
    let Some(place) = call.key().and_then(|key| place(hall, key)) else {
        return;
    };
    let note = &mut hall.notes[place];
    match rng.one_in(2) {
        true => note.kind = rng.pick(&[0, 1, 2, 3, 3, 4, 255]),
        false => note.answer = rng.pick(&[0, 1, 4, 7, 8, 9, 10, 11, 12, 13, 14, 255]),
    }
}

fn place(hall: &Hall, key: u64) -> Option<usize> {
    hall.answered().position(|(noted, _)| noted == key)
}

#[cfg(test)]
mod tests {
    use super::*;
    use crate::model::hall::no_such_game;
    use crate::model::{self, TEAM_LIMIT};

    #[test]
    fn single_halls_of_every_sort() {
        let mut rng = Rng::new(1);
        let drawn: Vec<(Hall, Call)> = (0..2000).map(|_| single(&mut rng)).collect();
        let halls: Vec<Hall> = drawn.iter().map(|(hall, _)| *hall).collect();
        let seen = |wanted: fn(&Hall) -> bool| halls.iter().filter(|hall| wanted(hall)).count();
        assert!(seen(|hall| hall.waiting > QUEUE_LIMIT) > 20);
        assert!(seen(|hall| hall.noted > NOTE_LIMIT) > 20);
        assert!(seen(|hall| hall.noted == NOTE_LIMIT) > 20);
        assert!(seen(|hall| model::joined_late(&hall.queue())) > 20);
        let doubled = |hall: &Hall| {
            let ids: Vec<u64> = hall.booked().iter().map(|b| b.player).collect();
            model::doubled(&ids)
        };
        assert!(seen(doubled) > 200);
        let twofold = |hall: &Hall| model::of_two_parties(hall.queue().waiting());
        assert!(seen(twofold) > 100);
        let falls = |hall: &Hall| !model::never_falls(hall.queue().waiting());
        assert!((400..1400).contains(&seen(falls)));
        let noted = |wanted: &dyn Fn(&Note) -> bool| {
            let notes = drawn.iter().filter_map(|(hall, call)| noted(hall, call));
            notes.filter(|note| wanted(note)).count()
        };
        assert!(noted(&|note| note.kind > OLDER_BOOKING) > 10);
        let unheard = |note: &Note| ![0, 4, 9, 10, 13].contains(&note.answer);
        assert!(noted(&|note| note.kind == BOOKING && unheard(note)) > 5);
        assert!(noted(&|note| note.kind == OLDER_BOOKING && unheard(note)) > 5);
        assert!(noted(&|note| note.kind == WITHDRAWAL && ![0, 11].contains(&note.answer)) > 5);
        let alone = |note: &Note| note.booking() == guest_alone(note.player);
        for kind in [WITHDRAWAL, OLDER_BOOKING] {
            assert!(noted(&|note| note.kind == kind && alone(note)) > 20);
            assert!(noted(&|note| note.kind == kind && !alone(note)) > 20);
        }
    }

    #[test]
    fn single_halls_of_every_sort_of_games() {
        let mut rng = Rng::new(1);
        let halls: Vec<Hall> = (0..1000).map(|_| single(&mut rng).0).collect();
        let seen = |wanted: &dyn Fn(&Hall) -> bool| halls.iter().filter(|h| wanted(h)).count();
        let large = |sizes: &TeamComposition| sizes.a.max(sizes.b) > TEAM_LIMIT;
        assert!(seen(&|hall| hall.sizes.iter().any(large)) > 30);
        for served in [0, 7, 8, 9, 254] {
            assert!(seen(&|hall| hall.served == served) > 5, "{served}");
        }
        assert!(seen(&|hall| hall.served == NONE_SERVED) > 200);
        let stray = |hall: &Hall| hall.booked().iter().any(|b| no_such_game(b.game));
        assert!(seen(&stray) > 100);
        let twice = |hall: &Hall| {
            let waiting = hall.booked();
            let elsewhere = |one: &Booking, other: &Booking| {
                one.player == other.player && one.game != other.game
            };
            waiting
                .iter()
                .any(|one| waiting.iter().any(|other| elsewhere(one, other)))
        };
        assert!(seen(&twice) > 150);
    }

    /// What is noted beside the call's key.
    fn noted(hall: &Hall, call: &Call) -> Option<Note> {
        let place = call.key().and_then(|key| place(hall, key))?;
        Some(hall.notes[place])
    }
}
