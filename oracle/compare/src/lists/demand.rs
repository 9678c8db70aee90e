//! Demand 3's sentences, held against the calls of a list and the library's answers to them.

use crate::data::{Answer, Call, Round, Search, entries_for, game_in, games_of, sizes_for};
use crate::model::hall::{self as model, Asked, KEY_CLASH, NOTE_LIMIT, Note};
use crate::model::{Choice, OVER_LIMIT, doubled};
use crate::same::Same;
use yilgashe_sys::{Booking, Hall, ProposedMatch, Queue};

/// What a call is by the list alone.
#[derive(Clone, Copy, Debug, PartialEq)]
pub enum Mark {
    /// The first call with its key.
    Original,
    /// An original again, the same in all that its key stands for.
    Resend,
    /// An original's key, and anything else.
    Changed,
    /// A round, or a call with a new key where the book is full.
    Other,
}

/// What the calls so far come to, by their answers.
pub struct Ledger {
    /// With the answers that they got.
    originals: Vec<Note>,
    waiting: Vec<Booking>,
    accepted: usize,
    withdrawn: usize,
    seated: usize,
}

impl Ledger {
    /// Whoever waits in a hall that was kept was accepted, and its notes are of originals.
    pub fn open(hall: &Hall) -> Self {
        let model::Hall { waiting, notes, .. } = model::Hall::read(hall);
        Ledger {
            originals: notes,
            accepted: waiting.len(),
            waiting,
            withdrawn: 0,
            seated: 0,
        }
    }

    /// Enters a call; an error names the sentence that is broken.
    pub fn enter(
        &mut self,
        call: &Call,
        answer: &Answer,
        before: &Hall,
        after: &Hall,
    ) -> Result<Mark, String> {
        let entered = match call {
            Call::Book { key, booking } => self.book(*key, booking, answer.refusal),
            Call::Withdraw { key, player } => self.withdraw(*key, *player, answer.refusal),
            Call::Round(round) => self.round(round, answer, before, after),
        };
        let checked = entered.and_then(|mark| {
            let idle = match mark {
                Mark::Original => false,
                Mark::Resend => true,
                Mark::Changed | Mark::Other => answer.refusal > 0,
            };
            ensure(
                !idle || after.same(before),
                "a resend or a refused call changes the hall",
            )?;
            self.balance(after)?;
            self.book_kept(mark, answer, before, after)?;
            games_kept(answer, before, after)?;
            Ok(mark)
        });
        checked.map_err(|broken| {
            let (before, after) = (before.booked(), after.booked());
            format!("demand 3: {broken}\n  {call:?}\n  {answer:?}\n  {before:?}\n  {after:?}")
        })
    }

    fn book(&mut self, key: u64, booking: &Booking, refusal: u8) -> Result<Mark, &'static str> {
        let mark = self.mark(key, Asked::booking(*booking), refusal)?;
        if mark == Mark::Original && refusal == 0 {
            self.accepted += 1;
            self.waiting.push(*booking);
        }
        Ok(mark)
    }

    fn withdraw(&mut self, key: u64, guest: u64, refusal: u8) -> Result<Mark, &'static str> {
        let mark = self.mark(key, Asked::withdrawal(guest), refusal)?;
        if mark == Mark::Original && refusal == 0 {
            self.withdrawn += 1;
            self.waiting.retain(|booking| booking.player != guest);
        }
        Ok(mark)
    }

    /// By the keys of the list alone. A resend has to answer as its original, and anything else under that key is 7; but a hall over its
    /// limits, which refused the original with 1, goes on doing so.
    fn mark(&mut self, key: u64, asked: Asked, answer: u8) -> Result<Mark, &'static str> {
        match self.originals.iter().find(|first| first.key == key) {
            Some(first) if first.asked.stands_for(&asked) => {
                ensure(
                    first.answer == answer,
                    "a resend answers unlike its original",
                )?;
                Ok(Mark::Resend)
            }
            Some(first) => {
                let closed = (first.answer, answer) == (OVER_LIMIT, OVER_LIMIT);
                ensure(
                    answer == KEY_CLASH || closed,
                    "an original's key with anything else is not refused with 7",
                )?;
                Ok(Mark::Changed)
            }
            None if self.originals.len() < NOTE_LIMIT => {
                self.originals.push(Note { key, asked, answer });
                Ok(Mark::Original)
            }
            None => Ok(Mark::Other),
        }
    }

    /// The game's sizes say how many seats the sheet holds, and only its own guests take them.
    fn round(
        &mut self,
        round: &Round,
        answer: &Answer,
        before: &Hall,
        after: &Hall,
    ) -> Result<Mark, &'static str> {
        let game = round.played(answer).filter(|_| answer.refusal == 0);
        let Some(game) = game else {
            let untouched = answer.count == 0 && answer.sheets.same(&round.sheets);
            ensure(untouched, "a round of no game writes to its sheets")?;
            return Ok(Mark::Other);
        };
        let sizes = sizes_for(&games_of(before), game);
        let places = answer.count * (sizes.a + sizes.b);
        written_alone(round, answer, places)?;
        let seated = &answer.sheets.players[..places];
        let own = entries_for(before.booked(), game);
        let waits = |guest| own.iter().any(|entry| entry.player == guest);
        ensure(!doubled(seated), "a guest is seated twice in a round")?;
        ensure(
            seated.iter().all(|&guest| waits(guest)),
            "a guest is seated who does not wait for the game",
        )?;
        ensure(
            of_others(before, game).same(&of_others(after, game)),
            "a round changes another game's bookings",
        )?;
        best_of_all(round, answer.count, seated, before)?;
        self.seated += places;
        self.waiting
            .retain(|booking| !seated.contains(&booking.player));
        Ok(Mark::Other)
    }

    /// Nobody appears or vanishes otherwise.
    fn balance(&self, after: &Hall) -> Result<(), &'static str> {
        let waiting = after.booked();
        ensure(
            waiting.same(&self.waiting),
            "the queue is not that of those who wait, in the order booked",
        )?;
        ensure(
            self.accepted == waiting.len() + self.withdrawn + self.seated,
            "accepted is not waiting + withdrawn + seated",
        )?;
        let guests: Vec<u64> = waiting.iter().map(|booking| booking.player).collect();
        ensure(!doubled(&guests), "a guest waits twice")
    }

    /// Notes stay as they are, older ones too, and an original's is all that its key stands for; nothing else is noted.
    fn book_kept(
        &self,
        mark: Mark,
        answer: &Answer,
        before: &Hall,
        after: &Hall,
    ) -> Result<(), &'static str> {
        let kept = before.answered().eq(after.answered().take(before.noted));
        ensure(kept, "a note is dropped or changed")?;
        let own = (mark == Mark::Original && answer.refusal != OVER_LIMIT)
            .then(|| self.originals.last().map(Note::stored));
        let noted = after.answered().skip(before.noted);
        ensure(
            noted.eq(own.flatten()),
            "what is noted is not the call and its answer",
        )
    }
}

/// Sizes never change, and the last game served is the one that the answer names, or as it was.
fn games_kept(answer: &Answer, before: &Hall, after: &Hall) -> Result<(), &'static str> {
    ensure(before.sizes == after.sizes, "a game's sizes change")?;
    let due = answer.served.or(game_in(before.served));
    ensure(
        game_in(after.served) == due,
        "the last game served is not the one that was served last",
    )
}

/// Just these seats, and as many qualities as matches, from 0.0 to 1.0; behind them the sheets are as they came.
fn written_alone(round: &Round, answer: &Answer, places: usize) -> Result<(), &'static str> {
    let (given, came) = (&answer.sheets, &round.sheets);
    let count = answer.count;
    ensure(
        places <= given.players.len() && count <= given.qualities.len(),
        "more seats than the sheets hold",
    )?;
    ensure(
        given.players[places..].same(&came.players[places..])
            && given.qualities[count..].same(&came.qualities[count..]),
        "a sheet is written to behind the seats of the game's matches",
    )?;
    let mut qualities = given.qualities[..count].iter();
    ensure(
        qualities.all(|quality| (0.0..=1.0).contains(quality)),
        "a quality is out of bounds",
    )
}

/// The bookings of all games but this one, in the order booked.
fn of_others(hall: &Hall, game: u8) -> Vec<Booking> {
    let others = hall.booked().iter().filter(|booking| booking.game != game);
    others.copied().collect()
}

/// A full round hands out at most one match, and one exactly when some choice passes: a passing one, and none scores higher.
fn best_of_all(
    round: &Round,
    count: usize,
    seated: &[u64],
    before: &Hall,
) -> Result<(), &'static str> {
    let Search::Full(game, full) = &round.search else {
        return Ok(());
    };
    let own = entries_for(before.booked(), *game);
    let sizes = sizes_for(&games_of(before), *game);
    let choice = Choice::of(Queue::of(&own), sizes, full);
    let weighed = choice.listed().into_iter().zip(choice.weighed());
    let passing = weighed.filter(|(_, (passes, _))| *passes);
    let passing: Vec<(ProposedMatch, f64)> = passing.map(|(m, (_, score))| (m, score)).collect();
    ensure(
        count == usize::from(!passing.is_empty()),
        "a full round's match is not there exactly when some choice passes",
    )?;
    let is_it = |m: &ProposedMatch| [m.a.seated(), m.b.seated()].concat() == seated;
    let mut handed_out = passing.iter().filter(|(m, _)| is_it(m));
    let highest = |score: f64| !passing.iter().any(|(_, other)| *other > score);
    ensure(
        count == 0 || handed_out.any(|(_, score)| highest(*score)),
        "a full round's match does not pass, or another scores higher",
    )
}

fn ensure(holds: bool, broken: &'static str) -> Result<(), &'static str> {
    if holds { Ok(()) } else { Err(broken) }
}
