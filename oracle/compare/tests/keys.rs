//! Halls that break one rule of request 2.5 are found out: by the model, or by demand 3 alone.

#[macro_use]
mod wrong;

use compare::data::{Answer, Call};
use compare::lists::{Counter, Modelled};
use compare::model::hall::{Asked, Hall as Model, Kind, Note, guest_alone, no_such_game};
use compare::model::{CLOCK_LIMIT, OVER_LIMIT};
use wrong::{are_found, found, found_in_many, noted_now, said};
use yilgashe_sys::Booking;

/// What is noted beside the call's key.
fn noted<'a>(hall: &'a mut Model, call: &Call) -> Option<&'a mut Note> {
    let mut notes = hall.notes.iter_mut();
    notes.find(|note| Some(note.key) == call.key())
}

/// A booking under a noted key is answered by its note as this makes it.
fn hears(hall: &mut Model, call: &Call, other: impl Fn(&mut Note, &Booking)) -> Answer {
    let known = noted(hall, call).copied();
    let answer = hall.answer(call);
    let (Call::Book { booking, .. }, Some(mut note)) = (call, known) else {
        return answer;
    };
    if answer.refusal == OVER_LIMIT {
        return answer;
    }
    other(&mut note, booking);
    let heard = note.is_readable() && note.asked.stands_for(&Asked::booking(*booking));
    Answer::keyed(if heard { note.answer } else { 7 })
}

/// A whole booking's note takes this over from the booking, and so does not tell them apart by it.
fn leaves_out(hall: &mut Model, call: &Call, field: fn(&mut Booking, &Booking)) -> Answer {
    hears(hall, call, |note, booking| {
        if note.asked.kind == Kind::Booking {
            field(&mut note.asked.booking, booking);
        }
    })
}

wrong!(
    StandsForTheGuest,
    hall,
    call,
    leaves_out(hall, call, |held, now| *held = Booking {
        player: held.player,
        ..*now
    })
);

wrong!(
    LeavesOutTheGuest,
    hall,
    call,
    leaves_out(hall, call, |held, now| held.player = now.player)
);

wrong!(
    LeavesOutTheGame,
    hall,
    call,
    leaves_out(hall, call, |held, now| held.game = now.game)
);

wrong!(
    LeavesOutTheTime,
    hall,
    call,
    leaves_out(hall, call, |held, now| held.joined = now.joined)
);

wrong!(
    LeavesOutTheRating,
    hall,
    call,
    leaves_out(hall, call, |held, now| held.rating_bits = now.rating_bits)
);

wrong!(
    LeavesOutTheParty,
    hall,
    call,
    leaves_out(hall, call, |held, now| held.party = now.party)
);

wrong!(
    LeavesOutTheRole,
    hall,
    call,
    leaves_out(hall, call, |held, now| held.role = now.role)
);

wrong!(
    LooksAtHalfOfTheGuest,
    hall,
    call,
    leaves_out(hall, call, |held, now| {
        let low = u64::from(u32::MAX);
        held.player = held.player & low | now.player & !low;
    })
);

fn rating(booking: &Booking) -> f64 {
    f64::from_bits(booking.rating_bits)
}

wrong!(
    ZerosAreAlike,
    hall,
    call,
    leaves_out(hall, call, |held, now| {
        if rating(held) == 0.0 && rating(now) == 0.0 {
            held.rating_bits = now.rating_bits;
        }
    })
);

wrong!(
    NansAreAlike,
    hall,
    call,
    leaves_out(hall, call, |held, now| {
        if rating(held).is_nan() && rating(now).is_nan() {
            held.rating_bits = now.rating_bits;
        }
    })
);

wrong!(
    ANanIsNeverAlike,
    hall,
    call,
    leaves_out(hall, call, |held, now| {
        if rating(now).is_nan() {
            held.rating_bits = !now.rating_bits;
        }
    })
);

/// A booking that is refused by itself is refused so, whatever its key.
fn checks_first(hall: &mut Model, call: &Call, refusal: u8, bad: fn(&Booking) -> bool) -> Answer {
    let known = noted(hall, call).is_some();
    let answer = hall.answer(call);
    match call {
        Call::Book { booking, .. } if known && answer.refusal == 7 && bad(booking) => {
            Answer::keyed(refusal)
        }
        _ => answer,
    }
}

wrong!(
    ThirteenBeforeSeven,
    hall,
    call,
    checks_first(hall, call, 13, |booking| no_such_game(booking.game))
);

wrong!(
    FourBeforeSeven,
    hall,
    call,
    checks_first(hall, call, 4, |booking| booking.joined > CLOCK_LIMIT)
);

/// What a call notes is this instead.
fn notes(hall: &mut Model, call: &Call, other: impl Fn(&mut Note)) -> Answer {
    let noted = hall.notes.len();
    let answer = hall.answer(call);
    if let Some(note) = noted_now(noted, hall) {
        other(note);
    }
    answer
}

/// As it was before the request.
fn older(note: &mut Note) {
    if note.asked.kind == Kind::Booking {
        note.asked.kind = Kind::Older;
        note.asked.booking = guest_alone(note.asked.booking.player);
    }
}

wrong!(NotesTheGuest, hall, call, notes(hall, call, older));

wrong!(
    NotesTheGuestOfTheRefused,
    hall,
    call,
    notes(hall, call, |note| {
        if note.answer > 0 {
            older(note);
        }
    })
);

wrong!(
    NotesOneNan,
    hall,
    call,
    notes(hall, call, |note| {
        if rating(&note.asked.booking).is_nan() {
            note.asked.booking.rating_bits = f64::NAN.to_bits();
        }
    })
);

wrong!(
    NotesNoSignOfZero,
    hall,
    call,
    notes(hall, call, |note| {
        if rating(&note.asked.booking) == 0.0 {
            note.asked.booking.rating_bits = 0;
        }
    })
);

wrong!(
    NotesNoGameAsNone,
    hall,
    call,
    notes(hall, call, |note| {
        if no_such_game(note.asked.booking.game) {
            note.asked.booking.game = u8::MAX;
        }
    })
);

wrong!(NotesTheBookingOfAWithdrawal, hall, call, {
    let before = hall.waiting.clone();
    notes(hall, call, |note| {
        let own = |booking: &&Booking| booking.player == note.asked.booking.player;
        if let (Kind::Withdrawal, Some(booking)) = (note.asked.kind, before.iter().find(own)) {
            note.asked.booking = *booking;
        }
    })
});

/// Whoever comes waits with this rating instead.
fn waits_with(hall: &mut Model, call: &Call, other: fn(f64) -> f64) -> Answer {
    let waiting = hall.waiting.len();
    let answer = hall.answer(call);
    if hall.waiting.len() > waiting
        && let Some(last) = hall.waiting.last_mut()
    {
        last.rating_bits = other(rating(last)).to_bits();
    }
    answer
}

wrong!(
    WaitsWithOneNan,
    hall,
    call,
    waits_with(hall, call, |rating| match rating.is_nan() {
        true => f64::NAN,
        false => rating,
    })
);

wrong!(
    WaitsWithoutTheSignOfZero,
    hall,
    call,
    waits_with(hall, call, |rating| match rating == 0.0 {
        true => 0.0,
        false => rating,
    })
);

wrong!(NotesTheChange, hall, call, {
    let answer = hall.answer(call);
    if let (Call::Book { booking, .. }, 7) = (call, answer.refusal)
        && let Some(note) = noted(hall, call)
        && note.asked.kind == Kind::Booking
    {
        note.asked.booking = *booking;
    }
    answer
});

wrong!(TakesTheChange, hall, call, {
    let answer = hall.answer(call);
    if let (Call::Book { booking, .. }, 7) = (call, answer.refusal) {
        let own = hall.waiting.iter_mut().find(|b| b.player == booking.player);
        if let Some(own) = own {
            own.rating_bits = booking.rating_bits;
        }
    }
    answer
});

/// A booking under an older note's key is answered by it as this makes it.
fn hears_older(hall: &mut Model, call: &Call, other: impl Fn(&mut Note, &Booking)) -> Answer {
    hears(hall, call, |note, booking| {
        if note.asked.kind == Kind::Older {
            other(note, booking);
        }
    })
}

wrong!(
    OlderNotesStandForWholeBookings,
    hall,
    call,
    hears_older(hall, call, |note, _| note.asked.kind = Kind::Booking)
);

wrong!(
    OlderNotesStandForNothing,
    hall,
    call,
    hears_older(hall, call, |note, _| note.asked.kind = Kind::Neither(2))
);

wrong!(
    OlderNotesStandForAnybody,
    hall,
    call,
    hears_older(hall, call, |note, booking| note.asked.booking = *booking)
);

wrong!(
    OlderNotesStandForGamesAlone,
    hall,
    call,
    hears_older(hall, call, |note, booking| {
        if no_such_game(booking.game) && note.answer < 13 {
            note.answer = 13;
        }
    })
);

wrong!(
    OlderNotesStandForThoseInTime,
    hall,
    call,
    hears_older(hall, call, |note, booking| {
        if booking.joined > CLOCK_LIMIT && note.answer == 0 {
            note.answer = 4;
        }
    })
);

wrong!(
    OlderNotesSayAnything,
    hall,
    call,
    hears(hall, call, |note, booking| {
        if note.asked.kind == Kind::Older && !note.is_readable() {
            note.asked.kind = Kind::Booking;
            note.asked.booking = *booking;
            note.answer = 0;
        }
    })
);

wrong!(
    NotesOfNoKindAreOlder,
    hall,
    call,
    hears(hall, call, |note, _| {
        if let Kind::Neither(_) = note.asked.kind {
            note.asked.kind = Kind::Older;
        }
    })
);

wrong!(OlderNotesStandForWithdrawals, hall, call, {
    let known = noted(hall, call).copied();
    let answer = hall.answer(call);
    match (call, known) {
        (Call::Withdraw { player, .. }, Some(note))
            if answer.refusal == 7
                && note.asked.kind == Kind::Older
                && note.asked.booking.player == *player =>
        {
            Answer::keyed(note.answer)
        }
        _ => answer,
    }
});

wrong!(OlderNotesBecomeWhole, hall, call, {
    let answer = hall.answer(call);
    if let Call::Book { booking, .. } = call
        && ![OVER_LIMIT, 7].contains(&answer.refusal)
        && let Some(note) = noted(hall, call)
    {
        note.asked = Asked::booking(*booking);
    }
    answer
});

wrong!(OlderNotesAreForgotten, hall, call, {
    if let Call::Book { .. } = call
        && !hall.is_over()
        && noted(hall, call).is_some_and(|note| note.asked.kind == Kind::Older)
    {
        hall.notes.retain(|note| Some(note.key) != call.key());
    }
    hall.answer(call)
});

wrong!(WithdrawalsAreHeldWhole, hall, call, {
    let known = noted(hall, call).copied();
    let answer = hall.answer(call);
    match (call, known) {
        (Call::Withdraw { player, .. }, Some(note))
            if answer.refusal != OVER_LIMIT && note.asked != Asked::withdrawal(*player) =>
        {
            Answer::keyed(7)
        }
        _ => answer,
    }
});

#[test]
fn keys_that_stand_for_less_or_more_are_found_out() {
    are_found(&[
        ("guest alone", found::<StandsForTheGuest>()),
        ("all but the guest", found::<LeavesOutTheGuest>()),
        ("all but the game", found::<LeavesOutTheGame>()),
        ("all but the time", found::<LeavesOutTheTime>()),
        ("all but the rating", found::<LeavesOutTheRating>()),
        ("all but the party", found::<LeavesOutTheParty>()),
        ("all but the role", found::<LeavesOutTheRole>()),
        (
            "half of the guest",
            found_in_many::<LooksAtHalfOfTheGuest>(),
        ),
        ("equal zeros", found::<ZerosAreAlike>()),
        ("equal NaNs", found::<NansAreAlike>()),
        ("no equal NaNs", found::<ANanIsNeverAlike>()),
        ("13 before 7", found::<ThirteenBeforeSeven>()),
        ("4 before 7", found::<FourBeforeSeven>()),
        ("notes the change", found::<NotesTheChange>()),
        ("takes the change", found::<TakesTheChange>()),
    ]);
}

#[test]
fn notes_of_less_or_more_are_found_out() {
    are_found(&[
        ("the guest", found::<NotesTheGuest>()),
        ("the refused guest", found::<NotesTheGuestOfTheRefused>()),
        ("one NaN", found::<NotesOneNan>()),
        ("no sign of zero", found::<NotesNoSignOfZero>()),
        ("no game as none", found::<NotesNoGameAsNone>()),
        (
            "what a guest leaves",
            found::<NotesTheBookingOfAWithdrawal>(),
        ),
        ("waits with one NaN", found::<WaitsWithOneNan>()),
        ("waits without a sign", found::<WaitsWithoutTheSignOfZero>()),
    ]);
}

#[test]
fn other_rules_for_older_notes_are_found_out() {
    are_found(&[
        ("whole", found::<OlderNotesStandForWholeBookings>()),
        ("nothing", found::<OlderNotesStandForNothing>()),
        ("anybody", found_in_many::<OlderNotesStandForAnybody>()),
        ("games alone", found::<OlderNotesStandForGamesAlone>()),
        (
            "in time alone",
            found_in_many::<OlderNotesStandForThoseInTime>(),
        ),
        ("any answer", found_in_many::<OlderNotesSayAnything>()),
        ("no kind", found::<NotesOfNoKindAreOlder>()),
        ("withdrawals", found::<OlderNotesStandForWithdrawals>()),
        ("become whole", found::<OlderNotesBecomeWhole>()),
        ("are forgotten", found::<OlderNotesAreForgotten>()),
        (
            "whole withdrawals",
            found_in_many::<WithdrawalsAreHeldWhole>(),
        ),
    ]);
}

/// How many lists of so many calls break demand 3.
fn broken<L: Counter>(calls: u64) -> usize {
    said::<L>(calls, &["demand 3", "without resends"])
}

/// With no model to compare with. Lists from a kept hall are two of sixteen.
#[test]
fn demand_3_finds_what_breaks_it_in_keys() {
    are_found(&[
        ("guest alone", broken::<StandsForTheGuest>(4000)),
        ("all but the role", broken::<LeavesOutTheRole>(4000)),
        ("equal zeros", broken::<ZerosAreAlike>(16_000)),
        ("equal NaNs", broken::<NansAreAlike>(16_000)),
        ("no equal NaNs", broken::<ANanIsNeverAlike>(8000)),
        ("13 before 7", broken::<ThirteenBeforeSeven>(4000)),
        ("4 before 7", broken::<FourBeforeSeven>(4000)),
        ("notes the guest", broken::<NotesTheGuest>(4000)),
        ("notes one NaN", broken::<NotesOneNan>(4000)),
        ("notes the change", broken::<NotesTheChange>(4000)),
        ("takes the change", broken::<TakesTheChange>(4000)),
        (
            "what a guest leaves",
            broken::<NotesTheBookingOfAWithdrawal>(4000),
        ),
        ("waits with one NaN", broken::<WaitsWithOneNan>(4000)),
        (
            "whole older ones",
            broken::<OlderNotesStandForWholeBookings>(16_000),
        ),
        (
            "older ones for anybody",
            broken::<OlderNotesStandForAnybody>(16_000),
        ),
        (
            "older ones become whole",
            broken::<OlderNotesBecomeWhole>(16_000),
        ),
        (
            "older ones are forgotten",
            broken::<OlderNotesAreForgotten>(16_000),
        ),
    ]);
    assert_eq!(broken::<Modelled>(8000), 0);
}
