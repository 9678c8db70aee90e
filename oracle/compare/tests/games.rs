//! Halls that break one rule of request 2.4 are found out: by the model, by demand 3, or by the games that wait in vain.

#[macro_use]
mod wrong;

use compare::data::{Answer, Call, GAMES, Round, Search};
use compare::lists::{Counter, Modelled};
use compare::model::CLOCK_LIMIT;
use compare::model::hall::{Hall as Model, no_such_game};
use wrong::{are_found, found, found_in_many, noted_now, run, said};
use yilgashe_sys::TeamComposition;

/// The games behind this one, and it itself as the eighth; from game 0, where there is none.
fn circle(last: Option<u8>) -> impl Iterator<Item = u8> {
    let first = last.map_or(0, |last| last + 1);
    (first..first + GAMES as u8).map(|turn| turn % GAMES as u8)
}

fn seats(hall: &Model, game: u8) -> usize {
    let TeamComposition { a, b } = hall.sizes(game);
    a + b
}

fn waiting(hall: &Model, game: u8) -> usize {
    hall.entries(game).len()
}

/// The greedy round of this game, by a dispatch, if there is one.
fn serves(hall: &mut Model, round: &Round, game: Option<u8>) -> Answer {
    let (Some(game), Search::Dispatch(columns)) = (game, &round.search) else {
        return Answer {
            sheets: round.sheets.clone(),
            ..Answer::default()
        };
    };
    let answer = hall.round(&Round {
        search: Search::Greedy(game, columns.clone()),
        ..round.clone()
    });
    hall.served = Some(game);
    Answer {
        served: Some(game),
        ..answer
    }
}

/// A dispatch that is not refused serves this game; all else is as it should be.
fn dispatches(hall: &mut Model, call: &Call, next: fn(&Model) -> Option<u8>) -> Answer {
    let mut before = hall.clone();
    let answer = hall.answer(call);
    match call.dispatch() {
        Some((round, _)) if answer.refusal == 0 => {
            let game = next(&before);
            let answer = serves(&mut before, round, game);
            *hall = before;
            answer
        }
        _ => answer,
    }
}

wrong!(
    StartsAtTheLast,
    hall,
    call,
    dispatches(hall, call, |hall| {
        let last = hall.served.into_iter();
        last.chain(circle(hall.served))
            .find(|game| hall.has_enough(*game))
    })
);

wrong!(
    StartsAtZero,
    hall,
    call,
    dispatches(hall, call, |hall| circle(None)
        .find(|game| hall.has_enough(*game)))
);

wrong!(
    GoesBackwards,
    hall,
    call,
    dispatches(hall, call, |hall| {
        let mut games: Vec<u8> = circle(hall.served).collect();
        games.reverse();
        games.into_iter().find(|game| hall.has_enough(*game))
    })
);

wrong!(
    NeverComesToTheLast,
    hall,
    call,
    dispatches(hall, call, |hall| {
        let mut games = circle(hall.served).take(GAMES - 1);
        games.find(|game| hall.has_enough(*game))
    })
);

wrong!(
    ServesTooFew,
    hall,
    call,
    dispatches(hall, call, |hall| circle(hall.served)
        .find(
            |game| seats(hall, *game) > 0 && waiting(hall, *game) + 1 >= seats(hall, *game)
        ))
);

wrong!(
    SkipsJustEnough,
    hall,
    call,
    dispatches(hall, call, |hall| circle(hall.served).find(|game| hall
        .has_enough(*game)
        && waiting(hall, *game) > seats(hall, *game)))
);

wrong!(
    ServesUnusedGames,
    hall,
    call,
    dispatches(hall, call, |hall| circle(hall.served)
        .find(
            |game| waiting(hall, *game) > 0 && waiting(hall, *game) >= seats(hall, *game)
        ))
);

wrong!(
    SkipsWhatFormsNothing,
    hall,
    call,
    dispatches(hall, call, |hall| circle(hall.served)
        .find(|game| hall.has_enough(*game) && hall.sizes(*game).a > 0))
);

wrong!(
    CountsGuestsOnce,
    hall,
    call,
    dispatches(hall, call, |hall| circle(hall.served).find(|game| {
        let entries = hall.entries(*game).into_iter();
        let mut guests: Vec<u64> = entries.map(|entry| entry.player).collect();
        guests.sort_unstable();
        guests.dedup();
        hall.has_enough(*game) && guests.len() >= seats(hall, *game)
    }))
);

wrong!(ForgetsTheLastServed, hall, call, {
    let before = hall.served;
    let answer = hall.answer(call);
    hall.served = before;
    answer
});

wrong!(NamesNoGame, hall, call, {
    let answer = hall.answer(call);
    Answer {
        served: None,
        ..answer
    }
});

wrong!(ForgetsWhereNoneHasEnough, hall, call, {
    let answer = hall.answer(call);
    if call.dispatch().is_some() && answer.refusal == 0 {
        hall.served = answer.served;
    }
    answer
});

wrong!(ServesByRoundsOfAGame, hall, call, {
    let answer = hall.answer(call);
    if let (Call::Round(round), 0) = (call, answer.refusal) {
        hall.served = round.game().or(hall.served);
    }
    answer
});

wrong!(ServesWhereItIsRefused, hall, call, {
    let next = (!hall.is_over()).then(|| hall.next_game()).flatten();
    let answer = hall.answer(call);
    if call.dispatch().is_some() && answer.refusal > 0 {
        hall.served = next.or(hall.served);
    }
    answer
});

wrong!(ChecksOnlyWhereOneHasEnough, hall, call, {
    let idle = !hall.is_over() && hall.next_game().is_none();
    match call.dispatch() {
        Some((round, _)) if idle => serves(hall, round, None),
        _ => hall.answer(call),
    }
});

wrong!(CountsAllGamesForTwenty, hall, call, {
    let before = hall.clone();
    let answer = hall.answer(call);
    let checked = [0, 5].contains(&answer.refusal);
    if call.full_round().is_none() || !checked || before.waiting.len() <= 20 {
        return answer;
    }
    *hall = before;
    Answer::refused(call, 6)
});

/// The answer on a hall that is changed for this call alone; whoever is seated leaves.
fn on_another(hall: &mut Model, call: &Call, change: impl FnOnce(&mut Model)) -> Answer {
    let mut other = hall.clone();
    change(&mut other);
    let answer = other.answer(call);
    let stays = |player| other.waiting.iter().any(|b| b.player == player);
    match call {
        Call::Round(_) => hall.waiting.retain(|booking| stays(booking.player)),
        _ => hall.waiting.clone_from(&other.waiting),
    }
    hall.notes = other.notes;
    hall.served = answer.served.or(hall.served);
    answer
}

wrong!(SeatsOtherGames, hall, call, {
    let game = match call {
        Call::Round(round) => round.game().filter(|game| !no_such_game(*game)),
        _ => None,
    };
    on_another(hall, call, |hall| {
        for booking in &mut hall.waiting {
            booking.game = game.unwrap_or(booking.game);
        }
    })
});

wrong!(PlaysWithTheSizesOfGameZero, hall, call, {
    let used = hall
        .games
        .sizes
        .map(|sizes| sizes != TeamComposition::default());
    match hall.is_over() {
        true => hall.answer(call),
        false => on_another(hall, call, |hall| {
            let first = hall.games.sizes[0];
            for (sizes, used) in hall.games.sizes.iter_mut().zip(used) {
                if used {
                    *sizes = first;
                }
            }
        }),
    }
});

wrong!(LooksForLateGuestsInItsGameAlone, hall, call, {
    let game = match call {
        Call::Round(round) => round.game(),
        _ => None,
    };
    on_another(hall, call, |hall| {
        let others = hall
            .waiting
            .iter_mut()
            .filter(|b| game.is_some_and(|game| b.game != game));
        others.for_each(|booking| booking.joined = booking.joined.min(CLOCK_LIMIT));
    })
});

wrong!(TakesSizesOfGamesThatNobodyWaitsFor, hall, call, {
    on_another(hall, call, |hall| {
        for game in 0..GAMES as u8 {
            if hall.entries(game).is_empty() && call.game() != Some(game) {
                hall.games.sizes[usize::from(game)] = TeamComposition::default();
            }
        }
    })
});

wrong!(TakesAnyNumberForTheLastServed, hall, call, {
    on_another(hall, call, |hall| {
        hall.served = hall.served.filter(|game| !no_such_game(*game));
    })
});

wrong!(LeavesOtherGamesBookings, hall, call, {
    let before = hall.waiting.clone();
    let answer = hall.answer(call);
    if let (Call::Round(round), 1..) = (call, answer.count) {
        let game = round.played(&answer);
        let seated = |player| !hall.waiting.iter().any(|b| b.player == player);
        let mut stay = before;
        stay.retain(|b| Some(b.game) != game || !seated(b.player));
        hall.waiting = stay;
    }
    answer
});

wrong!(ForgetsThirteen, hall, call, {
    let answer = hall.answer(call);
    if answer.refusal == 13 && call.key().is_some() {
        hall.notes.pop_if(|note| Some(note.key) == call.key());
    }
    answer
});

wrong!(NineByGame, hall, call, {
    let noted = hall.notes.len();
    let answer = hall.answer(call);
    let (Call::Book { booking, .. }, 9) = (call, answer.refusal) else {
        return answer;
    };
    let mut own = hall.entries(booking.game).into_iter();
    if own.any(|entry| entry.player == booking.player) || hall.waiting.len() == 64 {
        return answer;
    }
    match noted_now(noted, hall) {
        None => answer,
        Some(note) => {
            note.answer = 0;
            hall.waiting.push(*booking);
            Answer::keyed(0)
        }
    }
});

wrong!(FourBeforeThirteen, hall, call, {
    let noted = hall.notes.len();
    let answer = hall.answer(call);
    match (call, answer.refusal, noted_now(noted, hall)) {
        (Call::Book { booking, .. }, 13, Some(note)) if booking.joined > CLOCK_LIMIT => {
            note.answer = 4;
            Answer::keyed(4)
        }
        _ => answer,
    }
});

wrong!(NineBeforeThirteen, hall, call, {
    let noted = hall.notes.len();
    let answer = hall.answer(call);
    let waits = |player| hall.waiting.iter().any(|b| b.player == player);
    match call {
        Call::Book { booking, .. } if answer.refusal == 13 && waits(booking.player) => {
            match noted_now(noted, hall) {
                None => answer,
                Some(note) => {
                    note.answer = 9;
                    Answer::keyed(9)
                }
            }
        }
        _ => answer,
    }
});

wrong!(TakesNoUnusedGame, hall, call, {
    let noted = hall.notes.len();
    let answer = hall.answer(call);
    let unused = call
        .game()
        .is_some_and(|game| hall.sizes(game) == TeamComposition::default());
    match (call, answer.refusal) {
        (Call::Book { .. }, 0) if unused && hall.notes.len() > noted => {
            hall.waiting.pop();
            noted_now(noted, hall).expect("a note").answer = 13;
            Answer::keyed(13)
        }
        _ => answer,
    }
});

wrong!(OneBeforeThirteen, hall, call, {
    let over = hall.is_over();
    let answer = hall.answer(call);
    match answer.refusal {
        13 if over => Answer::refused(call, 1),
        _ => answer,
    }
});

wrong!(KindsBeforeThirteen, hall, call, {
    let answer = hall.answer(call);
    let odd = call.full_round().is_some_and(|(_, full)| {
        let mut listed = full.objectives.listed();
        listed.any(|(kind, _)| kind > 2)
    });
    match answer.refusal {
        13 if odd => Answer::refused(call, 1),
        _ => answer,
    }
});

/// As the program says it, and fails.
#[test]
fn what_few_calls_miss_is_named() {
    let (counts, _) = run::<Modelled, Modelled>(100);
    let missing = counts.missing();
    for name in [
        "8 in book",
        "4 by another game, before 6",
        "dispatch, past game 7",
        "7 by the bits of a NaN",
    ] {
        assert!(missing.iter().any(|missed| missed == name), "{missing:?}");
    }
}

#[test]
fn other_turns_are_found_out() {
    are_found(&[
        ("starts at the last", found::<StartsAtTheLast>()),
        ("starts at game 0", found::<StartsAtZero>()),
        ("goes backwards", found::<GoesBackwards>()),
        ("never the last", found::<NeverComesToTheLast>()),
        ("serves too few", found::<ServesTooFew>()),
        ("skips just enough", found::<SkipsJustEnough>()),
        ("serves unused games", found::<ServesUnusedGames>()),
        ("skips 0+B", found::<SkipsWhatFormsNothing>()),
        ("counts guests once", found::<CountsGuestsOnce>()),
        ("forgets the last served", found::<ForgetsTheLastServed>()),
        ("names no game", found::<NamesNoGame>()),
        ("none forgets", found::<ForgetsWhereNoneHasEnough>()),
        ("rounds of a game serve", found::<ServesByRoundsOfAGame>()),
        ("refused ones serve", found::<ServesWhereItIsRefused>()),
        ("checks late", found::<ChecksOnlyWhereOneHasEnough>()),
    ]);
}

#[test]
fn other_rules_for_games_are_found_out() {
    are_found(&[
        (
            "20 of all games",
            found_in_many::<CountsAllGamesForTwenty>(),
        ),
        ("seats other games", found::<SeatsOtherGames>()),
        ("sizes of game 0", found::<PlaysWithTheSizesOfGameZero>()),
        (
            "late in its game",
            found::<LooksForLateGuestsInItsGameAlone>(),
        ),
        (
            "sizes in use",
            found::<TakesSizesOfGamesThatNobodyWaitsFor>(),
        ),
        ("any last served", found::<TakesAnyNumberForTheLastServed>()),
        ("other bookings stay", found::<LeavesOtherGamesBookings>()),
        ("13 is not noted", found::<ForgetsThirteen>()),
        ("9 by game", found::<NineByGame>()),
        ("4 before 13", found::<FourBeforeThirteen>()),
        ("9 before 13", found::<NineBeforeThirteen>()),
        ("no unused game", found::<TakesNoUnusedGame>()),
        ("1 before 13", found::<OneBeforeThirteen>()),
        ("kinds before 13", found_in_many::<KindsBeforeThirteen>()),
    ]);
}

/// How many lists have a game that waits in vain.
fn unfair<L: Counter>() -> usize {
    said::<L>(24_000, &["fairness"])
}

/// Where there is no model to compare with.
#[test]
fn games_that_wait_in_vain_are_found() {
    are_found(&[
        ("starts at the last", unfair::<StartsAtTheLast>()),
        ("starts at game 0", unfair::<StartsAtZero>()),
        ("goes backwards", unfair::<GoesBackwards>()),
        ("skips just enough", unfair::<SkipsJustEnough>()),
        ("skips 0+B", unfair::<SkipsWhatFormsNothing>()),
    ]);
    assert_eq!(unfair::<Modelled>(), 0);
}

/// How many lists break demand 3.
fn broken<L: Counter>() -> usize {
    said::<L>(8000, &["demand 3", "without resends"])
}

#[test]
fn demand_3_finds_what_breaks_it_in_games() {
    are_found(&[
        ("seats other games", broken::<SeatsOtherGames>()),
        ("sizes of game 0", broken::<PlaysWithTheSizesOfGameZero>()),
        ("13 is not noted", broken::<ForgetsThirteen>()),
        ("9 by game", broken::<NineByGame>()),
        ("forgets the last served", broken::<ForgetsTheLastServed>()),
        ("rounds of a game serve", broken::<ServesByRoundsOfAGame>()),
        ("refused ones serve", broken::<ServesWhereItIsRefused>()),
    ]);
    assert_eq!(broken::<Modelled>(), 0);
}
