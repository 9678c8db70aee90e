//! The hall's lists: what they reach, and that halls which keep other rules are found out.

#[macro_use]
mod wrong;

use compare::data::{Answer, Call, FullRound, Round};
use compare::lists::{Counter, Library, Modelled, Windows};
use compare::model::hall::{Asked, Hall as Model, Kind, Note};
use compare::model::{Choice, Greedy, Rule, earlier_place, friends_seated, longer_wait};
use wrong::{are_found, found, found_in_many, run, said};
use yilgashe_sys::{Booking, ProposedMatch, Queue, QueueEntry, TeamComposition};

#[test]
fn every_refusal_and_every_sort_of_round_is_reached() {
    let (counts, differences) = run::<Library, Modelled>(20_000);
    assert_eq!(differences, [""; 0]);
    for number in (1..=11).chain([13]) {
        assert!(counts.refused(number) > 20, "{number}\n{}", counts.lines());
    }
    assert_eq!(counts.refused(12), 0);
    assert_eq!(counts.missing(), [""; 0], "{}", counts.lines());
    let Windows { all, kept, tight } = counts.windows;
    assert!(
        all > kept && kept > 100 && tight > 5,
        "{all} {kept} {tight}"
    );
    assert!(counts.lists > 50 && counts.resends > 1000 && counts.matches() > 1000);
    assert!(counts.changed > 1000, "{}", counts.changed);
    for held in [counts.held, counts.held_single] {
        assert!(held.rust > 100 && held.model > 100, "{held:?}");
        assert!(held.parted > 30 && held.parted < held.model, "{held:?}");
    }
    for friends in [counts.befriended, counts.befriended_single] {
        assert!(friends.brought > 200 && friends.both > 30, "{friends:?}");
        assert!(
            friends.parted > 30 && friends.parted < friends.brought,
            "{friends:?}"
        );
    }
    assert_eq!(counts.befriended.twofold, 0);
    assert!(counts.befriended_single.twofold > 20);
}

wrong!(BooksResends, hall, call, {
    let (known, noted) = (hall.notes.clone(), hall.notes.len());
    let answer = hall.answer(call);
    if let (Call::Book { key, booking }, 0) = (call, answer.refusal)
        && known.iter().any(|note| note.key == *key)
        && noted == hall.notes.len()
        && hall.waiting.len() < 64
    {
        hall.waiting.push(*booking);
    }
    answer
});

wrong!(ForgetsRefusalNine, hall, call, {
    let answer = hall.answer(call);
    if answer.refusal == 9 {
        hall.notes.pop_if(|note| note.answer == 9);
    }
    answer
});

wrong!(NotesClashes, hall, call, {
    let answer = hall.answer(call);
    if let (Call::Withdraw { key, player }, 7) = (call, answer.refusal)
        && hall.notes.len() < 1024
    {
        hall.notes.push(Note {
            key: *key,
            asked: Asked::withdrawal(*player),
            answer: 7,
        });
    }
    answer
});

wrong!(HearsNotesOfNoCall, hall, call, {
    let first = |key| hall.notes.iter().find(|note| note.key == key).copied();
    let noted = call.key().and_then(first);
    let answer = hall.answer(call);
    match (call, noted) {
        (Call::Withdraw { player, .. }, Some(note))
            if note.asked.kind != Kind::Booking && note.asked.booking.player == *player =>
        {
            Answer::keyed(note.answer)
        }
        _ => answer,
    }
});

wrong!(StoresNothing, hall, call, {
    let answer = hall.answer(call);
    if let (Call::Book { .. }, 0) = (call, answer.refusal) {
        hall.waiting.pop();
    }
    answer
});

wrong!(
    TakesTheFirstOfEqualBest,
    hall,
    call,
    hands_out(hall, call, |score, best| score > best)
);

wrong!(
    TakesTheWorst,
    hall,
    call,
    hands_out(hall, call, |score, best| score < best)
);

/// Where a full round hands out a match: the passing choice that no later one `beats`.
fn hands_out(hall: &mut Model, call: &Call, beats: fn(f64, f64) -> bool) -> Answer {
    let before = hall.clone();
    let answer = hall.answer(call);
    let (Some((round, full)), 1..) = (call.full_round(), answer.count) else {
        return answer;
    };
    let choice = choice(&before, round, full);
    let weighed = choice.listed().into_iter().zip(choice.weighed());
    let passing = weighed.filter(|(_, (passes, _))| *passes);
    let kept = passing.reduce(|kept, next| {
        if beats(next.1.1, kept.1.1) {
            next
        } else {
            kept
        }
    });
    let teams = kept.map(|(teams, _)| teams);
    seats(hall, before.waiting, round, answer, teams)
}

/// What a full round of a game chooses from.
fn choice(hall: &Model, round: &Round, full: &FullRound) -> Choice {
    let game = round.game().expect("a full round names its game");
    Choice::of(Queue::of(&hall.entries(game)), hall.sizes(game), full)
}

/// The answer of a full round, and the hall, with these teams seated in place of its own.
fn seats(
    hall: &mut Model,
    mut waiting: Vec<Booking>,
    round: &Round,
    answer: Answer,
    teams: Option<ProposedMatch>,
) -> Answer {
    let mut sheets = round.sheets.clone();
    if let Some(teams) = teams {
        let seated = players(&teams);
        sheets.players[..seated.len()].copy_from_slice(&seated);
        sheets.qualities[0] = 0.0;
        waiting.retain(|booking| !seated.contains(&booking.player));
    }
    hall.waiting = waiting;
    Answer {
        count: usize::from(teams.is_some()),
        sheets,
        ..answer
    }
}

fn players(teams: &ProposedMatch) -> Vec<u64> {
    [teams.a.seated(), teams.b.seated()].concat()
}

wrong!(
    PartsFriends,
    hall,
    call,
    chooses(hall, call, |choice| choice.waiting_friends = false)
);

wrong!(
    FriendsByTheRoster,
    hall,
    call,
    chooses(hall, call, |choice| {
        let rows = &choice.rows;
        for entry in &mut choice.queue.entries {
            let row = rows.ids.iter().position(|id| *id == entry.player);
            entry.party = row.map_or(0, |row| rows.parties()[row]);
        }
    })
);

wrong!(
    PartyZeroMakesFriends,
    hall,
    call,
    chooses(hall, call, |choice| {
        let alone = choice.queue.entries.iter_mut().filter(|e| e.party == 0);
        alone.for_each(|entry| entry.party = u64::MAX - 1);
    })
);

wrong!(
    FirstEntriesMakeFriends,
    hall,
    call,
    chooses(hall, call, |choice| {
        let mut known = Vec::new();
        for entry in &mut choice.queue.entries {
            if known.contains(&entry.player) {
                entry.party = 0;
            }
            known.push(entry.player);
        }
    })
);

wrong!(
    FriendsInPlaceOfParties,
    hall,
    call,
    chooses(hall, call, |choice| {
        choice.constraints.brought.parties = false;
    })
);

wrong!(
    PartiesInPlaceOfFriends,
    hall,
    call,
    chooses(hall, call, |choice| {
        choice.waiting_friends = !choice.constraints.brought.parties;
    })
);

/// A full round that brings waiting friends, and chooses with one thing changed.
fn chooses(hall: &mut Model, call: &Call, change: fn(&mut Choice)) -> Answer {
    befriended(hall, call, |mut choice| {
        change(&mut choice);
        choice.best().flatten()
    })
}

wrong!(
    FriendsOfTeamA,
    hall,
    call,
    keeps(hall, call, |waiting, teams| {
        let seated = players(teams);
        let calls = |entry: &&QueueEntry| {
            teams.a.seated().contains(&entry.player) || !seated.contains(&entry.player)
        };
        let heard: Vec<QueueEntry> = waiting.iter().filter(calls).copied().collect();
        friends_seated(&heard, &seated)
    })
);

wrong!(
    FriendsInOneTeam,
    hall,
    call,
    keeps(hall, call, |waiting, teams| {
        [teams.a, teams.b]
            .iter()
            .all(|team| friends_seated(waiting, team.seated()))
    })
);

wrong!(
    OneFriendIsEnough,
    hall,
    call,
    keeps(hall, call, |waiting, teams| {
        let seated = players(teams);
        let friends = |one: &QueueEntry| -> Vec<u64> {
            let others = waiting
                .iter()
                .filter(|e| e.party == one.party && one.party != 0);
            let others = others.map(|entry| entry.player);
            others.filter(|player| *player != one.player).collect()
        };
        let sits = |entry: &&QueueEntry| seated.contains(&entry.player);
        waiting.iter().filter(sits).all(|entry| {
            let friends = friends(entry);
            friends.is_empty() || friends.iter().any(|friend| seated.contains(friend))
        })
    })
);

wrong!(FriendsOfAllGames, hall, call, {
    let all: Vec<QueueEntry> = hall.waiting.iter().map(Booking::entry).collect();
    befriended(hall, call, |choice| {
        best_where(choice, |_, teams| friends_seated(&all, &players(teams)))
    })
});

/// A full round that brings waiting friends, and keeps them together by another rule.
fn keeps(hall: &mut Model, call: &Call, rule: fn(&[QueueEntry], &ProposedMatch) -> bool) -> Answer {
    befriended(hall, call, |choice| best_where(choice, rule))
}

/// The last of equal best that pass without waiting friends, and by this rule.
fn best_where(
    mut choice: Choice,
    rule: impl Fn(&[QueueEntry], &ProposedMatch) -> bool,
) -> Option<ProposedMatch> {
    choice.waiting_friends = false;
    let weighed = choice.listed().into_iter().zip(choice.weighed());
    let kept = weighed.filter(|(m, (passes, _))| *passes && rule(choice.queue.waiting(), m));
    let best = kept.reduce(|best, next| if next.1.1 < best.1.1 { best } else { next });
    best.map(|(teams, _)| teams)
}

/// Where a full round that brings waiting friends is not refused: with what `best` makes of its choice.
fn befriended(
    hall: &mut Model,
    call: &Call,
    best: impl FnOnce(Choice) -> Option<ProposedMatch>,
) -> Answer {
    let before = hall.clone();
    let answer = hall.answer(call);
    match (call.full_round(), answer.refusal) {
        (Some((round, full)), 0) if full.rules.waiting_friends => {
            let best = best(choice(&before, round, full));
            seats(hall, before.waiting, round, answer, best)
        }
        _ => answer,
    }
}

wrong!(
    TiesGoByPlace,
    hall,
    call,
    picks_by(hall, call, earlier_place)
);

wrong!(
    TiesGoToTheShorterWait,
    hall,
    call,
    picks_by(hall, call, |one, other| {
        let swapped = longer_wait(other, one);
        one.distance.total_cmp(&other.distance).then(swapped)
    })
);

wrong!(
    WaitGoesBeforeDistance,
    hall,
    call,
    picks_by(hall, call, |one, other| {
        let times = one.joined.cmp(&other.joined);
        times.then(longer_wait(one, other))
    })
);

/// A greedy round, or a dispatch, that picks by this rule.
fn picks_by(hall: &mut Model, call: &Call, rule: Rule) -> Answer {
    let mut before = hall.clone();
    let answer = hall.answer(call);
    let Some((game, sizes)) = played(&before, call, &answer) else {
        return answer;
    };
    let Some((round, columns)) = call.greedy() else {
        return answer;
    };
    let search = Greedy {
        waiting: &before.entries(game),
        sizes,
        columns,
    };
    let (count, sheets) = search.laid_on(&round.sheets, rule);
    let seated = &sheets.players[..count * (sizes.a + sizes.b)];
    before
        .waiting
        .retain(|booking| !seated.contains(&booking.player));
    hall.waiting = before.waiting;
    Answer {
        count,
        sheets,
        ..answer
    }
}

/// The game of a round that was not refused, and its sizes.
fn played(before: &Model, call: &Call, answer: &Answer) -> Option<(u8, TeamComposition)> {
    let (Call::Round(round), 0) = (call, answer.refusal) else {
        return None;
    };
    let game = round.played(answer)?;
    Some((game, before.sizes(game)))
}

wrong!(RemovesOneEntryOfTheSeated, hall, call, {
    let mut before = hall.clone();
    let answer = hall.answer(call);
    if let Some((_, sizes)) = played(&before, call, &answer) {
        let seats = answer.count * (sizes.a + sizes.b);
        let waiting = &mut before.waiting;
        for player in &answer.sheets.players[..seats] {
            if let Some(place) = waiting.iter().position(|b| b.player == *player) {
                waiting.remove(place);
            }
        }
        hall.waiting = before.waiting;
    }
    answer
});

wrong!(HandsOutNothingLater, hall, call, {
    let mut after = hall.clone();
    let answer = after.answer(call);
    let seated = hall.notes.len() > hall.waiting.len() + 5;
    match (call, answer.count) {
        (Call::Round(round), 1..) if seated => {
            hall.served = after.served;
            Answer {
                sheets: round.sheets.clone(),
                tried: answer.tried,
                served: answer.served,
                ..Answer::default()
            }
        }
        _ => {
            *hall = after;
            answer
        }
    }
});

wrong!(WritesBehindTheMatches, hall, call, {
    let mut answer = hall.answer(call);
    if let Some(last) = answer.sheets.players.last_mut() {
        *last = 0;
    }
    answer
});

/// Full rounds are few among the calls.
#[test]
fn other_rules_for_friends_are_found_out() {
    are_found(&[
        ("parts friends", found_in_many::<PartsFriends>()),
        ("by the roster", found_in_many::<FriendsByTheRoster>()),
        ("party 0", found_in_many::<PartyZeroMakesFriends>()),
        ("first entries", found_in_many::<FirstEntriesMakeFriends>()),
        (
            "in place of parties",
            found_in_many::<FriendsInPlaceOfParties>(),
        ),
        (
            "parties in place",
            found_in_many::<PartiesInPlaceOfFriends>(),
        ),
        ("of team A", found_in_many::<FriendsOfTeamA>()),
        ("in one team", found_in_many::<FriendsInOneTeam>()),
        ("one friend", found_in_many::<OneFriendIsEnough>()),
        ("of all games", found_in_many::<FriendsOfAllGames>()),
    ]);
}

#[test]
fn other_rules_are_found_out() {
    assert_eq!(found::<Modelled>(), 0);
    are_found(&[
        ("books resends", found::<BooksResends>()),
        ("forgets refusal 9", found::<ForgetsRefusalNine>()),
        ("notes clashes", found::<NotesClashes>()),
        ("hears notes of no call", found::<HearsNotesOfNoCall>()),
        ("stores nothing", found::<StoresNothing>()),
        ("first of equal best", found::<TakesTheFirstOfEqualBest>()),
        ("worst choice", found::<TakesTheWorst>()),
        (
            "one entry of the seated",
            found::<RemovesOneEntryOfTheSeated>(),
        ),
        ("hands out nothing later", found::<HandsOutNothingLater>()),
        ("writes behind", found::<WritesBehindTheMatches>()),
        ("ties by place", found::<TiesGoByPlace>()),
        ("ties by shorter wait", found::<TiesGoToTheShorterWait>()),
        ("wait before distance", found::<WaitGoesBeforeDistance>()),
    ]);
}

/// In joining order alone, where ties by place are right.
#[test]
fn the_rust_finds_out_other_rules_for_picks() {
    fn parted<L: Counter>() -> usize {
        said::<L>(4000, &["the Rust answers otherwise"])
    }
    are_found(&[
        ("ties by shorter wait", parted::<TiesGoToTheShorterWait>()),
        ("wait before distance", parted::<WaitGoesBeforeDistance>()),
    ]);
    assert_eq!(parted::<TiesGoByPlace>(), 0);
}

/// How many lists break demand 3.
fn broken<L: Counter>() -> usize {
    said::<L>(8000, &["demand 3", "without resends"])
}

#[test]
fn demand_3_finds_what_breaks_it() {
    are_found(&[
        ("books resends", broken::<BooksResends>()),
        ("forgets refusal 9", broken::<ForgetsRefusalNine>()),
        ("notes clashes", broken::<NotesClashes>()),
        ("stores nothing", broken::<StoresNothing>()),
        ("worst choice", broken::<TakesTheWorst>()),
        ("parts friends", broken::<PartsFriends>()),
        ("hands out nothing later", broken::<HandsOutNothingLater>()),
    ]);
    // Any of the highest meets it.
    assert_eq!(broken::<TakesTheFirstOfEqualBest>(), 0);
}
