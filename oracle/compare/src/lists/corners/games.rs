//! Corners of request 2.4.

use super::{Corner, Seen, Table, both, lists, single};
use crate::data::{Call, FullRound, GAMES, Round, entries_for, game_in, games_of, sizes_for};
use crate::lists::counter::{Counter, Modelled};
use crate::model::hall::{NO_SUCH_GAME, no_such_game, over_limit};
use crate::model::{
    CLOCK, LAST_KIND, LISTED_LIMIT, OVER_LIMIT, TEAM_LIMIT, TOO_WIDE, UNRANKED, late,
};
use yilgashe_sys::{Booking, NONE_SERVED, TeamComposition};

pub(super) const TABLE: Table = Table {
    heading: "games",
    corners: &CORNERS,
};

const CORNERS: [Corner; 45] = [
    both("13 to a booking", |seen| seen.new_thirteen().is_some()),
    both("13 to a booking sent again", |seen| seen.thirteen_again()),
    both("13 before 4", |seen| {
        seen.new_thirteen().is_some_and(|b| late(b.joined))
    }),
    both("13 before 9", |seen| {
        seen.new_thirteen().is_some_and(|b| seen.waits(b.player))
    }),
    both("9 by another game", |seen| seen.nine_by_another_game()),
    lists("10 by several games", |seen| {
        seen.is_new(10) && seen.games_waited_for() > 1
    }),
    both("a booking for an unused game", |seen| {
        let unused = |booking: &Booking| seen.seats(booking.game) == 0;
        seen.is_new(0) && seen.booking().is_some_and(unused)
    }),
    both("1 by a size, its game in use", |seen| {
        seen.large_games()
            .is_some_and(|mut g| g.any(|g| seen.uses(g)))
    }),
    both("1 by a size, its game not in use", |seen| {
        seen.large_games()
            .is_some_and(|mut g| !g.any(|g| seen.uses(g)))
    }),
    both("1 by a size of 9", |seen| {
        let nine = |game| most(&sizes_for(&games_of(seen.before), game)) == 9;
        seen.large_games().is_some_and(|mut games| games.all(nine))
    }),
    single("1 by 8 served last", |seen| seen.is_over_by_served(8)),
    single("1 by 9 served last", |seen| seen.is_over_by_served(9)),
    single("1 by 254 served last", |seen| seen.is_over_by_served(254)),
    both("13 to a greedy round", |seen| {
        seen.thirteen_to("greedy_round")
    }),
    both("13 to a beam round", |seen| seen.thirteen_to("beam_round")),
    both("13 to a full round", |seen| seen.thirteen_to("full_round")),
    both("13 before a kind over 2", |seen| {
        seen.thirteen_before_a_kind()
    }),
    single("13 before 1 by the hall", |seen| {
        seen.thirteen_round() && seen.is_over()
    }),
    both("an unused game's empty match", |seen| {
        let told = (seen.answer.count, seen.answer.tried);
        seen.played_seats() == Some(0) && told == (1, 1)
    }),
    both("an unused game, none formed", |seen| {
        seen.played_seats() == Some(0) && seen.answer.count == 0
    }),
    both("0+B, none formed by its round", |seen| {
        let own = seen.round().and_then(Round::game);
        own.is_some_and(|game| seen.is_idle(game)) && !seen.is("full_round")
    }),
    both("seated, and others wait", |seen| {
        let elsewhere = |game| seen.before.booked().iter().any(|b| b.game != game);
        seen.answer.count > 0 && seen.played().is_some_and(elsewhere)
    }),
    both("20 or fewer of more", |seen| {
        let wide = seen.before.waiting > LISTED_LIMIT;
        seen.is("full_round") && wide && seen.played().is_some()
    }),
    both("a friend of another game", |seen| {
        seen.parts_friends_of_two_games()
    }),
    single("seated, of two games", |seen| {
        seen.seats_somebody_of_two_games()
    }),
    single("seated by a beam, of two games", |seen| {
        seen.is("beam_round") && seen.seats_somebody_of_two_games()
    }),
    single("seated by a dispatch, of two games", |seen| {
        seen.is("dispatch") && seen.seats_somebody_of_two_games()
    }),
    single("a game above 7 waits", |seen| {
        let stray = |booking: &Booking| no_such_game(booking.game);
        seen.played().is_some() && seen.before.booked().iter().any(stray)
    }),
    single("4 by another game", |seen| seen.late_elsewhere()),
    single("4 by another game, before 5", |seen| {
        seen.late_elsewhere() && seen.mended() == UNRANKED
    }),
    single("4 by another game, before 6", |seen| {
        seen.late_elsewhere() && seen.mended() == TOO_WIDE
    }),
    single("4 to a dispatch by a guest", |seen| {
        let clock = seen.round().is_some_and(|round| late(round.clock));
        seen.is("dispatch") && seen.answer.refusal == CLOCK && !clock
    }),
    both("dispatch, none has enough", |seen| seen.serves_none()),
    both("dispatch, none again, one was served", |seen| {
        seen.serves_none() && seen.before.served != NONE_SERVED
    }),
    both("dispatch refused, none has enough", |seen| {
        seen.is("dispatch") && seen.answer.refusal > 1 && seen.ready().is_empty()
    }),
    both("dispatch, the first", |seen| {
        seen.answer.served.is_some() && seen.before.served == NONE_SERVED
    }),
    both("dispatch, several have enough", |seen| {
        seen.answer.served.is_some() && seen.ready().len() > 1
    }),
    both("dispatch, past game 7", |seen| {
        let last = game_in(seen.before.served);
        last.is_some_and(|last| seen.answer.served.is_some_and(|game| game < last))
    }),
    both("dispatch, the last one again", |seen| {
        seen.answer.served == Some(seen.before.served)
    }),
    both("dispatch, to 0+B", |seen| {
        seen.answer.served.is_some_and(|game| seen.is_idle(game))
    }),
    both("dispatch, just enough", |seen| {
        let just = |game| seen.waiting_for(game) == seen.seats(game);
        seen.answer.served.is_some_and(just)
    }),
    both("dispatch, past one too few", |seen| {
        seen.passes_one_too_few()
    }),
    both("dispatch, past an unused game", |seen| {
        let unused = |game| seen.seats(game) == 0 && seen.waiting_for(game) > 0;
        seen.passed().iter().any(|game| unused(*game))
    }),
    both("dispatch, served and none formed", |seen| {
        let formable = |game| !seen.is_idle(game);
        seen.answer.count == 0 && seen.answer.served.is_some_and(formable)
    }),
    single("dispatch, enough by a guest twice", |seen| {
        let few = |game| seen.guests_for(game) < seen.seats(game);
        seen.answer.served.is_some_and(few)
    }),
];

impl Seen<'_> {
    fn is(&self, name: &str) -> bool {
        self.call.name() == name
    }

    fn round(&self) -> Option<&Round> {
        match self.call {
            Call::Round(round) => Some(round),
            _ => None,
        }
    }

    /// The game of a round that was not refused.
    fn played(&self) -> Option<u8> {
        let round = self.round().filter(|_| self.answer.refusal == 0)?;
        round.played(self.answer)
    }

    fn played_seats(&self) -> Option<usize> {
        self.played().map(|game| self.seats(game))
    }

    /// A booking under a new key with this answer.
    fn is_new(&self, answer: u8) -> bool {
        self.booking().is_some() && self.answer.refusal == answer && self.noted().is_none()
    }

    fn new_thirteen(&self) -> Option<&Booking> {
        self.booking().filter(|_| self.is_new(NO_SUCH_GAME))
    }

    fn thirteen_again(&self) -> bool {
        let noted = self.noted().is_some_and(|note| note.answer == NO_SUCH_GAME);
        self.booking().is_some() && self.answer.refusal == NO_SUCH_GAME && noted
    }

    fn nine_by_another_game(&self) -> bool {
        let elsewhere = |booking: &Booking| {
            let mut own = self.before.booked().iter();
            !own.any(|b| (b.player, b.game) == (booking.player, booking.game))
        };
        self.is_new(9) && self.booking().is_some_and(elsewhere)
    }

    fn thirteen_round(&self) -> bool {
        self.round().is_some() && self.answer.refusal == NO_SUCH_GAME
    }

    fn thirteen_to(&self, name: &str) -> bool {
        self.is(name) && self.thirteen_round()
    }

    fn thirteen_before_a_kind(&self) -> bool {
        let odd = self.call.full_round().is_some_and(|(_, full)| {
            let mut listed = full.objectives.listed();
            listed.any(|(kind, _)| kind > LAST_KIND)
        });
        odd && self.thirteen_round()
    }

    fn waits(&self, player: u64) -> bool {
        let mut waiting = self.before.booked().iter();
        waiting.any(|booking| booking.player == player)
    }

    fn games_waited_for(&self) -> usize {
        let games = (0..=u8::MAX).filter(|game| self.waiting_for(*game) > 0);
        games.count()
    }

    fn waiting_for(&self, game: u8) -> usize {
        let waiting = self.before.booked().iter();
        waiting.filter(|booking| booking.game == game).count()
    }

    /// Different ones.
    fn guests_for(&self, game: u8) -> usize {
        let entries = entries_for(self.before.booked(), game);
        let mut guests: Vec<u64> = entries.iter().map(|entry| entry.player).collect();
        guests.sort_unstable();
        guests.dedup();
        guests.len()
    }

    fn seats(&self, game: u8) -> usize {
        let TeamComposition { a, b } = sizes_for(&games_of(self.before), game);
        a.saturating_add(b)
    }

    /// Of 0+B, with enough waiting: its greedy and beam rounds form nothing all the same.
    fn is_idle(&self, game: u8) -> bool {
        let formless = sizes_for(&games_of(self.before), game).a == 0;
        formless && self.has_enough(game) && self.answer.refusal == 0
    }

    fn has_enough(&self, game: u8) -> bool {
        self.seats(game) > 0 && self.waiting_for(game) >= self.seats(game)
    }

    fn ready(&self) -> Vec<u8> {
        let games = 0..GAMES as u8;
        games.filter(|game| self.has_enough(*game)).collect()
    }

    fn states_too_much(&self) -> bool {
        over_limit(self.before.waiting, self.before.noted)
    }

    fn has_large_sizes(&self) -> bool {
        let mut games = self.before.sizes.iter();
        games.any(|sizes| most(sizes) > TEAM_LIMIT)
    }

    fn served_no_game(&self) -> bool {
        game_in(self.before.served).is_some_and(no_such_game)
    }

    fn is_over(&self) -> bool {
        self.states_too_much() || self.has_large_sizes() || self.served_no_game()
    }

    /// The games with a size over 8 of a hall that is refused for them alone.
    fn large_games(&self) -> Option<impl Iterator<Item = u8>> {
        let alone = self.has_large_sizes() && !self.states_too_much() && !self.served_no_game();
        let games = games_of(self.before);
        let large = move |game: &u8| most(&sizes_for(&games, *game)) > TEAM_LIMIT;
        (alone && self.answer.refusal == OVER_LIMIT).then(|| (0..GAMES as u8).filter(large))
    }

    /// Does somebody wait for it, or does the call name it?
    fn uses(&self, game: u8) -> bool {
        self.waiting_for(game) > 0 || self.call.game() == Some(game)
    }

    fn is_over_by_served(&self, served: u8) -> bool {
        let alone = !self.states_too_much() && !self.has_large_sizes();
        self.before.served == served && alone && self.answer.refusal == OVER_LIMIT
    }

    /// On the sheet, by the sizes of the game.
    fn seated(&self) -> &[u64] {
        let places = self.answer.count * self.played_seats().unwrap_or(0);
        let players = &self.answer.sheets.players;
        players.get(..places).unwrap_or_default()
    }

    fn seats_somebody_of_two_games(&self) -> bool {
        let Some(game) = self.played() else {
            return false;
        };
        let elsewhere = self.before.booked().iter().filter(|b| b.game != game);
        let seated = self.seated();
        elsewhere
            .map(|b| b.player)
            .any(|player| seated.contains(&player))
    }

    /// Waiting friends are brought, and somebody seated has a friend who goes on waiting for another game.
    fn parts_friends_of_two_games(&self) -> bool {
        let brings = |(_, full): (&Round, &FullRound)| full.rules.waiting_friends;
        let seated = self.seated();
        let (own, others): (Vec<&Booking>, Vec<&Booking>) = {
            let waiting = self.before.booked().iter().filter(|b| b.party != 0);
            waiting.partition(|booking| self.played() == Some(booking.game))
        };
        let at_table = |party| {
            let mut friends = own.iter().filter(|b| b.party == party);
            friends.any(|b| seated.contains(&b.player))
        };
        self.call.full_round().is_some_and(brings)
            && others
                .iter()
                .any(|b| !seated.contains(&b.player) && at_table(b.party))
    }

    /// Refusal 4 to a round of a game, by somebody who waits for another one alone.
    fn late_elsewhere(&self) -> bool {
        let Some(round) = self.round().filter(|_| self.answer.refusal == CLOCK) else {
            return false;
        };
        let own = |game| entries_for(self.before.booked(), game);
        let in_time = |game| !own(game).iter().any(|entry| late(entry.joined));
        !late(round.clock) && round.game().is_some_and(in_time)
    }

    /// The answer of the model once nobody is late.
    fn mended(&self) -> u8 {
        let mut mended = *self.before;
        for booking in &mut mended.bookings {
            booking.joined = match late(booking.joined) {
                true => 0,
                false => booking.joined,
            };
        }
        Modelled::with(&mended).serve(self.call).refusal
    }

    /// A dispatch that is not refused, while somebody waits.
    fn serves_none(&self) -> bool {
        let none = self.answer.refusal == 0 && self.answer.served.is_none();
        self.is("dispatch") && none && self.before.waiting > 0
    }

    /// The games that a dispatch passed before the one that it served.
    fn passed(&self) -> Vec<u8> {
        let Some(served) = self.answer.served else {
            return Vec::new();
        };
        let first = game_in(self.before.served).map_or(0, |last| usize::from(last) + 1);
        let circle = (first..first + GAMES).map(|turn| (turn % GAMES) as u8);
        circle.take_while(|game| *game != served).collect()
    }

    fn passes_one_too_few(&self) -> bool {
        let passed = self.passed();
        let mut seated = passed.iter().filter(|game| self.seats(**game) > 1);
        seated.any(|game| self.waiting_for(*game) + 1 == self.seats(*game))
    }
}

fn most(sizes: &TeamComposition) -> usize {
    sizes.a.max(sizes.b)
}
