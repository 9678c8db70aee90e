//! Rounds: a search among those who wait for a game, its matches on the sheets, and the seated leave. And which game a dispatch serves.

use super::super::rules::{self, bad_pairs, over_limit, unlisted};
use super::super::{
    BAD_ROSTER, Beam, CLOCK, Choice, Greedy, LISTED_LIMIT, OVER_LIMIT, SHORT_SHEET, TOO_WIDE,
    Teams, UNRANKED, WIDTH_LIMIT, bad, first, late, lay, long, longer_wait, rated, short, ways,
};
use super::{Hall, NO_SUCH_GAME, no_such_game};
use crate::data::{Answer, BeamRound, Columns, FullRound, Round, Search};
use yilgashe_sys::{ProposedMatch, Queue};

/// The matches with their qualities, and how many choices were tried.
#[derive(Default)]
struct Formed {
    matches: Vec<(Teams, f64)>,
    tried: usize,
    /// By a dispatch.
    served: Option<u8>,
}

impl Hall {
    pub fn round(&mut self, round: &Round) -> Answer {
        let mut sheets = round.sheets.clone();
        match self.formed(round) {
            Err(refusal) => Answer {
                refusal,
                sheets,
                ..Answer::default()
            },
            Ok(formed) => {
                let seated = lay(&formed.matches, &mut sheets);
                self.waiting
                    .retain(|booking| !seated.contains(&booking.player));
                self.served = formed.served.or(self.served);
                Answer {
                    refusal: 0,
                    count: formed.matches.len(),
                    tried: formed.tried as u64,
                    served: formed.served,
                    sheets,
                }
            }
        }
    }

    /// A game that is none goes before all else, a hall over its limits too.
    fn formed(&self, round: &Round) -> Result<Formed, u8> {
        let unknown = round.game().is_some_and(no_such_game);
        check(&[(unknown, NO_SUCH_GAME), (self.is_over(), OVER_LIMIT)])?;
        match &round.search {
            Search::Greedy(game, columns) => self.greedy(*game, round, columns),
            Search::Beam(game, beam) => self.beam(*game, round, beam),
            Search::Full(game, full) => self.full(*game, round, full),
            Search::Dispatch(columns) => self.dispatch(round, columns),
        }
    }

    fn greedy(&self, game: u8, round: &Round, columns: &Columns) -> Result<Formed, u8> {
        self.greedy_checks(round, columns)?;
        let search = Greedy {
            waiting: &self.entries(game),
            sizes: self.sizes(game),
            columns,
        };
        Ok(searched(search.matches(longer_wait), columns))
    }

    /// A greedy round's checks, whether a game has enough or not; then the greedy round of the game whose turn it is.
    fn dispatch(&self, round: &Round, columns: &Columns) -> Result<Formed, u8> {
        self.greedy_checks(round, columns)?;
        match self.next_game() {
            None => Ok(Formed::default()),
            Some(game) => Ok(Formed {
                served: Some(game),
                ..self.greedy(game, round, columns)?
            }),
        }
    }

    fn greedy_checks(&self, round: &Round, columns: &Columns) -> Result<(), u8> {
        check(&[
            (long(columns), OVER_LIMIT),
            (bad(columns), BAD_ROSTER),
            (short(&round.sheets), SHORT_SHEET),
            (self.late(round), CLOCK),
        ])
    }

    fn beam(&self, game: u8, round: &Round, beam: &BeamRound) -> Result<Formed, u8> {
        let BeamRound {
            width,
            objective,
            columns,
        } = beam;
        check(&[
            (*width > WIDTH_LIMIT || long(columns), OVER_LIMIT),
            (bad(columns), BAD_ROSTER),
            (short(&round.sheets), SHORT_SHEET),
            (self.late(round), CLOCK),
        ])?;
        let search = Beam {
            width: *width,
            queue: Queue::of(&self.entries(game)),
            sizes: self.sizes(game),
            objective: *objective,
            columns: columns.clone(),
            clock: round.clock,
        };
        let matches = search.matches().ok_or(UNRANKED)?;
        Ok(searched(matches, columns))
    }

    fn full(&self, game: u8, round: &Round, full: &FullRound) -> Result<Formed, u8> {
        let (constraints, rows) = (&full.rules.constraints, &full.rows);
        let over = over_limit(constraints) || unlisted(&full.objectives) || rules::long(rows);
        let (entries, sizes) = (self.entries(game), self.sizes(game));
        check(&[
            (over, OVER_LIMIT),
            (rules::bad(rows) || bad_pairs(constraints), BAD_ROSTER),
            (short(&round.sheets), SHORT_SHEET),
            (self.late(round), CLOCK),
            (entries.len() > LISTED_LIMIT, TOO_WIDE),
        ])?;
        let choice = Choice::of(Queue::of(&entries), sizes, full);
        let best = choice.best().ok_or(UNRANKED)?;
        let teams = |m: ProposedMatch| (m.a.seated().to_vec(), m.b.seated().to_vec());
        Ok(Formed {
            matches: best.map(|best| (teams(best), 0.0)).into_iter().collect(),
            tried: ways(entries.len(), sizes.a + sizes.b),
            served: None,
        })
    }

    /// The round's clock, or the joined time of somebody who waits, for whatever game, is above 2^53.
    fn late(&self, round: &Round) -> bool {
        late(round.clock) || self.waiting.iter().any(|booking| late(booking.joined))
    }
}

/// The number of the first check that fails, as an error.
fn check(checks: &[(bool, u8)]) -> Result<(), u8> {
    match first(checks) {
        0 => Ok(()),
        number => Err(number),
    }
}

/// The matches of a search, each with its quality; it tries no choices.
fn searched(matches: Vec<Teams>, columns: &Columns) -> Formed {
    Formed {
        matches: rated(matches, columns),
        ..Formed::default()
    }
}

#[cfg(test)]
mod tests {
    use super::super::super::CLOCK_LIMIT;
    use super::*;
    use crate::data::{Rows, Sheets, nothing_brought};
    use yilgashe_sys::{
        Booking, Games, MatchObjective, RoundRules, SoftObjectives, TeamComposition,
    };

    const TABLE: [f64; 4] = [1000.0, 1280.0, 1010.0, 1090.0];

    /// Guests from 1 with these ratings wait for game 0, which has these sizes.
    fn hall(ratings: &[f64], a: usize, b: usize) -> Hall {
        let booking = |(player, rating): (u64, &f64)| Booking {
            player,
            rating_bits: rating.to_bits(),
            ..Booking::default()
        };
        Hall {
            waiting: (1..).zip(ratings).map(booking).collect(),
            ..Hall::open(Games::of([TeamComposition { a, b }]))
        }
    }

    fn columns(ratings: &[f64]) -> Columns {
        Columns {
            ids: (1..=ratings.len() as u64).collect(),
            ratings: ratings.to_vec(),
            deviations: None,
        }
    }

    fn greedy(ratings: &[f64]) -> Search {
        Search::Greedy(0, columns(ratings))
    }

    fn beam(ratings: &[f64], width: usize) -> Search {
        let mut columns = columns(ratings);
        columns.deviations = Some(vec![0.0; ratings.len()]);
        let beam = BeamRound {
            width,
            objective: MatchObjective {
                quality: 1.0,
                wait: 0.0,
                ping: 0.0,
                uncertainty: 0.0,
            },
            columns,
        };
        Search::Beam(0, beam)
    }

    /// Wait alone counts, and nothing is brought.
    fn full(weight: f64) -> Search {
        let full = FullRound {
            rules: RoundRules {
                constraints: nothing_brought(),
                waiting_friends: false,
            },
            objectives: SoftObjectives {
                kinds: [2; 8],
                weights: [weight; 8],
                len: 1,
            },
            rows: Rows {
                ids: vec![1],
                ratings: Some(vec![0.0]),
                parties: Some(vec![0]),
                roles: Some(vec![0]),
                regions: Some(vec![4]),
            },
        };
        Search::Full(0, full)
    }

    fn dispatch(ratings: &[f64]) -> Search {
        Search::Dispatch(columns(ratings))
    }

    fn round(search: Search) -> Round {
        Round {
            search,
            clock: 0,
            sheets: Sheets {
                players: vec![77; 65],
                qualities: vec![-1.0; 64],
            },
        }
    }

    /// The round, of this game.
    fn of_game(game: u8, mut round: Round) -> Round {
        match &mut round.search {
            Search::Greedy(named, _) | Search::Beam(named, _) | Search::Full(named, _) => {
                *named = game;
            }
            Search::Dispatch(_) => {}
        }
        round
    }

    fn guests(hall: &Hall) -> Vec<u64> {
        hall.waiting.iter().map(|booking| booking.player).collect()
    }

    /// The answer holds these seats and qualities before what stood on the sheets, and these guests go on waiting.
    fn expect(hall: &mut Hall, round: &Round, seats: &[u64], qualities: &[f64], stay: &[u64]) {
        let answer = hall.round(round);
        assert_eq!((answer.refusal, answer.count), (0, qualities.len()));
        let Sheets {
            players,
            qualities: rated,
        } = answer.sheets;
        assert_eq!(players[..seats.len()], *seats);
        assert!(players[seats.len()..].iter().all(|&player| player == 77));
        assert_eq!(rated[..qualities.len()], *qualities);
        assert!(rated[qualities.len()..].iter().all(|&q| q == -1.0));
        assert_eq!(guests(hall), stay);
    }

    #[test]
    fn rounds_at_the_table() {
        let nearest = round(greedy(&TABLE));
        expect(
            &mut hall(&TABLE, 2, 2),
            &nearest,
            &[1, 4, 3, 2],
            &[0.75],
            &[],
        );
        expect(&mut hall(&TABLE, 0, 1), &nearest, &[], &[], &[1, 2, 3, 4]);
        let narrow = round(beam(&TABLE, 0));
        expect(&mut hall(&TABLE, 1, 1), &narrow, &[], &[], &[1, 2, 3, 4]);
        let alone = &mut hall(&TABLE, 1, 0);
        expect(alone, &narrow, &[1, 2, 3, 4], &[0.0; 4], &[]);
        let last = round(full(1.0));
        expect(&mut hall(&TABLE[..3], 1, 1), &last, &[2, 3], &[0.0], &[1]);
        assert_eq!(hall(&TABLE[..3], 1, 1).round(&last).tried, 3);
        assert_eq!(hall(&TABLE[..1], 1, 1).round(&last).tried, 0);
    }

    #[test]
    fn greedy_takes_the_longer_wait_of_equal_distance() {
        let ratings = [1000.0, 1010.0, 990.0];
        let pair = round(greedy(&ratings));
        expect(&mut hall(&ratings, 1, 1), &pair, &[1, 2], &[0.975], &[3]);
        let mut imported = hall(&ratings, 1, 1);
        imported.waiting[1].joined = 1;
        expect(&mut imported, &pair, &[1, 3], &[0.975], &[2]);
    }

    /// Of an unused game, game 0 or another.
    #[test]
    fn an_empty_match_is_handed_out() {
        for game in [0, 5] {
            let empty = of_game(game, round(full(1.0)));
            let mut unused = hall(&TABLE, 0, 0);
            expect(&mut unused, &empty, &[], &[0.0], &[1, 2, 3, 4]);
            assert_eq!(unused.round(&empty).tried, 1);
            for search in [greedy(&TABLE), beam(&TABLE, 4)] {
                let none = of_game(game, round(search));
                expect(&mut unused, &none, &[], &[], &[1, 2, 3, 4]);
            }
        }
    }

    /// Guests 1 and 3 wait as friends, and the last of equal best would part them.
    #[test]
    fn a_full_round_keeps_waiting_friends() {
        let mut friends = hall(&TABLE[..3], 1, 1);
        friends.waiting[0].party = 7;
        friends.waiting[2].party = 7;
        let mut pair = round(full(1.0));
        expect(&mut friends.clone(), &pair, &[2, 3], &[0.0], &[1]);
        if let Search::Full(_, full) = &mut pair.search {
            full.rules.waiting_friends = true;
        }
        // One who waits for another game is none.
        let mut other = friends.clone();
        other.waiting[0].game = 1;
        expect(&mut other, &pair, &[2, 3], &[0.0], &[1]);
        assert_eq!(friends.clone().round(&pair).tried, 3);
        expect(&mut friends, &pair, &[1, 3], &[0.0], &[2]);
        // The seats part them, whoever takes them.
        friends.waiting[0].party = 7;
        friends.waiting.push(Booking {
            player: 4,
            ..friends.waiting[0]
        });
        friends.games.sizes[0].b = 0;
        expect(&mut friends, &pair, &[], &[], &[2, 4]);
        assert_eq!(friends.round(&pair).tried, 2);
    }

    /// The booking for another game too.
    #[test]
    fn every_booking_of_the_seated_leaves() {
        let mut doubled = hall(&TABLE, 1, 1);
        doubled.waiting.push(doubled.waiting[0]);
        doubled.waiting.push(Booking {
            game: 3,
            ..doubled.waiting[1]
        });
        let pair = round(greedy(&TABLE));
        expect(
            &mut doubled,
            &pair,
            &[1, 3, 2, 4],
            &[1.0 - 10.0 / 400.0, 1.0 - 190.0 / 400.0],
            &[],
        );
    }

    /// Guests 1 and 4 wait for game 2, the others for game 0 and for none.
    #[test]
    fn a_round_takes_its_game_alone() {
        let mut mixed = hall(&TABLE, 1, 1);
        mixed.games.sizes[2] = TeamComposition { a: 2, b: 0 };
        mixed.waiting[0].game = 2;
        mixed.waiting[3].game = 2;
        mixed.waiting[2].game = 8;
        for search in [greedy(&TABLE), beam(&TABLE, 4), full(1.0)] {
            let own = round(search);
            assert_eq!(mixed.clone().round(&own).count, 0);
            let answer = mixed.clone().round(&of_game(2, own));
            assert_eq!((answer.count, answer.served), (1, None));
            assert_eq!(answer.sheets.players[..3], [1, 4, 77]);
        }
        // As many as may be chosen from.
        let mut wide = hall(&[1000.0; 21], 1, 1);
        wide.waiting[4].game = 1;
        assert_eq!(wide.round(&round(full(1.0))).tried, 190);
    }

    /// Mends one check after another, each showing the next.
    #[test]
    fn rounds_check_in_order() {
        for search in [
            greedy(&TABLE),
            beam(&TABLE, 4),
            full(f64::NAN),
            dispatch(&TABLE),
        ] {
            let mut hall = hall(&[1000.0; 21], 1, 1);
            let mut round = of_game(8, round(search));
            hall.games.sizes[7].a = 9;
            round.clock = CLOCK_LIMIT + 1;
            round.sheets.qualities.pop();
            spoil(&mut round.search, 1);
            if round.game().is_some() {
                assert_eq!(hall.round(&round).refusal, 13);
                round = of_game(0, round);
            }
            assert_eq!(hall.round(&round).refusal, 1);
            hall.games.sizes[7].a = 8;
            hall.served = Some(8);
            assert_eq!(hall.round(&round).refusal, 1);
            hall.served = None;
            assert_eq!(hall.round(&round).refusal, 2);
            spoil(&mut round.search, 77);
            assert_eq!(hall.round(&round).refusal, 3);
            round.sheets.qualities.push(0.0);
            assert_eq!(hall.round(&round).refusal, 4);
            round.clock = CLOCK_LIMIT;
            if let Search::Full(..) = round.search {
                assert_eq!(hall.round(&round).refusal, 6);
                hall.waiting.pop();
                assert_eq!(hall.round(&round).refusal, 5);
                hall.waiting.truncate(2);
            }
            hall.waiting[0].joined = CLOCK_LIMIT + 1;
            assert_eq!(hall.round(&round).refusal, 4);
            hall.waiting[0].joined = 0;
            assert_eq!(hall.clone().round(&round).refusal, 0);
            hall.notes = vec![note(); 1025];
            assert_eq!(hall.round(&round).refusal, 1);
        }
    }

    /// Guest 1 waits for game 0, for another or for none; a dispatch then has no game with enough.
    #[test]
    fn a_late_guest_of_any_game_counts() {
        for search in [greedy(&TABLE), beam(&TABLE, 4), full(1.0), dispatch(&TABLE)] {
            for game in [0, 3, 8] {
                let (mut hall, round) = (hall(&TABLE[..2], 1, 1), round(search.clone()));
                hall.waiting[0].game = game;
                assert_eq!(hall.clone().round(&round).refusal, 0);
                hall.waiting[0].joined = CLOCK_LIMIT + 1;
                assert_eq!(hall.round(&round).refusal, 4);
            }
        }
    }

    fn note() -> super::super::Note {
        super::super::Note {
            key: 0,
            asked: super::super::Asked::withdrawal(0),
            answer: 0,
        }
    }

    /// Gives the last of the columns' rows this id.
    fn spoil(search: &mut Search, id: u64) {
        let ids = match search {
            Search::Greedy(_, columns) | Search::Dispatch(columns) => &mut columns.ids,
            Search::Beam(_, beam) => &mut beam.columns.ids,
            Search::Full(_, FullRound { rows, .. }) => {
                rows.ratings = Some(vec![0.0; 2]);
                rows.parties = Some(vec![0; 2]);
                rows.roles = Some(vec![0; 2]);
                rows.regions = Some(vec![4; 2]);
                rows.ids.resize(2, 9);
                &mut rows.ids
            }
        };
        *ids.last_mut().expect("a row") = id;
    }

    #[test]
    fn a_beam_that_ranks_a_nan_is_refused() {
        let mut search = beam(&TABLE, 4);
        if let Search::Beam(_, beam) = &mut search {
            beam.objective.ping = f64::INFINITY;
        }
        let answer = hall(&TABLE, 1, 1).round(&round(search));
        assert_eq!((answer.refusal, answer.count), (5, 0));
    }

    /// Who waits for game 1 is seated, who waits for game 3 forms nothing, and then neither has enough or just game 3.
    #[test]
    fn dispatches_serve_in_turn() {
        let mut hall = hall(&TABLE, 8, 8);
        hall.games.sizes[1] = TeamComposition { a: 1, b: 1 };
        hall.games.sizes[3] = TeamComposition { a: 0, b: 2 };
        for (booking, game) in hall.waiting.iter_mut().zip([1, 3, 1, 3]) {
            booking.game = game;
        }
        let next = round(dispatch(&TABLE));
        let answer = hall.round(&next);
        assert_eq!((answer.served, answer.count), (Some(1), 1));
        assert_eq!((hall.served, guests(&hall)), (Some(1), vec![2, 4]));
        for _ in 0..2 {
            let answer = hall.round(&next);
            assert_eq!((answer.served, answer.count), (Some(3), 0));
            assert_eq!((hall.served, guests(&hall)), (Some(3), vec![2, 4]));
        }
        hall.waiting.pop();
        let answer = hall.round(&next);
        assert_eq!((answer.refusal, answer.served, answer.count), (0, None, 0));
        assert_eq!((hall.served, guests(&hall)), (Some(3), vec![2]));
    }
}
