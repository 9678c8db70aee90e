//! search.rs: greedy and beam search, which write to lent sheets.

use crate::data::{Columns, Sheets};
use crate::draw::{self, Scale};
use crate::function::{Corner, Function, Listed, Stored, stored};
use crate::model::{self, Beam, Free, Greedy, Rule, longer_wait};
use crate::rng::Rng;
use crate::same::Same;
use crate::translate::{laid_on, to_entries, to_objective, to_rated_world, to_teams};
use crate::words::Words;
use matchlab_core::rng::SimRng;
use matchlab_matchmaking::objective::MatchObjective;
use matchlab_matchmaking::search::{self as matchlab, SearchStrategy};
use std::cmp::Ordering;
use yilgashe_sys::{self as library, Queue, QueueEntry, TeamComposition};

pub const FUNCTIONS: &[Listed] = &[stored::<GreedySearch>(), stored::<BeamSearch>()];

/// The number of matches, and the sheets after the call.
pub type Formed = (usize, Sheets);

/// What the unchanged Rust forms. Neither the objective nor the clock is read.
pub fn rust_greedy(
    waiting: &[QueueEntry],
    sizes: &TeamComposition,
    columns: &Columns,
    sheets: &Sheets,
) -> Formed {
    let matches = matchlab::GreedySearch.search(
        &to_entries(waiting),
        &MatchObjective::new(0.0, 0.0, 0.0, 0.0),
        &to_teams(sizes),
        &to_rated_world(columns, 0),
        &mut SimRng::from_seed(0),
    );
    laid_on(sheets, &matches)
}

pub(super) struct GreedySearch;

#[derive(Clone, Debug)]
pub(super) struct Case {
    pub queue: Queue,
    pub sizes: TeamComposition,
    pub columns: Columns,
    pub sheets: Sheets,
}

impl Case {
    /// What the model forms by this rule for picks.
    pub fn modelled(&self, rule: Rule) -> Formed {
        let search = Greedy {
            waiting: self.queue.waiting(),
            sizes: self.sizes,
            columns: &self.columns,
        };
        search.laid_on(&self.sheets, rule)
    }

    /// Does this rule form other matches than request 2.2?
    fn parts(&self, rule: Rule) -> bool {
        !self.modelled(rule).same(&self.modelled(longer_wait))
    }
}

/// Equal distances the other way round: where it parts, the matches hang on a pick among such.
fn shorter_wait(one: &Free, other: &Free) -> Ordering {
    let distances = one.distance.total_cmp(&other.distance);
    distances.then(longer_wait(other, one))
}

/// As 2.2 but for its last word: where it parts, the matches hang on a pick by place.
fn later_place(one: &Free, other: &Free) -> Ordering {
    let distances = one.distance.total_cmp(&other.distance);
    let times = one.joined.cmp(&other.joined);
    distances.then(times).then(other.place.cmp(&one.place))
}

impl Function for GreedySearch {
    const NAME: &'static str = "greedy_search";
    type Case = Case;
    type Answer = Formed;

    fn draw(rng: &mut Rng, scale: Scale) -> Case {
        let queue = draw::greedy_queue(rng, scale);
        Case {
            sizes: draw::team_sizes(rng),
            columns: draw::searched_columns(rng, scale, &queue, false),
            sheets: draw::sheets(rng, scale),
            queue,
        }
    }

    fn refusal(case: &Case) -> u8 {
        model::greedy_search(&case.queue, &case.sizes, &case.columns, &case.sheets)
    }

    fn refused(case: &Case) -> Formed {
        (0, case.sheets.clone())
    }

    /// The Rust leaves equal distances to the place, request 2.2 to the longer wait.
    fn has_rust(case: &Case) -> bool {
        model::never_falls(case.queue.waiting())
    }

    fn rust(case: &Case) -> Formed {
        rust_greedy(
            case.queue.waiting(),
            &case.sizes,
            &case.columns,
            &case.sheets,
        )
    }

    /// Not in place of a Rust that panics: it never should.
    fn model(case: &Case) -> Option<Formed> {
        (!Self::has_rust(case)).then(|| case.modelled(longer_wait))
    }

    fn library(case: &Case) -> (u8, Formed) {
        let mut after = case.sheets.clone();
        let given = library::search_greedy(
            case.queue,
            case.sizes,
            &case.columns.ids,
            &case.columns.ratings,
            &mut after.players,
            &mut after.qualities,
        );
        (given.refusal, (given.count, after))
    }

    fn corners(case: &Case, refusal: u8, _: &Formed) -> Vec<Corner> {
        let in_order = refusal == 0 && Self::has_rust(case);
        let falls = refusal == 0 && !Self::has_rust(case);
        let by_wait = || !Self::rust(case).same(&case.modelled(longer_wait));
        vec![
            ("in order", in_order),
            ("tied", in_order && case.parts(shorter_wait)),
            ("falls", falls),
            ("by wait", falls && by_wait()),
            ("by place", falls && case.parts(later_place)),
        ]
    }
}

impl Stored for GreedySearch {
    const CODE: u64 = 25;

    fn write_case(case: &Case, words: &mut Words) {
        words.queue(&case.queue);
        words.teams(&case.sizes);
        words.columns(&case.columns);
        words.sheets(&case.sheets);
    }

    fn write_answer(case: &Case, formed: &Formed, words: &mut Words) {
        words.formed(&case.sizes, formed);
    }
}

pub(super) struct BeamSearch;

impl Function for BeamSearch {
    const NAME: &'static str = "beam_search";
    type Case = (Beam, Sheets);
    type Answer = Formed;

    fn draw(rng: &mut Rng, scale: Scale) -> Self::Case {
        let beam = draw::beam(rng, scale);
        (beam, draw::sheets(rng, scale))
    }

    fn refusal((beam, sheets): &Self::Case) -> u8 {
        model::beam_search(beam, sheets)
    }

    fn refused((_, sheets): &Self::Case) -> Formed {
        (0, sheets.clone())
    }

    fn rust((beam, sheets): &Self::Case) -> Formed {
        let strategy = matchlab::BeamSearch { width: beam.width };
        let matches = strategy.search(
            &to_entries(beam.queue.waiting()),
            &to_objective(&beam.objective),
            &to_teams(&beam.sizes),
            &to_rated_world(&beam.columns, beam.clock),
            &mut SimRng::from_seed(0),
        );
        laid_on(sheets, &matches)
    }

    fn library((beam, sheets): &Self::Case) -> (u8, Formed) {
        let mut after = sheets.clone();
        let given = library::search_beam(
            library::BeamSearch { width: beam.width },
            beam.queue,
            beam.sizes,
            beam.objective,
            &beam.columns.ids,
            &beam.columns.ratings,
            beam.columns.deviations.as_deref().unwrap_or_default(),
            beam.clock,
            &mut after.players,
            &mut after.qualities,
        );
        (given.refusal, (given.count, after))
    }
}

impl Stored for BeamSearch {
    const CODE: u64 = 27;

    fn write_case((beam, sheets): &Self::Case, words: &mut Words) {
        words.number(beam.width as u64);
        words.queue(&beam.queue);
        words.teams(&beam.sizes);
        words.objective(&beam.objective);
        words.columns(&beam.columns);
        words.number(beam.clock);
        words.sheets(sheets);
    }

    fn write_answer((beam, _): &Self::Case, formed: &Formed, words: &mut Words) {
        words.formed(&beam.sizes, formed);
    }
}

#[cfg(test)]
mod tests {
    use super::*;
    use crate::function::judge;
    use crate::model::earlier_place;
    use crate::tally::Tally;
    use yilgashe_sys::MatchObjective;

    const TABLE: [f64; 4] = [1000.0, 1280.0, 1010.0, 1090.0];

    /// Guests from 1, waiting with these ratings.
    fn queue(ratings: &[f64]) -> Queue {
        let entry = |(player, &rating)| QueueEntry {
            player,
            rating,
            ..QueueEntry::default()
        };
        let entries: Vec<QueueEntry> = (1..).zip(ratings).map(entry).collect();
        Queue::of(&entries)
    }

    /// Rows for these guests, without deviation.
    fn rostered(ratings: &[f64]) -> Columns {
        Columns {
            ids: (1..=ratings.len() as u64).collect(),
            ratings: ratings.to_vec(),
            deviations: Some(vec![0.0; ratings.len()]),
        }
    }

    fn sheets() -> Sheets {
        draw::sheets(&mut Rng::new(0), Scale::Stored)
    }

    /// Matches of these players and qualities, all else as it was.
    fn laid(count: usize, players: &[u64], qualities: &[f64]) -> Formed {
        let mut after = sheets();
        after.players[..players.len()].copy_from_slice(players);
        after.qualities[..qualities.len()].copy_from_slice(qualities);
        (count, after)
    }

    fn greedy(ratings: &[f64], (a, b): (usize, usize)) -> Formed {
        GreedySearch::rust(&Case {
            queue: queue(ratings),
            sizes: TeamComposition { a, b },
            columns: rostered(ratings),
            sheets: sheets(),
        })
    }

    fn beam(ratings: &[f64], (a, b): (usize, usize), width: usize) -> Beam {
        Beam {
            width,
            queue: queue(ratings),
            sizes: TeamComposition { a, b },
            objective: MatchObjective {
                quality: 1.0,
                wait: 0.0,
                ping: 0.0,
                uncertainty: 0.0,
            },
            columns: rostered(ratings),
            clock: 0,
        }
    }

    #[test]
    fn greedy_lays_team_a_then_b() {
        let table = laid(1, &[1, 4, 3, 2], &[0.75]);
        assert!(greedy(&TABLE, (2, 2)).same(&table));
        assert!(greedy(&TABLE, (0, 1)).same(&laid(0, &[], &[])));
        let pairs = laid(2, &[1, 3, 2, 4], &[1.0 - 10.0 / 400.0, 1.0 - 190.0 / 400.0]);
        assert!(greedy(&TABLE, (1, 1)).same(&pairs));
    }

    #[test]
    fn beam_lays_team_a_then_b() {
        let rust = |teams, width| BeamSearch::rust(&(beam(&TABLE, teams, width), sheets()));
        let (count, after) = rust((2, 2), 4);
        assert_eq!((count, &after.players[..5]), (1, &[1, 2, 4, 3, 1004][..]));
        assert!(rust((1, 1), 0).same(&laid(0, &[], &[])));
        assert!(rust((0, 1), 3).same(&laid(0, &[], &[])));
        let alone = laid(4, &[1, 2, 3, 4], &[0.0; 4]);
        assert!(rust((1, 0), 0).same(&alone));
    }

    #[test]
    fn an_infinite_deviation_meets_another_only_beside_its_anchor() {
        let mut search = beam(&[1000.0; 3], (2, 2), 1);
        search.objective.uncertainty = 1.0;
        search.columns.deviations = Some(vec![0.0, f64::INFINITY, f64::NEG_INFINITY]);
        assert_eq!(BeamSearch::refusal(&(search, sheets())), 5);
    }

    /// Refusal 5 hangs on the model's beam; where nothing is refused it has to find what the Rust finds.
    #[test]
    fn the_model_finds_what_the_rust_finds() {
        let mut seen = [0; 2];
        for case in 0..600 {
            let case = BeamSearch::draw(&mut Rng::for_case(1, "model", case), Scale::Stored);
            if BeamSearch::refusal(&case) == 0 {
                let (beam, sheets) = &case;
                let found = beam.matches().expect("not refused");
                let seats = found.iter().flat_map(|(a, b)| [&a[..], b].concat());
                let seats: Vec<u64> = seats.collect();
                let (count, after) = BeamSearch::rust(&case);
                assert_eq!(
                    (count, &after.players[..seats.len()]),
                    (found.len(), &seats[..])
                );
                assert_eq!(after.players[seats.len()..], sheets.players[seats.len()..]);
                seen[usize::from(count > 0)] += 1;
            }
        }
        assert!(seen.iter().all(|&count| count > 50), "{seen:?}");
    }

    /// Of 2,000 drawn cases those that are not refused.
    fn greedy_cases() -> Vec<Case> {
        let rngs = (0..2000).map(|number| Rng::for_case(1, "picked", number));
        let drawn = rngs.map(|mut rng| GreedySearch::draw(&mut rng, Scale::Full));
        let good = drawn.filter(|case| GreedySearch::refusal(case) == 0);
        good.collect()
    }

    /// Whole answers, with and without matches.
    #[test]
    fn by_its_rule_the_model_finds_what_the_rust_finds() {
        let mut seen = [0; 2];
        for case in greedy_cases() {
            let rust = GreedySearch::rust(&case);
            assert!(rust.same(&case.modelled(earlier_place)), "{case:?}");
            seen[usize::from(rust.0 > 0)] += 1;
        }
        assert!(seen.iter().all(|&count| count > 200), "{seen:?}");
    }

    /// Where joined times fall the model alone tells what is right, so elsewhere it has to agree with the Rust.
    #[test]
    fn the_model_parts_from_the_rust_only_where_joined_times_fall() {
        let (mut in_order, mut parted) = (0, 0);
        for case in greedy_cases() {
            let agrees = GreedySearch::rust(&case).same(&case.modelled(longer_wait));
            let has_rust = GreedySearch::has_rust(&case);
            assert!(agrees || !has_rust, "{case:?}");
            in_order += usize::from(has_rust);
            parted += usize::from(!agrees);
        }
        assert!(in_order > 800 && parted > 150, "{in_order} {parted}");
    }

    /// Library and model seat these in matches of 1+1, of guests from 1 with these ratings and joined times.
    fn seats(guests: &[(f64, u64)], seated: &[u64]) {
        let ratings: Vec<f64> = guests.iter().map(|(rating, _)| *rating).collect();
        let mut queue = queue(&ratings);
        for (entry, (_, joined)) in queue.entries.iter_mut().zip(guests) {
            entry.joined = *joined;
        }
        let case = Case {
            queue,
            sizes: TeamComposition { a: 1, b: 1 },
            columns: rostered(&ratings),
            sheets: sheets(),
        };
        let (refusal, library) = GreedySearch::library(&case);
        assert_eq!(refusal, 0);
        for (count, after) in [library, case.modelled(longer_wait)] {
            assert_eq!(after.players[..2 * count], *seated, "{guests:?}");
        }
    }

    #[test]
    fn equal_distance_goes_to_the_longer_wait() {
        let near = |[one, two, three]: [u64; 3]| [(1000.0, one), (1010.0, two), (990.0, three)];
        seats(&near([0, 0, 0]), &[1, 2]);
        seats(&near([9, 4, 4]), &[1, 2]);
        seats(&near([5, 5, 7]), &[1, 2]);
        seats(&near([5, 7, 5]), &[1, 3]);
        seats(&near([0, 1, 0]), &[1, 3]);
        seats(&near([9, 1 << 53, (1 << 53) - 1]), &[1, 3]);
    }

    #[test]
    fn the_nearer_guest_goes_before_the_longer_wait() {
        seats(&[(1000.0, 0), (1010.0, 0), (991.0, 9)], &[1, 3]);
        let nearer = 1010.0f64.next_down();
        seats(&[(1000.0, 9), (1010.0, 0), (nearer, 9)], &[1, 3]);
    }

    #[test]
    fn no_wait_is_long_enough_for_a_nan_or_an_infinite_distance() {
        for rating in [f64::NAN, f64::INFINITY, f64::NEG_INFINITY] {
            seats(&[(1000.0, 9), (rating, 0), (5000.0, 9)], &[1, 3]);
            seats(&[(1000.0, 9), (5000.0, 9), (rating, 0)], &[1, 2]);
            seats(&[(1000.0, 9), (rating, 0)], &[]);
        }
        seats(&[(1e308, 9), (-1e308, 0), (0.0, 9)], &[1, 3]);
    }

    #[test]
    fn both_zeros_are_as_far() {
        for signs in 0..8 {
            let zero = |place: u32| if signs >> place & 1 == 1 { -0.0 } else { 0.0 };
            seats(&[(zero(0), 9), (zero(1), 5), (zero(2), 3)], &[1, 3]);
            seats(&[(zero(0), 9), (zero(1), 4), (zero(2), 4)], &[1, 2]);
        }
    }

    #[test]
    fn anchors_go_by_their_place() {
        let guests = [(1000.0, 9), (2000.0, 5), (1000.0, 3), (2000.0, 1)];
        seats(&guests, &[1, 3, 2, 4]);
    }

    /// On the default seed.
    #[test]
    fn greedy_reaches_every_corner() {
        let mut tally = Tally::default();
        for number in 0..2000 {
            let mut rng = Rng::for_case(1, GreedySearch::NAME, number);
            tally.count(&judge::<GreedySearch>(&mut rng));
        }
        let corners = &tally.corners;
        assert_eq!(tally.differences, 0);
        assert!(corners.iter().all(|(_, n)| *n > 100), "{corners:?}");
    }

    #[test]
    fn many_cases_form_matches() {
        let mut seen = [0; 65];
        for case in 0..1000 {
            let case = BeamSearch::draw(&mut Rng::for_case(1, "formed", case), Scale::Full);
            if BeamSearch::refusal(&case) == 0 {
                seen[BeamSearch::rust(&case).0] += 1;
            }
        }
        let several: usize = seen[2..].iter().sum();
        assert!(several > 200 && seen[1] > 50, "{seen:?}");
    }

    /// How often each refusal is due.
    fn refusals<F: Function>(scale: Scale) -> [usize; 13] {
        let mut seen = [0; 13];
        for case in 0..2000 {
            let case = F::draw(&mut Rng::for_case(1, "refusals", case), scale);
            seen[usize::from(F::refusal(&case))] += 1;
        }
        seen
    }

    #[test]
    fn every_refusal_is_drawn_and_most_cases_reach_the_rust() {
        for scale in [Scale::Full, Scale::Stored] {
            let (greedy, beam) = (
                refusals::<GreedySearch>(scale),
                refusals::<BeamSearch>(scale),
            );
            assert!(greedy[0] > 1000 && beam[0] > 900, "{greedy:?} {beam:?}");
            assert!(greedy[1..5].iter().all(|&n| n > 40), "{greedy:?}");
            assert!(beam[1..6].iter().all(|&n| n > 40), "{beam:?}");
        }
    }
}
