//! candidate.rs: the nearest and the exhaustive generator, which write to lent sheets.

use crate::data::{Columns, Sheets};
use crate::draw::{self, Scale};
use crate::function::{Function, Listed, Stored, stored};
use crate::model;
use crate::rng::Rng;
use crate::translate::{laid_on, to_queue, to_rated_world, to_teams};
use crate::words::Words;
use matchlab_core::rng::SimRng;
use matchlab_core::time::SimTime;
use matchlab_matchmaking::candidate::{self as matchlab, CandidateGenerator};
use yilgashe_sys::{self as library, GreedyNearestGenerator, Queue, TeamComposition};

pub const FUNCTIONS: &[Listed] = &[stored::<Nearest>(), stored::<Exhaustive>()];

/// The number of matches, and the sheets after the call.
type Formed = (usize, Sheets);

struct Nearest;

#[derive(Debug)]
struct Case {
    max: usize,
    queue: Queue,
    sizes: TeamComposition,
    columns: Columns,
    sheets: Sheets,
}

impl Function for Nearest {
    const NAME: &'static str = "nearest";
    type Case = Case;
    type Answer = Formed;

    fn draw(rng: &mut Rng, scale: Scale) -> Case {
        let queue = draw::searched(rng, scale);
        Case {
            max: draw::max(rng),
            sizes: draw::team_sizes(rng),
            columns: draw::searched_columns(rng, scale, &queue, false),
            sheets: draw::sheets(rng, scale),
            queue,
        }
    }

    fn refusal(case: &Case) -> u8 {
        model::nearest(&case.queue, &case.sizes, &case.columns, &case.sheets)
    }

    fn refused(case: &Case) -> Formed {
        (0, case.sheets.clone())
    }

    /// The clock is not read.
    fn rust(case: &Case) -> Formed {
        let generator = matchlab::GreedyNearestGenerator {
            max_candidates: case.max,
        };
        let matches = generator.generate_candidates(
            &to_queue(&case.queue),
            &to_teams(&case.sizes),
            &to_rated_world(&case.columns, 0),
            SimTime::ZERO,
            &mut SimRng::from_seed(0),
        );
        laid_on(&case.sheets, &matches)
    }

    fn library(case: &Case) -> (u8, Formed) {
        let mut after = case.sheets.clone();
        let given = library::generate_nearest(
            GreedyNearestGenerator { max: case.max },
            case.queue,
            case.sizes,
            &case.columns.ids,
            &case.columns.ratings,
            &mut after.players,
            &mut after.qualities,
        );
        (given.refusal, (given.count, after))
    }
}

impl Stored for Nearest {
    const CODE: u64 = 26;

    fn write_case(case: &Case, words: &mut Words) {
        words.number(case.max as u64);
        words.queue(&case.queue);
        words.teams(&case.sizes);
        words.columns(&case.columns);
        words.sheets(&case.sheets);
    }

    fn write_answer(case: &Case, formed: &Formed, words: &mut Words) {
        words.formed(&case.sizes, formed);
    }
}

struct Exhaustive;

impl Function for Exhaustive {
    const NAME: &'static str = "exhaustive";
    type Case = (Queue, TeamComposition, Sheets);
    type Answer = Formed;

    fn draw(rng: &mut Rng, scale: Scale) -> Self::Case {
        let (queue, sizes) = draw::listing(rng, scale);
        let sheets = draw::listing_sheets(rng, scale, &queue, &sizes);
        (queue, sizes, sheets)
    }

    fn refusal((queue, sizes, sheets): &Self::Case) -> u8 {
        model::exhaustive(queue, sizes, sheets)
    }

    fn refused((_, _, sheets): &Self::Case) -> Formed {
        (0, sheets.clone())
    }

    /// Neither the roster nor the clock is read.
    fn rust((queue, sizes, sheets): &Self::Case) -> Formed {
        let matches = matchlab::ExhaustiveGenerator.generate_candidates(
            &to_queue(queue),
            &to_teams(sizes),
            &to_rated_world(&Columns::default(), 0),
            SimTime::ZERO,
            &mut SimRng::from_seed(0),
        );
        laid_on(sheets, &matches)
    }

    fn library((queue, sizes, sheets): &Self::Case) -> (u8, Formed) {
        let mut after = sheets.clone();
        let given =
            library::generate_exhaustive(*queue, *sizes, &mut after.players, &mut after.qualities);
        (given.refusal, (given.count, after))
    }
}

impl Stored for Exhaustive {
    const CODE: u64 = 28;
    const ONE_OF: u64 = 2;

    fn write_case((queue, sizes, sheets): &Self::Case, words: &mut Words) {
        words.queue(queue);
        words.teams(sizes);
        words.sheets(sheets);
    }

    fn write_answer((_, sizes, _): &Self::Case, formed: &Formed, words: &mut Words) {
        words.formed(sizes, formed);
    }
}

#[cfg(test)]
mod tests {
    use super::*;
    use crate::function::caught;
    use crate::same::Same;
    use yilgashe_sys::QueueEntry;

    /// Guests from 1 to n, joined at 0.
    fn guests(n: u64) -> Queue {
        let entry = |player| QueueEntry {
            player,
            ..QueueEntry::default()
        };
        let entries: Vec<QueueEntry> = (1..=n).map(entry).collect();
        Queue::of(&entries)
    }

    /// The same guests with these ratings by the roster.
    fn case(ratings: &[f64], (a, b): (usize, usize), max: usize) -> Case {
        let ids: Vec<u64> = (1..=ratings.len() as u64).collect();
        Case {
            max,
            queue: guests(ids.len() as u64),
            sizes: TeamComposition { a, b },
            columns: Columns {
                ids,
                ratings: ratings.to_vec(),
                deviations: None,
            },
            sheets: draw::sheets(&mut Rng::new(0), Scale::Stored),
        }
    }

    #[test]
    fn neighbours_are_laid_with_quality_0() {
        let (count, after) = Nearest::rust(&case(&[0.0, -0.0, -1.0, 0.0], (1, 1), usize::MAX));
        assert_eq!((count, &after.players[..5]), (2, &[3, 1, 2, 4, 1004][..]));
        assert_eq!(after.qualities[..3], [0.0, 0.0, -1.0]);
        let (count, after) = Nearest::rust(&case(&[0.0, -0.0, -1.0, 0.0], (1, 1), 1));
        assert_eq!((count, &after.players[..3]), (1, &[3, 1, 1002][..]));
    }

    /// The Rust panics just where seats or ranks are missing.
    #[test]
    fn the_rust_panics_just_where_12_or_5_is_due() {
        let mut seen = [0; 13];
        for number in 0..2000 {
            let case = Nearest::draw(&mut Rng::for_case(1, "panics", number), Scale::Full);
            let refusal = Nearest::refusal(&case);
            seen[usize::from(refusal)] += 1;
            if [0, 5, 12].contains(&refusal) {
                assert_eq!(caught(|| Nearest::rust(&case)).is_none(), refusal > 0);
            }
        }
        assert!(seen[0] > 1000, "{seen:?}");
        assert!([1, 2, 3, 4, 5, 12].iter().all(|&n| seen[n] > 5), "{seen:?}");
    }
    fn odd_sheets() -> Sheets {
        Sheets {
            players: vec![9; 8],
            qualities: vec![-1.0; 5],
        }
    }

    fn listed(n: u64, a: usize, b: usize) -> Formed {
        Exhaustive::rust(&(guests(n), TeamComposition { a, b }, odd_sheets()))
    }

    /// Matches of these players, all else as it was.
    fn laid(count: usize, players: &[u64]) -> Formed {
        let mut after = odd_sheets();
        after.players[..players.len()].copy_from_slice(players);
        after.qualities[..count].fill(0.0);
        (count, after)
    }

    #[test]
    fn every_choice_is_laid_in_order() {
        assert!(listed(4, 2, 2).same(&laid(1, &[1, 2, 3, 4])));
        assert!(listed(3, 1, 1).same(&laid(3, &[1, 2, 1, 3, 2, 3])));
        assert!(listed(3, 0, 0).same(&laid(1, &[])));
        assert!(listed(0, 0, 0).same(&laid(1, &[])));
        assert!(listed(3, 2, 2).same(&laid(0, &[])));
        assert!(listed(2, 0, 1).same(&laid(2, &[1, 2])));
    }

    #[test]
    fn listings_of_each_refusal_and_of_many_lengths() {
        for scale in [Scale::Full, Scale::Stored] {
            let (mut seen, mut formed) = ([0; 7], [0; 3]);
            for number in 0..1500 {
                let mut rng = Rng::for_case(1, "listings", number);
                let case = Exhaustive::draw(&mut rng, scale);
                let refusal = Exhaustive::refusal(&case);
                seen[usize::from(refusal)] += 1;
                if refusal == 0 {
                    let (count, _) = Exhaustive::rust(&case);
                    assert_eq!(count, model::ways(case.0.len, case.1.a + case.1.b));
                    formed[count.min(2)] += 1;
                }
            }
            assert!(seen[0] > 900, "{seen:?}");
            assert!([1, 3, 4, 6].iter().all(|&n| seen[n] > 30), "{seen:?}");
            assert!(formed.iter().all(|&count| count > 100), "{formed:?}");
        }
    }
}
