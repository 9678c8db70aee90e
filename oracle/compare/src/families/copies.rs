//! search.rs on queues with later copies put in: greedy search forms the same matches, and no search seats anybody twice.

use super::search::{self, BeamSearch, Formed, GreedySearch};
use crate::data::LaterCopy;
use crate::draw::{self, Scale};
use crate::function::{Corner, Function, Listed, caught, compared};
use crate::model::{self, QUEUE_LIMIT};
use crate::rng::Rng;
use crate::same::Same;
use std::marker::PhantomData;
use yilgashe_sys::{Queue, TeamComposition};

pub const FUNCTIONS: &[Listed] = &[
    compared::<GreedyCopied>(),
    compared::<Seated<GreedySearch>>(),
    compared::<Seated<BeamSearch>>(),
];

struct GreedyCopied;

/// A search, and its queue once more with copies.
#[derive(Debug)]
struct Case {
    plain: search::Case,
    doubled: Queue,
    copies: Vec<LaterCopy>,
}

impl Case {
    fn with_copies(&self) -> search::Case {
        search::Case {
            queue: self.doubled,
            ..self.plain.clone()
        }
    }

    /// What is expected of each queue by itself: one may be refused, or fall, and the other not.
    fn expected(&self) -> (Given, Given) {
        (expected(&self.plain), expected(&self.with_copies()))
    }
}

/// The refusal and the answer to one queue; no answer where the Rust panics, so that this too is a difference.
type Given = (u8, Option<Formed>);

fn expected(case: &search::Case) -> Given {
    match GreedySearch::refusal(case) {
        0 if GreedySearch::has_rust(case) => (0, caught(|| GreedySearch::rust(case))),
        0 => (0, GreedySearch::model(case)),
        number => (number, Some(GreedySearch::refused(case))),
    }
}

impl Function for GreedyCopied {
    const NAME: &'static str = "greedy_copied";
    type Case = Case;
    /// Without the copies and with them.
    type Answer = (Given, Given);

    fn draw(rng: &mut Rng, scale: Scale) -> Case {
        let plain = GreedySearch::draw(rng, scale);
        let (doubled, copies) = draw::copied(rng, &plain.queue, QUEUE_LIMIT);
        Case {
            plain,
            doubled,
            copies,
        }
    }

    /// That of the doubled queue, which is refused wherever the other is.
    fn refusal(case: &Case) -> u8 {
        GreedySearch::refusal(&case.with_copies())
    }

    fn refused(case: &Case) -> Self::Answer {
        case.expected()
    }

    fn has_rust(case: &Case) -> bool {
        GreedySearch::has_rust(&case.plain) && GreedySearch::has_rust(&case.with_copies())
    }

    fn rust(case: &Case) -> Self::Answer {
        case.expected()
    }

    /// Of one queue or of both.
    fn model(case: &Case) -> Option<Self::Answer> {
        Some(case.expected())
    }

    fn library(case: &Case) -> (u8, Self::Answer) {
        let (plain, formed) = GreedySearch::library(&case.plain);
        let (doubled, again) = GreedySearch::library(&case.with_copies());
        (doubled, ((plain, Some(formed)), (doubled, Some(again))))
    }

    fn keeps(_: &Case, (plain, doubled): &Self::Answer) -> Result<(), String> {
        match (plain.0, doubled.0) {
            (0, 0) if !plain.1.same(&doubled.1) => Err("copies change the matches".into()),
            _ => Ok(()),
        }
    }

    fn corners(case: &Case, refusal: u8, (plain, doubled): &Self::Answer) -> Vec<Corner> {
        let formed = doubled.1.as_ref();
        let seats = formed.and_then(|formed| seats(&case.plain.sizes, formed));
        let seats = seats.unwrap_or_default();
        let mut corners = corners(&case.doubled, &case.copies, refusal, seats);
        let alone = |number| plain.0 == 0 && refusal == number;
        corners.extend([("alone 1", alone(1)), ("alone 4", alone(4))]);
        corners
    }
}

/// A search whose queue gets copies.
trait Search: Function<Answer = Formed> {
    const SEATED: &'static str;
    /// At most so many, save where they lead over the limit.
    const COPIES: usize;

    /// A case that copies are yet to come into.
    fn plain(rng: &mut Rng, scale: Scale) -> Self::Case {
        Self::draw(rng, scale)
    }
    fn queue_mut(case: &mut Self::Case) -> &mut Queue;
    fn read(case: &Self::Case) -> (&Queue, &TeamComposition);
}

impl Search for GreedySearch {
    const SEATED: &'static str = "greedy_seated";
    const COPIES: usize = QUEUE_LIMIT;

    fn queue_mut(case: &mut Self::Case) -> &mut Queue {
        &mut case.queue
    }

    fn read(case: &Self::Case) -> (&Queue, &TeamComposition) {
        (&case.queue, &case.sizes)
    }
}

/// Half a queue and few copies, as the Rust's beam takes long on a long one.
impl Search for BeamSearch {
    const SEATED: &'static str = "beam_seated";
    const COPIES: usize = 6;

    fn plain(rng: &mut Rng, scale: Scale) -> Self::Case {
        let (mut beam, sheets) = Self::draw(rng, scale);
        if !model::over(&beam.queue) {
            beam.queue.len = beam.queue.len.div_ceil(2);
        }
        (beam, sheets)
    }

    fn queue_mut((beam, _): &mut Self::Case) -> &mut Queue {
        &mut beam.queue
    }

    fn read((beam, _): &Self::Case) -> (&Queue, &TeamComposition) {
        (&beam.queue, &beam.sizes)
    }
}

/// The search on the doubled queue alone, held to what its matches seat.
struct Seated<S>(PhantomData<S>);

impl<S: Search> Function for Seated<S> {
    const NAME: &'static str = S::SEATED;
    type Case = (S::Case, Vec<LaterCopy>);
    type Answer = Formed;

    fn draw(rng: &mut Rng, scale: Scale) -> Self::Case {
        let mut case = S::plain(rng, scale);
        let queue = S::queue_mut(&mut case);
        let (doubled, copies) = draw::copied(rng, queue, S::COPIES);
        *queue = doubled;
        (case, copies)
    }

    fn refusal((case, _): &Self::Case) -> u8 {
        S::refusal(case)
    }

    fn refused((case, _): &Self::Case) -> Formed {
        S::refused(case)
    }

    fn has_rust((case, _): &Self::Case) -> bool {
        S::has_rust(case)
    }

    fn rust((case, _): &Self::Case) -> Formed {
        S::rust(case)
    }

    fn model((case, _): &Self::Case) -> Option<Formed> {
        S::model(case)
    }

    fn library((case, _): &Self::Case) -> (u8, Formed) {
        S::library(case)
    }

    fn keeps((case, _): &Self::Case, formed: &Formed) -> Result<(), String> {
        let (queue, sizes) = S::read(case);
        seats_guests_once(queue, sizes, formed)
    }

    fn corners((case, copies): &Self::Case, refusal: u8, formed: &Formed) -> Vec<Corner> {
        let (queue, sizes) = S::read(case);
        let seats = seats(sizes, formed).unwrap_or_default();
        corners(queue, copies, refusal, seats)
    }
}

/// The seats of all matches as they stand on the sheet; none where it has fewer places.
fn seats<'a>(sizes: &TeamComposition, (count, after): &'a Formed) -> Option<&'a [u64]> {
    let each = sizes.a.saturating_add(sizes.b);
    after.players.get(..count.saturating_mul(each))
}

/// Request 2.1: every match has A + B seats, and all seats of all matches are different guests of the queue.
fn seats_guests_once(
    queue: &Queue,
    sizes: &TeamComposition,
    formed: &Formed,
) -> Result<(), String> {
    let waits = |player: &u64| queue.waiting().iter().any(|entry| entry.player == *player);
    match seats(sizes, formed) {
        None => Err("more seats than the sheet has places".into()),
        Some(seats) if model::doubled(seats) => Err("a guest is seated twice".into()),
        Some(seats) if !seats.iter().all(waits) => Err("one is seated who does not wait".into()),
        Some(_) => Ok(()),
    }
}

/// What a queue with copies reaches where it is not refused.
fn corners(queue: &Queue, copies: &[LaterCopy], refusal: u8, seats: &[u64]) -> Vec<Corner> {
    let copies = if refusal == 0 { copies } else { &[] };
    let any = |reaches: &dyn Fn(&LaterCopy) -> bool| copies.iter().any(reaches);
    let later = any(&|copy| copy.joined_later(queue));
    vec![
        ("put in", !copies.is_empty()),
        ("formed", !copies.is_empty() && !seats.is_empty()),
        (
            "seated",
            any(&|copy| seats.contains(&queue.entries[copy.place].player)),
        ),
        ("behind", any(&|copy| copy.directly_behind())),
        ("between", any(&|copy| copy.between_others(queue))),
        ("of a copy", any(&|copy| copy.of_a_copy(copies))),
        ("together", !copies.is_empty() && !later),
        ("later", later),
    ]
}

#[cfg(test)]
mod tests {
    use super::*;
    use crate::data::{Columns, Sheets};
    use crate::function::{Source, Verdict, judge_case};
    use crate::model::Beam;
    use crate::tally::Tally;
    use yilgashe_sys::{MatchObjective, QueueEntry};

    const NEAR: [(u64, f64); 3] = [(1, 1000.0), (2, 1010.0), (3, 990.0)];

    fn queue(guests: &[(u64, f64)]) -> Queue {
        let entry = |&(player, rating)| QueueEntry {
            player,
            rating,
            ..QueueEntry::default()
        };
        let entries: Vec<QueueEntry> = guests.iter().map(entry).collect();
        Queue::of(&entries)
    }

    fn rostered(guests: &[(u64, f64)]) -> Columns {
        Columns {
            ids: guests.iter().map(|(player, _)| *player).collect(),
            ratings: guests.iter().map(|(_, rating)| *rating).collect(),
            deviations: Some(vec![0.0; guests.len()]),
        }
    }

    fn sheets(players: &[u64]) -> Sheets {
        let mut sheets = draw::sheets(&mut Rng::new(0), Scale::Stored);
        sheets.players[..players.len()].copy_from_slice(players);
        sheets
    }

    /// 1+1.
    fn greedy(guests: &[(u64, f64)]) -> search::Case {
        search::Case {
            queue: queue(guests),
            sizes: TeamComposition { a: 1, b: 1 },
            columns: rostered(guests),
            sheets: sheets(&[]),
        }
    }

    /// On these queues, which need not be copies of each other.
    fn pairs(plain: &[(u64, f64)], doubled: &[(u64, f64)]) -> Verdict {
        judge_case::<GreedyCopied>(&Case {
            plain: greedy(plain),
            doubled: queue(doubled),
            copies: Vec::new(),
        })
    }

    /// The expected answers, be they the Rust's or the model's, and the library's each part from themselves.
    fn broken(verdict: &Verdict) -> bool {
        let sides = ["expected", "library"];
        let line = |side| format!("broken:   {side}, copies change the matches");
        let difference = verdict.difference.as_ref();
        difference.is_some_and(|difference| sides.iter().all(|s| difference.contains(&line(s))))
    }

    #[test]
    fn a_copy_behind_its_original_changes_nothing() {
        let [one, two, three] = NEAR;
        for doubled in [[one, two, three, three], [one, two, two, three]] {
            let verdict = pairs(&NEAR, &doubled);
            assert_eq!(verdict.source, Source::Rust);
            assert_eq!(verdict.difference, None);
        }
    }

    #[test]
    fn a_copy_before_its_original_shows() {
        let [one, two, three] = NEAR;
        assert!(broken(&pairs(&NEAR, &[one, three, two, three])));
        assert!(broken(&pairs(&NEAR, &[three, one, two, three])));
    }

    #[test]
    fn a_copy_with_another_rating_shows() {
        let [one, two, three] = NEAR;
        assert!(broken(&pairs(&NEAR, &[one, two, three, (3, 1000.0)])));
    }

    /// Guest 3 joined after 2, and comes once more at the end with this joined time.
    fn copied_last(time: u64) -> Case {
        let joined = |guests: &[(u64, f64)], times: &[u64]| {
            let mut queue = queue(guests);
            for (entry, time) in queue.entries.iter_mut().zip(times) {
                entry.joined = *time;
            }
            queue
        };
        let [one, two, three] = NEAR;
        Case {
            plain: search::Case {
                queue: joined(&NEAR, &[5, 5, 7]),
                ..greedy(&NEAR)
            },
            doubled: joined(&[one, two, three, three], &[5, 5, 7, time]),
            copies: Vec::new(),
        }
    }

    #[test]
    fn a_copy_that_joined_earlier_shows() {
        for time in [7, 8, 1 << 53] {
            let verdict = judge_case::<GreedyCopied>(&copied_last(time));
            assert_eq!((verdict.source, verdict.difference), (Source::Rust, None));
        }
        let earlier = copied_last(0);
        assert!(broken(&judge_case::<GreedyCopied>(&earlier)));
        let (_, (plain, doubled)) = GreedyCopied::library(&earlier);
        for ((_, formed), seated) in [(plain, [1, 2]), (doubled, [1, 3])] {
            assert_eq!(formed.expect("not refused").1.players[..2], seated);
        }
    }

    /// How many of 300 drawn cases, none of them refused, break the law once they are changed.
    fn broken_by(change: impl Fn(&mut Case)) -> usize {
        let drawn = (0..).map(|number| {
            let mut rng = Rng::for_case(1, "changed", number);
            GreedyCopied::draw(&mut rng, Scale::Full)
        });
        let good = drawn.filter(|case| GreedyCopied::refusal(case) == 0);
        let verdicts = good.take(300).map(|mut case| {
            change(&mut case);
            judge_case::<GreedyCopied>(&case)
        });
        verdicts.filter(broken).count()
    }

    fn turn_round(queue: &mut Queue) {
        let waiting = &mut queue.entries[..queue.len];
        waiting.reverse();
    }

    #[test]
    fn drawn_cases_show_what_is_no_later_copy() {
        let found = [
            broken_by(|case| {
                turn_round(&mut case.plain.queue);
                turn_round(&mut case.doubled);
            }),
            broken_by(|case| {
                let nearest = case.doubled.entries[0].rating;
                for copy in &case.copies {
                    case.doubled.entries[copy.place].rating = nearest;
                }
            }),
            broken_by(|case| {
                for copy in &case.copies {
                    case.doubled.entries[copy.place].player = 500;
                }
            }),
            broken_by(|case| {
                let (plain, doubled) = (&mut case.plain.queue, &mut case.doubled);
                let all = plain.entries.iter_mut().chain(&mut doubled.entries);
                all.for_each(|entry| entry.joined = entry.joined.max(1));
                for copy in &case.copies {
                    doubled.entries[copy.place].joined = 0;
                }
            }),
        ];
        assert!(found.iter().all(|&count| count > 30), "{found:?}");
        assert_eq!(broken_by(|_| ()), 0);
    }

    /// 2+1, width 2, quality alone.
    fn beam(guests: &[(u64, f64)]) -> (Beam, Sheets) {
        let beam = Beam {
            width: 2,
            queue: queue(guests),
            sizes: TeamComposition { a: 2, b: 1 },
            objective: MatchObjective {
                quality: 1.0,
                wait: 0.0,
                ping: 0.0,
                uncertainty: 0.0,
            },
            columns: rostered(&guests[..4]),
            clock: 0,
        };
        (beam, sheets(&[]))
    }

    /// Guest 2 once more fills both places of the beam with the same seats, and guest 4 falls out.
    #[test]
    fn the_beam_has_no_law_of_copies() {
        let guests = [
            (1, 1000.0),
            (2, 1000.0),
            (3, 1100.0),
            (4, 1200.0),
            (2, 1000.0),
        ];
        for (len, seated) in [(4, [1, 4, 3]), (5, [1, 3, 2])] {
            let case = beam(&guests[..len]);
            assert_eq!(BeamSearch::refusal(&case), 0);
            let (refusal, library) = BeamSearch::library(&case);
            assert_eq!(refusal, 0);
            for (count, after) in [library, BeamSearch::rust(&case)] {
                assert_eq!(
                    (count, &after.players[..4]),
                    (1, &[seated[0], seated[1], seated[2], 1003][..])
                );
            }
        }
    }

    /// Is it kept where `count` matches were formed and these players stand on the sheet?
    fn kept<S: Search>(case: S::Case, count: usize, players: &[u64]) -> bool {
        let case = (case, Vec::new());
        Seated::<S>::keeps(&case, &(count, sheets(players))).is_ok()
    }

    #[test]
    fn seats_are_of_different_guests_who_wait() {
        let guests = [1, 2, 3, 2, 4].map(|player| (player, 0.0));
        let pairs = |count, players: &[u64]| kept::<GreedySearch>(greedy(&guests), count, players);
        assert!(pairs(0, &[]) && pairs(1, &[1, 2]) && pairs(2, &[1, 2, 4, 3]));
        assert!(!pairs(1, &[2, 2]), "twice in a match");
        assert!(!pairs(2, &[1, 2, 2, 3]), "in two matches");
        assert!(!pairs(1, &[1, 5]), "not in the queue");
        assert!(!pairs(2, &[1, 2, 3]), "a seat left as it was");
        assert!(!pairs(40, &[1, 2]), "more than the sheet holds");
        let three = |players: &[u64]| kept::<BeamSearch>(beam(&guests), 1, players);
        assert!(three(&[1, 4, 3]));
        assert!(!three(&[1, 4, 1]) && !three(&[1, 4, 5]) && !three(&[1, 4]));
    }

    #[test]
    fn a_queue_that_is_refused_stays_so_with_copies() {
        let mut refused = 0;
        for number in 0..2000 {
            let mut rng = Rng::for_case(1, "refusals", number);
            let case = GreedyCopied::draw(&mut rng, Scale::Full);
            if GreedySearch::refusal(&case.plain) > 0 {
                assert_ne!(GreedyCopied::refusal(&case), 0);
                refused += 1;
            }
        }
        assert!(refused > 200, "{refused}");
    }

    #[test]
    fn both_the_rust_and_the_model_are_asked() {
        let mut seen = [0; 2];
        for number in 0..1000 {
            let mut rng = Rng::for_case(1, GreedyCopied::NAME, number);
            let case = GreedyCopied::draw(&mut rng, Scale::Full);
            if GreedyCopied::refusal(&case) == 0 && !case.copies.is_empty() {
                seen[usize::from(GreedyCopied::has_rust(&case))] += 1;
            }
        }
        assert!(seen.iter().all(|&count| count > 100), "{seen:?}");
    }

    /// On the default seed.
    #[test]
    fn every_corner_is_reached() {
        for function in FUNCTIONS {
            let mut tally = Tally::default();
            for number in 0..1000 {
                let mut rng = Rng::for_case(1, function.name, number);
                let verdict = (function.judge)(&mut rng);
                assert_eq!(verdict.difference, None);
                assert_ne!(verdict.source, Source::Panic);
                tally.count(&verdict);
            }
            let corners = &tally.corners;
            let name = function.name;
            assert!(corners.len() >= 8, "{name} {corners:?}");
            assert!(corners.iter().all(|(_, n)| *n > 20), "{name} {corners:?}");
        }
    }
}
