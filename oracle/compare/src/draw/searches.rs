//! Queues to search, sizes, widths and sheets.

use super::scores::{columns, fine, long_len};
use super::{LONG, Scale, WILD, clock, match_objective, queue};
use crate::data::{Columns, Sheets};
use crate::model::{Beam, LISTED_LIMIT, QUEUE_LIMIT, SHEET_LEAST, TEAM_LIMIT, WIDTH_LIMIT, ways};
use crate::rng::Rng;
use std::ops::RangeInclusive;
use yilgashe_sys::{Queue, QueueEntry, TeamComposition};

/// A queue as any other, or of players who wait but once, save for a few copies.
pub fn searched(rng: &mut Rng, scale: Scale) -> Queue {
    let mut queue = queue(rng, scale);
    if rng.one_in(4) {
        return queue;
    }
    let mut ids: Vec<u64> = (0..2 * QUEUE_LIMIT as u64).collect();
    rng.shuffle(&mut ids);
    let copies = rng.one_in(2);
    for (place, &id) in ids.iter().take(QUEUE_LIMIT).enumerate() {
        let from = rng.below(place);
        queue.entries[place].player = match copies && rng.one_in(6) {
            true => queue.entries[from].player,
            false => id,
        };
    }
    queue
}

/// A queue for greedy search.
pub fn greedy_queue(rng: &mut Rng, scale: Scale) -> Queue {
    let mut queue = searched(rng, scale);
    let len = queue.waiting().len();
    tie(rng, &mut queue.entries[..len]);
    queue
}

/// Makes distances equal in most queues, and puts more than half of them in joining order, some but for two guests.
pub(super) fn tie(rng: &mut Rng, waiting: &mut [QueueEntry]) {
    if !rng.one_in(3) {
        repeat_distances(rng, waiting);
    }
    let order = rng.below(10);
    if order < 6 {
        put_in_order(rng, waiting);
    }
    if order < 2 && !waiting.is_empty() {
        let (one, other) = (rng.below(waiting.len()), rng.below(waiting.len()));
        (waiting[one].joined, waiting[other].joined) = (waiting[other].joined, waiting[one].joined);
    }
}

/// Gives some guests the rating of one before them, or one just as far on the other side of the first.
fn repeat_distances(rng: &mut Rng, waiting: &mut [QueueEntry]) {
    for place in 1..waiting.len() {
        let (first, earlier) = (waiting[0].rating, waiting[rng.below(place)].rating);
        let opposite = first - (earlier - first);
        match rng.below(4) {
            0 => waiting[place].rating = earlier,
            1 if opposite.is_finite() => waiting[place].rating = opposite,
            _ => {}
        }
    }
}

/// Sorts joined times; in half of the cases many of them become equal.
fn put_in_order(rng: &mut Rng, waiting: &mut [QueueEntry]) {
    let mut times: Vec<u64> = waiting.iter().map(|entry| entry.joined).collect();
    times.sort_unstable();
    let together = rng.one_in(2);
    for place in 1..times.len() {
        if together && rng.one_in(2) {
            times[place] = times[place - 1];
        }
    }
    for (entry, time) in waiting.iter_mut().zip(times) {
        entry.joined = time;
    }
}

/// Both small mostly; any from 0 to 8; seldom over limit.
pub fn team_sizes(rng: &mut Rng) -> TeamComposition {
    let most = rng.weighted(&[(4, 2), (2, 3), (2, TEAM_LIMIT)]);
    let size = |rng: &mut Rng| match rng.below(40) {
        0 => long_len(rng),
        1..=3 => 0,
        _ => rng.between(usize::from(most < TEAM_LIMIT), most),
    };
    TeamComposition {
        a: size(rng),
        b: size(rng),
    }
}

/// Columns for the waiting: at times their ratings are those that they wait with.
pub fn searched_columns(rng: &mut Rng, scale: Scale, queue: &Queue, deviations: bool) -> Columns {
    let waiting = queue.waiting();
    let players: Vec<u64> = waiting.iter().map(|entry| entry.player).collect();
    let mut columns = columns(rng, scale, &players, deviations);
    if rng.one_in(2) {
        for (id, rating) in columns.ids.iter().zip(&mut columns.ratings) {
            let entry = waiting.iter().find(|entry| entry.player == *id);
            *rating = entry.map_or(*rating, |entry| entry.rating);
        }
    }
    columns
}

fn sheet_len(rng: &mut Rng, scale: Scale) -> usize {
    match (rng.below(24), scale) {
        (0, _) => rng.pick(&[0, 1, SHEET_LEAST - 2, SHEET_LEAST - 1]),
        (1, Scale::Full) => rng.between(100, 300),
        (2..=9, _) => rng.between(SHEET_LEAST + 1, SHEET_LEAST + 6),
        _ => SHEET_LEAST,
    }
}

pub fn sheets(rng: &mut Rng, scale: Scale) -> Sheets {
    let (players, qualities) = (sheet_len(rng, scale), sheet_len(rng, scale));
    filled(rng, scale, players, qualities)
}

/// What stands on a sheet shows whether it was touched. On a stored one place i holds player i + 1000 and quality -1.0.
fn filled(rng: &mut Rng, scale: Scale, players: usize, qualities: usize) -> Sheets {
    match scale {
        Scale::Stored => Sheets {
            players: (1000..).take(players).collect(),
            qualities: vec![-1.0; qualities],
        },
        Scale::Full => Sheets {
            players: (0..players).map(|_| rng.next_u64()).collect(),
            qualities: (0..qualities).map(|_| odd_quality(rng)).collect(),
        },
    }
}

fn odd_quality(rng: &mut Rng) -> f64 {
    match rng.below(4) {
        0 => rng.pick(&WILD),
        1 => f64::from_bits(rng.next_u64()),
        _ => fine(rng, -1.0, 2.0),
    }
}

/// How many matches a generator may give.
pub fn max(rng: &mut Rng) -> usize {
    match rng.below(8) {
        0 => 0,
        1 => 1,
        2 => usize::MAX,
        3 => rng.pick(&LONG),
        4..=5 => rng.between(2, 8),
        _ => rng.between(QUEUE_LIMIT / 2, QUEUE_LIMIT),
    }
}

/// A queue and sizes of which every choice is listed: mostly few, some 20,000 at times, all 184,756 of 20 once in a while.
pub fn listing(rng: &mut Rng, scale: Scale) -> (Queue, TeamComposition) {
    if scale == Scale::Full && rng.one_in(1000) {
        let mut queue = searched(rng, scale);
        queue.len = LISTED_LIMIT;
        return (queue, some_seats(rng, LISTED_LIMIT, usize::MAX));
    }
    choosable(rng, scale, 12, 20_000)
}

/// A queue of up to `short` entries comes with any sizes; a longer one with such that there are at most `most` choices. Stored ones
/// have at most 6 entries, or one too many.
pub(super) fn choosable(
    rng: &mut Rng,
    scale: Scale,
    short: usize,
    most: usize,
) -> (Queue, TeamComposition) {
    let (mut queue, mut sizes) = (searched(rng, scale), team_sizes(rng));
    if queue.len > QUEUE_LIMIT {
        return (queue, sizes);
    }
    let short = match scale {
        Scale::Full => short,
        Scale::Stored => 6,
    };
    queue.len = match (rng.below(24), scale) {
        (0, Scale::Stored) => LISTED_LIMIT + 1,
        (0, Scale::Full) => rng.pick(&[LISTED_LIMIT + 1, LISTED_LIMIT + 2, QUEUE_LIMIT]),
        (1, Scale::Full) => rng.between(short + 1, LISTED_LIMIT),
        (2, Scale::Full) => LISTED_LIMIT,
        _ => rng.below(short + 1),
    };
    if (short + 1..=LISTED_LIMIT).contains(&queue.len) {
        sizes = some_seats(rng, queue.len, most);
    }
    let seats = sizes.a.saturating_add(sizes.b);
    if queue.len < seats && seats <= short && !rng.one_in(4) {
        queue.len = rng.between(seats, short);
    }
    if rng.one_in(24) {
        sizes = TeamComposition { a: 0, b: 0 };
    }
    (queue, sizes)
}

/// Few seats or many, with at most `most` ways to take them.
pub(super) fn some_seats(rng: &mut Rng, n: usize, most: usize) -> TeamComposition {
    seats_of(rng, 0..=2 * TEAM_LIMIT, n, most)
}

/// One of these numbers of seats, of those with at most `most` ways to take them; there has to be one.
pub(super) fn seats_of(
    rng: &mut Rng,
    numbers: RangeInclusive<usize>,
    n: usize,
    most: usize,
) -> TeamComposition {
    let seats: Vec<usize> = numbers.filter(|&seats| ways(n, seats) <= most).collect();
    let seats = rng.pick(&seats);
    let a = rng.between(seats.saturating_sub(TEAM_LIMIT), seats.min(TEAM_LIMIT));
    TeamComposition { a, b: seats - a }
}

/// As many places as the listing fills, some more, one too few or none; few where no listing is made.
pub fn listing_sheets(
    rng: &mut Rng,
    scale: Scale,
    queue: &Queue,
    sizes: &TeamComposition,
) -> Sheets {
    let small = sizes.a <= TEAM_LIMIT && sizes.b <= TEAM_LIMIT;
    let (players, qualities) = match small && queue.len <= LISTED_LIMIT {
        true => {
            let seats = sizes.a + sizes.b;
            let count = ways(queue.len, seats);
            (count * seats, count)
        }
        false => (12, 6),
    };
    let mut places = |filled: usize| match rng.below(20) {
        0 => 0,
        1 => filled.saturating_sub(1),
        2..=6 => filled + rng.between(1, 6),
        _ => filled,
    };
    let (players, qualities) = (places(players), places(qualities));
    filled(rng, scale, players, qualities)
}

/// The Rust scores anew at each comparison, so long queues come with small widths and wide beams with short queues.
pub fn beam(rng: &mut Rng, scale: Scale) -> Beam {
    let large = rng.one_in(1000);
    let (longest, widest) =
        rng.weighted(&[(12, (14, 4)), (5, (24, 2)), (2, (64, 1)), (2, (9, 32))]);
    let mut queue = searched(rng, scale);
    let mut sizes = team_sizes(rng);
    if queue.len <= QUEUE_LIMIT && !large {
        queue.len = queue.len.min(longest);
    }
    if longest == QUEUE_LIMIT && sizes.a <= TEAM_LIMIT && sizes.b <= TEAM_LIMIT {
        (sizes.a, sizes.b) = (sizes.a.min(3), sizes.b.min(3));
    }
    let mut columns = searched_columns(rng, scale, &queue, true);
    if !rng.one_in(4) {
        settle(&mut columns);
    }
    Beam {
        width: width(rng, if large { WIDTH_LIMIT } else { widest }),
        objective: match_objective(rng),
        clock: clock(rng, &queue),
        queue,
        sizes,
        columns,
    }
}

pub(super) fn width(rng: &mut Rng, widest: usize) -> usize {
    match rng.below(32) {
        0 => rng.pick(&[WIDTH_LIMIT + 1, QUEUE_LIMIT, LONG[3], usize::MAX]),
        1..=2 => 0,
        3..=8 => widest,
        _ => rng.between(1, widest),
    }
}

/// Deviations that no score is NaN by.
pub(super) fn settle(columns: &mut Columns) {
    let deviations = columns.deviations.iter_mut().flatten();
    let odd = deviations.filter(|deviation| !deviation.is_finite() || deviation.abs() > 1e300);
    odd.for_each(|deviation| *deviation = 100.0);
}

#[cfg(test)]
mod tests {
    use super::*;
    use crate::model;

    fn drawn<T>(draw: impl Fn(&mut Rng) -> T) -> Vec<T> {
        let mut rng = Rng::new(1);
        (0..4000).map(|_| draw(&mut rng)).collect()
    }

    #[test]
    fn sizes_widths_and_numbers_reach_every_boundary() {
        let sizes = drawn(team_sizes);
        for size in (0..=9).chain([usize::MAX]) {
            assert!(sizes.iter().any(|sizes| sizes.a == size), "{size}");
            assert!(sizes.iter().any(|sizes| sizes.b == size), "{size}");
        }
        let beams = drawn(|rng| beam(rng, Scale::Full));
        for width in (0..=33).chain([usize::MAX]) {
            assert!(beams.iter().any(|beam| beam.width == width), "{width}");
        }
        assert!(beams.iter().any(|beam| beam.queue.len == QUEUE_LIMIT));
        let numbers = drawn(max);
        for number in [0, 1, QUEUE_LIMIT, usize::MAX] {
            assert!(numbers.contains(&number), "{number}");
        }
    }

    #[test]
    fn sheets_around_64_places() {
        let full = drawn(|rng| sheets(rng, Scale::Full));
        for places in [0, 1, 62, 63, 64, 65, 70] {
            assert!(full.iter().any(|sheets| sheets.players.len() == places));
            assert!(full.iter().any(|sheets| sheets.qualities.len() == places));
        }
        assert!(full.iter().any(|sheets| sheets.players.len() > 99));
        for stored in drawn(|rng| sheets(rng, Scale::Stored)) {
            assert!(stored.players.len() <= 70 && stored.qualities.len() <= 70);
            assert!(
                (1000..)
                    .zip(&stored.players)
                    .all(|(held, &player)| held == player)
            );
        }
    }

    #[test]
    fn searched_queues_with_copies_and_without() {
        let queues = drawn(|rng| searched(rng, Scale::Full));
        let doubled = |queue: &&Queue| {
            let waiting = queue.waiting().iter();
            let ids: Vec<u64> = waiting.map(|entry| entry.player).collect();
            model::doubled(&ids)
        };
        assert!((1000..3000).contains(&queues.iter().filter(doubled).count()));
    }

    /// So many of their queues of three and more fall nowhere, in one place, in two or more.
    fn falls(queues: &[Queue]) -> [usize; 3] {
        let mut seen = [0; 3];
        for queue in queues.iter().filter(|queue| (3..=64).contains(&queue.len)) {
            let pairs = queue.waiting().windows(2);
            let falling = pairs.filter(|pair| pair[1].joined < pair[0].joined);
            seen[falling.count().min(2)] += 1;
        }
        seen
    }

    #[test]
    fn greedy_queues_in_joining_order_and_others() {
        for scale in [Scale::Full, Scale::Stored] {
            let seen = falls(&drawn(|rng| greedy_queue(rng, scale)));
            assert!(seen[0] > seen[1] + seen[2], "{seen:?}");
            assert!(seen[1] > 50 && seen[2] > 500, "{seen:?}");
        }
    }

    /// In order, of three and more: with all times different, with all equal, with some.
    #[test]
    fn greedy_queues_with_equal_joined_times() {
        let mut seen = [0; 3];
        for queue in drawn(|rng| greedy_queue(rng, Scale::Full)) {
            let waiting = queue.waiting();
            if model::never_falls(waiting) && waiting.len() > 2 {
                let pairs = waiting.windows(2);
                let equal = pairs.filter(|pair| pair[1].joined == pair[0].joined);
                seen[match equal.count() {
                    0 => 0,
                    all if all + 1 == waiting.len() => 1,
                    _ => 2,
                }] += 1;
            }
        }
        assert!(seen.iter().all(|&count| count > 200), "{seen:?}");
    }

    /// Does the rating of some guest lie so from the first's as that of another one does?
    fn repeats(queue: &Queue, so: fn(f64, f64) -> bool) -> bool {
        let first = queue.entries[0].rating;
        let apart = queue.waiting().iter().map(|entry| entry.rating - first);
        let apart: Vec<f64> = apart.filter(|apart| apart.abs() > 0.0).collect();
        (1..apart.len()).any(|i| apart[..i].iter().any(|&earlier| so(earlier, apart[i])))
    }

    #[test]
    fn greedy_queues_repeat_distances_on_both_sides() {
        let queues = drawn(|rng| greedy_queue(rng, Scale::Full));
        let seen = |so| queues.iter().filter(|queue| repeats(queue, so)).count();
        let (same, opposite) = (seen(|x, y| x == y), seen(|x, y| x == -y));
        assert!(same > 1500 && opposite > 1000, "{same} {opposite}");
    }

    #[test]
    fn listings_reach_every_boundary() {
        let mut rng = Rng::new(1);
        let mut counts = Vec::new();
        for _ in 0..4000 {
            let (queue, sizes) = listing(&mut rng, Scale::Full);
            let sheets = listing_sheets(&mut rng, Scale::Full, &queue, &sizes);
            if [0, 3].contains(&model::exhaustive(&queue, &sizes, &sheets)) {
                let seats = sizes.a + sizes.b;
                counts.push((queue.len, seats, ways(queue.len, seats)));
            }
        }
        let seen = |wanted: fn(&(usize, usize, usize)) -> bool| {
            let such = counts.iter().filter(|count| wanted(count));
            such.count()
        };
        assert!(seen(|&(_, _, count)| count == 0) > 300);
        assert!(seen(|&(n, seats, _)| n > 0 && seats == 0) > 50);
        assert!(seen(|&(n, seats, _)| n == 0 && seats == 0) > 3);
        assert!(seen(|&(n, seats, _)| n > 1 && n == seats) > 50);
        assert!(seen(|&(_, _, count)| count > 100) > 500);
        assert!(seen(|&(n, seats, _)| n == 20 && (1..4).contains(&seats)) > 10);
        assert!(seen(|&(n, seats, _)| n == 20 && seats > 14) > 10);
        assert!((1..20).contains(&seen(|&(_, _, count)| count > 20_000)));
    }

    #[test]
    fn stored_listings_are_short() {
        let mut rng = Rng::new(1);
        for _ in 0..4000 {
            let (queue, sizes) = listing(&mut rng, Scale::Stored);
            assert!(queue.len <= 6 || [21, 65].contains(&queue.len));
            let sheets = listing_sheets(&mut rng, Scale::Stored, &queue, &sizes);
            assert!(sheets.players.len() <= 72 && sheets.qualities.len() <= 72);
        }
    }
}
