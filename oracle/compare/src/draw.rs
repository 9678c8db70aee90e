//! Draws cases within document 01's limits, at them and just beyond.
//!
//! Each irregularity is rare, so that most cases reach the Rust.

mod choices;
mod copies;
mod keys;
mod lists;
mod rounds;
mod rules;
mod scores;
mod searches;
mod single;

pub use choices::*;
pub use copies::*;
pub use lists::*;
pub use rules::*;
pub use scores::*;
pub use searches::*;
pub use single::*;

use crate::data::Roster;
use crate::model::{CLOCK_LIMIT, NO_RECORD, QUEUE_LIMIT, ROSTER_LIMIT};
use crate::rng::Rng;
use std::array::from_fn;
use yilgashe_sys::{Queue, QueueEntry};

/// Stored cases are small, since each fills a line.
#[derive(Clone, Copy, Debug, PartialEq)]
pub enum Scale {
    Full,
    Stored,
}

/// How the ratings of one case are spread.
#[derive(Clone, Copy, Debug)]
pub enum Ratings {
    Equal,
    Few,
    Plain,
    Wild,
}

/// How the joined times of one case are spread.
#[derive(Clone, Copy, Debug)]
enum Times {
    Zero,
    Small,
    Plain,
    Edge,
}

/// Ratings where floats behave unlike numbers.
const WILD: [f64; 20] = [
    f64::from_bits(0x7ff8_0000_0000_0000), // NaN
    f64::from_bits(0xfff8_0000_0000_0000), // NaN with a sign
    f64::from_bits(0x7ff0_0000_0000_0001), // signalling NaN
    f64::from_bits(0xffff_ffff_ffff_ffff), // NaN, all bits set
    f64::INFINITY,
    f64::NEG_INFINITY,
    0.0,
    -0.0,
    1e308,
    -1e308,
    f64::MAX,
    f64::MIN_POSITIVE,
    f64::from_bits(1), // the smallest subnormal
    -f64::from_bits(0x000f_ffff_ffff_ffff),
    -1000.0,
    -200.0,
    9_007_199_254_740_993.0,
    0.1,
    1e-300,
    1000.0,
];

/// Ids where a narrower or signed number would show.
const ODD_IDS: [u64; 5] = [u64::MAX, 1 << 63, 1 << 32, (1 << 53) + 1, u32::MAX as u64];

/// Times that refusal 4 is for.
const LATE: [u64; 4] = [CLOCK_LIMIT + 1, CLOCK_LIMIT + 2, 1 << 63, u64::MAX];

/// Queue lengths that refusal 1 is for; the fourth is 3 in its low 32 bits.
const LONG: [usize; 6] = [
    QUEUE_LIMIT + 1,
    QUEUE_LIMIT + 2,
    1 << 8,
    (1 << 32) + 3,
    1 << 63,
    usize::MAX,
];

pub fn ratings(rng: &mut Rng) -> Ratings {
    rng.weighted(&[
        (2, Ratings::Equal),
        (3, Ratings::Few),
        (4, Ratings::Plain),
        (2, Ratings::Wild),
    ])
}

pub fn rating(rng: &mut Rng, spread: Ratings) -> f64 {
    match spread {
        Ratings::Equal => 1000.0,
        Ratings::Few => 1000.0 + 10.0 * rng.below(6) as f64,
        Ratings::Plain => rng.below(3_000_000) as f64 / 1024.0 - 100.0,
        Ratings::Wild if rng.one_in(2) => rng.pick(&WILD),
        Ratings::Wild => 900.0 + 50.0 * rng.below(8) as f64,
    }
}

/// Any time, every magnitude, around the limit and beyond.
pub fn time(rng: &mut Rng) -> u64 {
    match rng.below(24) {
        0 => 0,
        1..=3 => rng.below(10) as u64,
        4..=9 => plain_time(rng),
        10..=15 => rng.next_u64() >> rng.between(11, 63),
        16 => CLOCK_LIMIT - 1,
        17 => CLOCK_LIMIT,
        18 => late_time(rng),
        19 => 1_000_000_000 * rng.below(9_000_000) as u64,
        _ => rng.below(CLOCK_LIMIT as usize + 1) as u64,
    }
}

/// Above 2^53.
pub fn late_time(rng: &mut Rng) -> u64 {
    rng.pick(&LATE)
}

/// Up to three hours.
fn plain_time(rng: &mut Rng) -> u64 {
    rng.below(10_800_000_000_000) as u64
}

/// The same time often, else a little later or up to three hours; past the clock's limit only if it is so itself.
fn later(rng: &mut Rng, time: u64) -> u64 {
    let step = match rng.below(4) {
        0 => rng.between(1, 5) as u64,
        1 => plain_time(rng),
        _ => 0,
    };
    time.saturating_add(step).min(CLOCK_LIMIT.max(time))
}

fn joined(rng: &mut Rng, spread: Times) -> u64 {
    match spread {
        Times::Zero => 0,
        Times::Small => rng.below(5) as u64,
        Times::Plain => plain_time(rng),
        Times::Edge => rng.pick(&[0, 1, CLOCK_LIMIT - 1, CLOCK_LIMIT]),
    }
}

fn times(rng: &mut Rng) -> Times {
    rng.weighted(&[
        (1, Times::Zero),
        (2, Times::Small),
        (4, Times::Plain),
        (1, Times::Edge),
    ])
}

fn party(rng: &mut Rng) -> u64 {
    rng.weighted(&[(6, 0), (2, 1), (2, 2), (1, 3), (1, u64::MAX)])
}

fn role(rng: &mut Rng) -> u32 {
    rng.below(6) as u32
}

/// The ids that one case draws from: few, guest 0 often among them, or one for each place.
fn pool(rng: &mut Rng) -> Vec<u64> {
    let size = rng.pick(&[1, 2, 3, 5, 8, 16, 70]);
    let start = u64::from(rng.one_in(4));
    let mut ids: Vec<u64> = (start..start + size).collect();
    if rng.one_in(6) {
        let place = rng.below(ids.len());
        ids[place] = rng.pick(&ODD_IDS);
    }
    ids
}

/// Ids for 64 places: from the pool with copies, or all different.
fn places(rng: &mut Rng) -> [u64; QUEUE_LIMIT] {
    let mut ids = pool(rng);
    if ids.len() >= QUEUE_LIMIT {
        rng.shuffle(&mut ids);
        from_fn(|place| ids[place])
    } else {
        from_fn(|_| rng.pick(&ids))
    }
}

fn queue_len(rng: &mut Rng, scale: Scale) -> usize {
    let long = rng.one_in(20);
    match scale {
        Scale::Stored if long => QUEUE_LIMIT + 1,
        Scale::Stored => rng.below(12), // an enqueue adds a twelfth
        Scale::Full if long => rng.pick(&LONG),
        Scale::Full if rng.one_in(3) => rng.pick(&[0, 1, 2, 3, 4, 62, 63, 64]),
        Scale::Full => rng.below(QUEUE_LIMIT + 1),
    }
}

/// All 64 places are filled: a call that reads past `len` meets entries that look real.
pub fn queue(rng: &mut Rng, scale: Scale) -> Queue {
    let len = queue_len(rng, scale);
    let (players, ratings, times) = (places(rng), ratings(rng), times(rng));
    let mut queue = Queue {
        entries: from_fn(|place| QueueEntry {
            player: players[place],
            joined: joined(rng, times),
            rating: rating(rng, ratings),
            party: party(rng),
            role: role(rng),
        }),
        len,
    };
    if rng.one_in(12) {
        spoil_time(rng, &mut queue);
    }
    queue
}

/// One late time among the waiting, or just past them, where nobody may look.
fn spoil_time(rng: &mut Rng, queue: &mut Queue) {
    let len = queue.len.min(QUEUE_LIMIT);
    let place = match rng.below(4) {
        0 => len,
        1 => len.saturating_sub(1),
        _ => rng.below(len),
    };
    queue.entries[place.min(QUEUE_LIMIT - 1)].joined = late_time(rng);
}

/// A waiting player mostly; else one who stands only past `len`, guest 0, or a stranger.
pub fn player(rng: &mut Rng, queue: &Queue) -> u64 {
    let waiting = queue.waiting();
    match rng.below(12) {
        0 => 0,
        1 => rng.pick(&ODD_IDS),
        2 => rng.below(80) as u64,
        3 => rng.pick(&queue.entries).player,
        _ if waiting.is_empty() => rng.below(3) as u64,
        _ => rng.pick(waiting).player,
    }
}

/// Ids with copies; none, few, or more than a queue holds.
pub fn players(rng: &mut Rng, queue: &Queue) -> Vec<u64> {
    let count = rng.weighted(&[(2, 0), (3, 1), (3, 2), (3, 4), (2, 9), (1, 64), (1, 100)]);
    (0..count).map(|_| player(rng, queue)).collect()
}

/// An entry that asks to join `queue`.
pub fn entry(rng: &mut Rng, queue: &Queue) -> QueueEntry {
    let (ratings, times) = (ratings(rng), times(rng));
    let late = rng.one_in(15);
    QueueEntry {
        player: player(rng, queue),
        joined: if late {
            late_time(rng)
        } else {
            joined(rng, times)
        },
        rating: rating(rng, ratings),
        party: party(rng),
        role: role(rng),
    }
}

/// A clock at, around, before or after the joined times of `queue`.
pub fn clock(rng: &mut Rng, queue: &Queue) -> u64 {
    let waiting = queue.waiting();
    if waiting.is_empty() || rng.one_in(2) {
        return time(rng);
    }
    let joined = rng.pick(waiting).joined;
    match rng.below(4) {
        0 => joined,
        1 => joined.saturating_sub(1),
        _ => joined.saturating_add(plain_time(rng)),
    }
}

fn row_count(rng: &mut Rng, scale: Scale) -> usize {
    let long = rng.one_in(20);
    let boundary = rng.one_in(6);
    match scale {
        _ if long => rng.between(ROSTER_LIMIT + 1, ROSTER_LIMIT + 2),
        _ if boundary => rng.pick(&[0, 1, 2, ROSTER_LIMIT - 1, ROSTER_LIMIT]),
        Scale::Stored => rng.below(13),
        Scale::Full if rng.one_in(2) => rng.below(41),
        Scale::Full => rng.below(ROSTER_LIMIT + 1),
    }
}

/// Different ids: those of `queued` first, though at times some have no row.
fn row_ids(rng: &mut Rng, rows: usize, queued: &[u64]) -> Vec<u64> {
    let missing = rng.one_in(3);
    let mut ids = Vec::new();
    for &id in queued {
        let left_out = missing && rng.one_in(4);
        if !ids.contains(&id) && !left_out {
            ids.push(id);
        }
    }
    ids.truncate(rows);
    let mut other = if missing { 200 } else { 0 };
    while ids.len() < rows {
        if !ids.contains(&other) {
            ids.push(other);
        }
        other += 1;
    }
    if rng.one_in(2) {
        ids.sort_unstable();
    } else {
        rng.shuffle(&mut ids);
    }
    ids
}

/// A roster for the players `queued`, rarely one that is refused.
pub fn roster(rng: &mut Rng, scale: Scale, queued: &[u64]) -> Roster {
    let rows = row_count(rng, scale);
    let (ratings, deviations) = (ratings(rng), ratings_of_deviations(rng));
    let mut roster = Roster {
        ids: row_ids(rng, rows, queued),
        ratings: (0..rows).map(|_| rating(rng, ratings)).collect(),
        deviations: (0..rows).map(|_| deviation(rng, deviations)).collect(),
        parties: (0..rows).map(|_| party(rng)).collect(),
        roles: (0..rows).map(|_| role(rng)).collect(),
        regions: (0..rows).map(|_| region(rng)).collect(),
    };
    if rng.one_in(10) {
        spoil(rng, &mut roster);
    }
    roster
}

/// Makes a roster bad in one way.
pub fn spoil(rng: &mut Rng, roster: &mut Roster) {
    match rng.below(3) {
        0 => double_an_id(rng, roster),
        1 => change_a_length(rng, roster),
        _ => spoil_a_region(rng, roster),
    }
}

fn ratings_of_deviations(rng: &mut Rng) -> Ratings {
    rng.weighted(&[(5, Ratings::Plain), (1, Ratings::Wild)])
}

/// From 0 to 350, as rating systems have it, or wild.
fn deviation(rng: &mut Rng, spread: Ratings) -> f64 {
    match spread {
        Ratings::Wild => rating(rng, spread),
        _ => 12.5 * rng.below(29) as f64,
    }
}

fn region(rng: &mut Rng) -> u8 {
    rng.below(usize::from(NO_RECORD) + 1) as u8
}

/// Any two rows, the first and the last among them.
fn double_an_id(rng: &mut Rng, roster: &mut Roster) {
    let rows = roster.ids.len();
    if rows > 1 {
        let (from, to) = rng.pick(&[(0, rows - 1), (0, 1), (rows - 2, rows - 1), (rows / 2, 0)]);
        roster.ids[to] = roster.ids[from];
    }
}

/// One column a row longer, a row shorter, empty, full or over limit.
fn change_a_length(rng: &mut Rng, roster: &mut Roster) {
    let rows = roster.ids.len();
    let length = rng.pick(&[
        rows + 1,
        rows.saturating_sub(1),
        0,
        ROSTER_LIMIT,
        ROSTER_LIMIT + 1,
    ]);
    match rng.below(6) {
        0 => roster.ids.resize(length, u64::MAX),
        1 => roster.ratings.resize(length, 1000.0),
        2 => roster.deviations.resize(length, 0.0),
        3 => roster.parties.resize(length, 0),
        4 => roster.roles.resize(length, 0),
        _ => roster.regions.resize(length, 0),
    }
}

fn spoil_a_region(rng: &mut Rng, roster: &mut Roster) {
    let rows = roster.regions.len();
    if rows > 0 {
        let row = rng.pick(&[0, rows / 2, rows - 1]);
        roster.regions[row] = rng.pick(&[NO_RECORD + 1, NO_RECORD + 2, u8::MAX]);
    }
}

#[cfg(test)]
mod tests {
    use super::*;
    use crate::model;

    fn queues(scale: Scale) -> Vec<Queue> {
        let mut rng = Rng::new(1);
        (0..4000).map(|_| queue(&mut rng, scale)).collect()
    }

    #[test]
    fn full_queues_reach_every_boundary() {
        let queues = queues(Scale::Full);
        for len in [0, 1, 2, 63, 64, 65, (1 << 32) + 3, usize::MAX] {
            assert!(queues.iter().any(|queue| queue.len == len), "{len}");
        }
        let refused = queues.iter().filter(|queue| model::remove(queue) != 0);
        assert!((100..800).contains(&refused.count()));
    }

    #[test]
    fn stored_queues_are_short_or_of_len_65() {
        let queues = queues(Scale::Stored);
        assert!(
            queues
                .iter()
                .all(|queue| queue.len <= 11 || queue.len == 65)
        );
        assert!(queues.iter().any(|queue| queue.len == 11));
        assert!(queues.iter().any(|queue| queue.len == 65));
    }

    #[test]
    fn queues_with_copies_and_without() {
        let queues = queues(Scale::Full);
        let ids = |queue: &Queue| -> Vec<u64> { queue.entries.iter().map(|e| e.player).collect() };
        let doubled = queues.iter().filter(|queue| model::doubled(&ids(queue)));
        let doubled = doubled.count();
        assert!(doubled > 2000 && doubled < 3900, "{doubled}");
    }

    #[test]
    fn every_wild_rating_is_drawn() {
        let queues = queues(Scale::Full);
        let drawn = |bits| {
            let mut entries = queues.iter().flat_map(|queue| queue.waiting());
            entries.any(|entry| entry.rating.to_bits() == bits)
        };
        assert!(WILD.iter().all(|rating| drawn(rating.to_bits())));
    }

    #[test]
    fn times_around_the_limit() {
        let mut rng = Rng::new(1);
        let drawn: Vec<u64> = (0..4000).map(|_| time(&mut rng)).collect();
        for wanted in [0, CLOCK_LIMIT - 1, CLOCK_LIMIT, CLOCK_LIMIT + 1, u64::MAX] {
            assert!(drawn.contains(&wanted), "{wanted}");
        }
    }

    #[test]
    fn clocks_before_at_and_after_joined_times() {
        let mut rng = Rng::new(1);
        let queue = Queue::of(&[QueueEntry {
            joined: 1 << 40,
            ..QueueEntry::default()
        }]);
        let clocks: Vec<u64> = (0..400).map(|_| clock(&mut rng, &queue)).collect();
        assert!(clocks.iter().any(|&now| now < 1 << 40));
        assert!(clocks.contains(&(1 << 40)));
        assert!(clocks.iter().any(|&now| now > 1 << 40));
    }

    #[test]
    fn rosters_reach_every_boundary_and_refusal() {
        let mut rng = Rng::new(1);
        let rosters: Vec<Roster> = (0..4000)
            .map(|_| roster(&mut rng, Scale::Full, &[3, 3, 500]))
            .collect();
        for rows in [0, 1, 127, 128, 129, 130] {
            let mut lengths = rosters.iter().map(|roster| roster.ids.len());
            assert!(lengths.any(|length| length == rows), "{rows}");
        }
        let count = |number| {
            let refused = rosters.iter().filter(|r| model::roster(r) == number);
            refused.count()
        };
        assert!(count(0) > 3000 && count(1) > 50 && count(2) > 50);
        let good = |roster: &&Roster| model::roster(roster) == 0 && roster.ids.len() > 9;
        let mut missing = rosters.iter().filter(good);
        assert!(missing.any(|roster| !roster.ids.contains(&500)));
    }
}
