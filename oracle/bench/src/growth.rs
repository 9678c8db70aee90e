//! The second table: how times grow with entries, seats and width.

use crate::call::Row;
use crate::rows::{Scene, beam, greedy, round};

/// A number that grows, and the rows for it.
pub struct Growth {
    pub name: &'static str,
    pub rows: Vec<Box<dyn Fn(u64) -> Row>>,
}

const ENTRIES: [usize; 4] = [8, 16, 32, 64];
const CHOSEN_FROM: [usize; 5] = [12, 14, 16, 18, 20];
const SEATS: [usize; 5] = [1, 2, 3, 5, 8];
const WIDTHS: [usize; 5] = [1, 4, 8, 16, 32];

const FIVES: (usize, usize) = (5, 5);

pub fn tables() -> Vec<Growth> {
    vec![
        growth("greedy search, entries", &ENTRIES, |n, seed| {
            greedy::row(seed, Scene::of(n, FIVES))
        }),
        growth("greedy search, seats", &SEATS, |n, seed| {
            greedy::row(seed, Scene::of(64, (n, n)))
        }),
        growth("beam search, entries", &ENTRIES, |n, seed| {
            beam::row(seed, Scene::of(n, FIVES), 32)
        }),
        growth("beam search, width", &WIDTHS, |n, seed| {
            beam::row(seed, Scene::of(64, FIVES), n)
        }),
        growth("beam search, seats", &SEATS, |n, seed| {
            beam::row(seed, Scene::of(64, (n, n)), 32)
        }),
        growth("full round, entries", &CHOSEN_FROM, |n, seed| {
            round::row(seed, Scene::of(n, FIVES))
        }),
    ]
}

fn growth(name: &'static str, numbers: &[usize], row: fn(usize, u64) -> Row) -> Growth {
    let rows = numbers.iter().map(|&n| {
        let made: Box<dyn Fn(u64) -> Row> = Box::new(move |seed| row(n, seed));
        made
    });
    Growth {
        name,
        rows: rows.collect(),
    }
}
