//! Queues with later copies put in.

use super::{late_time, later, party, role};
use crate::data::LaterCopy;
use crate::model::QUEUE_LIMIT;
use crate::rng::Rng;
use std::array::from_fn;
use yilgashe_sys::{Queue, QueueEntry};

/// When the copies of a queue joined: never before the entry that they are made of.
#[derive(Clone, Copy)]
enum Joins {
    /// With it.
    Together,
    /// With it, or with the entry that they stand behind if that joined later: a queue in joining order stays so.
    InOrder,
    /// With it or later.
    Later,
}

/// The queue with copies of its entries behind them, at most `most` of them unless they lead over the limit. Then `len` counts all,
/// though the last find no place.
pub fn copied(rng: &mut Rng, queue: &Queue, most: usize) -> (Queue, Vec<LaterCopy>) {
    let mut entries = queue.entries.to_vec();
    let mut copies: Vec<LaterCopy> = Vec::new();
    let (waiting, joins) = (queue.waiting().len(), joins(rng));
    for len in waiting..waiting + copy_count(rng, waiting, most) {
        let of = copied_place(rng, len, &copies);
        let place = place_behind(rng, of, len);
        let joined = copy_joined(rng, &entries[of], &entries[place - 1], joins);
        entries.insert(place, copy_of(rng, &entries[of], joined));
        for copy in &mut copies {
            copy.place += usize::from(copy.place >= place);
            copy.of += usize::from(copy.of >= place);
        }
        copies.push(LaterCopy { place, of });
    }
    let doubled = Queue {
        entries: from_fn(|place| entries[place]),
        len: queue.len.saturating_add(copies.len()),
    };
    (doubled, copies)
}

/// A few, any number that there is room for, none, or more than there is room for.
fn copy_count(rng: &mut Rng, waiting: usize, most: usize) -> usize {
    let room = most.min(QUEUE_LIMIT - waiting);
    match rng.below(16) {
        _ if waiting == 0 => 0,
        0 => 0,
        1 => QUEUE_LIMIT - waiting + rng.between(1, 3),
        2..=6 => rng.between(1, 3).min(room),
        _ => rng.below(room + 1),
    }
}

/// Any of the first `len`, a copy more often than its share.
fn copied_place(rng: &mut Rng, len: usize, copies: &[LaterCopy]) -> usize {
    match copies.is_empty() || !rng.one_in(4) {
        true => rng.below(len),
        false => rng.pick(copies).place,
    }
}

fn place_behind(rng: &mut Rng, of: usize, len: usize) -> usize {
    match rng.below(6) {
        0 => of + 1,
        1 => len,
        _ => rng.between(of + 1, len),
    }
}

/// The same guest and rating bits.
fn copy_of(rng: &mut Rng, entry: &QueueEntry, joined: u64) -> QueueEntry {
    QueueEntry {
        joined,
        party: party(rng),
        role: role(rng),
        ..*entry
    }
}

fn joins(rng: &mut Rng) -> Joins {
    rng.weighted(&[(3, Joins::Together), (4, Joins::InOrder), (2, Joins::Later)])
}

/// Of a copy of `entry` that stands directly behind `before`; seldom a late time.
fn copy_joined(rng: &mut Rng, entry: &QueueEntry, before: &QueueEntry, joins: Joins) -> u64 {
    if rng.one_in(150) {
        return late_time(rng).max(entry.joined);
    }
    match joins {
        Joins::Together => entry.joined,
        Joins::InOrder => entry.joined.max(before.joined),
        Joins::Later => later(rng, entry.joined),
    }
}

#[cfg(test)]
mod tests {
    use super::super::{Scale, greedy_queue};
    use super::*;
    use crate::model::{joined_late, never_falls, over};

    /// Queues, each with copies put in.
    fn drawn(most: usize) -> Vec<(Queue, Queue, Vec<LaterCopy>)> {
        let mut rng = Rng::new(1);
        let draw = |_| {
            let queue = greedy_queue(&mut rng, Scale::Full);
            let (doubled, copies) = copied(&mut rng, &queue, most);
            (queue, doubled, copies)
        };
        (0..4000).map(draw).collect()
    }

    /// Exact bits, unlike `Same`.
    fn bits(entry: &QueueEntry) -> (u64, u64) {
        (entry.player, entry.rating.to_bits())
    }

    #[test]
    fn copies_stand_behind_the_same_guest_and_rating_bits_who_joined_no_later() {
        for (_, doubled, copies) in drawn(QUEUE_LIMIT) {
            let within = copies.iter().filter(|copy| copy.place < QUEUE_LIMIT);
            for LaterCopy { place, of } in within {
                assert!(of < place);
                let (original, copy) = (&doubled.entries[*of], &doubled.entries[*place]);
                assert_eq!(bits(original), bits(copy));
                assert!(original.joined <= copy.joined);
            }
        }
    }

    /// Of those in joining order that copies come into, some fall then; of those that fall, none is in order then.
    #[test]
    fn queues_stay_in_joining_order_often() {
        let drawn = drawn(QUEUE_LIMIT);
        let doubled = drawn
            .iter()
            .filter(|(_, d, copies)| !over(d) && !copies.is_empty());
        let (in_order, others): (Vec<_>, Vec<_>) =
            doubled.partition(|(q, ..)| never_falls(q.waiting()));
        let stay = in_order.iter().filter(|(_, d, _)| never_falls(d.waiting()));
        let (stay, all) = (stay.count(), in_order.len());
        assert!(stay > all / 3 && stay < all, "{stay} of {all}");
        assert!(others.iter().all(|(_, d, _)| !never_falls(d.waiting())));
    }

    #[test]
    fn without_its_copies_the_queue_is_as_it_was() {
        for (queue, doubled, copies) in drawn(QUEUE_LIMIT) {
            assert_eq!(doubled.len, queue.len.saturating_add(copies.len()));
            let kept = |place: &usize| copies.iter().all(|copy| copy.place != *place);
            let left = (0..QUEUE_LIMIT).filter(kept);
            for (place, left) in left.enumerate() {
                let (was, is) = (&queue.entries[place], &doubled.entries[left]);
                assert_eq!(bits(was), bits(is));
                assert_eq!((was.joined, was.party), (is.joined, is.party));
            }
        }
    }

    #[test]
    fn copies_lead_over_the_limit_and_past_the_clock_at_times() {
        let drawn = drawn(QUEUE_LIMIT);
        let good = drawn.iter().filter(|(q, ..)| !over(q) && !joined_late(q));
        let good: Vec<&Queue> = good.map(|(_, doubled, _)| doubled).collect();
        let long = good.iter().filter(|queue| over(queue)).count();
        let late = good.iter().filter(|queue| joined_late(queue)).count();
        assert!((100..800).contains(&long), "{long}");
        assert!((100..800).contains(&late), "{late}");
        assert!(good.iter().any(|queue| queue.len == QUEUE_LIMIT));
    }

    #[test]
    fn no_more_than_asked_for_save_over_the_limit() {
        let few = drawn(6);
        let within = few.iter().filter(|(_, doubled, _)| !over(doubled));
        assert!(within.map(|(.., copies)| copies.len()).max() == Some(6));
        let none = |(queue, _, copies): &(Queue, _, Vec<_>)| queue.len > 0 && copies.is_empty();
        assert!(few.iter().any(none));
    }
}
