//! queue.rs: enqueue, remove, remove_batch, waiting_time.

use crate::draw::{self, Scale};
use crate::function::{Function, Listed, Stored, compared, stored};
use crate::model;
use crate::rng::Rng;
use crate::translate::{from_entries, from_entry, to_entry, to_players, to_queue};
use crate::words::Words;
use matchlab_core::player::PlayerId;
use matchlab_core::time::SimTime;
use matchlab_matchmaking::queue as matchlab;
use yilgashe_sys::{self as library, Queue, QueueEntry};

pub const FUNCTIONS: &[Listed] = &[
    compared::<Empty>(),
    stored::<Enqueue>(),
    stored::<Remove>(),
    stored::<RemoveBatch>(),
    stored::<WaitingTime>(),
];

struct Empty;

impl Function for Empty {
    const NAME: &'static str = "empty";
    const ONE_CASE: bool = true;
    type Case = ();
    type Answer = Queue;

    fn draw(_: &mut Rng, _: Scale) {}

    fn refusal(_: &()) -> u8 {
        0
    }

    fn refused(_: &()) -> Queue {
        unreachable!("an empty queue is never refused")
    }

    fn rust(_: &()) -> Queue {
        from_entries(matchlab::Queue::default().entries())
    }

    fn library(_: &()) -> (u8, Queue) {
        (0, library::queue_empty())
    }
}

struct Enqueue;

impl Function for Enqueue {
    const NAME: &'static str = "enqueue";
    type Case = (Queue, QueueEntry);
    type Answer = Queue;

    fn draw(rng: &mut Rng, scale: Scale) -> Self::Case {
        let queue = draw::queue(rng, scale);
        let entry = draw::entry(rng, &queue);
        (queue, entry)
    }

    fn refusal((queue, entry): &Self::Case) -> u8 {
        model::enqueue(queue, entry)
    }

    fn refused((queue, _): &Self::Case) -> Queue {
        *queue
    }

    fn rust((queue, entry): &Self::Case) -> Queue {
        let mut queue = to_queue(queue);
        queue.enqueue(to_entry(entry));
        from_entries(queue.entries())
    }

    fn library((queue, entry): &Self::Case) -> (u8, Queue) {
        let given = library::queue_enqueue(*queue, *entry);
        (given.refusal, given.queue)
    }
}

impl Stored for Enqueue {
    const CODE: u64 = 1;

    fn write_case((queue, entry): &Self::Case, words: &mut Words) {
        words.queue(queue);
        words.entry(entry);
    }

    fn write_answer((queue, _): &Self::Case, after: &Queue, words: &mut Words) {
        words.queue_after(queue, after);
    }
}

struct Remove;

impl Function for Remove {
    const NAME: &'static str = "remove";
    type Case = (Queue, u64);
    type Answer = (Option<QueueEntry>, Queue);

    fn draw(rng: &mut Rng, scale: Scale) -> Self::Case {
        let queue = draw::queue(rng, scale);
        let player = draw::player(rng, &queue);
        (queue, player)
    }

    fn refusal((queue, _): &Self::Case) -> u8 {
        model::remove(queue)
    }

    fn refused((queue, _): &Self::Case) -> Self::Answer {
        (None, *queue)
    }

    fn rust((queue, player): &Self::Case) -> Self::Answer {
        let mut queue = to_queue(queue);
        let removed = queue.remove(PlayerId(*player));
        (
            removed.as_ref().map(from_entry),
            from_entries(queue.entries()),
        )
    }

    fn library((queue, player): &Self::Case) -> (u8, Self::Answer) {
        let given = library::queue_remove(*queue, *player);
        let entry = given.found.then_some(given.entry);
        (given.refusal, (entry, given.queue))
    }
}

impl Stored for Remove {
    const CODE: u64 = 2;

    fn write_case((queue, player): &Self::Case, words: &mut Words) {
        words.queue(queue);
        words.number(*player);
    }

    fn write_answer((queue, _): &Self::Case, (entry, after): &Self::Answer, words: &mut Words) {
        words.flag(entry.is_some());
        entry.iter().for_each(|entry| words.entry(entry));
        words.queue_after(queue, after);
    }
}

struct RemoveBatch;

impl Function for RemoveBatch {
    const NAME: &'static str = "remove_batch";
    type Case = (Queue, Vec<u64>);
    /// Kept, removed.
    type Answer = (Queue, Queue);

    fn draw(rng: &mut Rng, scale: Scale) -> Self::Case {
        let queue = draw::queue(rng, scale);
        let players = draw::players(rng, &queue);
        (queue, players)
    }

    fn refusal((queue, _): &Self::Case) -> u8 {
        model::remove_batch(queue)
    }

    fn refused((queue, _): &Self::Case) -> Self::Answer {
        (*queue, Queue::of(&[]))
    }

    fn rust((queue, players): &Self::Case) -> Self::Answer {
        let mut queue = to_queue(queue);
        let removed = queue.remove_batch(&to_players(players));
        (from_entries(queue.entries()), from_entries(&removed))
    }

    fn library((queue, players): &Self::Case) -> (u8, Self::Answer) {
        let given = library::queue_remove_batch(*queue, players);
        (given.refusal, (given.kept, given.removed))
    }
}

impl Stored for RemoveBatch {
    const CODE: u64 = 3;

    fn write_case((queue, players): &Self::Case, words: &mut Words) {
        words.queue(queue);
        words.list(players.iter().copied());
    }

    fn write_answer((queue, _): &Self::Case, (kept, removed): &Self::Answer, words: &mut Words) {
        words.queue_after(queue, kept);
        words.queue_after(queue, removed);
    }
}

struct WaitingTime;

impl Function for WaitingTime {
    const NAME: &'static str = "waiting_time";
    /// Queue, player, clock.
    type Case = (Queue, u64, u64);
    /// Found, and the wait, 0 where not found.
    type Answer = (bool, u64);

    fn draw(rng: &mut Rng, scale: Scale) -> Self::Case {
        let queue = draw::queue(rng, scale);
        let player = draw::player(rng, &queue);
        let now = draw::clock(rng, &queue);
        (queue, player, now)
    }

    fn refusal((queue, _, now): &Self::Case) -> u8 {
        model::waiting_time(queue, *now)
    }

    fn refused(_: &Self::Case) -> Self::Answer {
        (false, 0)
    }

    fn rust((queue, player, now): &Self::Case) -> Self::Answer {
        let wait = to_queue(queue).waiting_time(PlayerId(*player), SimTime(*now));
        (wait.is_some(), wait.map_or(0, |wait| wait.0))
    }

    fn library((queue, player, now): &Self::Case) -> (u8, Self::Answer) {
        let given = library::queue_waiting_time(*queue, *player, *now);
        (given.refusal, (given.found, given.nanos))
    }
}

impl Stored for WaitingTime {
    const CODE: u64 = 4;

    fn write_case((queue, player, now): &Self::Case, words: &mut Words) {
        words.queue(queue);
        words.number(*player);
        words.number(*now);
    }

    fn write_answer(_: &Self::Case, (found, wait): &Self::Answer, words: &mut Words) {
        words.flag(*found);
        words.number(*wait);
    }
}
