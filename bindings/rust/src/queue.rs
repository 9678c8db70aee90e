//! The waiting queue.

use crate::Refusal;
use crate::refusal::answered;
use yilgashe_sys as sys;
use yilgashe_sys::QueueEntry;

/// Who waits, in order; at most 64.
///
/// ```
/// use yilgashe::{Queue, QueueEntry};
///
/// let mut queue = Queue::new();
/// queue.enqueue(QueueEntry { player: 5, joined: 10, ..QueueEntry::default() })?;
/// assert_eq!(queue.waiting_time(5, 25)?, Some(15));
/// assert_eq!(queue.remove(5)?.map(|entry| entry.joined), Some(10));
/// assert_eq!(queue.remove(5)?, None);
/// # Ok::<(), yilgashe::Refusal>(())
/// ```
#[derive(Clone, Debug)]
pub struct Queue(pub(crate) Box<sys::Queue>);

impl Queue {
    /// Nobody waits.
    pub fn new() -> Queue {
        Queue(Box::new(sys::queue_empty()))
    }

    /// Those who wait.
    pub fn entries(&self) -> &[QueueEntry] {
        self.0.waiting()
    }

    /// How many wait.
    pub fn len(&self) -> usize {
        self.entries().len()
    }

    /// Does nobody wait?
    pub fn is_empty(&self) -> bool {
        self.entries().is_empty()
    }

    /// Appends an entry.
    pub fn enqueue(&mut self, entry: QueueEntry) -> Result<(), Refusal> {
        let answer = sys::queue_enqueue(*self.0, entry);
        *self.0 = answer.queue;
        answered(answer.refusal)
    }

    /// Takes the guest's first entry.
    pub fn remove(&mut self, player: u64) -> Result<Option<QueueEntry>, Refusal> {
        let answer = sys::queue_remove(*self.0, player);
        *self.0 = answer.queue;
        answered(answer.refusal)?;
        Ok(answer.found.then_some(answer.entry))
    }

    /// Takes every entry of the named guests, in the queue's order.
    pub fn remove_batch(&mut self, players: &[u64]) -> Result<Vec<QueueEntry>, Refusal> {
        let answer = sys::queue_remove_batch(*self.0, players);
        answered(answer.refusal)?;
        *self.0 = answer.kept;
        Ok(answer.removed.waiting().to_vec())
    }

    /// How long the guest's first entry has waited at a clock, in nanoseconds.
    pub fn waiting_time(&self, player: u64, clock: u64) -> Result<Option<u64>, Refusal> {
        let answer = sys::queue_waiting_time(*self.0, player, clock);
        answered(answer.refusal)?;
        Ok(answer.found.then_some(answer.nanos))
    }
}

impl Default for Queue {
    fn default() -> Queue {
        Queue::new()
    }
}

/// States the number of entries that it is given, so that every call refuses a queue of more than 64 with [`Refusal::OverLimit`].
impl FromIterator<QueueEntry> for Queue {
    fn from_iter<I: IntoIterator<Item = QueueEntry>>(entries: I) -> Queue {
        let mut queue = Queue::new();
        for entry in entries {
            if let Some(place) = queue.0.entries.get_mut(queue.0.len) {
                *place = entry;
            }
            queue.0.len += 1;
        }
        queue
    }
}

/// A queue as the library has it.
impl From<sys::Queue> for Queue {
    fn from(raw: sys::Queue) -> Queue {
        Queue(Box::new(raw))
    }
}

impl AsRef<sys::Queue> for Queue {
    fn as_ref(&self) -> &sys::Queue {
        &self.0
    }
}
