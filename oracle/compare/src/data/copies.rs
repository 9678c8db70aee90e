//! Later copies of entries in a queue.

use yilgashe_sys::Queue;

/// The place of a copy, and that of the entry it was made of, which may itself be a copy.
#[derive(Clone, Copy, Debug)]
pub struct LaterCopy {
    pub place: usize,
    pub of: usize,
}

impl LaterCopy {
    pub fn directly_behind(&self) -> bool {
        self.place == self.of + 1
    }

    /// Both its neighbours are other guests.
    pub fn between_others(&self, queue: &Queue) -> bool {
        let waiting = queue.waiting();
        let other = |place: usize| {
            let there = waiting.get(place);
            there.is_some_and(|entry| entry.player != waiting[self.place].player)
        };
        other(self.place - 1) && other(self.place + 1)
    }

    /// Did it join later than the entry it was made of?
    pub fn joined_later(&self, queue: &Queue) -> bool {
        queue.entries[self.place].joined > queue.entries[self.of].joined
    }

    pub fn of_a_copy(&self, copies: &[LaterCopy]) -> bool {
        copies.iter().any(|copy| copy.place == self.of)
    }
}

#[cfg(test)]
mod tests {
    use super::*;
    use yilgashe_sys::QueueEntry;

    /// Guests and their joined times.
    fn queue(guests: &[(u64, u64)]) -> Queue {
        let entry = |&(player, joined)| QueueEntry {
            player,
            joined,
            ..QueueEntry::default()
        };
        let entries: Vec<QueueEntry> = guests.iter().map(entry).collect();
        Queue::of(&entries)
    }

    #[test]
    fn where_copies_stand_and_when_they_joined() {
        let queue = queue(&[(1, 5), (1, 5), (2, 5), (1, 6), (3, 7), (2, 5)]);
        let copies = [(1, 0), (3, 1), (5, 2)].map(|(place, of)| LaterCopy { place, of });
        assert_eq!(copies.map(|c| c.directly_behind()), [true, false, false]);
        assert_eq!(
            copies.map(|c| c.between_others(&queue)),
            [false, true, false]
        );
        assert_eq!(copies.map(|c| c.of_a_copy(&copies)), [false, true, false]);
        assert_eq!(copies.map(|c| c.joined_later(&queue)), [false, true, false]);
    }
}
