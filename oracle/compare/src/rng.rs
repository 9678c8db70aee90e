//! A small seeded generator (splitmix64): the same seed draws the same cases everywhere.

pub struct Rng {
    state: u64,
}

impl Rng {
    pub fn new(seed: u64) -> Self {
        Rng { state: seed }
    }

    /// The generator of one case, so that any case can be drawn again alone.
    pub fn for_case(seed: u64, name: &str, case: u64) -> Self {
        let mut state = scramble(seed);
        for byte in name.bytes() {
            state = scramble(state ^ u64::from(byte));
        }
        Rng::new(scramble(state ^ case))
    }

    pub fn next_u64(&mut self) -> u64 {
        self.state = self.state.wrapping_add(0x9e37_79b9_7f4a_7c15);
        scramble(self.state)
    }

    /// Below `n`; 0 where `n` is 0.
    pub fn below(&mut self, n: usize) -> usize {
        ((u128::from(self.next_u64()) * n as u128) >> 64) as usize
    }

    /// Both ends included.
    pub fn between(&mut self, low: usize, high: usize) -> usize {
        low + self.below(high - low + 1)
    }

    pub fn one_in(&mut self, n: usize) -> bool {
        self.below(n) == 0
    }

    pub fn pick<T: Copy>(&mut self, list: &[T]) -> T {
        list[self.below(list.len())]
    }

    /// Draws from values with their weights.
    pub fn weighted<T: Copy>(&mut self, list: &[(usize, T)]) -> T {
        let total = list.iter().map(|(weight, _)| weight).sum();
        let mut at = self.below(total);
        for &(weight, value) in list {
            if at < weight {
                return value;
            }
            at -= weight;
        }
        unreachable!("the weights add up to the total")
    }

    pub fn shuffle<T>(&mut self, list: &mut [T]) {
        for i in (1..list.len()).rev() {
            list.swap(i, self.below(i + 1));
        }
    }
}

fn scramble(mut z: u64) -> u64 {
    z = (z ^ (z >> 30)).wrapping_mul(0xbf58_476d_1ce4_e5b9);
    z = (z ^ (z >> 27)).wrapping_mul(0x94d0_49bb_1331_11eb);
    z ^ (z >> 31)
}

#[cfg(test)]
mod tests {
    use super::*;

    #[test]
    fn splitmix64_known_values() {
        let mut rng = Rng::new(1234567);
        let drawn = [rng.next_u64(), rng.next_u64(), rng.next_u64()];
        assert_eq!(
            drawn,
            [
                6457827717110365317,
                3203168211198807973,
                9817491932198370423
            ]
        );
    }

    #[test]
    fn below_stays_below_and_reaches_all() {
        let mut rng = Rng::new(7);
        let mut seen = [0; 5];
        for _ in 0..1000 {
            seen[rng.below(5)] += 1;
        }
        assert!(seen.iter().all(|&n| n > 100), "{seen:?}");
        assert_eq!(rng.below(0), 0);
    }

    #[test]
    fn weights_are_kept() {
        let mut rng = Rng::new(7);
        let drawn: Vec<char> = (0..1000)
            .map(|_| rng.weighted(&[(9, 'a'), (0, 'b'), (1, 'c')]))
            .collect();
        let count = |c| drawn.iter().filter(|&&d| d == c).count();
        assert!(count('a') > 800 && count('b') == 0 && count('c') > 50);
    }

    #[test]
    fn cases_differ_by_seed_name_and_number() {
        let first = |seed, name, case| Rng::for_case(seed, name, case).next_u64();
        let base = first(1, "remove", 0);
        assert_eq!(base, first(1, "remove", 0));
        assert_ne!(base, first(2, "remove", 0));
        assert_ne!(base, first(1, "enqueue", 0));
        assert_ne!(base, first(1, "remove", 1));
    }
}
