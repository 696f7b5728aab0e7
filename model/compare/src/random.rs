//! Random numbers that a seed and an index decide.

/// A stream of numbers.
pub struct Random(u64);

impl Random {
    /// The stream of one world: other indices have other streams.
    pub fn new(seed: u64, index: u64) -> Random {
        let mut mixed = Random(seed);
        let start = mixed.next() ^ index.wrapping_mul(0xD6E8_FEB8_6659_FD93);
        Random(start)
    }

    /// The next number, 64 bits.
    pub fn next(&mut self) -> u64 {
        self.0 = self.0.wrapping_add(0x9E37_79B9_7F4A_7C15);
        let mut z = self.0;
        z = (z ^ (z >> 30)).wrapping_mul(0xBF58_476D_1CE4_E5B9);
        z = (z ^ (z >> 27)).wrapping_mul(0x94D0_49BB_1331_11EB);
        z ^ (z >> 31)
    }

    /// 0 to n - 1.
    pub fn below(&mut self, n: u64) -> u64 {
        self.next() % n
    }

    /// Low to high, both included.
    pub fn between(&mut self, low: u64, high: u64) -> u64 {
        low + self.below(high - low + 1)
    }

    /// True once in n times.
    pub fn one_in(&mut self, n: u64) -> bool {
        self.below(n) == 0
    }

    /// One of a list.
    pub fn pick<T: Copy>(&mut self, list: &[T]) -> T {
        list[self.below(list.len() as u64) as usize]
    }

    /// Any word.
    pub fn word(&mut self) -> u16 {
        self.next() as u16
    }

    /// Any even word.
    pub fn even(&mut self) -> u16 {
        self.word() & 0xFFFE
    }

    /// A place in a list of weights, by their share.
    pub fn weighted(&mut self, weights: &[u64]) -> usize {
        let mut left = self.below(weights.iter().sum());
        for (place, &weight) in weights.iter().enumerate() {
            if left < weight {
                return place;
            }
            left -= weight;
        }
        0
    }
}
