//! Chance, the same at every run with the same seed.

/// Splitmix64: small, and good enough to scatter cases.
pub struct Chance(u64);

impl Chance {
    pub fn new(seed: u64) -> Chance {
        Chance(seed)
    }

    pub fn next(&mut self) -> u64 {
        self.0 = self.0.wrapping_add(0x9E37_79B9_7F4A_7C15);
        let mut z = self.0;
        z = (z ^ (z >> 30)).wrapping_mul(0xBF58_476D_1CE4_E5B9);
        z = (z ^ (z >> 27)).wrapping_mul(0x94D0_49BB_1331_11EB);
        z ^ (z >> 31)
    }

    /// From 0 to one below `end`.
    pub fn below(&mut self, end: usize) -> usize {
        (self.next() % end as u64) as usize
    }

    /// Both ends included.
    pub fn between(&mut self, first: usize, last: usize) -> usize {
        first + self.below(last - first + 1)
    }

    pub fn one_in(&mut self, count: usize) -> bool {
        self.below(count) == 0
    }

    pub fn pick<T: Clone>(&mut self, from: &[T]) -> T {
        from[self.below(from.len())].clone()
    }

    pub fn byte(&mut self) -> u8 {
        self.next() as u8
    }

    /// A number that is not below the limit, and mostly looks as if it were
    /// to whoever keeps too few bits of it. The limit is at most 128.
    pub fn too_large(&mut self, limit: usize) -> u64 {
        let looks = self.below(limit.max(1)) as u64;
        let limit = limit as u64;
        let choices =
            [limit, limit, limit + 1, 254, 255, 256 + looks, (1 << 32) + looks, (1 << 63) + looks, u64::MAX];
        self.pick(&choices)
    }
}
