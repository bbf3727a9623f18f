//! Random numbers from a seed, so that a failure can be had again.

/// Xorshift with 64 bits (Marsaglia, shifts 13, 7 and 17).
pub struct Random(u64);

impl Random {
    /// The numbers of a seed. The product spreads seeds that differ by little; the state is never 0.
    pub fn new(seed: u64) -> Random {
        let mut random = Random(seed.wrapping_mul(0x9E37_79B9_7F4A_7C15) | 1);
        for _ in 0..8 {
            random.next();
        }
        random
    }

    fn next(&mut self) -> u64 {
        self.0 ^= self.0 << 13;
        self.0 ^= self.0 >> 7;
        self.0 ^= self.0 << 17;
        self.0
    }

    /// A number below `end`. The high bits are the better ones.
    pub fn below(&mut self, end: u64) -> u64 {
        (self.next() >> 16) % end
    }

    /// A number from `from` to `to`, both included.
    pub fn within(&mut self, from: u64, to: u64) -> u64 {
        from + self.below(to - from + 1)
    }

    /// True once in `turns` times.
    pub fn once_in(&mut self, turns: u64) -> bool {
        self.below(turns) == 0
    }

    /// The same in any order.
    pub fn mix<T>(&mut self, list: &mut [T]) {
        for place in (1..list.len()).rev() {
            let other = self.below(place as u64 + 1) as usize;
            list.swap(place, other);
        }
    }
}
