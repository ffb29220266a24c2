//! Numbers, drawn from a seed.

use std::ops::RangeInclusive;

/// A source of numbers: SplitMix64.
pub struct Draw(u64);

impl Draw {
    pub fn new(seed: u64) -> Self {
        Draw(seed)
    }

    pub fn number(&mut self) -> u64 {
        self.0 = self.0.wrapping_add(0x9e37_79b9_7f4a_7c15);
        let mixed = (self.0 ^ (self.0 >> 30)).wrapping_mul(0xbf58_476d_1ce4_e5b9);
        let mixed = (mixed ^ (mixed >> 27)).wrapping_mul(0x94d0_49bb_1331_11eb);
        mixed ^ (mixed >> 31)
    }

    /// A number less than `end`.
    pub fn below(&mut self, end: usize) -> usize {
        (self.number() % end as u64) as usize
    }

    pub fn within(&mut self, range: RangeInclusive<i64>) -> i64 {
        range.start() + (self.number() % (range.end() - range.start() + 1) as u64) as i64
    }

    /// Whether something happens that happens once in so many times.
    pub fn once_in(&mut self, times: usize) -> bool {
        self.below(times) == 0
    }

    pub fn pick<T: Copy>(&mut self, from: &[T]) -> T {
        from[self.below(from.len())]
    }

    /// A number of the range, now and then one of its ends, or a neighbor of these.
    pub fn near(&mut self, range: RangeInclusive<i64>) -> i64 {
        match self.below(12) {
            0 => *range.start(),
            1 => *range.end(),
            2 => range.start() - 1,
            3 => range.end() + 1,
            _ => self.within(range),
        }
    }

    /// A number of the range, now and then one of its ends.
    pub fn inside(&mut self, range: RangeInclusive<i64>) -> i64 {
        self.near(range.clone()).clamp(*range.start(), *range.end())
    }

    pub fn digits(&mut self, count: usize) -> String {
        (0..count).map(|_| self.pick(b"0123456789") as char).collect()
    }
}
