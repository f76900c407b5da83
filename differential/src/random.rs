//! A small generator, so that a seed repeats a run.
use std::cell::Cell;

pub struct Random(Cell<u64>);

impl Random {
    pub fn new(seed: u64) -> Self {
        Self(Cell::new(seed))
    }

    /// 64 bits (splitmix64).
    pub fn bits(&self) -> u64 {
        let mut z = self.0.get().wrapping_add(0x9e37_79b9_7f4a_7c15);
        self.0.set(z);
        z = (z ^ (z >> 30)).wrapping_mul(0xbf58_476d_1ce4_e5b9);
        z = (z ^ (z >> 27)).wrapping_mul(0x94d0_49bb_1331_11eb);
        z ^ (z >> 31)
    }

    /// A number below `bound`, which isn't 0.
    pub fn below(&self, bound: usize) -> usize {
        (self.bits() % bound as u64) as usize
    }

    /// A number from `low` up to and including `high`.
    pub fn within(&self, low: usize, high: usize) -> usize {
        low + self.below(high - low + 1)
    }

    /// A number from `low` up to `high`.
    pub fn between(&self, low: f64, high: f64) -> f64 {
        low + (high - low) * (self.bits() >> 11) as f64 / (1u64 << 53) as f64
    }

    /// True once in `n` times.
    pub fn one_in(&self, n: usize) -> bool {
        self.below(n) == 0
    }

    /// One of the things.
    pub fn pick<T: Copy>(&self, things: &[T]) -> T {
        things[self.below(things.len())]
    }

    /// About a normal deviate: the sum of twelve even ones.
    pub fn normal(&self) -> f64 {
        (0..12).map(|_| self.between(-0.5, 0.5)).sum()
    }
}
