//! Stand-in for the crate `fastrand`: document 01's generator behind the few
//! names that the sampler uses. It is built as a crate of that name, so the
//! lines that say `fastrand::Rng` stay as they are.

use std::ops::{Range, RangeInclusive};

/// A step of the state: times the one, plus the other, modulo 2^64.
pub const MULTIPLIER: u64 = 6364136223846793005;
pub const INCREMENT: u64 = 1442695040888963407;

#[derive(Clone, Debug)]
pub struct Rng {
    /// The state, open so that the driver can report it.
    pub s: u64,
}

impl Rng {
    /// Entropy seeding is left out by document 01; the name has to exist
    /// because the sampler mentions it.
    pub fn new() -> Self {
        unreachable!("every call of the oracle gives a seed")
    }

    pub fn with_seed(s: u64) -> Self {
        Rng { s }
    }

    /// Steps the state and gives its word.
    pub fn word(&mut self) -> u64 {
        self.s = self.s.wrapping_mul(MULTIPLIER).wrapping_add(INCREMENT);
        self.s ^ (self.s >> 32)
    }

    pub fn f64(&mut self) -> f64 {
        (self.word() >> 12) as f64 / 4503599627370496.0
    }

    pub fn usize(&mut self, range: Range<usize>) -> usize {
        assert!(range.start < range.end, "empty range");
        let count = (range.end - range.start) as u64;
        range.start + (self.word() % count) as usize
    }

    pub fn i64(&mut self, range: RangeInclusive<i64>) -> i64 {
        let (a, b) = (*range.start(), *range.end());
        assert!(a <= b, "empty range");
        let count = b as i128 - a as i128 + 1;
        (a as i128 + self.word() as i128 % count) as i64
    }
}
