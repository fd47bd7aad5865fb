//! Random numbers for waits: nothing that has to be secret.
use std::hash::{BuildHasher, Hasher, RandomState};
use std::time::Duration;

/// A generator (xorshift).
pub struct Random(u64);

impl Random {
    /// One that the operating system's random numbers begin.
    pub fn new() -> Random {
        Random::from_seed(RandomState::new().build_hasher().finish())
    }

    /// One that gives the same numbers for the same seed.
    pub fn from_seed(seed: u64) -> Random {
        Random(seed | 1)
    }

    /// A number below `bound`, which is 1 or more.
    pub fn below(&mut self, bound: u64) -> u64 {
        self.0 ^= self.0 << 13;
        self.0 ^= self.0 >> 7;
        self.0 ^= self.0 << 17;
        (self.0 >> 11) % bound
    }

    /// A duration from `least` to twice that.
    pub fn from_once_to_twice(&mut self, least: Duration) -> Duration {
        least + Duration::from_micros(self.below(least.as_micros() as u64 + 1))
    }
}

impl Default for Random {
    fn default() -> Random {
        Random::new()
    }
}
