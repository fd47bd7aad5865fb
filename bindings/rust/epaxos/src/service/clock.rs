//! A clock.
use std::time::Instant;

/// A clock that doesn't go back.
///
/// ```
/// use epaxos::service::{Clock, SystemClock};
///
/// let first = SystemClock.now();
/// assert!(SystemClock.now() >= first);
/// ```
pub trait Clock: Send + 'static {
    /// What it reads.
    fn now(&self) -> Instant;
}

/// The system's.
///
/// ```
/// use epaxos::service::{Clock, SystemClock};
///
/// assert!(SystemClock.now() <= std::time::Instant::now());
/// ```
#[derive(Clone, Copy, Default, Debug)]
pub struct SystemClock;

impl Clock for SystemClock {
    fn now(&self) -> Instant {
        Instant::now()
    }
}
