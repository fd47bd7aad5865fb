//! Whether a call was proposed, or given up before that.
use std::sync::atomic::{AtomicU8, Ordering};

const WAITS: u8 = 0;
const PROPOSED: u8 = 1;
const GIVEN_UP: u8 = 2;

/// Whether a call was proposed, or given up before that: whichever comes first. Who waits for it is in another thread
/// than the host, and knows at once. See [`Host::call_with`](super::Host::call_with).
///
/// ```
/// use epaxos::host::Begun;
///
/// let begun = Begun::default();
/// assert!(begun.begin() && !begun.give_up()); // it was proposed, and may be done
/// let begun = Begun::default();
/// assert!(begun.give_up() && !begun.begin()); // it never is
/// ```
#[derive(Debug, Default)]
pub struct Begun(AtomicU8);

impl Begun {
    fn go_on(&self, from: u8, to: u8) -> bool {
        self.0.compare_exchange(from, to, Ordering::AcqRel, Ordering::Acquire).is_ok()
    }

    /// It is proposed now: whether it may be, as it wasn't given up.
    ///
    /// ```
    /// assert!(epaxos::host::Begun::default().begin());
    /// ```
    pub fn begin(&self) -> bool {
        self.go_on(WAITS, PROPOSED) || !self.is_given_up()
    }

    /// It was refused, or wasn't done, and waits again.
    ///
    /// ```
    /// let begun = epaxos::host::Begun::default();
    /// begun.begin();
    /// begun.take_back();
    /// assert!(begun.give_up());
    /// ```
    pub fn take_back(&self) {
        self.go_on(PROPOSED, WAITS);
    }

    /// It isn't to be proposed any more: whether it never was.
    ///
    /// ```
    /// assert!(epaxos::host::Begun::default().give_up());
    /// ```
    pub fn give_up(&self) -> bool {
        self.go_on(WAITS, GIVEN_UP) || self.is_given_up()
    }

    /// Whether it was given up.
    ///
    /// ```
    /// assert!(!epaxos::host::Begun::default().is_given_up());
    /// ```
    pub fn is_given_up(&self) -> bool {
        self.0.load(Ordering::Acquire) == GIVEN_UP
    }
}

#[cfg(test)]
mod tests {
    use super::*;

    #[test]
    fn the_first_one_counts() {
        let proposed = Begun::default();
        assert!(proposed.begin() && proposed.begin() && !proposed.give_up() && !proposed.is_given_up());
        proposed.take_back();
        assert!(proposed.give_up() && proposed.is_given_up());
        proposed.take_back();
        assert!(!proposed.begin() && proposed.give_up());
    }
}
