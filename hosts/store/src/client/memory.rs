//! How much memory clients take together: bytes of commands that aren't whole, of those that are under way, and of replies that wait.
use std::sync::Arc;
use std::sync::atomic::{AtomicUsize, Ordering};

/// One connection may have this part of it;
const PARTS: usize = 16;
/// and where more than this of it is used, room is made.
const SHORT: usize = 3;
const OF: usize = 4;

/// A bound for all clients.
pub struct Memory {
    used: AtomicUsize,
    most: usize,
}

/// What one part of a connection takes of it; given back when it is dropped.
pub struct Share {
    memory: Arc<Memory>,
    bytes: usize,
}

impl Memory {
    pub fn new(most: usize) -> Arc<Memory> {
        Arc::new(Memory { used: AtomicUsize::new(0), most })
    }

    /// A share of so many bytes, where there is room.
    pub fn share(self: &Arc<Memory>, bytes: usize) -> Option<Share> {
        let mut share = self.empty_share();
        share.resize(bytes).then_some(share)
    }

    /// A share of so many bytes, whether or not there is room.
    pub fn share_anyway(self: &Arc<Memory>, bytes: usize) -> Share {
        let mut share = self.empty_share();
        share.count(bytes);
        share
    }

    /// A share of nothing.
    pub fn empty_share(self: &Arc<Memory>) -> Share {
        Share { memory: self.clone(), bytes: 0 }
    }

    pub fn used(&self) -> usize {
        self.used.load(Ordering::Relaxed)
    }

    /// What a connection's commands and replies may take before no more of its commands are taken.
    pub fn part(&self) -> usize {
        self.most / PARTS
    }

    /// Whether it is nearly used up, so that who takes no replies has to make room.
    pub fn is_short(&self) -> bool {
        self.used() > self.most / OF * SHORT
    }
}

impl Share {
    pub fn bytes(&self) -> usize {
        self.bytes
    }

    /// Has it be of so many bytes; false, and as it was, where there is no room for more.
    pub fn resize(&mut self, bytes: usize) -> bool {
        if bytes <= self.bytes {
            self.memory.used.fetch_sub(self.bytes - bytes, Ordering::Relaxed);
        } else {
            let more = bytes - self.bytes;
            let most = self.memory.most;
            let add = |used: usize| used.checked_add(more).filter(|used| *used <= most);
            if self.memory.used.fetch_update(Ordering::Relaxed, Ordering::Relaxed, add).is_err() {
                return false;
            }
        }
        self.bytes = bytes;
        true
    }

    /// Has it be of so many bytes more; false, and as it was, where there is no room for them.
    pub fn grow(&mut self, more: usize) -> bool {
        self.resize(self.bytes + more)
    }

    /// What is there already counts, whether or not there is room: nothing more is taken then.
    pub fn count(&mut self, more: usize) {
        self.memory.used.fetch_add(more, Ordering::Relaxed);
        self.bytes += more;
    }
}

impl Drop for Share {
    fn drop(&mut self) {
        self.memory.used.fetch_sub(self.bytes, Ordering::Relaxed);
    }
}

#[cfg(test)]
mod tests {
    use super::*;

    #[test]
    fn shares_are_bounded_and_given_back() {
        let memory = Memory::new(100);
        let mut first = memory.share(60).unwrap();
        assert!(memory.share(41).is_none());
        let mut second = memory.share(40).unwrap();
        assert!(!second.resize(41) && second.resize(10));
        assert!(memory.part() == 6 && !memory.is_short());
        assert!(first.resize(90) && !first.resize(91) && memory.is_short());
        second.count(50);
        assert_eq!(memory.used(), 150);
        drop(second);
        assert_eq!(memory.used(), 90);
        drop(first);
        assert_eq!(memory.used(), 0);
    }
}
