//! Who is notified of changes.
use super::promise::Promise;
use super::watch_queue::WatchQueue;
use crate::host::KeyChange;
use crate::service::{CallFault, Watch, WatchEnd, Watched};
use std::sync::Arc;

/// Who is notified of changes, at the end of the host's thread.
pub(super) struct Watcher {
    watched: Watched,
    queue: Arc<WatchQueue>,
}

/// Who has asked to watch, and isn't notified of changes yet.
pub(super) struct Wish {
    pub(super) watched: Watched,
    /// So many changes may wait.
    pub(super) most: usize,
    pub(super) reply: Promise<Result<Watch, CallFault>>,
}

impl Wish {
    /// It begins, with what the keys have.
    pub(super) fn begin(self, values: Vec<(Vec<u8>, Vec<u8>)>) -> Watcher {
        let queue = Arc::new(WatchQueue::new(self.most));
        let watcher = Watcher { watched: self.watched, queue: queue.clone() };
        // (who has gone has dropped the watch, which leaves the queue)
        self.reply.send(Ok(Watch { values, queue }));
        watcher
    }

    pub(super) fn refuse(self, fault: CallFault) {
        self.reply.send(Err(fault));
    }
}

impl Watcher {
    /// Reports those changes to it that it watches. Whether it goes on.
    pub(super) fn report(&self, changes: &[KeyChange]) -> bool {
        let mut own = changes.iter().filter(|change| self.watched.has(&change.key));
        own.all(|change| self.queue.put(change.clone())) && self.queue.is_open()
    }

    /// Some changes aren't known.
    pub(super) fn skip(&self) {
        self.queue.end(WatchEnd::Skipped);
    }
}

impl Drop for Watcher {
    fn drop(&mut self) {
        self.queue.end(WatchEnd::Ended);
    }
}
