//! Changes that wait to be taken.
use crate::host::KeyChange;
use crate::service::WatchEnd;
use std::collections::VecDeque;
use std::sync::{Condvar, Mutex, MutexGuard, PoisonError};
#[cfg(feature = "async")]
use std::task::{Context, Poll, Waker};
use std::time::Instant;

/// Changes that wait to be taken: one thread puts them, and who watches takes them.
pub(super) struct WatchQueue {
    /// So many wait at most.
    most: usize,
    held: Mutex<Held>,
    came: Condvar,
}

#[derive(Default)]
struct Held {
    changes: VecDeque<KeyChange>,
    end: Option<WatchEnd>,
    /// Who is woken when something comes.
    #[cfg(feature = "async")]
    waker: Option<Waker>,
    /// Whether nobody takes them any more.
    is_left: bool,
}

impl WatchQueue {
    pub(super) fn new(most: usize) -> WatchQueue {
        WatchQueue { most, held: Mutex::default(), came: Condvar::new() }
    }

    fn held(&self) -> MutexGuard<'_, Held> {
        self.held.lock().unwrap_or_else(PoisonError::into_inner)
    }

    /// Puts a change, if there is room; else all ends with what is there. Whether more may be put.
    pub(super) fn put(&self, change: KeyChange) -> bool {
        let mut held = self.held();
        if held.changes.len() >= self.most {
            held.end = held.end.or(Some(WatchEnd::Lagged));
        } else if held.end.is_none() {
            held.changes.push_back(change);
        }
        self.wake(&mut held);
        held.end.is_none() && !held.is_left
    }

    /// Something has come.
    fn wake(&self, held: &mut Held) {
        #[cfg(feature = "async")]
        held.waker.take().map(Waker::wake);
        let _ = held;
        self.came.notify_one();
    }

    /// As `take`, for a task that is woken when there is more.
    #[cfg(feature = "async")]
    pub(super) fn poll(&self, context: &mut Context) -> Poll<Result<KeyChange, WatchEnd>> {
        let mut held = self.held();
        match (held.changes.pop_front(), held.end) {
            (Some(change), _) => return Poll::Ready(Ok(change)),
            (None, Some(end)) => return Poll::Ready(Err(end)),
            (None, None) => {}
        }
        held.waker = Some(context.waker().clone());
        Poll::Pending
    }

    /// Nothing comes behind what is there.
    pub(super) fn end(&self, end: WatchEnd) {
        let mut held = self.held();
        held.end = held.end.or(Some(end));
        self.wake(&mut held);
    }

    /// Whether more may be put.
    pub(super) fn is_open(&self) -> bool {
        let held = self.held();
        held.end.is_none() && !held.is_left
    }

    /// Nobody takes anything any more.
    pub(super) fn leave(&self) {
        let mut held = self.held();
        (held.is_left, held.changes) = (true, VecDeque::new());
    }

    /// Takes the next change, or the end behind the last one; waits until then, or without a bound. None: nothing came
    /// until then.
    pub(super) fn take(&self, until: Option<Instant>) -> Result<Option<KeyChange>, WatchEnd> {
        let mut held = self.held();
        loop {
            match (held.changes.pop_front(), held.end) {
                (Some(change), _) => return Ok(Some(change)),
                (None, Some(end)) => return Err(end),
                (None, None) => {}
            }
            held = match until {
                None => self.came.wait(held).unwrap_or_else(PoisonError::into_inner),
                Some(until) => {
                    let left = until.saturating_duration_since(Instant::now());
                    if left.is_zero() {
                        return Ok(None);
                    }
                    self.came.wait_timeout(held, left).unwrap_or_else(PoisonError::into_inner).0
                }
            };
        }
    }
}
