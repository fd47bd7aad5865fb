//! An answer that is waited for.
use std::future::Future;
use std::pin::Pin;
use std::sync::{Arc, Condvar, Mutex, MutexGuard, PoisonError};
use std::task::{Context, Poll, Waker};

/// The end of whoever will send an answer. Dropped without it, it ends the wait.
pub(super) struct Promise<T>(Arc<Shared<T>>);

/// The end of whoever waits for it: as a thread, or as a future. None: nothing will come.
pub(super) struct Awaited<T>(Arc<Shared<T>>);

struct Shared<T> {
    held: Mutex<Held<T>>,
    came: Condvar,
}

struct Held<T> {
    value: Option<T>,
    is_over: bool,
    waker: Option<Waker>,
}

impl<T> Shared<T> {
    fn held(&self) -> MutexGuard<'_, Held<T>> {
        self.held.lock().unwrap_or_else(PoisonError::into_inner)
    }
}

/// Both ends.
pub(super) fn promise<T>() -> (Promise<T>, Awaited<T>) {
    let held = Mutex::new(Held { value: None, is_over: false, waker: None });
    let shared = Arc::new(Shared { held, came: Condvar::new() });
    (Promise(shared.clone()), Awaited(shared))
}

impl<T> Promise<T> {
    pub(super) fn send(self, value: T) {
        self.0.held().value = Some(value);
    }
}

impl<T> Drop for Promise<T> {
    fn drop(&mut self) {
        let mut held = self.0.held();
        held.is_over = true;
        let waker = held.waker.take();
        drop(held);
        self.0.came.notify_one();
        waker.map(Waker::wake);
    }
}

impl<T> Awaited<T> {
    pub(super) fn wait(self) -> Option<T> {
        let mut held = self.0.held();
        while !held.is_over {
            held = self.0.came.wait(held).unwrap_or_else(PoisonError::into_inner);
        }
        held.value.take()
    }
}

impl<T> Future for Awaited<T> {
    type Output = Option<T>;

    fn poll(self: Pin<&mut Self>, context: &mut Context) -> Poll<Option<T>> {
        let mut held = self.0.held();
        if held.is_over {
            return Poll::Ready(held.value.take());
        }
        held.waker = Some(context.waker().clone());
        Poll::Pending
    }
}
