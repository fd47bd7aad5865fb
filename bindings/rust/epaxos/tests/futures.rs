//! The calls of a service as futures, by an executor of a few lines.
#![forbid(unsafe_code)]

#[path = "common/calls.rs"]
mod calls;

use calls::outcome_of;
use epaxos::service::{Service, WatchEnd, Watched};
use epaxos::{Cluster, OwnedAnswer, OwnedCommand};
use std::future::Future;
use std::pin::pin;
use std::sync::Arc;
use std::task::{Context, Poll, Wake, Waker};
use std::thread::{self, Thread};
use std::time::Duration;

/// Wakes the thread that polls.
struct Unparked(Thread);

impl Wake for Unparked {
    fn wake(self: Arc<Self>) {
        self.0.unpark();
    }
}

/// Polls a future until it is done, and sleeps until it is woken.
fn block_on<F: Future>(future: F) -> F::Output {
    let mut future = pin!(future);
    let waker = Waker::from(Arc::new(Unparked(thread::current())));
    loop {
        if let Poll::Ready(done) = future.as_mut().poll(&mut Context::from_waker(&waker)) {
            return done;
        }
        thread::park_timeout(Duration::from_secs(60));
    }
}

fn put(value: u32) -> OwnedCommand {
    OwnedCommand::Put { key: b"x".into(), value: value.to_string().into() }
}

#[test]
fn calls_reads_and_watches_are_futures() {
    let mut three = Service::local(Cluster::Three).unwrap();
    // (none refuses once it reaches the others)
    three.iter().for_each(|service| assert_eq!(outcome_of(|| service.read(b"x")), Ok(None)));
    let watch = block_on(three[0].watch_async(Watched::Key(b"x".into()), 100)).unwrap();
    // Many are under way at once, in one thread.
    let asked: Vec<_> = (1..=50).map(|number| three[1].call_async(put(number))).collect();
    let answers: Vec<OwnedAnswer> = asked.into_iter().map(|future| block_on(future).unwrap()).collect();
    assert_eq!(answers.iter().filter(|it| **it == OwnedAnswer::Absent).count(), 1);
    let last = (1..=50).map(|_| block_on(watch.next_async()).unwrap().value).last().unwrap();
    assert_eq!(block_on(three[2].read_async(b"x")).unwrap(), last);
    // A future that nobody polls is asked all the same, and one that is dropped takes nothing.
    drop(three[1].call_async(put(51)));
    drop(watch.next_async());
    assert_eq!(block_on(watch.next_async()).unwrap().value, Some(b"51".into()));
    // Who waits when the host ends is woken.
    let ended = thread::spawn(move || block_on(watch.next_async()));
    thread::sleep(Duration::from_millis(50));
    drop(three.remove(0));
    assert_eq!(ended.join().unwrap(), Err(WatchEnd::Ended));
}
