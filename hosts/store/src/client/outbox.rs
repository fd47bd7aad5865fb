//! What other threads have for connections, by which they wake the thread that serves these.
use crate::client::resp::Reply;
use crate::core::outcome::Outcome;
use mio::Waker;
use std::sync::{Mutex, MutexGuard, PoisonError};

/// What comes for a connection.
pub enum Message {
    /// A part of the reply to its command of this number.
    Part(u64, usize, Reply),
    /// What a key has, of its look of this number.
    Looked(u64, Vec<u8>, Outcome),
    /// What was past its deadline was removed, for its look of this number.
    Removed(u64, Reply),
    /// The list that it waits for.
    Listed(Reply),
}

/// Messages with the numbers of their connections.
pub type Messages = Vec<(u64, Message)>;

/// Where they lie until the thread takes them.
#[derive(Default)]
pub struct Outbox {
    come: Mutex<Come>,
    /// None: nobody is woken.
    waker: Option<Waker>,
}

#[derive(Default)]
struct Come {
    messages: Messages,
    /// Whether the thread sleeps until it is woken: that takes a call of the system, which is made once.
    is_asleep: bool,
}

impl Outbox {
    pub fn new(waker: Waker) -> Outbox {
        Outbox { waker: Some(waker), ..Outbox::default() }
    }

    fn come(&self) -> MutexGuard<'_, Come> {
        self.come.lock().unwrap_or_else(PoisonError::into_inner)
    }

    pub fn put(&self, connection: u64, message: Message) {
        let mut come = self.come();
        come.messages.push((connection, message));
        let is_asleep = std::mem::take(&mut come.is_asleep);
        // (woken while this is locked, the thread would wait for it)
        drop(come);
        if let Some(waker) = self.waker.as_ref().filter(|_| is_asleep) {
            // (what is put later wakes it then)
            let _ = waker.wake();
        }
    }

    /// Takes what has come into a list that is empty.
    pub fn take(&self, messages: &mut Messages) {
        std::mem::swap(&mut self.come().messages, messages);
    }

    /// Whether nothing has come. From now on what comes wakes the thread.
    pub fn may_sleep(&self) -> bool {
        let mut come = self.come();
        come.is_asleep = come.messages.is_empty();
        come.is_asleep
    }

    /// The thread needn't be woken any more.
    pub fn awake(&self) {
        self.come().is_asleep = false;
    }
}

#[cfg(test)]
mod tests {
    use super::*;
    use mio::{Events, Poll, Token};
    use std::time::Duration;

    #[test]
    fn it_wakes_once() {
        let mut poll = Poll::new().unwrap();
        let outbox = Outbox::new(Waker::new(poll.registry(), Token(7)).unwrap());
        let (mut events, mut messages) = (Events::with_capacity(8), Messages::new());
        let mut woken = |patience| {
            poll.poll(&mut events, Some(patience)).unwrap();
            events.iter().map(|event| event.token()).collect::<Vec<_>>() == [Token(7)]
        };
        // Who is awake isn't woken.
        outbox.put(1, Message::Part(0, 0, Reply::Nil));
        assert!(!woken(Duration::ZERO) && !outbox.may_sleep());
        outbox.take(&mut messages);
        assert!(messages.len() == 1 && outbox.may_sleep());
        (2..4).for_each(|connection| outbox.put(connection, Message::Listed(Reply::Nil)));
        assert!(woken(Duration::from_secs(60)) && !woken(Duration::ZERO));
        outbox.awake();
        messages.clear();
        outbox.take(&mut messages);
        assert_eq!(messages.iter().map(|(connection, _)| *connection).collect::<Vec<_>>(), [2, 3]);
    }
}
