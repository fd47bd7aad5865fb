//! Where the outcome of a command goes.
use crate::core::outcome::Outcome;
use epaxos::host::Begun;
use std::sync::Arc;

/// Sends one reply; dropped unused, it says that the thread that serves has ended.
pub struct ReplySender {
    send: Option<Box<dyn FnOnce(Outcome) + Send>>,
    begun: Arc<Begun>,
}

impl ReplySender {
    /// Sends by this function, which the thread that serves calls: it must not wait.
    pub fn new(send: impl FnOnce(Outcome) + Send + 'static) -> ReplySender {
        ReplySender::of(Arc::default(), send)
    }

    /// The same, of a command that whoever waits for it may give up.
    pub fn of(begun: Arc<Begun>, send: impl FnOnce(Outcome) + Send + 'static) -> ReplySender {
        ReplySender { send: Some(Box::new(send)), begun }
    }

    /// Whether what is asked is proposed, or was given up.
    pub fn begun(&self) -> &Begun {
        &self.begun
    }

    /// The same, for the host.
    pub fn shared(&self) -> Arc<Begun> {
        self.begun.clone()
    }

    pub fn send(mut self, outcome: Outcome) {
        if let Some(send) = self.send.take() {
            send(outcome);
        }
    }
}

impl Drop for ReplySender {
    fn drop(&mut self) {
        if let Some(send) = self.send.take() {
            send(Outcome::Ended);
        }
    }
}
