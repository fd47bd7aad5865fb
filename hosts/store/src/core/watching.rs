//! What watched keys have: by reads that see all that was acknowledged before.
use crate::client::actions::Action;
use crate::client::command_fault::CommandFault;
use crate::client::outbox::{Message, Outbox};
use crate::client::replies::ReplyTo;
use crate::client::resp::Reply;
use crate::core::ask::{Ask, What};
use crate::core::keys::Keys;
use crate::core::outcome::Outcome;
use crate::core::reply_sender::ReplySender;
use crate::core::stored::{self, Stored};
use crate::core::view::Values;
use epaxos::host::Begun;
use std::collections::BTreeSet;
use std::sync::Arc;
use std::time::Instant;

/// What is to be known, or why it can't be.
pub type Looked = Result<Values, CommandFault>;

/// A look at what keys have, in the bytes that replicas agree on. What is past its deadline is removed first.
pub struct Look {
    keys: Arc<Keys>,
    outbox: Arc<Outbox>,
    connection: u64,
    /// Its number, of its connection.
    number: u64,
    /// Until when it may take.
    pub deadline: Instant,
    begun: Arc<Begun>,
    /// What is read now, or removed.
    wanted: BTreeSet<Vec<u8>>,
    left: usize,
    values: Values,
}

impl Look {
    /// One of a connection, of this number, which learns by its messages what comes of it.
    pub fn new(
        keys: &Arc<Keys>,
        outbox: &Arc<Outbox>,
        (connection, number): (u64, u64),
        wanted: BTreeSet<Vec<u8>>,
        deadline: Instant,
    ) -> Look {
        let (keys, outbox, begun) = (keys.clone(), outbox.clone(), Arc::default());
        Look { keys, outbox, connection, number, deadline, begun, wanted, left: 0, values: Values::new() }
    }

    /// Whether a message is of this look.
    pub fn is(&self, number: u64) -> bool {
        self.number == number
    }

    /// Reads what is wanted, each key by a read of its own; or has all.
    pub fn read(&mut self) -> Option<Looked> {
        self.left = self.wanted.len();
        if self.left == 0 {
            return Some(Ok(std::mem::take(&mut self.values)));
        }
        for key in &self.wanted {
            let (outbox, connection, number, of) = (self.outbox.clone(), self.connection, self.number, key.clone());
            let send = move |outcome| outbox.put(connection, Message::Looked(number, of, outcome));
            let reply = ReplySender::of(self.begun.clone(), send);
            self.keys.send(connection, Ask { what: What::Get(key.clone()), reply });
        }
        None
    }

    /// A key has this.
    pub fn take(&mut self, key: Vec<u8>, outcome: Outcome) -> Option<Looked> {
        let Outcome::Value(value) = outcome else { return Some(Err(CommandFault::of(outcome))) };
        self.values.insert(key, value);
        self.left -= 1;
        if self.left > 0 {
            return None;
        }
        let (now, values) = (stored::now(), &self.values);
        let is_over = |key: &Vec<u8>| {
            let value = values.get(key).cloned().flatten();
            value.map(Stored::read).is_some_and(|stored| stored.is_over(now))
        };
        self.wanted.retain(is_over);
        self.remove()
    }

    /// Has what is past its deadline removed; or has all.
    fn remove(&mut self) -> Option<Looked> {
        self.left = self.wanted.len();
        for key in &self.wanted {
            let to = ReplyTo::look(self.outbox.clone(), self.connection, self.number);
            self.keys.ask(self.keys.id(), key.clone(), Action::Tidy, to);
        }
        (self.left == 0).then(|| Ok(std::mem::take(&mut self.values)))
    }

    /// A key's value that was past its deadline was removed. Once all are, they are read again.
    pub fn take_removed(&mut self, reply: Reply) -> Option<Looked> {
        if let Reply::Error(fault) = reply {
            return Some(Err(fault));
        }
        self.left -= 1;
        if self.left == 0 { self.read() } else { None }
    }

    /// Nobody waits for it any more.
    pub fn give_up(&self) {
        self.begun.give_up();
    }
}
