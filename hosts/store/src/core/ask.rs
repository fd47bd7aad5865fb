//! What clients ask the thread that serves.
use crate::core::reply_sender::ReplySender;
use crate::ops::manage_fault::ManageFault;
use crate::ops::wishes::Manage;
use epaxos::OwnedCommand;

/// A client's question, and where its answer goes.
pub struct Ask {
    pub what: What,
    pub reply: ReplySender,
}

/// What is asked.
pub enum What {
    Propose(OwnedCommand),
    /// What a key has, of all that was acknowledged before: a read that writes nothing.
    Get(Vec<u8>),
    /// What a key has here: a local read.
    Read(Vec<u8>),
    /// What all keys have here, after all that is known to be committed.
    Contents,
    /// The keys that are past their deadlines here, at this moment of the wall clock.
    Over(u64),
    Info,
    /// What somebody who runs the store asks for, and what is wrong with the addresses in it, where something is.
    Manage(Manage, Option<ManageFault>),
}
