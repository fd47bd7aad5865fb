//! What a replica is asked.
#![forbid(unsafe_code)]

use crate::{Call, Command, Instance};

/// What a replica may be asked to take. Each kind has a method of [`Replica`](crate::Replica) too.
///
/// ```
/// use epaxos::{Call, Command, Event};
///
/// let event = Event::Propose { call: Call::new(1, 1), command: Command::Get { key: b"x" } };
/// # let _ = event;
/// ```
#[derive(Clone, Copy, PartialEq, Eq, Hash, Debug)]
pub enum Event<'a> {
    /// A client asks for a command.
    Propose {
        /// Whose it is.
        call: Call,
        /// What it asks for.
        command: Command<'a>,
    },
    /// The same; the proposal names the replica that it spares, in place of the one just below the proposer.
    ProposeSparing {
        /// Whose it is.
        call: Call,
        /// What it asks for.
        command: Command<'a>,
        /// The other replica that isn't asked at first: the slowest one, or one that can't be reached.
        spared: u8,
    },
    /// The bytes of a frame have come from a peer.
    Handle(&'a [u8]),
    /// The replica that proposed waits no longer for its whole fast quorum.
    GiveUp(Instance),
    /// The replica waits no longer for the one that leads the instance.
    Recover(Instance),
    /// The instance is executed, and before it all that it depends on.
    Execute(Instance),
}
