//! What comes to the thread that serves.
use crate::core::ask::Ask;
use crate::core::worked::Worked;
use crate::life::identities::Identity;

/// What comes to the thread that serves.
pub enum Event {
    /// What a peer sent: a frame, or a message of its host.
    Came { from: u8, bytes: Vec<u8> },
    /// A connection to this peer was opened.
    PeerReached(u8),
    /// It is over.
    PeerLost(u8),
    /// It has opened one to this replica.
    PeerCame(u8),
    /// A machine of this identity waits to be let in under this number.
    Waits(u8, Identity),
    /// This peer knows another process of this replica's number and identity, which was started before this one.
    Twice(u8),
    /// Clients have asked something ([`Asks`](crate::core::asks::Asks)).
    Asked,
    /// An operator asks, or a thread of this store.
    Ask(Ask),
    /// A thread in the background has done this.
    Worked(Worked),
    /// The store is to end, once those who wait were answered.
    End,
}

impl Event {
    /// How many bytes a peer has sent by it.
    pub fn bytes(&self) -> usize {
        if let Event::Came { bytes, .. } = self { bytes.len() } else { 0 }
    }
}
