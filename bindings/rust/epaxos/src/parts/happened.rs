//! What happens to links.

/// What happens to the links between a replica and its peers.
#[derive(PartialEq, Eq, Debug)]
pub enum Happened {
    /// A connection to this peer was opened.
    Reached(u8),
    /// It is over.
    Lost(u8),
    /// It has opened one to this replica.
    Called(u8),
    /// It has sent this.
    Came(u8, Vec<u8>),
}
