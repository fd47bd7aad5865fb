//! Whose links over TCP they are.
use crate::parts::connect_fault::ConnectFault;
use crate::parts::happened::Happened;
use crate::parts::mac::Mac;
use crate::parts::place::Place;
use crate::parts::sealed::{Key, Magic};
use std::io;

/// What this end of all links says, whom it takes for a peer, and where what happens goes.
pub trait Ends: Send + Sync + 'static {
    type Mac: Mac + Sync;
    /// Who a peer is beside its number.
    type Who: Copy;
    /// What a connection begins with.
    const MAGIC: Magic;
    /// What is said behind "another key", so that people find theirs.
    const OF_KEYS: &'static str;

    fn place(&self) -> Place;

    /// The key that all ends share.
    fn key(&self) -> &Key<Self::Mac>;

    /// What it says of itself where it connects.
    fn greeting(&self) -> Vec<u8>;

    /// Whether a peer that gives this answer to the greeting is the one that is meant, and takes what is sent.
    fn judge(&self, peer: u8, answer: &[u8]) -> Result<(), ConnectFault>;

    /// The answer to a peer's greeting, with who it is where its frames are taken. None where it isn't understood.
    fn answer(&self, from: u8, greeting: &[u8]) -> io::Result<Option<(Vec<u8>, Option<Self::Who>)>>;

    /// Whether frames of a peer that was taken are taken still.
    fn takes(&self, from: u8, who: Self::Who) -> bool;

    /// Something has happened: whether anybody wants to know it still.
    fn happen(&self, what: Happened) -> bool;

    /// Logs a line, for people, of what goes well, or doesn't.
    fn log(&self, _is_well: bool, _line: &str) {}
}
