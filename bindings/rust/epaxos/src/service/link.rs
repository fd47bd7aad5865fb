//! The links to the peers.
use crate::service::Inbox;
use std::io;

/// The links of a host to its peers. What is sent may be lost, repeated and overtaken; it must not be another one's.
///
/// ```
/// use epaxos::service::{Inbox, Link};
/// use std::io;
///
/// /// Loses each tenth of what another link would send.
/// struct Lossy<L>(L, u32);
///
/// impl<L: Link> Link for Lossy<L> {
///     fn start(&mut self, inbox: Inbox) -> io::Result<()> {
///         self.0.start(inbox)
///     }
///
///     fn send(&mut self, to: u8, bytes: Vec<u8>) {
///         self.1 += 1;
///         if self.1 % 10 > 0 {
///             self.0.send(to, bytes);
///         }
///     }
/// }
/// ```
pub trait Link: Send + 'static {
    /// Begins: reports links that are opened and lost, and of what comes.
    ///
    /// # Errors
    ///
    /// Why it can't: the host doesn't start then.
    fn start(&mut self, inbox: Inbox) -> io::Result<()>;

    /// Sends bytes to a peer, without waiting. Where there is no room, they are lost.
    fn send(&mut self, to: u8, bytes: Vec<u8>);

    /// The same of several, in their order.
    fn send_several(&mut self, to: u8, all: Vec<Vec<u8>>) {
        all.into_iter().for_each(|bytes| self.send(to, bytes));
    }

    /// From now on a peer is at this address, which a [wish](super::Service::wish) has named.
    fn set_address(&mut self, _peer: u8, _address: String) {}
}
