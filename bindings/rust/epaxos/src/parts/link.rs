//! A way to one peer.
use crate::parts::link_fault::LinkFault;

/// A way to one peer, by which frames of the protocol and messages of hosts go. Any of them may be lost.
pub trait Link: Send + Sync {
    /// Sends these bytes behind what waits, or loses them. It doesn't wait.
    fn send(&self, bytes: Vec<u8>);

    /// Sends all of these likewise, in their order.
    fn send_several(&self, all: Vec<Vec<u8>>) {
        all.into_iter().for_each(|bytes| self.send(bytes));
    }

    /// Sends these bytes before what waits.
    fn send_first(&self, bytes: Vec<u8>);

    /// Whether the peer is reached just now.
    fn is_reached(&self) -> bool;

    /// Whether nothing waits to be sent that can be.
    fn is_idle(&self) -> bool {
        true
    }

    /// How many frames were lost for want of room.
    fn lost(&self) -> u64 {
        0
    }

    /// The peer listens at this address from now on.
    fn set_address(&self, _address: &str) {}

    /// The way is over, and begins anew.
    fn part(&self, _fault: LinkFault) {}

    /// The peer was seen to be there: it is tried at once.
    fn hurry(&self) {}
}
