//! Why a connection to a peer is over.
use std::fmt;
use std::io;

/// Why a connection to a peer is over.
#[derive(Clone, Copy, PartialEq, Eq, Debug)]
pub enum LinkFault {
    /// The other end has closed it.
    Closed,
    /// What the other end sends isn't authentic.
    NotAuthentic,
    /// The other end sends nothing.
    Silent,
    Broken,
    /// Nothing can be sent by it.
    Unsent(io::ErrorKind),
    /// There are no more handles for it.
    NoHandles,
    /// The peer listens at another address.
    OtherAddress,
    /// Another machine has the peer's number.
    Replaced,
    /// This end has ended.
    Ended,
}

impl LinkFault {
    /// What a failed read says of the connection.
    pub fn of_read(error: &io::Error) -> LinkFault {
        match error.kind() {
            io::ErrorKind::UnexpectedEof => LinkFault::Closed,
            io::ErrorKind::InvalidData => LinkFault::NotAuthentic,
            io::ErrorKind::WouldBlock | io::ErrorKind::TimedOut => LinkFault::Silent,
            _ => LinkFault::Broken,
        }
    }
}

impl fmt::Display for LinkFault {
    fn fmt(&self, f: &mut fmt::Formatter) -> fmt::Result {
        match self {
            LinkFault::Closed => f.write_str("it has closed the connection"),
            LinkFault::NotAuthentic => f.write_str("what it tells isn't authentic"),
            LinkFault::Silent => f.write_str("it is silent"),
            LinkFault::Broken => f.write_str("the connection is broken"),
            LinkFault::Unsent(kind) => kind.fmt(f),
            LinkFault::NoHandles => f.write_str("no more handles"),
            LinkFault::OtherAddress => f.write_str("its address has changed"),
            LinkFault::Replaced => f.write_str("another machine has its number"),
            LinkFault::Ended => f.write_str("this end has ended"),
        }
    }
}

impl std::error::Error for LinkFault {}
