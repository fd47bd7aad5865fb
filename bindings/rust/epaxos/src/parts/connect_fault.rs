//! Why there is no connection to a peer.
use std::fmt;
use std::io;

/// Why a peer isn't connected.
#[derive(Clone, Copy, PartialEq, Eq, Debug)]
pub enum ConnectFault {
    /// Nobody is there, or the network is at fault.
    Failed,
    /// It has another key, or none where this one has one.
    OtherKey,
    /// It knows another replica under this one's number.
    NotKnown,
    /// It doesn't take this machine for one of the replicas, as yet or any more.
    NotLetIn,
    /// Another replica is known under its number.
    OtherPeer,
    /// It knows another process that has this one's number and identity, and runs too.
    Twice,
}

impl ConnectFault {
    /// Whether somebody has to do something about it: trying again doesn't help.
    pub fn is_lasting(self) -> bool {
        self != ConnectFault::Failed
    }
}

impl From<io::Error> for ConnectFault {
    fn from(error: io::Error) -> ConnectFault {
        match error.kind() {
            io::ErrorKind::PermissionDenied => ConnectFault::OtherKey,
            _ => ConnectFault::Failed,
        }
    }
}

impl fmt::Display for ConnectFault {
    fn fmt(&self, f: &mut fmt::Formatter) -> fmt::Result {
        f.write_str(match self {
            ConnectFault::Failed => "isn't reached",
            ConnectFault::OtherKey => "has another key than this one",
            ConnectFault::NotKnown => "knows another replica under this one's number: this one must not come back",
            ConnectFault::NotLetIn => "hasn't let this machine in yet",
            ConnectFault::Twice => "knows another process that has this one's number and identity, and runs too",
            ConnectFault::OtherPeer => "isn't the replica that is known under its number: it must not come back",
        })
    }
}

impl std::error::Error for ConnectFault {}
