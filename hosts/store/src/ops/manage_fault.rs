//! Why what somebody who runs the store has asked for isn't done.
use crate::connect_fault::ConnectFault;
use crate::life::identities::{Identity, digits};
use epaxos::parts::wishes::ChangeFault;
use std::fmt;

/// Why `EPAXOS SEAL`, `REPLACE` or `RESIZE` isn't done.
#[derive(Clone, PartialEq, Eq, Debug)]
pub enum ManageFault {
    /// The change isn't made.
    Change(ChangeFault),
    /// Under this number no machine is reached at this address.
    NotReached(u8, String, ConnectFault),
    /// At this address is another machine, of this identity.
    OtherMachine(u8, String, Identity),
    /// This machine, of this identity, takes no part yet.
    Joining(Identity),
}

impl From<ChangeFault> for ManageFault {
    fn from(fault: ChangeFault) -> ManageFault {
        ManageFault::Change(fault)
    }
}

/// What whoever asked may do about it, behind why the change isn't made.
fn hint(fault: &ChangeFault) -> &'static str {
    match fault {
        ChangeFault::Reached(_) => ", or add FORCE. A replaced machine must never come back",
        ChangeFault::Coming(..) => ", or add FORCE",
        ChangeFault::NotASize => ": by its number, identity and address",
        ChangeFault::NotWaiting(..) => {
            ": start it with --join, and copy the identity that it prints (EPAXOS MEMBERS lists the machines that wait)"
        }
        ChangeFault::Alone { .. } => ". Start the others; if they are lost for good, see store recover --help",
        ChangeFault::NoMajority { .. } => ". Start the others first",
        ChangeFault::NoReplica(_) | ChangeFault::ThisOne | ChangeFault::Overruled => "",
    }
}

impl fmt::Display for ManageFault {
    fn fmt(&self, f: &mut fmt::Formatter) -> fmt::Result {
        match self {
            ManageFault::Change(fault) => write!(f, "{fault}{}", hint(fault)),
            ManageFault::NotReached(replica, address, fault) => write!(
                f,
                "the peer at {address} {fault}: give the address of replica {replica}'s peers' port, as the other replicas reach it"
            ),
            ManageFault::OtherMachine(replica, address, identity) => write!(
                f,
                "the machine at {address} has identity {}, and not the one given for replica {replica}",
                digits(identity)
            ),
            ManageFault::Joining(identity) => {
                write!(f, "this machine waits to be let in, as {}", digits(identity))
            }
        }
    }
}

impl std::error::Error for ManageFault {}
