//! Why the store ends.
use crate::receipts_fault::ReceiptsFault;
use epaxos::host::HostFault;
use std::fmt;
use std::io;

/// Why the store ends.
#[derive(Debug)]
pub enum StopFault {
    Host(HostFault),
    Receipts(ReceiptsFault),
    /// The folder can't be written.
    Disk(io::Error),
    /// This peer knows another process of this replica's number and identity, which was started before this one.
    Twice(u8),
    /// It was asked to end.
    Asked,
    /// Nobody is left who could ask.
    Alone,
}

impl StopFault {
    /// Whether the replica must not come back with this folder.
    pub fn is_lasting(&self) -> bool {
        matches!(self, StopFault::Host(HostFault::Replaced(_) | HostFault::Left(_)))
    }

    /// Whether the folder is an older copy: another machine has to take the number.
    pub fn is_older(&self) -> bool {
        matches!(self, StopFault::Host(HostFault::Forgotten { .. } | HostFault::Disowned { .. }))
    }
}

impl From<HostFault> for StopFault {
    fn from(fault: HostFault) -> StopFault {
        StopFault::Host(fault)
    }
}

impl fmt::Display for StopFault {
    fn fmt(&self, f: &mut fmt::Formatter) -> fmt::Result {
        match self {
            StopFault::Host(HostFault::Forgotten { peer, generation, seen, entries }) => write!(
                f,
                "replica {peer} has seen entry {seen} of this one in generation {generation}, and here are {entries} \
                 entries: the folder is an older copy. This replica must not come back with it: it has forgotten \
                 what it promised"
            ),
            StopFault::Host(HostFault::Disowned { generation, instance }) => write!(
                f,
                "generation {generation} has done what this replica proposed as {instance}, and its log has no such \
                 proposal: the folder is an older copy. This replica must not come back with it: it has forgotten \
                 what it promised"
            ),
            StopFault::Host(HostFault::Left(generation)) => {
                write!(f, "from generation {generation} on this replica takes part no more")
            }
            StopFault::Host(fault) => fault.fmt(f),
            StopFault::Receipts(fault) => fault.fmt(f),
            StopFault::Disk(error) => error.fmt(f),
            StopFault::Twice(peer) => write!(
                f,
                "replica {peer} knows another process of this one's number and identity, which runs too and was \
                 started earlier: one folder is a copy of the other one, and only one may be used. This process ends"
            ),
            StopFault::Asked => write!(f, "it ends as it was told to"),
            StopFault::Alone => write!(f, "all threads have ended"),
        }
    }
}

impl std::error::Error for StopFault {}
