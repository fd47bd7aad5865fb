//! Why a replica doesn't go on.
#![forbid(unsafe_code)]

use crate::OpenFault;
use std::error::Error;
use std::fmt;

/// Why a replica doesn't go on in the next generation. But for [`Memory`](SucceedFault::Memory) and [`Log`](SucceedFault::Log) it is as it was.
///
/// ```
/// # let mut log = Vec::new();
/// use epaxos::{Cluster, Reference, Replica, SucceedFault, Succession};
///
/// let mut replica = Replica::new(Cluster::Three, 0)?;
/// replica.ready()?.commit(&mut log)?;
/// let reference = Reference::new(Cluster::Three, 3, 43, [0; 32])?;        // of generation 3, whose next is 2
/// let refused = replica.succeed(&Succession::new(reference, 0)).unwrap_err();
/// assert_eq!(refused, SucceedFault::OtherReference);
/// # Ok::<(), Box<dyn std::error::Error>>(())
/// ```
#[derive(Clone, PartialEq, Eq, Hash, Debug)]
#[non_exhaustive]
pub enum SucceedFault {
    /// There is no memory. The replica is gone: open it again from what is on the disk.
    Memory,
    /// It hasn't executed a seal.
    NotSealed,
    /// What it took isn't on the disk yet, or was lent to be written.
    Unsynced,
    /// The number isn't below the size of the next generation.
    OutOfRange,
    /// No generation is left: their numbers are used up.
    LastGeneration,
    /// The reference isn't to this replica's log as it is: of another generation, or of another length.
    OtherReference,
    /// The log can't be gone on from, as [`Setup::open`](crate::Setup::open) says it. The replica is gone: open it
    /// again from what is on the disk.
    Log(OpenFault),
    /// There is no replica any more: an earlier call has lost it.
    NoReplica,
    /// The library answers what no call of its should: what that is.
    Ended(String),
}

impl fmt::Display for SucceedFault {
    fn fmt(&self, f: &mut fmt::Formatter) -> fmt::Result {
        match self {
            SucceedFault::Memory => f.write_str("out of memory"),
            SucceedFault::NotSealed => f.write_str("no seal was executed"),
            SucceedFault::Unsynced => f.write_str("what was taken is not on the disk yet"),
            SucceedFault::OutOfRange => f.write_str("the replica has no part in the next generation"),
            SucceedFault::LastGeneration => f.write_str("no generation is left"),
            SucceedFault::OtherReference => f.write_str("the reference is to another log"),
            SucceedFault::Log(fault) => fault.fmt(f),
            SucceedFault::NoReplica => f.write_str("there is no replica"),
            SucceedFault::Ended(what) => write!(f, "the core is of no use any more: {what}"),
        }
    }
}

impl Error for SucceedFault {}
