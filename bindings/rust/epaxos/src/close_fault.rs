//! Why a generation isn't closed.
#![forbid(unsafe_code)]

use std::error::Error;
use std::fmt;

/// Why a replica doesn't close its generation.
///
/// ```
/// # let mut log = Vec::new();
/// use epaxos::{CloseFault, Cluster, Replica};
///
/// let mut replica = Replica::new(Cluster::Three, 0)?;
/// replica.ready()?.commit(&mut log)?;
/// let (_replica, fault) = replica.close(Cluster::Three).unwrap_err();
/// assert_eq!(fault, CloseFault::NotSealed);
/// # Ok::<(), Box<dyn std::error::Error>>(())
/// ```
#[derive(Clone, PartialEq, Eq, Hash, Debug)]
#[non_exhaustive]
pub enum CloseFault {
    /// There is no memory.
    Memory,
    /// It hasn't executed a seal.
    NotSealed,
    /// What it took isn't on the disk yet.
    Unsynced,
    /// Its number isn't below the size of the next generation: ask a replica that stays.
    OutOfRange,
    /// No generation is left: their numbers are used up.
    LastGeneration,
    /// The library answers what no call of its should: what that is.
    Ended(String),
}

impl fmt::Display for CloseFault {
    fn fmt(&self, f: &mut fmt::Formatter) -> fmt::Result {
        match self {
            CloseFault::Memory => f.write_str("out of memory"),
            CloseFault::NotSealed => f.write_str("no seal was executed"),
            CloseFault::Unsynced => f.write_str("what was taken is not on the disk yet"),
            CloseFault::OutOfRange => f.write_str("the replica has no part in the next generation"),
            CloseFault::LastGeneration => f.write_str("no generation is left"),
            CloseFault::Ended(what) => write!(f, "the core is of no use any more: {what}"),
        }
    }
}

impl Error for CloseFault {}
