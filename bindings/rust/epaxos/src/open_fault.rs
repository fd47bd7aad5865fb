//! Why there is no replica.
#![forbid(unsafe_code)]

use std::error::Error;
use std::fmt;

/// Why a replica can't be begun or gone on with.
///
/// ```
/// use epaxos::{Cluster, OpenFault, Replica};
///
/// let refused = Replica::new(Cluster::Three, 3).unwrap_err();
/// assert_eq!(refused, OpenFault::OutOfRange);
/// ```
#[derive(Clone, PartialEq, Eq, Hash, Debug)]
#[non_exhaustive]
pub enum OpenFault {
    /// There is no memory.
    Memory,
    /// The replica's number isn't below the cluster's size.
    OutOfRange,
    /// The log has no bytes. Where the replica was never begun, [`new`](crate::Replica::new) begins it; else its disk is lost, or isn't
    /// mounted, and it must not come back.
    NoLog,
    /// It is the log of another replica, cluster or generation.
    OtherLog,
    /// The log has fewer entries than were reported ([`Setup::told`](crate::Setup::told)): it is older than what the
    /// replica has promised, as one that was put back from a copy. The replica must not go on from it.
    Forgotten {
        /// How many entries the log has.
        entries: u32,
        /// How many were reported.
        told: u32,
    },
    /// The bytes are no log that can be gone on from: why, and at which byte.
    BadLog(String),
    /// The bytes are no opening, or one for another number of replicas: why.
    BadOpening(String),
    /// The library that the crate was built with is of another version.
    OtherLibrary,
    /// The library answers what no call of its should: what that is.
    Ended(String),
}

impl fmt::Display for OpenFault {
    fn fmt(&self, f: &mut fmt::Formatter) -> fmt::Result {
        match self {
            OpenFault::Memory => f.write_str("out of memory"),
            OpenFault::OutOfRange => f.write_str("the replica's number is out of range"),
            OpenFault::NoLog => f.write_str("the log is empty"),
            OpenFault::OtherLog => f.write_str("the log of another replica, cluster or generation"),
            OpenFault::Forgotten { entries, told } => {
                write!(
                    f,
                    "the log has {entries} entries, and {told} were told: it is an older one, and must not be gone on from"
                )
            }
            OpenFault::BadLog(why) => write!(f, "the log can't be gone on from: {why}"),
            OpenFault::BadOpening(why) => write!(f, "the opening is refused: {why}"),
            OpenFault::OtherLibrary => f.write_str("the library that the crate was built with is of another version"),
            OpenFault::Ended(what) => write!(f, "the core is of no use any more: {what}"),
        }
    }
}

impl Error for OpenFault {}
