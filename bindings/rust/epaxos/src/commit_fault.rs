//! Why what is ready wasn't committed.
#![forbid(unsafe_code)]

use crate::Fault;
use std::error::Error;
use std::{fmt, io};

/// Why [`Ready::commit`](crate::Ready::commit) has nothing to hand out.
///
/// ```
/// use epaxos::{CommitFault, Fault};
///
/// assert_eq!(CommitFault::Core(Fault::Memory).to_string(), "out of memory");
/// ```
#[derive(Debug)]
pub enum CommitFault {
    /// The log's. Of kind `InvalidInput`: it is the log of another replica, and nothing was written. Else nobody knows what the log has: drop the replica,
    /// and open it again from its log.
    Log(io::Error),
    /// The core's. The log has the bytes, and the next [`ready`](crate::Replica::ready) goes on.
    Core(Fault),
}

impl fmt::Display for CommitFault {
    fn fmt(&self, f: &mut fmt::Formatter) -> fmt::Result {
        match self {
            CommitFault::Log(error) => write!(f, "the log isn't written: {error}"),
            CommitFault::Core(fault) => fault.fmt(f),
        }
    }
}

impl Error for CommitFault {
    fn source(&self) -> Option<&(dyn Error + 'static)> {
        match self {
            CommitFault::Log(error) => Some(error),
            CommitFault::Core(fault) => Some(fault),
        }
    }
}
