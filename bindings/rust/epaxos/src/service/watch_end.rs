//! Why a watch has ended.
use std::error::Error;
use std::fmt;

/// Why a watch has ended. What was reported before is all there was up to some place; what came behind that isn't
/// reported. [Watch again](super::Service::watch): the new watch begins with what the keys have.
///
/// ```
/// use epaxos::service::WatchEnd;
///
/// assert!(WatchEnd::Lagged.to_string().ends_with("watch again"));
/// ```
#[derive(Clone, Copy, PartialEq, Eq, Hash, Debug)]
#[non_exhaustive]
pub enum WatchEnd {
    /// More changes waited to be taken than may.
    Lagged,
    /// The replica doesn't know some changes: it had fallen behind and took what a peer has in a later generation, or a
    /// value that a [`Swap`](crate::Command::Swap) had brought was written over at once.
    Skipped,
    /// The host has ended: another replica can be watched.
    Ended,
}

impl fmt::Display for WatchEnd {
    fn fmt(&self, f: &mut fmt::Formatter) -> fmt::Result {
        f.write_str(match self {
            WatchEnd::Lagged => "too many changes waited to be taken: watch again",
            WatchEnd::Skipped => "the replica doesn't know some changes: watch again",
            WatchEnd::Ended => "the host has ended",
        })
    }
}

impl Error for WatchEnd {}
