//! What a peer has handed that leads to a generation.
use crate::host::{FolderFault, Sums};
use crate::parts::way::Handed;
use std::fmt;

/// What a peer has handed that leads to a generation: an opening, and the logs since.
///
/// ```
/// use epaxos::host::{Host, Work};
/// use std::time::Instant;
///
/// fn follow(host: &mut Host, work: Work) {
///     if let Work::Follow { generation, trail } = work {
///         host.followed(generation, trail.opening().ok(), Instant::now());
///     }
/// }
/// ```
pub struct Trail {
    replica: u8,
    bytes: Vec<u8>,
    sums: Sums,
}

impl fmt::Debug for Trail {
    fn fmt(&self, f: &mut fmt::Formatter) -> fmt::Result {
        f.debug_struct("Trail").field("replica", &self.replica).finish_non_exhaustive()
    }
}

impl Trail {
    /// What this replica has handed.
    pub(super) fn of(replica: u8, bytes: Vec<u8>, sums: Sums) -> Trail {
        Trail { replica, bytes, sums }
    }

    /// The replica that has handed it.
    ///
    /// ```
    /// /// Whether this peer has handed it.
    /// fn is_of(trail: &epaxos::host::Trail, peer: u8) -> bool {
    ///     trail.from() == peer
    /// }
    /// ```
    pub fn from(&self) -> u8 {
        self.replica
    }

    /// Goes through all of it, as the replica that it is of: the opening that it leads to, byte for byte the one that
    /// this replica would write.
    ///
    /// # Errors
    ///
    /// Why it leads to none.
    ///
    /// ```
    /// /// How many bytes an opening has that a peer leads to.
    /// fn length(trail: epaxos::host::Trail) -> Option<usize> {
    ///     trail.opening().ok().map(|bytes| bytes.len())
    /// }
    /// ```
    pub fn opening(self) -> Result<Vec<u8>, FolderFault> {
        let mut opening = Vec::new();
        for piece in Handed::open(self.bytes)?.through(self.replica, self.sums.of)? {
            opening.extend(piece?);
        }
        Ok(opening)
    }
}
