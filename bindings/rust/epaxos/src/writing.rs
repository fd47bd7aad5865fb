//! What is being put on the disk.
#![forbid(unsafe_code)]

use crate::ready::Copied;
use crate::{Log, Ready};
use std::fmt;
use std::io;

/// What is being put on the disk, while its replica takes more: [`Ready::begin`] makes it. It has a copy of the bytes, so it may go to another thread.
///
/// Dropped without being written it is lent again by the next [`ready`](crate::Replica::ready).
///
/// ```
/// fn is_send<T: Send + 'static>() {}
/// is_send::<epaxos::Writing>();
/// ```
#[must_use = "nothing can be sent before the log is on the disk"]
pub struct Writing {
    ready: Ready<'static>,
}

impl fmt::Debug for Writing {
    fn fmt(&self, f: &mut fmt::Formatter) -> fmt::Result {
        f.debug_struct("Writing").field("bytes", &self.ready.log().len()).finish_non_exhaustive()
    }
}

/// That what was being written is on the disk: [`Replica::written`](crate::Replica::written) takes it.
///
/// ```
/// # use epaxos::{Cluster, Replica, Written};
/// let mut replica = Replica::new(Cluster::Three, 0)?;
/// let writing = replica.ready()?.begin()?;
/// // another thread may do this, while the replica takes more
/// let written: Written = writing.write(&mut Vec::new())?;
/// assert_eq!(replica.written(written)?.frames().count(), 0);
/// # Ok::<(), Box<dyn std::error::Error>>(())
/// ```
#[derive(Debug)]
#[must_use = "the replica that it is of has to be told"]
pub struct Written {
    /// Which of the replicas that this process has opened, and how many bytes its log then has.
    pub(crate) opened: u64,
    pub(crate) end: u64,
}

impl Writing {
    pub(crate) fn of(copied: Copied) -> Writing {
        Writing { ready: Ready::of_copy(copied) }
    }

    /// What is to be written, as a [`Log`] is given it.
    ///
    /// ```
    /// # use epaxos::{Cluster, Replica};
    /// # let mut replica = Replica::new(Cluster::Three, 0)?;
    /// assert_eq!(replica.ready()?.begin()?.ready().log().len(), 43);
    /// # Ok::<(), Box<dyn std::error::Error>>(())
    /// ```
    pub fn ready(&self) -> &Ready<'static> {
        &self.ready
    }

    /// Puts the bytes on the disk.
    ///
    /// # Errors
    ///
    /// As of [`commit`](Ready::commit): of kind `InvalidInput` nothing was written; else nobody knows what the log has.
    ///
    /// ```
    /// # use epaxos::{Cluster, Replica};
    /// let mut log = Vec::new();
    /// let mut replica = Replica::new(Cluster::Three, 0)?;
    /// let written = replica.ready()?.begin()?.write(&mut log)?;
    /// assert_eq!(replica.written(written)?.frames().count(), 0);
    /// # Ok::<(), Box<dyn std::error::Error>>(())
    /// ```
    pub fn write(self, log: &mut impl Log) -> io::Result<Written> {
        log.keep(&self.ready)?;
        Ok(self.assume_synced())
    }

    /// On the word of the caller that the bytes are on the disk, as [`Ready::assume_synced`].
    ///
    /// ```
    /// # use epaxos::{Cluster, Replica};
    /// # let mut replica = Replica::new(Cluster::Three, 0)?;
    /// # let mut disk = std::fs::File::create("/dev/null")?;
    /// # use std::io::Write;
    /// let writing = replica.ready()?.begin()?;
    /// disk.write_all(writing.ready().log())?;
    /// // .. and once it is synced:
    /// let output = replica.written(writing.assume_synced())?;
    /// # drop(output);
    /// # Ok::<(), Box<dyn std::error::Error>>(())
    /// ```
    pub fn assume_synced(self) -> Written {
        Written { opened: self.ready.own_log().opened, end: self.ready.at() + self.ready.log().len() as u64 }
    }
}
