//! A place for a replica's log.
#![forbid(unsafe_code)]

use crate::Ready;
use crate::place::{Kept, Place};
use std::io;

/// A place for a replica's log: a file ([`LogFile`](crate::LogFile)), memory (`Vec<u8>`, for tests), or a disk of your own.
///
/// One log is for one replica: `keep` compares, by [`Ready::replica`], [`Ready::generation`] and [`Ready::at`], and refuses what is another one's.
///
/// ```
/// use epaxos::{Cluster, Log, Ready, Replica};
/// use std::io::{self, ErrorKind};
///
/// /// A log that a disk of one's own keeps.
/// struct Disk {
///     replica: u8,
///     bytes: Vec<u8>,
/// }
///
/// impl Log for Disk {
///     fn keep(&mut self, ready: &Ready) -> io::Result<()> {
///         if (ready.replica(), ready.generation()) != (self.replica, 1) {
///             return Err(io::Error::new(ErrorKind::InvalidInput, "another replica's"));
///         }
///         if ready.is_anew() {
///             self.bytes = ready.log().to_vec();              // at once, in the place of what was there
///         } else if ready.at() == self.bytes.len() as u64 {
///             self.bytes.extend(ready.log());
///         } else {
///             return Err(io::Error::new(ErrorKind::InvalidInput, "other bytes come first"));
///         }
///         Ok(())                                              // once all is on the disk
///     }
/// }
///
/// let mut disk = Disk { replica: 0, bytes: Vec::new() };
/// let mut replica = Replica::new(Cluster::Three, 0)?;
/// let output = replica.ready()?.commit(&mut disk)?;
/// # drop(output);
/// # Ok::<(), Box<dyn std::error::Error>>(())
/// ```
pub trait Log {
    /// Puts [`Ready::log`] on the disk, after what is there or in its place, as [`Ready::is_anew`] says, and returns when it is there.
    ///
    /// # Errors
    ///
    /// `InvalidInput`: it is for another log, and nothing was written. Any other one says that nobody knows what the log has.
    ///
    /// ```
    /// # use epaxos::{Cluster, Replica};
    /// use epaxos::Log;
    ///
    /// let mut log = Vec::new();
    /// let mut replica = Replica::new(Cluster::Three, 0)?;
    /// log.keep(&replica.ready()?)?;               // (Ready::commit calls it)
    /// assert_eq!(log.len(), 43);
    /// # Ok::<(), Box<dyn std::error::Error>>(())
    /// ```
    fn keep(&mut self, ready: &Ready) -> io::Result<()>;
}

/// In memory: for tests, and for replicas that don't outlive the program.
impl Log for Vec<u8> {
    fn keep(&mut self, ready: &Ready) -> io::Result<()> {
        let is_found = ready.is_anew() && self[..] != *ready.log();
        match Place::of(ready, &Kept::of(self, is_found)) {
            Some(Place::Instead) => self.clear(),
            Some(Place::Behind) => {}
            Some(Place::There) => return Ok(()),
            None => return Err(io::Error::new(io::ErrorKind::InvalidInput, "it is another replica's log")),
        }
        self.extend(ready.log());
        Ok(())
    }
}
