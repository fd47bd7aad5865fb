//! What is to be put on the disk.
#![forbid(unsafe_code)]

use crate::lent::Lent;
use crate::own_log::OwnLog;
use crate::{CommitFault, Fault, Log, Output, Replica, Writing};

/// What is to be put on the disk, before there is anything to send: [`commit`](Ready::commit) puts it there; [`begin`](Ready::begin) lets go of the replica
/// while that is done.
///
/// Dropped without that it is lent again by the next [`ready`](Replica::ready), and until then nothing more is taken ([`Fault::Unsynced`]).
///
/// ```
/// use epaxos::{Cluster, Replica};
///
/// let mut log = Vec::new();                       // (a log in memory; a program has a LogFile)
/// let mut replica = Replica::new(Cluster::Three, 0)?;
/// let ready = replica.ready()?;
/// assert!(ready.is_anew());                       // the log begins: the bytes take the place of the whole log
/// let output = ready.commit(&mut log)?;           // only this has anything to be sent
/// assert_eq!(output.frames().count(), 0);
/// # Ok::<(), Box<dyn std::error::Error>>(())
/// ```
///
/// There is no output without a log:
///
/// ```compile_fail
/// # let mut replica = epaxos::Replica::new(epaxos::Cluster::Three, 0).unwrap();
/// let output = replica.ready().unwrap().commit();
/// ```
#[must_use = "nothing can be sent before the log is on the disk"]
pub struct Ready<'a> {
    of: Of<'a>,
    most: u8,
}

/// Whose bytes they are.
enum Of<'a> {
    /// They are lent by a replica.
    Replica(&'a mut Replica),
    /// They are a copy.
    Copy(Copied),
}

/// A copy of what a replica lends.
pub(crate) struct Copied {
    bytes: Vec<u8>,
    is_anew: bool,
    own_log: OwnLog,
}

impl<'a> Ready<'a> {
    pub(crate) fn new(replica: &'a mut Replica, most: u8) -> Ready<'a> {
        Ready { of: Of::Replica(replica), most }
    }

    /// That of a copy, which isn't committed by itself.
    pub(crate) fn of_copy(copied: Copied) -> Ready<'static> {
        Ready { of: Of::Copy(copied), most: 0 }
    }

    fn lent(&self) -> Lent<'_> {
        match &self.of {
            Of::Replica(replica) => replica.lent(),
            Of::Copy(Copied { bytes, is_anew, .. }) => Lent { bytes, is_anew: *is_anew },
        }
    }

    /// The bytes to append to the log, whole. None where nothing was taken: then nothing needs to be synced.
    ///
    /// ```
    /// # use epaxos::{Cluster, Replica};
    /// # let mut replica = Replica::new(Cluster::Three, 0)?;
    /// assert_eq!(replica.ready()?.log().len(), 43);       // the header of a log
    /// # Ok::<(), Box<dyn std::error::Error>>(())
    /// ```
    pub fn log(&self) -> &[u8] {
        self.lent().bytes
    }

    /// Whether the bytes take the place of the whole log, at once, instead of being appended: as a file that is written, synced and then
    /// renamed does. They do so first after each start, since what a read of the old file showed may never have reached the disk.
    ///
    /// ```
    /// # use epaxos::{Cluster, Replica};
    /// # let mut log = Vec::new();
    /// # let mut replica = Replica::new(Cluster::Three, 0)?;
    /// replica.ready()?.commit(&mut log)?;
    /// assert!(!replica.ready()?.is_anew());
    /// # Ok::<(), Box<dyn std::error::Error>>(())
    /// ```
    pub fn is_anew(&self) -> bool {
        self.lent().is_anew
    }

    /// The byte of the log at which these bytes begin: how many the log has so far, or 0 where they take the place of all.
    ///
    /// ```
    /// # use epaxos::{Cluster, Replica};
    /// # let mut log = Vec::new();
    /// # let mut replica = Replica::new(Cluster::Three, 0)?;
    /// assert_eq!(replica.ready()?.at(), 0);
    /// replica.ready()?.commit(&mut log)?;
    /// assert_eq!(replica.ready()?.at(), 43);
    /// # Ok::<(), Box<dyn std::error::Error>>(())
    /// ```
    pub fn at(&self) -> u64 {
        if self.is_anew() { 0 } else { self.own_log().bytes }
    }

    /// The replica whose log this is, from 0.
    ///
    /// ```
    /// # use epaxos::{Cluster, Replica};
    /// # let mut replica = Replica::new(Cluster::Three, 2)?;
    /// assert_eq!(replica.ready()?.replica(), 2);
    /// # Ok::<(), Box<dyn std::error::Error>>(())
    /// ```
    pub fn replica(&self) -> u8 {
        self.own_log().replica
    }

    /// The generation whose log this is, from 1.
    ///
    /// ```
    /// # use epaxos::{Cluster, Replica};
    /// # let mut replica = Replica::new(Cluster::Three, 2)?;
    /// assert_eq!(replica.ready()?.generation(), 1);
    /// # Ok::<(), Box<dyn std::error::Error>>(())
    /// ```
    pub fn generation(&self) -> u32 {
        self.own_log().generation
    }

    pub(crate) fn own_log(&self) -> &OwnLog {
        match &self.of {
            Of::Replica(replica) => replica.own_log(),
            Of::Copy(copied) => &copied.own_log,
        }
    }

    /// Puts the bytes on the disk, and hands out what there is to send and to answer.
    ///
    /// # Errors
    ///
    /// [`CommitFault::Log`]: the log's. Of kind `InvalidInput` nothing was written, and the replica is ready as before: it was the log of another one. Else
    /// nobody knows what the log has: drop the replica, and open it again from its log. [`CommitFault::Core`]: as of
    /// [`assume_synced`](Ready::assume_synced); the log has the bytes.
    ///
    /// ```
    /// # use epaxos::{Cluster, Replica};
    /// let mut logs = [Vec::new(), Vec::new()];
    /// let mut replica = Replica::new(Cluster::Three, 0)?;
    /// let mut other = Replica::new(Cluster::Three, 1)?;
    /// let output = replica.ready()?.commit(&mut logs[0])?;
    /// # drop(output);
    /// other.ready()?.commit(&mut logs[1])?;
    /// other.recover(epaxos::Instance { replica: 0, number: 1 })?;
    /// assert!(other.ready()?.commit(&mut logs[0]).is_err());      // another replica's log
    /// assert_eq!(logs[0].len(), 43);                              // nothing was written
    /// assert_eq!(other.ready()?.commit(&mut logs[1])?.frames().count(), 2);
    /// # Ok::<(), Box<dyn std::error::Error>>(())
    /// ```
    pub fn commit(self, log: &mut impl Log) -> Result<Output<'a>, CommitFault> {
        log.keep(&self).map_err(CommitFault::Log)?;
        self.assume_synced().map_err(CommitFault::Core)
    }

    /// Hands out what there is to send and to answer, on the word of the caller that the bytes are on the disk. It is
    /// for those who keep no log, or keep it in another place than a [`Log`]. A word that isn't true breaks the
    /// promises of all replicas.
    ///
    /// # Errors
    ///
    /// [`Fault::Memory`]: the log counts as synced, and the next `ready` reports all of it. [`Fault::Ended`].
    ///
    /// ```
    /// # use epaxos::{Cluster, Replica};
    /// # let mut replica = Replica::new(Cluster::Three, 0)?;
    /// # let mut disk = std::fs::File::create("/dev/null")?;
    /// # use std::io::Write;
    /// let ready = replica.ready()?;
    /// disk.write_all(ready.log())?;
    /// // .. and once it is synced:
    /// let output = ready.assume_synced()?;
    /// # drop(output);
    /// # Ok::<(), Box<dyn std::error::Error>>(())
    /// ```
    pub fn assume_synced(self) -> Result<Output<'a>, Fault> {
        match self.of {
            Of::Replica(replica) => replica.synced(self.most),
            // (no such one is handed out)
            Of::Copy(_) => Err(Fault::Unsynced),
        }
    }

    /// Lets go of the replica while the bytes are put on the disk, by another thread: meanwhile it takes more. What there is to send and to answer is made now,
    /// and comes out by [`Replica::written`]. Until then [`ready`](Replica::ready) lends these bytes, and not those of what is taken.
    ///
    /// # Errors
    ///
    /// [`Fault::Memory`]: the replica is ready as before. [`Fault::Ended`].
    ///
    /// ```
    /// # use epaxos::{Call, Cluster, Command, Replica};
    /// # let mut log = Vec::new();
    /// # let mut replica = Replica::new(Cluster::Three, 0)?;
    /// # replica.ready()?.commit(&mut log)?;
    /// let put = Command::Put { key: b"x", value: b"1" };
    /// replica.propose(Call::new(1, 1), put)?;
    /// let writing = replica.ready()?.begin()?;
    /// let disk = std::thread::spawn(move || writing.write(&mut log).map(|written| (written, log)));
    /// replica.propose(Call::new(1, 2), put)?;                     // (it is in the next batch)
    /// let (written, mut log) = disk.join().unwrap()?;
    /// assert_eq!(replica.written(written)?.frames().count(), 1);
    /// assert_eq!(replica.ready()?.commit(&mut log)?.frames().count(), 1);
    /// # Ok::<(), Box<dyn std::error::Error>>(())
    /// ```
    pub fn begin(self) -> Result<Writing, Fault> {
        let (bytes, is_anew) = (self.log().to_vec(), self.is_anew());
        let copied = Copied { bytes, is_anew, own_log: self.own_log().clone() };
        if let Of::Replica(replica) = self.of {
            replica.begin(self.most)?;
        }
        Ok(Writing::of(copied))
    }
}
