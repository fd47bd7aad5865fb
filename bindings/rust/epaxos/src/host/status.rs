//! How a host is.
use crate::host::Host;
use std::time::Duration;

/// How a host is, for whoever looks after it.
///
/// ```
/// # use epaxos::host::Status;
/// fn is_well(status: &Status) -> bool {
///     !status.is_alone && status.behind == 0
/// }
/// ```
#[derive(Clone, PartialEq, Eq, Debug)]
pub struct Status {
    /// The generation, or 0 of a host that joins.
    pub generation: u32,
    /// How many replicas there are.
    pub replicas: usize,
    /// Whether its seal was executed here.
    pub is_sealed: bool,
    /// How many entries its log has.
    pub entries: u32,
    /// How many bytes its log had within the last second.
    pub log: u64,
    /// The most dependencies that a command of this replica has in it.
    pub dependencies: u16,
    /// How many bytes the map had when it began.
    pub map: u64,
    /// The last number of its own that was used.
    pub used: u16,
    /// Whether so few peers are reached that nothing is done.
    pub is_alone: bool,
    /// The peers that are reached.
    pub reached: Vec<u8>,
    /// The one that proposals spare.
    pub spared: u8,
    /// How many calls and reads wait.
    pub waiting: usize,
    /// How many instances are known not to be committed.
    pub open: usize,
    /// The round trip to the farthest member of the fast quorum, the least of the last minute, where it is known,
    pub quorum: Option<Duration>,
    /// and to each peer.
    pub far: Vec<(u8, Option<Duration>)>,
    /// The generations that the farthest peer is ahead.
    pub behind: u32,
    /// How many of those that wait are reads.
    pub reads: usize,
    /// Whether the replica takes part no more, once the present generation is over; and whether it waits until a
    /// majority of the others has left that.
    pub leaves: bool,
    /// See [`leaves`](Status::leaves).
    pub waits_for_majority: bool,
    /// How many replicas there are in the next generation, once it is known.
    pub next_replicas: Option<usize>,
    /// Changes of generation since the start,
    pub changes: u64,
    /// how long the last one took, from when the seal was executed, or an opening had come,
    pub changed_in: Duration,
    /// and how many of them took an opening from a peer.
    pub taken: u64,
    /// Second phases that were begun since the start.
    pub accepts: u64,
    /// Recoveries that were begun since the start.
    pub recoveries: u64,
    /// Commits that were sent again since the start.
    pub sent_again: u64,
    /// Batches that the disk was given since the start.
    pub syncs: u64,
    /// Commands that were proposed, since the start.
    pub proposals: u64,
    /// Questions of reads that were sent, since the start,
    pub questions: u64,
    /// and those that were sent again.
    pub questions_again: u64,
    /// Calls that were proposed with others, in one command, since the start.
    pub together: u64,
    /// What came and was no frame, since the start.
    pub refused: u64,
}

impl Host {
    /// How it is.
    ///
    /// ```
    /// # use epaxos::{Cluster, host::{Host, Settings}, service::MemoryDisk};
    /// # use std::time::Instant;
    /// # fn main() -> Result<(), Box<dyn std::error::Error>> {
    /// let now = Instant::now();
    /// let host = Host::begin(&Settings::new(Cluster::Three, 0), &MemoryDisk::default(), now)?;
    /// assert!(host.status().is_alone);
    /// # Ok(()) }
    /// ```
    pub fn status(&self) -> Status {
        let ahead = self.progress.peers().map(|peer| self.progress.others.generation(peer)).max().unwrap_or(0);
        Status {
            generation: self.progress.generation.number,
            replicas: self.progress.place.replicas,
            is_sealed: self.progress.generation.is_sealed(),
            entries: self.progress.generation.entries,
            log: self.progress.generation.log,
            dependencies: self.progress.generation.dependencies,
            map: self.calls.room.map,
            used: self.progress.generation.used,
            is_alone: self.progress.is_alone(),
            reached: self.progress.peers().filter(|peer| self.progress.is_reached(*peer)).collect(),
            spared: self.progress.distances.spared(),
            waiting: self.calls.count() + self.reads.count() + self.here.len(),
            open: self.progress.watch.count(),
            quorum: self.progress.distances.quorum(),
            far: self.progress.peers().map(|peer| (peer, self.progress.distances.shortest(peer))).collect(),
            behind: ahead.saturating_sub(self.progress.generation.number),
            reads: self.reads.count(),
            leaves: self.progress.leaves(),
            waits_for_majority: self.progress.waits_for_majority(),
            next_replicas: self.progress.generation.next_size,
            changes: self.counts.changes,
            changed_in: self.changed_in,
            taken: self.counts.taken,
            accepts: self.progress.counts.accepts,
            recoveries: self.progress.counts.recoveries,
            sent_again: self.progress.counts.sent_again,
            syncs: self.counts.syncs,
            proposals: self.counts.proposals,
            questions: self.reads.questions,
            questions_again: self.reads.questions_again,
            together: self.calls.together,
            refused: self.progress.counts.refused,
        }
    }

    /// What a key has here, after all that was executed here: a look that may be old. None where it has nothing; also
    /// while the disk is at work.
    ///
    /// # Errors
    ///
    /// [`Fault::Unsynced`](crate::Fault::Unsynced) while the disk is at work,
    /// [`Fault::OutOfRange`](crate::Fault::OutOfRange) of a key that can't be.
    ///
    /// ```
    /// # use epaxos::{Cluster, host::{Host, Settings}, service::MemoryDisk};
    /// # use std::time::Instant;
    /// # fn main() -> Result<(), Box<dyn std::error::Error>> {
    /// let now = Instant::now();
    /// let mut host = Host::begin(&Settings::new(Cluster::Three, 0), &MemoryDisk::default(), now)?;
    /// let writes = host.turn(now)?.writes.ok_or("nothing to write")?;
    /// assert_eq!(host.look_up(b"x"), Err(epaxos::Fault::Unsynced));
    /// host.synced(writes.number, now)?;
    /// assert_eq!(host.look_up(b"x"), Ok(None));
    /// # Ok(()) }
    /// ```
    pub fn look_up(&mut self, key: &[u8]) -> Result<Option<Vec<u8>>, crate::Fault> {
        match &mut self.acting {
            Some(acting) if self.busy.is_none() => Ok(acting.replica.get(key)?.map(<[u8]>::to_vec)),
            _ => Err(crate::Fault::Unsynced),
        }
    }

    /// What all keys have here, likewise.
    ///
    /// # Errors
    ///
    /// [`Fault::Unsynced`](crate::Fault::Unsynced) while the disk is at work, [`Fault::Memory`](crate::Fault::Memory).
    ///
    /// ```
    /// # use epaxos::{Cluster, host::{Host, Settings}, service::MemoryDisk};
    /// # use std::time::Instant;
    /// # fn main() -> Result<(), Box<dyn std::error::Error>> {
    /// let now = Instant::now();
    /// let mut host = Host::begin(&Settings::new(Cluster::Three, 0), &MemoryDisk::default(), now)?;
    /// let writes = host.turn(now)?.writes.ok_or("nothing to write")?;
    /// host.synced(writes.number, now)?;
    /// assert_eq!(host.contents(), Ok(Vec::new()));
    /// # Ok(()) }
    /// ```
    pub fn contents(&mut self) -> Result<Vec<(Vec<u8>, Vec<u8>)>, crate::Fault> {
        match &mut self.acting {
            Some(acting) if self.busy.is_none() => {
                let all = acting.replica.contents()?;
                Ok(all.map(|(key, value)| (key.to_vec(), value.to_vec())).collect())
            }
            _ => Err(crate::Fault::Unsynced),
        }
    }

    /// Whether all that is known here is committed and executed, and nothing waits.
    ///
    /// ```
    /// # use epaxos::{Cluster, host::{Host, Settings}, service::MemoryDisk};
    /// # use std::time::Instant;
    /// # fn main() -> Result<(), Box<dyn std::error::Error>> {
    /// let now = Instant::now();
    /// let host = Host::begin(&Settings::new(Cluster::Three, 0), &MemoryDisk::default(), now)?;
    /// assert!(!host.is_quiet()); // its log begins
    /// # Ok(()) }
    /// ```
    pub fn is_quiet(&self) -> bool {
        let is_idle = self.busy.is_none() && !self.executions.is_due() && self.calls.is_empty();
        let is_known = self.progress.watch.count() == 0 && !self.progress.watch.is_changed();
        is_idle && is_known && self.reads.is_empty() && self.here.is_empty() && self.pending.batch.0.is_empty()
    }

    /// The generation that it is in; 0 of a host that joins.
    ///
    /// ```
    /// # use epaxos::{Cluster, host::{Host, Settings}, service::MemoryDisk};
    /// # use std::time::Instant;
    /// # fn main() -> Result<(), Box<dyn std::error::Error>> {
    /// let host = Host::join(&Settings::new(Cluster::Three, 2), &MemoryDisk::default(), Instant::now())?;
    /// assert_eq!(host.generation(), 0);
    /// # Ok(()) }
    /// ```
    pub fn generation(&self) -> u32 {
        self.progress.generation.number
    }

    /// How many entries the log of its generation has.
    pub(crate) fn status_entries(&self) -> u32 {
        self.progress.generation.entries
    }

    /// How many calls were proposed with others since the start.
    pub(crate) fn status_together(&self) -> u64 {
        self.calls.together
    }

    /// How many recoveries were begun since the start.
    pub(crate) fn status_recoveries(&self) -> u64 {
        self.progress.counts.recoveries
    }

    /// Whether it does something for clients: it has a generation, takes part in the next one too, and reaches a
    /// majority.
    ///
    /// ```
    /// # use epaxos::{Cluster, host::{Host, Settings}, service::MemoryDisk};
    /// # use std::time::Instant;
    /// # fn main() -> Result<(), Box<dyn std::error::Error>> {
    /// let host = Host::begin(&Settings::new(Cluster::Three, 0), &MemoryDisk::default(), Instant::now())?;
    /// assert!(!host.takes_part()); // nobody else is there
    /// # Ok(()) }
    /// ```
    pub fn takes_part(&self) -> bool {
        self.generation() > 0 && !self.progress.is_alone() && !self.progress.leaves()
    }

    /// The generation that a peer has reported last.
    ///
    /// ```
    /// # use epaxos::{Cluster, host::{Host, Settings}, service::MemoryDisk};
    /// # use std::time::Instant;
    /// # fn main() -> Result<(), Box<dyn std::error::Error>> {
    /// let host = Host::begin(&Settings::new(Cluster::Three, 0), &MemoryDisk::default(), Instant::now())?;
    /// assert_eq!(host.generation_of(1), 0);
    /// # Ok(()) }
    /// ```
    pub fn generation_of(&self, peer: u8) -> u32 {
        self.progress.others.generation(peer)
    }

    /// The greatest entry of a peer that was seen in the present generation.
    ///
    /// ```
    /// # use epaxos::{Cluster, host::{Host, Settings}, service::MemoryDisk};
    /// # use std::time::Instant;
    /// # fn main() -> Result<(), Box<dyn std::error::Error>> {
    /// let now = Instant::now();
    /// let host = Host::begin(&Settings::new(Cluster::Three, 0), &MemoryDisk::default(), now)?;
    /// assert_eq!(host.seen_of(1), 0);
    /// # Ok(()) }
    /// ```
    pub fn seen_of(&self, peer: u8) -> u32 {
        self.progress.others.seen(peer)
    }
}
