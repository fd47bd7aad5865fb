//! How a host goes about its replica.
use crate::host::{Identity, Plant, Sums};
use crate::parts::generation::Limits;
use crate::parts::reading;
use crate::{Cluster, MOST_COMMANDS};
use std::time::Duration;

/// How a host goes about its replica.
///
/// ```
/// use epaxos::Cluster;
/// use epaxos::host::Settings;
///
/// let settings = Settings { seed: 7, ..Settings::new(Cluster::Three, 0) };
/// assert_eq!(settings.me, 0);
/// ```
#[derive(Clone, Debug)]
pub struct Settings {
    /// How many replicas there are when it begins, or joins; then what the disk has counts, and what seals say.
    pub cluster: Cluster,
    /// Which one this is, from 0.
    pub me: u8,
    /// What distinguishes this machine from another one that has its number: made by chance once for each disk, and
    /// kept. Where machines have one, seals name who takes part, and a machine that joins is let in by a
    /// [`wish`](super::Host::wish). All machines of a cluster have one, or none has.
    pub identity: Option<Identity>,
    /// Decides what is left to chance. Another one at each start, and at each replica.
    pub seed: u64,
    /// A generation is sealed once this replica has used so many of its numbers: 1 to 8,890.
    pub numbers: u16,
    /// A generation is sealed once one of its commands has so many dependencies.
    pub dependencies: u16,
    /// A generation is sealed once its log has so many bytes.
    pub log: u64,
    /// The file that a generation opens with is written once the logs since the last one have so many bytes, and as
    /// many as that one, by one replica after the other. 0: by each at each generation.
    pub checkpoint: u64,
    /// A call that can't be proposed is held for so long, and then refused.
    pub patience: Duration,
    /// Puts and deletes of different keys that wait at the same time are proposed as one command, so many at most: up
    /// to 16, of 32 KiB together. 1: each by itself. Where the replicas are 20 ms apart only what waits goes together.
    pub together: usize,
    /// The map may have so many bytes, where it is bounded: a key takes its own, its value's and 5. What might make it
    /// longer is refused ([`Refusal::MapFull`](super::Refusal::MapFull)), in the last sixteenth maybe earlier. The same
    /// at all replicas.
    pub most_map: Option<u64>,
    /// At most so many calls and reads wait; further ones are refused.
    pub most: usize,
    /// So many generations that were left stay on the disk; `u32::MAX`: all, as an audit of them wants.
    pub kept: u32,
    /// Whether [`Turn::executed`](super::Turn::executed) has what was executed.
    pub tells_executed: bool,
    /// How the SHA-256 of logs is found.
    pub sums: Sums,
    /// A fault that is planted, which is none without the feature `plants`. Never for use.
    pub plant: Option<Plant>,
}

impl Settings {
    /// What suits most: a seal at four fifths of the numbers, a checkpoint of 4 MiB, 5 s of patience, 16 writes in one
    /// command.
    ///
    /// ```
    /// use epaxos::Cluster;
    /// use epaxos::host::Settings;
    ///
    /// assert_eq!(Settings::new(Cluster::Five, 4).together, 16);
    /// ```
    pub fn new(cluster: Cluster, me: u8) -> Settings {
        Settings {
            cluster,
            me,
            identity: None,
            seed: 1,
            numbers: MOST_COMMANDS / 5 * 4,
            dependencies: 300,
            log: 64 << 20,
            checkpoint: 4 << 20,
            patience: Duration::from_secs(5),
            together: 16,
            most_map: None,
            most: 100_000,
            kept: 0,
            tells_executed: false,
            sums: Sums::default(),
            plant: None,
        }
    }

    pub(super) fn limits(&self) -> Limits {
        Limits { numbers: self.numbers, dependencies: self.dependencies, log: self.log }
    }

    /// Whether this fault is planted.
    pub(super) fn has(&self, plant: Plant) -> bool {
        cfg!(feature = "plants") && self.plant == Some(plant)
    }

    /// The one that is planted in reads.
    pub(super) fn planted_in_reads(&self) -> Option<reading::Plant> {
        match self.plant.filter(|plant| self.has(*plant))? {
            Plant::ReadFewer => Some(reading::Plant::Fewer),
            Plant::ReadLocal => Some(reading::Plant::Local),
            Plant::ReadBefore => Some(reading::Plant::Before),
            Plant::ReadLater => Some(reading::Plant::Later),
            Plant::ReadPartly => Some(reading::Plant::Partly),
            Plant::ReadForeign => Some(reading::Plant::Foreign),
            _ => None,
        }
    }
}
