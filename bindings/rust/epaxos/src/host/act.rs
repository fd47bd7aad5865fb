//! What the disk is to do.
use std::sync::Arc;

/// What the disk is to do: acts of one batch are done in their order, and are on the disk before
/// [`Host::synced`](super::Host::synced).
///
/// The files of generation G are in the folder `G` of the replica's; those of generation 0 in the replica's folder
/// itself.
///
/// ```
/// use epaxos::host::{Act, Host, Settings};
/// use epaxos::{Cluster, service::MemoryDisk};
/// use std::time::Instant;
///
/// # fn main() -> Result<(), Box<dyn std::error::Error>> {
/// // a start puts its number, and a new replica what its generation opens with, and its log:
/// let now = Instant::now();
/// let mut host = Host::begin(&Settings::new(Cluster::Three, 0), &MemoryDisk::default(), now)?;
/// let writes = host.turn(now)?.writes.ok_or("nothing to write")?;
/// assert!(writes.acts.iter().all(|act| matches!(act, Act::Put { .. })) && writes.acts.len() == 3);
/// # Ok(()) }
/// ```
#[derive(Clone, PartialEq, Eq, Debug)]
pub enum Act {
    /// These bytes are appended to `G/log`.
    Append {
        /// The generation.
        generation: u32,
        /// The bytes, which may be summed meanwhile.
        bytes: Arc<Vec<u8>>,
    },
    /// A file gets these bytes in the place of what it has: after a crash it has the ones or the others, whole. Its
    /// folder is made, where it isn't there.
    Put {
        /// The generation, or 0.
        generation: u32,
        /// The file's name.
        name: Name,
        /// The bytes.
        bytes: Vec<u8>,
    },
    /// The folders of all generations below this one go, each one's mark last.
    Drop {
        /// The least generation that stays.
        below: u32,
    },
}

/// The name of a file.
///
/// ```
/// use epaxos::host::Name;
///
/// assert_eq!(Name::Log.letters(), "log");
/// ```
#[derive(Clone, Copy, PartialEq, Eq, PartialOrd, Ord, Hash, Debug)]
pub enum Name {
    /// What the generation opens with.
    Opening,
    /// What stands for the opening until that is written.
    Reference,
    /// What says that the opening is what the reference stood for.
    Whole,
    /// The state of the [`Machine`](super::Machine) with which the generation begins.
    Machine,
    /// The log.
    Log,
    /// The mark of a generation that was left: the number of a later one that was begun.
    Left,
    /// How often the host has started, in the replica's folder itself.
    Starts,
}

impl Name {
    /// Its letters, as `docs/FORMATS.md` has them.
    ///
    /// ```
    /// assert_eq!(epaxos::host::Name::Reference.letters(), "reference");
    /// ```
    pub fn letters(self) -> &'static str {
        match self {
            Name::Opening => "opening",
            Name::Reference => "reference",
            Name::Whole => "whole",
            Name::Machine => "machine",
            Name::Log => "log",
            Name::Left => "left",
            Name::Starts => "starts",
        }
    }
}

/// Acts, with the number by which [`Host::synced`](super::Host::synced) is called once they are done.
///
/// ```
/// # use epaxos::{Cluster, host::{Host, Settings}, service::MemoryDisk};
/// # use std::time::Instant;
/// # fn main() -> Result<(), Box<dyn std::error::Error>> {
/// let now = Instant::now();
/// let mut host = Host::begin(&Settings::new(Cluster::Three, 0), &MemoryDisk::default(), now)?;
/// assert_eq!(host.turn(now)?.writes.map(|it| it.number), Some(1));
/// # Ok(()) }
/// ```
#[derive(Clone, PartialEq, Eq, Debug)]
pub struct Writes {
    /// The number: the next one each time.
    pub number: u64,
    /// The acts, in their order.
    pub acts: Vec<Act>,
}
