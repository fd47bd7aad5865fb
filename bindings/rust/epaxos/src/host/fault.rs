//! Why a host doesn't start, or ends.
use crate::host::FolderFault;
use crate::parts::plan_fault::PlanFault;
use crate::{Fault, Instance, OpenFault, SucceedFault};
use std::error::Error;
use std::{fmt, io};

/// Why a host doesn't start.
///
/// ```
/// use epaxos::host::{Host, Settings, StartFault};
/// use epaxos::{Cluster, service::MemoryDisk};
/// use std::time::Instant;
///
/// // nothing is there to go on with:
/// let opened = Host::open(&Settings::new(Cluster::Three, 0), &MemoryDisk::default(), Instant::now());
/// let why = opened.err().unwrap();
/// assert!(matches!(why, StartFault::Folder(_)));
/// // what `main` prints, where it returns one:
/// assert_eq!(format!("{why:?}"), why.to_string());
/// ```
#[non_exhaustive]
pub enum StartFault {
    /// A setting is out of its range.
    OutOfRange,
    /// The disk can't be read, or there is no link, or no thread.
    Disk(io::Error),
    /// What the disk has of its generations isn't gone on with.
    Folder(FolderFault),
    /// A file of this generation is none: of the host itself, and not of its generations.
    Damaged(u32, &'static str),
    /// Another machine has this replica's number, by the seal that began this generation.
    Replaced(u32),
    /// With this generation the disk has the state of a [`Machine`](super::Machine), and the host has none; or the
    /// other way round.
    Machine(u32),
    /// The machine doesn't take the state that the disk has.
    Restore(io::Error),
}

impl fmt::Display for StartFault {
    fn fmt(&self, f: &mut fmt::Formatter) -> fmt::Result {
        match self {
            StartFault::OutOfRange => f.write_str("a setting is out of its range"),
            StartFault::Disk(error) => write!(f, "the disk can't be read: {error}"),
            StartFault::Folder(fault) => fault.fmt(f),
            StartFault::Damaged(generation, name) => {
                write!(f, "folder refused: the {name} of generation {generation} is damaged, or another one's")
            }
            StartFault::Replaced(generation) => replaced(*generation, f),
            StartFault::Machine(generation) => write!(
                f,
                "folder refused: either generation {generation} has the state of a state machine there or the host has \
                 one, and not both"
            ),
            StartFault::Restore(error) => restore(error, f),
        }
    }
}

impl fmt::Debug for StartFault {
    fn fmt(&self, f: &mut fmt::Formatter) -> fmt::Result {
        fmt::Display::fmt(self, f)
    }
}

impl Error for StartFault {}

impl From<io::Error> for StartFault {
    fn from(error: io::Error) -> StartFault {
        StartFault::Disk(error)
    }
}

impl From<FolderFault> for StartFault {
    fn from(fault: FolderFault) -> StartFault {
        match fault {
            FolderFault::Disk(error) => StartFault::Disk(error),
            fault => StartFault::Folder(fault),
        }
    }
}

impl From<PlanFault> for StartFault {
    fn from(fault: PlanFault) -> StartFault {
        StartFault::Folder(fault.into())
    }
}

/// Why a host has ended. It is of no use any more, and what waits isn't answered.
///
/// ```
/// use epaxos::host::HostFault;
///
/// /// Whether a start with the same disk is of no use: another machine has to take the number.
/// fn is_lost(fault: &HostFault) -> bool {
///     matches!(fault, HostFault::Forgotten { .. } | HostFault::Disowned { .. })
/// }
/// # assert!(!is_lost(&HostFault::NotAsked));
/// ```
#[derive(Debug)]
#[non_exhaustive]
pub enum HostFault {
    /// A peer has seen more of this replica than its log has: the log is an older copy, and must not be gone on with.
    Forgotten {
        /// The peer.
        peer: u8,
        /// The generation that it is about.
        generation: u32,
        /// The entry of this replica that it has seen there.
        seen: u32,
        /// How many the log has.
        entries: u32,
    },
    /// A generation has done something under a number of this replica that its log doesn't have: the log is an older
    /// copy, and must not be gone on with.
    Disowned {
        /// The generation, which the others have left.
        generation: u32,
        /// What was done there.
        instance: Instance,
    },
    /// The core has ended.
    Core(Fault),
    /// It doesn't go on in the next generation.
    Succeed(SucceedFault),
    /// It doesn't begin by an opening.
    Open(OpenFault),
    /// The host was notified of something that it hadn't asked for.
    NotAsked,
    /// The disk refuses what it was given: nobody knows what it has.
    Disk(io::Error),
    /// Another machine has this replica's number, from this generation on: this one must not come back.
    Replaced(u32),
    /// From this generation on there are fewer replicas, and this one isn't among them: it must not come back.
    Left(u32),
    /// The machine doesn't take the state that a peer has handed.
    Restore(io::Error),
}

fn restore(error: &io::Error, f: &mut fmt::Formatter) -> fmt::Result {
    write!(f, "the state machine doesn't take its state: {error}")
}

fn replaced(generation: u32, f: &mut fmt::Formatter) -> fmt::Result {
    write!(f, "from generation {generation} on another machine has this replica's number: this one must not come back")
}

impl fmt::Display for HostFault {
    fn fmt(&self, f: &mut fmt::Formatter) -> fmt::Result {
        match self {
            HostFault::Forgotten { peer, generation, seen, entries } => write!(
                f,
                "replica {peer} has seen entry {seen} of this one in generation {generation}, \
                 and the log has {entries}: it is an older copy, and the machine has to be replaced"
            ),
            HostFault::Disowned { generation, instance } => write!(
                f,
                "generation {generation} has done what this replica proposed as {instance}, and its log has no such \
                 proposal: it is an older copy, and the machine has to be replaced"
            ),
            HostFault::Core(fault) => fault.fmt(f),
            HostFault::Succeed(fault) => fault.fmt(f),
            HostFault::Open(fault) => fault.fmt(f),
            HostFault::Disk(error) => write!(f, "the disk refuses what it was given: {error}"),
            HostFault::Replaced(generation) => replaced(*generation, f),
            HostFault::Left(generation) => {
                write!(f, "from generation {generation} on this replica takes part no more: it must not come back")
            }
            HostFault::Restore(error) => restore(error, f),
            HostFault::NotAsked => f.write_str("the host was told of something that it hadn't asked for"),
        }
    }
}

impl Error for HostFault {}

impl From<Fault> for HostFault {
    fn from(fault: Fault) -> HostFault {
        HostFault::Core(fault)
    }
}

impl From<SucceedFault> for HostFault {
    fn from(fault: SucceedFault) -> HostFault {
        HostFault::Succeed(fault)
    }
}

impl From<OpenFault> for HostFault {
    fn from(fault: OpenFault) -> HostFault {
        HostFault::Open(fault)
    }
}
