//! Why a folder of generations isn't gone on with.
use crate::parts::plan_fault::PlanFault;
use crate::{Fault, OpenFault, SucceedFault};
use std::error::Error;
use std::{fmt, io};

/// Why what a disk has of its generations isn't gone on with, in the words of `docs/FORMATS.md`, section 13.
///
/// ```
/// use epaxos::host::{Host, Settings, StartFault};
/// use epaxos::{Cluster, service::MemoryDisk};
/// use std::time::Instant;
///
/// let opened = Host::open(&Settings::new(Cluster::Three, 0), &MemoryDisk::default(), Instant::now());
/// let Err(StartFault::Folder(fault)) = opened else { panic!("it was opened") };
/// assert_eq!(fault.to_string(), "folder refused: no generation is here");
/// assert!(fault.is_lasting());
/// ```
#[derive(Debug)]
#[non_exhaustive]
pub enum FolderFault {
    /// The disk can't be read or written.
    Disk(io::Error),
    /// What is there of each generation isn't gone on with.
    Plan(PlanFault),
    /// A replica is to be begun, and its log is there.
    HasLog,
    /// This generation has no log, and it may have had one: the replica must not come back under its number but with a
    /// later generation ([`Host::join`](crate::host::Host::join)).
    NoLog(u32),
    /// What stands in the place of this generation's opening is none, or what is to be taken: why.
    BadOpening(Option<u32>, String),
    /// In the place of the opening of the first of these generations stands that of the second.
    OfAnother(u32, u32),
    /// What stands in the place of this generation's reference is none: why.
    BadReference(u32, String),
    /// In the place of the reference of the first of these generations stands that of the second.
    ReferenceOf(u32, u32),
    /// The log of this generation is gone, or has fewer bytes than the next one opens with.
    ShortLog(u32),
    /// The log of this generation isn't the one that the next one opens with.
    OtherLog(u32),
    /// What a peer has handed leads to no generation: why.
    BadWay(&'static str),
    /// What is to be taken is for so many replicas, and there are others.
    OtherCluster(u8),
    /// This generation is for so many replicas, and isn't closed.
    OtherSize(u32, u8),
    /// The core doesn't go on from the log.
    Open(OpenFault),
    /// The logs don't lead to the last generation.
    Succeed(SucceedFault),
    /// The core refuses what it had reported.
    Core(Fault),
}

impl FolderFault {
    /// Whether another start would end in the same way.
    ///
    /// ```
    /// use epaxos::host::FolderFault;
    ///
    /// assert!(FolderFault::NoLog(3).is_lasting());
    /// assert!(!FolderFault::Disk(std::io::ErrorKind::PermissionDenied.into()).is_lasting());
    /// ```
    pub fn is_lasting(&self) -> bool {
        match self {
            FolderFault::Disk(_) | FolderFault::Plan(PlanFault::Memory) => false,
            FolderFault::Succeed(_) | FolderFault::Core(_) | FolderFault::BadWay(_) => false,
            FolderFault::Open(fault) => {
                !matches!(fault, OpenFault::Memory | OpenFault::OtherLibrary | OpenFault::Ended(_))
            }
            _ => true,
        }
    }

    /// Why the core doesn't begin: by this generation's opening, or by one that is to be taken.
    #[doc(hidden)]
    pub fn of(fault: OpenFault, generation: Option<u32>) -> FolderFault {
        match fault {
            OpenFault::BadOpening(why) => FolderFault::BadOpening(generation, why),
            fault => FolderFault::Open(fault),
        }
    }
}

impl From<io::Error> for FolderFault {
    fn from(error: io::Error) -> FolderFault {
        FolderFault::Disk(error)
    }
}

impl From<PlanFault> for FolderFault {
    fn from(fault: PlanFault) -> FolderFault {
        FolderFault::Plan(fault)
    }
}

impl From<Fault> for FolderFault {
    fn from(fault: Fault) -> FolderFault {
        FolderFault::Core(fault)
    }
}

impl fmt::Display for FolderFault {
    fn fmt(&self, f: &mut fmt::Formatter) -> fmt::Result {
        match self {
            FolderFault::Disk(error) => error.fmt(f),
            FolderFault::Plan(fault) => fault.fmt(f),
            FolderFault::HasLog => f.write_str("log refused: there is one already"),
            FolderFault::NoLog(generation) => {
                write!(f, "folder refused: generation {generation} has no log; take the opening of a later generation")
            }
            FolderFault::BadOpening(Some(generation), why) => {
                write!(f, "folder refused: the opening of generation {generation}: {why}")
            }
            FolderFault::BadOpening(None, why) => write!(f, "opening refused: {why}"),
            FolderFault::BadWay(why) => write!(f, "what leads to the generation is damaged: {why}"),
            FolderFault::OfAnother(generation, other) => {
                write!(f, "folder refused: the opening of generation {generation} is that of generation {other}")
            }
            FolderFault::BadReference(generation, why) => {
                write!(f, "folder refused: the reference of generation {generation}: {why}")
            }
            FolderFault::ReferenceOf(generation, other) => {
                write!(f, "folder refused: the reference of generation {generation} is that of generation {other}")
            }
            FolderFault::ShortLog(generation) => write!(
                f,
                "folder refused: the log of generation {generation} is gone or cut short, and what it leaves opens \
                 generation {}",
                u64::from(*generation) + 1
            ),
            FolderFault::OtherLog(generation) => write!(
                f,
                "folder refused: the log of generation {generation} isn't the one that generation {} opens with",
                u64::from(*generation) + 1
            ),
            FolderFault::OtherCluster(replicas) => write!(f, "opening refused: it is for {replicas} replicas"),
            FolderFault::OtherSize(generation, replicas) => write!(
                f,
                "folder refused: generation {generation} has another size and isn't closed; it is for {replicas} \
                 replicas"
            ),
            FolderFault::Open(fault) => fault.fmt(f),
            FolderFault::Succeed(fault) => write!(f, "the next generation can't be begun: {fault}"),
            FolderFault::Core(fault) => fault.fmt(f),
        }
    }
}

impl Error for FolderFault {}
