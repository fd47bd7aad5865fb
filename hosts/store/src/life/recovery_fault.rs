//! Why `store recover` refuses.
use crate::life::directory_fault::DirectoryFault;
use crate::life::identities_fault::IdentitiesFault;
use epaxos::host::FolderFault;
use epaxos::{Fault, OpenFault};
use std::fmt;
use std::io;
use std::path::PathBuf;

/// Why `store recover` refuses.
#[derive(Debug)]
pub enum RecoveryFault {
    /// The words aren't those of `recover`.
    Words(String),
    /// A folder isn't a replica's that has ended.
    Directory(DirectoryFault),
    Identities(IdentitiesFault),
    /// A file can't be read or written.
    File(PathBuf, io::Error),
    /// A folder has no replica that has acted.
    NoReplica(PathBuf),
    /// The replica has been in this generation, which is gone.
    Left(PathBuf, u32),
    /// What stands in the place of an opening, or of a log, is none: why.
    BadOpening(PathBuf, String),
    BadLog(PathBuf, OpenFault),
    /// The core ended while it read a log.
    Core(PathBuf, Fault),
    /// A copy of a replica's log can't be gone on with.
    Folder(FolderFault),
    /// This opening was made before, and waits for a start.
    Made(PathBuf, u32),
    /// Two folders are of one number.
    Twice(u8),
    /// This folder and the others have never met.
    OtherCluster(PathBuf),
    /// In two folders this generation has different openings.
    Differ(u32),
    /// Of so many replicas of the newest generation so many are here: a majority.
    NotNeeded {
        generation: u32,
        here: usize,
        replicas: usize,
    },
    /// So many are no majority of so many, which are as few as there may be with these numbers.
    TooFew {
        here: usize,
        replicas: usize,
    },
    /// Something that was acknowledged may be lost: why.
    Loss(String),
    /// There are no more generations.
    LastGeneration,
}

impl RecoveryFault {
    /// Whether another try with the same words would end in the same way.
    pub fn is_lasting(&self) -> bool {
        match self {
            RecoveryFault::Directory(fault) => fault.is_lasting(),
            RecoveryFault::Folder(fault) => fault.is_lasting(),
            RecoveryFault::File(..) | RecoveryFault::Core(..) => false,
            _ => true,
        }
    }
}

impl fmt::Display for RecoveryFault {
    fn fmt(&self, f: &mut fmt::Formatter) -> fmt::Result {
        match self {
            RecoveryFault::Words(what) => write!(f, "{what}; store recover --help tells the words"),
            RecoveryFault::Directory(fault) => fault.fmt(f),
            RecoveryFault::Identities(fault) => fault.fmt(f),
            RecoveryFault::File(path, error) => write!(f, "{}: {error}", path.display()),
            RecoveryFault::NoReplica(path) => {
                write!(f, "{} has no replica that ever took part: leave it out", path.display())
            }
            RecoveryFault::Left(path, generation) => {
                write!(f, "{} has lost generation {generation}, which its replica was in: leave it out", path.display())
            }
            RecoveryFault::BadOpening(path, why) => write!(f, "{} is damaged: {why}", path.display()),
            RecoveryFault::BadLog(path, fault) => write!(f, "{}: {fault}", path.display()),
            RecoveryFault::Core(path, fault) => write!(f, "{} can't be read: {fault}", path.display()),
            RecoveryFault::Folder(fault) => fault.fmt(f),
            RecoveryFault::Made(path, generation) => write!(
                f,
                "{} is there already, of generation {generation}, from an earlier recovery: start the stores; or, if none was started since, \
                 remove it from all folders and try again",
                path.display()
            ),
            RecoveryFault::Twice(replica) => {
                write!(f, "two folders are replica {replica}'s: leave out the one that was replaced first")
            }
            RecoveryFault::OtherCluster(path) => write!(
                f,
                "{} is of another cluster: its replica and those of the other folders have never met",
                path.display()
            ),
            RecoveryFault::Differ(generation) => {
                write!(f, "the folders are of two clusters: their openings of generation {generation} differ")
            }
            RecoveryFault::NotNeeded { generation, here, replicas } => write!(
                f,
                "{here} of the {replicas} replicas of generation {generation} are here, a majority: just start these stores"
            ),
            RecoveryFault::TooFew { here, replicas } => {
                write!(
                    f,
                    "too few folders: {here} is no majority of {replicas}, the fewest replicas with these numbers"
                )
            }
            RecoveryFault::Loss(why) => {
                write!(f, "acknowledged commands may be lost: {why}. To accept that, add --accept-loss")
            }
            RecoveryFault::LastGeneration => f.write_str("there are no more generations"),
        }
    }
}

impl std::error::Error for RecoveryFault {}
