//! Why a folder isn't taken.
use crate::life::identities;
use epaxos::host::FolderFault;
use std::fmt;
use std::io;
use std::path::PathBuf;

const NEVER: &str = "This replica must not come back: it may have promised what it doesn't know any more";

/// Why a folder isn't taken.
#[derive(Debug)]
pub enum DirectoryFault {
    /// A file can't be used, or another process has it.
    File(io::Error),
    /// It is of a store that had no generations.
    Old(PathBuf),
    /// A file was lost, without which the replica doesn't know what it promised.
    Lost(PathBuf),
    /// What says which later generation the replica has begun is damaged: it may be any.
    Mark(PathBuf),
    /// The receipts of what clients were answered were lost.
    ReceiptsLost(PathBuf),
    /// A replica is to be begun where there is one.
    Begun(PathBuf),
    /// A replica is to go on where there is none.
    NotBegun(PathBuf),
    /// Of this generation there are so many entries, and a later one was reported to a client.
    Forgotten { generation: u32, entries: u32, reported: u32 },
    /// There are entries, and no identities.
    NotWhole(PathBuf),
    /// Its generations aren't gone on with.
    Generations(FolderFault),
}

impl DirectoryFault {
    /// Whether the replica must not come back with this folder.
    pub fn is_lasting(&self) -> bool {
        match self {
            DirectoryFault::File(_) => false,
            DirectoryFault::Generations(fault) => fault.is_lasting(),
            _ => true,
        }
    }
}

impl From<io::Error> for DirectoryFault {
    fn from(error: io::Error) -> DirectoryFault {
        DirectoryFault::File(error)
    }
}

impl fmt::Display for DirectoryFault {
    fn fmt(&self, f: &mut fmt::Formatter) -> fmt::Result {
        match self {
            DirectoryFault::File(fault) => fault.fmt(f),
            DirectoryFault::Generations(fault) => fault.fmt(f),
            DirectoryFault::Old(path) => write!(
                f,
                "the folder {} has a log from before generations, and this store doesn't go on from it: start the store of that time, \
                 read all keys there, and set them in a new cluster with empty folders",
                path.display()
            ),
            DirectoryFault::Lost(path) => write!(f, "{} was lost. {NEVER}", path.display()),
            DirectoryFault::Mark(path) => {
                write!(f, "{} is damaged: it names no later generation. {NEVER}", path.display())
            }
            DirectoryFault::ReceiptsLost(path) => write!(
                f,
                "{} was lost: what clients were told can't be audited, nor compared with the log",
                path.display()
            ),
            DirectoryFault::Begun(path) => {
                write!(f, "the folder {} has a replica already: --new is for its first start alone", path.display())
            }
            DirectoryFault::NotBegun(path) => {
                let path = path.display();
                write!(f, "the folder {path} has no replica: --new begins one, where there never was one; ")?;
                f.write_str("--join takes the place of one that is lost")
            }
            DirectoryFault::Forgotten { generation, entries, reported } => write!(
                f,
                "the log of generation {generation} has forgotten: it has {entries} entries, and a client was told of entry {reported}. {NEVER}"
            ),
            DirectoryFault::NotWhole(path) => write!(
                f,
                "the folder {} isn't whole: its log has entries, and {} is lost",
                path.display(),
                identities::NAME
            ),
        }
    }
}

impl std::error::Error for DirectoryFault {}
