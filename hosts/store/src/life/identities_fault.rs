//! Why the identities aren't known.
use std::fmt;
use std::io;
use std::path::PathBuf;

/// Why the file of identities isn't taken.
#[derive(Debug)]
pub enum IdentitiesFault {
    /// It can't be read or written.
    Unusable(PathBuf, io::Error),
    /// It isn't a list of the identities of so many replicas at most.
    NotAList(PathBuf, usize),
    /// It lacks this replica, and has others.
    OfAnother(PathBuf),
}

impl fmt::Display for IdentitiesFault {
    fn fmt(&self, f: &mut fmt::Formatter) -> fmt::Result {
        match self {
            IdentitiesFault::Unusable(path, error) => write!(f, "{}: {error}", path.display()),
            IdentitiesFault::NotAList(path, replicas) => {
                write!(f, "{} isn't a list of identities of {replicas} replicas", path.display())
            }
            IdentitiesFault::OfAnother(path) => write!(f, "{} is of another replica", path.display()),
        }
    }
}

impl std::error::Error for IdentitiesFault {}
