//! Why the host's starts aren't known.
use std::fmt;
use std::io;
use std::path::PathBuf;

/// Why they aren't known.
#[derive(Clone, PartialEq, Eq, Debug)]
pub enum StartsFault {
    /// Their file can't be read or written.
    Unusable(PathBuf, io::ErrorKind),
    /// It holds no number.
    NotANumber(PathBuf),
    /// A client was answered in a start that it doesn't know.
    Forgotten(PathBuf, u32),
}

impl fmt::Display for StartsFault {
    fn fmt(&self, f: &mut fmt::Formatter) -> fmt::Result {
        match self {
            StartsFault::Unusable(path, kind) => write!(f, "{}: {kind}", path.display()),
            StartsFault::NotANumber(path) => write!(f, "{} holds no number", path.display()),
            StartsFault::Forgotten(path, client) => {
                write!(f, "{} has forgotten client {client}, which was answered", path.display())
            }
        }
    }
}

impl std::error::Error for StartsFault {}
