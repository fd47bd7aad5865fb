//! Why a command over many keys was not made.
#![forbid(unsafe_code)]

use std::error::Error;
use std::fmt;

/// Why a [`TxBuilder`](crate::TxBuilder) makes no command. A key is named by its bytes.
///
/// ```
/// use epaxos::{Command, TxFault};
///
/// let twice = Command::tx().put(b"x", b"1").del(b"x").build();
/// assert_eq!(twice, Err(TxFault::WrittenTwice(b"x".to_vec())));
/// ```
#[derive(Clone, PartialEq, Eq, Hash, Debug)]
#[non_exhaustive]
pub enum TxFault {
    /// It names no key.
    NoKey,
    /// A key has no bytes, or more than 255.
    BadKey(Vec<u8>),
    /// A value that is required of the key, or put there, has more than 65,535 bytes.
    LongValue(Vec<u8>),
    /// More than one thing is required of the key.
    RequiredTwice(Vec<u8>),
    /// The key is asked for more than once.
    ToldTwice(Vec<u8>),
    /// The key is written more than once.
    WrittenTwice(Vec<u8>),
    /// It names so many keys: more than 1,024.
    ManyKeys(usize),
    /// It asks for so many keys: more than 16.
    ManyTold(usize),
    /// It has so many bytes: more than 131,080.
    Long(usize),
}

impl fmt::Display for TxFault {
    fn fmt(&self, f: &mut fmt::Formatter) -> fmt::Result {
        match self {
            TxFault::NoKey => f.write_str("it names no key"),
            TxFault::BadKey(key) => write!(f, "a key of {} bytes, which are not 1 to 255", key.len()),
            TxFault::LongValue(key) => write!(f, "a value of more than 65,535 bytes for {}", key.escape_ascii()),
            TxFault::RequiredTwice(key) => write!(f, "two things are required of {}", key.escape_ascii()),
            TxFault::ToldTwice(key) => write!(f, "{} is asked for twice", key.escape_ascii()),
            TxFault::WrittenTwice(key) => write!(f, "{} is written twice", key.escape_ascii()),
            TxFault::ManyKeys(count) => write!(f, "{count} keys, which are more than 1,024"),
            TxFault::ManyTold(count) => write!(f, "{count} keys are asked for, which are more than 16"),
            TxFault::Long(bytes) => write!(f, "{bytes} bytes, which are more than 131,080"),
        }
    }
}

impl Error for TxFault {}
