//! A number that isn't one of those allowed.
#![forbid(unsafe_code)]

use std::error::Error;
use std::fmt;

/// A number isn't one of those allowed.
///
/// ```
/// assert_eq!(epaxos::Cluster::try_from(2).unwrap_err().to_string(), "out of range");
/// ```
#[derive(Clone, Copy, PartialEq, Eq, Hash, Debug)]
pub struct OutOfRange;

impl fmt::Display for OutOfRange {
    fn fmt(&self, f: &mut fmt::Formatter) -> fmt::Result {
        f.write_str("out of range")
    }
}

impl Error for OutOfRange {}
