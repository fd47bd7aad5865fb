//! Why bytes are no command of the Redis protocol.
use std::fmt;

/// Why bytes are no command of the Redis protocol.
#[derive(Clone, Copy, PartialEq, Eq, Debug)]
pub enum MalformedFault {
    /// A line has no end in its longest length.
    LongLine,
    /// In an array of words a line has none.
    LongCount,
    /// A quote isn't closed, or isn't followed by a space.
    Quotes,
    /// There can't be so many words.
    Words,
    /// A word has no length before it.
    NoLength,
    /// A word can't be so long, or all words together.
    Length,
    /// A word isn't followed by a line end.
    NoLineEnd,
}

impl fmt::Display for MalformedFault {
    fn fmt(&self, f: &mut fmt::Formatter) -> fmt::Result {
        f.write_str(match self {
            MalformedFault::LongLine => "too big inline request",
            MalformedFault::LongCount => "too big bulk count string",
            MalformedFault::Quotes => "unbalanced quotes in request",
            MalformedFault::Words => "invalid multibulk length",
            MalformedFault::NoLength => "expected '$'",
            MalformedFault::Length => "invalid bulk length",
            MalformedFault::NoLineEnd => "a bulk string isn't followed by a line end",
        })
    }
}

impl std::error::Error for MalformedFault {}
