//! Where bytes go in a log.
#![forbid(unsafe_code)]

use crate::Ready;
use crate::records::{HEADER, print_of};

/// Where the bytes of what is ready go in a log.
#[derive(Clone, Copy, PartialEq, Eq, Debug)]
pub(crate) enum Place {
    /// In the place of all that is there.
    Instead,
    /// After what is there.
    Behind,
    /// They are there: they were written before, and the core was then out of memory.
    There,
}

/// What a log has; of no bytes where it isn't begun.
#[derive(Clone, Default, Debug)]
pub(crate) struct Kept {
    /// What it begins with.
    pub(crate) header: Vec<u8>,
    /// How many bytes it has.
    pub(crate) bytes: u64,
    /// What identifies its bytes, where they were found there, and not written by a replica since.
    pub(crate) found: Option<u64>,
}

impl Kept {
    /// That of a log with these bytes.
    pub(crate) fn of(log: &[u8], is_found: bool) -> Kept {
        let header = log[..HEADER.min(log.len())].to_vec();
        Kept { header, bytes: log.len() as u64, found: is_found.then(|| print_of(log)) }
    }
}

impl Place {
    /// That in this log. None: it isn't the log that they are for.
    pub(crate) fn of(ready: &Ready, kept: &Kept) -> Option<Place> {
        let (own, end) = (ready.own_log(), ready.at() + ready.log().len() as u64);
        let is_begun = kept.bytes > 0;
        if is_begun && kept.header != own.header {
            return None;
        }
        // (a replica that was opened from other bytes, or a new one, would take away what was promised)
        let is_own = kept.found.map_or(end == kept.bytes, |found| own.given == Some(found));
        match ready.is_anew() {
            true if !is_begun || is_own => Some(Place::Instead),
            false if is_begun && ready.at() == kept.bytes => Some(Place::Behind),
            false if is_begun && end == kept.bytes => Some(Place::There),
            _ => None,
        }
    }
}
