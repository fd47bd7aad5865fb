//! What a replica knows of its log.
#![forbid(unsafe_code)]

use crate::Begin;
use crate::lent::Lent;
use crate::records::{HEADER, print_of};
use std::sync::atomic::{AtomicU64, Ordering};

/// What a replica knows of the log that is its own.
#[derive(Clone, Debug)]
pub(crate) struct OwnLog {
    pub(crate) replica: u8,
    pub(crate) generation: u32,
    /// What it begins with; of no bytes before that was lent.
    pub(crate) header: Vec<u8>,
    /// How many bytes it has.
    pub(crate) bytes: u64,
    /// What identifies the log that it was opened from, where it was.
    pub(crate) given: Option<u64>,
    /// The replica's number among all that this process has opened, of any cluster.
    pub(crate) opened: u64,
}

impl OwnLog {
    /// That of a replica which begins so, before anything is written.
    pub(crate) fn of(begin: &Begin) -> OwnLog {
        OwnLog::begun(begin.me, begin.generation(), begin.log)
    }

    /// That of a replica of this number, in this generation, which goes on from this log.
    pub(crate) fn begun(replica: u8, generation: u32, log: Option<&[u8]>) -> OwnLog {
        static OPENED: AtomicU64 = AtomicU64::new(0);
        let opened = OPENED.fetch_add(1, Ordering::Relaxed);
        OwnLog { replica, generation, header: Vec::new(), bytes: 0, given: log.map(print_of), opened }
    }

    /// This is lent to be written.
    pub(crate) fn lent(&mut self, lent: Lent) {
        if lent.is_anew && self.header.is_empty() {
            self.header = lent.bytes[..HEADER.min(lent.bytes.len())].to_vec();
        }
    }

    /// How many bytes it has once this is written.
    pub(crate) fn with(&self, lent: Lent) -> u64 {
        let before = if lent.is_anew { 0 } else { self.bytes };
        before + lent.bytes.len() as u64
    }
}
