//! What a log says that a replica goes on from.
#![forbid(unsafe_code)]

use crate::{OpenFault, records};

/// What a log says that a replica goes on from.
#[derive(Clone, Copy)]
pub(crate) struct Past {
    /// How many entries were reported.
    pub(crate) reported: u32,
    /// How many bytes stand behind the last whole record.
    pub(crate) cut: u64,
}

impl Past {
    /// That of this log, of which the library has cut off so many bytes, and so many entries were reported, or all; of
    /// a new replica where there is none.
    pub(crate) fn of(log: Option<&[u8]>, cut: u64, reported: Option<u32>) -> Result<Past, OpenFault> {
        let log = log.unwrap_or_default();
        let entries = records::count(&log[..log.len().saturating_sub(cut as usize)]);
        match reported.unwrap_or(entries) {
            reported if reported > entries => Err(OpenFault::Forgotten { entries, told: reported }),
            reported => Ok(Past { reported, cut }),
        }
    }
}
