//! Misbehaviours of a store, so that the trial can be seen to catch them. Never for use.
use crate::receipts::receipts;
use epaxos::Answer;
use epaxos::host;

/// The misbehaviours.
#[derive(Clone, Copy, PartialEq, Eq, Debug)]
pub enum Plant {
    /// A SET is answered before its receipt has come.
    Early,
    /// A log that has forgotten what was reported to clients is taken.
    Forgetful,
    /// Some receipts have another reply than the node's.
    Changed,
    /// Of some commands that were done it says that they stood behind a seal, so that they are done twice.
    Again,
    /// An opening that a peer hands lacks a key.
    Lacking,
    /// A read asks one replica fewer than it has to.
    Fewer,
    /// What a key had when the question was sent is replied.
    Before,
    /// A question serves reads that were asked after it was sent.
    After,
    /// The last instance that was found isn't waited for.
    Partly,
    /// What interferes is reported of another generation, and taken.
    Foreign,
    /// A read passes what its own connection has asked of the key before.
    Passes,
}

impl Plant {
    /// That of this name.
    pub fn read(word: &str) -> Option<Plant> {
        match word {
            "early" => Some(Plant::Early),
            "forgetful" => Some(Plant::Forgetful),
            "changed" => Some(Plant::Changed),
            "again" => Some(Plant::Again),
            "lacking" => Some(Plant::Lacking),
            "fewer" => Some(Plant::Fewer),
            "before" => Some(Plant::Before),
            "after" => Some(Plant::After),
            "partly" => Some(Plant::Partly),
            "foreign" => Some(Plant::Foreign),
            "passes" => Some(Plant::Passes),
            _ => None,
        }
    }

    /// The one that is planted in the host; none of one that is the store's.
    pub fn in_host(self) -> Option<host::Plant> {
        match self {
            Plant::Early => Some(host::Plant::EarlyAnswer),
            Plant::Forgetful => Some(host::Plant::Forgetful),
            Plant::Changed | Plant::Passes => None,
            Plant::Again => Some(host::Plant::DoneTwice),
            Plant::Lacking => Some(host::Plant::WrongOpening),
            Plant::Fewer => Some(host::Plant::ReadFewer),
            Plant::Before => Some(host::Plant::ReadBefore),
            Plant::After => Some(host::Plant::ReadLater),
            Plant::Partly => Some(host::Plant::ReadPartly),
            Plant::Foreign => Some(host::Plant::ReadForeign),
        }
    }
}

/// Of these receipts those of each sixteenth entry get another answer.
pub fn changed(bytes: &[u8]) -> Vec<u8> {
    let mut out = Vec::new();
    for receipt in receipts(bytes) {
        let mut answer = Vec::new();
        receipt.answer.write(&mut answer);
        let head = &receipt.bytes[..receipt.bytes.len() - answer.len()];
        let other = match receipt.answer {
            _ if receipt.entry % 16 > 0 => receipt.answer,
            Answer::Present(_) => Answer::Absent,
            _ => Answer::Present(&[0; 4]),
        };
        out.extend(head);
        other.write(&mut out);
    }
    out
}
