//! Why a call was refused.
#![forbid(unsafe_code)]

use crate::Instance;
use std::error::Error;
use std::fmt;

/// Why a call was refused. Whatever is refused has changed nothing, but for [`Ended`](Fault::Ended). A client or a
/// request of 0, a key of no bytes or of more than 255, and an instance that there isn't are out of range.
///
/// ```
/// use epaxos::{Fault, Instance};
///
/// let fault = Fault::NotCommitted(Instance { replica: 0, number: 3 });
/// assert_eq!(fault.to_string(), "0.3 is not committed");
/// assert!(fault.is_passing());
/// ```
#[derive(Clone, PartialEq, Eq, Hash, Debug)]
#[non_exhaustive]
pub enum Fault {
    // `tools/generate` writes what follows: the refusals of a replica.
    /// There is no memory: the same call may succeed later.
    Memory,
    /// A number or a length is out of its range.
    OutOfRange,
    /// The replica's numbers of this generation are used up: propose at another one, or propose a seal.
    SpaceFull,
    /// The numbers that order commands are used up.
    SeqExhausted,
    /// The replica doesn't lead the instance, or doesn't any more.
    NotLeading,
    /// Fewer than a slow quorum has answered: wait on, and send the proposal's frames again.
    TooFewAnswers,
    /// The instance is committed: execute it.
    AlreadyCommitted,
    /// The instance was recovered too often.
    BallotsExhausted,
    /// It waits for an instance that isn't committed here.
    NotCommitted(Instance),
    /// The frame is for another replica.
    NotMine,
    /// The bytes are no frame of this version and generation.
    BadFrame,
    /// The seen stamp is too far ahead, or the replica's stamps are used up.
    StampFull,
    // What `tools/generate` writes ends here.
    /// What was taken, or what was lent to be written, isn't on the disk yet, as the log isn't behind a start:
    /// [`ready`](crate::Replica::ready) and [`commit`](crate::Ready::commit) first.
    Unsynced,
    /// The library has no replica behind its handle: another thread is in a call with it, which safe code keeps out.
    NoReplica,
    /// The library answers what no call of its should: what that is. Open the replica again, from its log.
    Ended(String),
}

impl Fault {
    /// Whether the same call may succeed later.
    ///
    /// ```
    /// assert!(!epaxos::Fault::OutOfRange.is_passing());
    /// ```
    pub fn is_passing(&self) -> bool {
        matches!(self, Fault::Memory | Fault::NotCommitted(_) | Fault::TooFewAnswers | Fault::Unsynced)
    }

    /// By the number of its name: 4 for E4. None where it has none, or where it lacks its instance.
    pub(crate) fn of(number: u8, instance: Option<Instance>) -> Option<Fault> {
        Some(match number {
            // `tools/generate` writes what follows: their numbers.
            1 => Fault::Memory,
            3 => Fault::OutOfRange,
            4 => Fault::SpaceFull,
            5 => Fault::SeqExhausted,
            6 => Fault::NotLeading,
            7 => Fault::TooFewAnswers,
            8 => Fault::AlreadyCommitted,
            9 => Fault::BallotsExhausted,
            10 => Fault::NotCommitted(instance?),
            13 => Fault::NotMine,
            14 => Fault::BadFrame,
            15 => Fault::StampFull,
            // What `tools/generate` writes ends here.
            _ => return None,
        })
    }
}

impl fmt::Display for Fault {
    fn fmt(&self, f: &mut fmt::Formatter) -> fmt::Result {
        f.write_str(match self {
            Fault::Memory => "out of memory",
            Fault::OutOfRange => "out of range",
            Fault::SpaceFull => "all numbers of the generation are used up",
            Fault::SeqExhausted => "the numbers that order commands are used up",
            Fault::NotLeading => "the instance isn't led here",
            Fault::TooFewAnswers => "too few have answered",
            Fault::AlreadyCommitted => "the instance is committed already",
            Fault::BallotsExhausted => "the instance was recovered too often",
            Fault::NotCommitted(instance) => return write!(f, "{instance} is not committed"),
            Fault::NotMine => "the frame is for another replica",
            Fault::BadFrame => "the bytes are no frame of this generation",
            Fault::StampFull => "the seen stamp is out of reach",
            Fault::Unsynced => {
                "what was taken, or the log behind a start, is not on the disk yet: ready and commit come first"
            }
            Fault::NoReplica => "the replica is in use by another thread",
            Fault::Ended(what) => return write!(f, "the core is of no use any more: {what}"),
        })
    }
}

impl Error for Fault {}
