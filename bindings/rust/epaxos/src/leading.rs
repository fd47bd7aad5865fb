//! How far an instance is led.
#![forbid(unsafe_code)]

/// In which phase a replica leads an instance.
///
/// ```
/// assert_ne!(epaxos::Phase::Proposing, epaxos::Phase::Accepting);
/// ```
#[derive(Clone, Copy, PartialEq, Eq, Hash, Debug)]
pub enum Phase {
    /// It waits for the answers to its proposal: the fast path.
    Proposing,
    /// It waits for votes on what it has chosen: the slow path.
    Accepting,
    /// It recovers the instance.
    Preparing,
}

/// How far a replica leads an instance.
///
/// ```
/// use epaxos::{Leading, Phase};
///
/// let leading = Leading { phase: Phase::Proposing, answers: 1 };
/// # let _ = leading;
/// ```
#[derive(Clone, Copy, PartialEq, Eq, Hash, Debug)]
pub struct Leading {
    /// What it waits for.
    pub phase: Phase,
    /// How many others have answered.
    pub answers: u8,
}
