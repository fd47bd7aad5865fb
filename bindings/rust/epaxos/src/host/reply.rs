//! What whoever asked is answered.
use crate::host::WishFault;
use crate::{Fault, OwnedAnswer};

/// What whoever asked is answered, by the number that was handed in with the question.
///
/// ```
/// use epaxos::host::{Reply, Told};
///
/// /// What whoever asked under a number is answered.
/// fn of(replies: Vec<Reply>, token: u64) -> Option<Told> {
///     replies.into_iter().find(|reply| reply.token == token).map(|reply| reply.told)
/// }
/// # assert_eq!(of(Vec::new(), 7), None);
/// ```
#[derive(Clone, PartialEq, Eq, Debug)]
pub struct Reply {
    /// That number.
    pub token: u64,
    /// What came of it. Each question is answered once.
    pub told: Told,
}

/// What came of what was asked.
///
/// ```
/// use epaxos::host::{Refusal, Told};
///
/// /// Whether it was done, if that is known.
/// fn is_done(outcome: &Told) -> Option<bool> {
///     match outcome {
///         Told::Done(_) | Told::Replied(_) | Told::DoneUnseen => Some(true),
///         Told::Value(_) | Told::All(_) | Told::Changed(_) => Some(true),
///         Told::Refused(_) => Some(false),
///         Told::Doubtful => None,
///     }
/// }
/// assert_eq!(is_done(&Told::Refused(Refusal::Alone)), Some(false));
/// ```
#[derive(Clone, PartialEq, Eq, Debug)]
pub enum Told {
    /// The command was done: its answer, never [`Lost`](crate::Answer::Lost) or [`Closed`](crate::Answer::Closed).
    Done(OwnedAnswer),
    /// The machine has done the opaque command, and replied this.
    Replied(Vec<u8>),
    /// The command was executed, and what it was answered isn't known: of one over many keys that requires something,
    /// not whether it was done either.
    DoneUnseen,
    /// The outcome is unknown and cannot be determined: this replica was left behind by more than a generation.
    Doubtful,
    /// What the key of a read has.
    Value(Option<Vec<u8>>),
    /// What all keys have here, in their order.
    All(Vec<(Vec<u8>, Vec<u8>)>),
    /// What was wished is so, from the generation of this number on.
    Changed(u32),
    /// It wasn't done, and won't be.
    Refused(Refusal),
}

/// Why something isn't done.
///
/// ```
/// use epaxos::host::Refusal;
///
/// /// Whether another replica may do it.
/// fn may_be_done_elsewhere(refusal: &Refusal) -> bool {
///     matches!(refusal, Refusal::Alone | Refusal::Joining | Refusal::Left | Refusal::Ending)
/// }
/// # assert!(may_be_done_elsewhere(&Refusal::Alone));
/// ```
#[derive(Clone, PartialEq, Eq, Debug)]
pub enum Refusal {
    /// No majority was reached for a second.
    Alone,
    /// It waited for too long.
    Late,
    /// Whoever asked has [given it up](super::Host::give_up).
    GivenUp,
    /// Too much waits already.
    Full,
    /// The map would pass what it may have ([`Settings::most_map`](super::Settings::most_map)).
    MapFull,
    /// The host joins, and has no generation yet.
    Joining,
    /// The replica takes part no more, and its host is about to end.
    Left,
    /// The host is about to [end](super::Host::end).
    Ending,
    /// The wish isn't granted.
    Wish(WishFault),
    /// The core refuses it.
    Fault(Fault),
}
