//! Why somebody who asks gets no answer.
use crate::host::Refusal;
use std::error::Error;
use std::fmt;

/// Why somebody who asks gets no answer.
///
/// ```
/// use epaxos::host::Refusal;
/// use epaxos::service::CallFault;
///
/// /// Whether the same may be asked again without being done twice.
/// fn may_ask_again(fault: &CallFault) -> bool {
///     matches!(fault, CallFault::Refused(_))
/// }
/// assert!(may_ask_again(&CallFault::Refused(Refusal::Alone)) && !may_ask_again(&CallFault::Ended));
/// ```
#[derive(Clone, PartialEq, Eq, Debug)]
#[non_exhaustive]
pub enum CallFault {
    /// It wasn't done, and won't be: it may be asked again.
    Refused(Refusal),
    /// It was done, and what it was answered isn't known.
    DoneUnseen,
    /// The outcome is unknown and cannot be determined.
    Doubtful,
    /// The host has ended. Whether it was done shows in what the key has.
    Ended,
}

impl fmt::Display for CallFault {
    fn fmt(&self, f: &mut fmt::Formatter) -> fmt::Result {
        f.write_str(match self {
            CallFault::Refused(Refusal::Alone) => "it wasn't done: no majority is reached",
            CallFault::Refused(Refusal::Late) => "it wasn't done: it waited for too long",
            CallFault::Refused(Refusal::GivenUp) => "it wasn't done: it was given up",
            CallFault::Refused(Refusal::Full) => "it wasn't done: too much waits already",
            CallFault::Refused(Refusal::MapFull) => "it wasn't done: the map would pass what it may have",
            CallFault::Refused(Refusal::Joining) => "it wasn't done: the machine is about to join",
            CallFault::Refused(Refusal::Left) => "it wasn't done: the replica takes part no more",
            CallFault::Refused(Refusal::Ending) => "it wasn't done: the host is about to end",
            CallFault::Refused(Refusal::Wish(fault)) => return write!(f, "it wasn't done: {fault}"),
            CallFault::Refused(Refusal::Fault(fault)) => return write!(f, "it wasn't done: {fault}"),
            CallFault::DoneUnseen => "it was done, and its answer isn't known",
            CallFault::Doubtful => "nobody knows whether it was done",
            CallFault::Ended => "the host has ended, and it may have been done",
        })
    }
}

impl Error for CallFault {}
