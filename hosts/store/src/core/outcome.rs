//! What became of a command.
use crate::ops::manage_fault::ManageFault;
use epaxos::host::{self, Refusal};
use epaxos::{Fault, OwnedAnswer};

/// Keys with their values.
pub type Pairs = Vec<(Vec<u8>, Vec<u8>)>;

/// What became of a command.
pub enum Outcome {
    /// What the command was answered.
    Done(OwnedAnswer),
    /// It was done, and what it was answered isn't known.
    DoneUnseen,
    /// The outcome is unknown and cannot be determined.
    Doubtful,
    Refused(Fault),
    /// It wasn't proposed, as no majority is reached.
    Alone,
    /// It wasn't done, as it waited for too long.
    Late,
    /// It wasn't proposed, as so many wait that it would be too late.
    Crowded,
    /// It wasn't proposed, as the map has no room for it.
    MapFull,
    /// It wasn't done, as the store ends, or takes part no more.
    Ending,
    Value(Option<Vec<u8>>),
    Contents(Pairs),
    Over(Vec<Vec<u8>>),
    Info(String),
    Managed(Result<String, ManageFault>),
    /// The thread that serves has ended: what was proposed may still be done.
    Ended,
}

impl Outcome {
    /// By what the host reports.
    pub fn of(outcome: host::Told) -> Outcome {
        match outcome {
            host::Told::Done(answer) => Outcome::Done(answer),
            // (there is no state machine)
            host::Told::Replied(_) | host::Told::DoneUnseen => Outcome::DoneUnseen,
            host::Told::Doubtful => Outcome::Doubtful,
            host::Told::Value(value) => Outcome::Value(value),
            host::Told::All(pairs) => Outcome::Contents(pairs),
            host::Told::Changed(generation) => Outcome::Managed(Ok(so_from(generation, None))),
            host::Told::Refused(why) => match why {
                Refusal::Alone | Refusal::Joining => Outcome::Alone,
                Refusal::Late | Refusal::GivenUp | Refusal::Full => Outcome::Late,
                Refusal::MapFull => Outcome::MapFull,
                Refusal::Left | Refusal::Ending => Outcome::Ending,
                Refusal::Wish(fault) => Outcome::Managed(Err(fault.into())),
                Refusal::Fault(fault) => Outcome::Refused(fault),
            },
        }
    }
}

/// The text that reports a change that is so from this generation on, which has so many replicas.
pub fn so_from(generation: u32, size: Option<u8>) -> String {
    let size = size.map_or_else(String::new, |size| format!(", of {size} replicas"));
    format!("generation {generation}{size}")
}

#[cfg(test)]
mod tests {
    use super::*;
    use crate::client::command_fault::CommandFault;
    use epaxos::host::Told;

    /// A client whose command may be done, or was, isn't told that it wasn't.
    #[test]
    fn what_may_be_done_is_never_told_as_undone() {
        let may_be = [Told::Doubtful, Told::DoneUnseen, Told::Replied(Vec::new())];
        let undone = [Refusal::Alone, Refusal::Joining, Refusal::Late, Refusal::GivenUp, Refusal::Full];
        let undone = undone.into_iter().chain([Refusal::MapFull, Refusal::Left, Refusal::Ending]);
        let undone = undone.chain([Refusal::Fault(Fault::Memory)]).map(Told::Refused);
        let all = may_be.map(|told| (told, true)).into_iter().chain(undone.map(|told| (told, false)));
        for (told, expected) in all {
            let fault = CommandFault::of(Outcome::of(told.clone()));
            let says_undone = fault.to_string().contains("the command wasn't done");
            assert_eq!((fault.may_be_done(), says_undone && expected), (expected, false), "{told:?}: {fault}");
        }
        assert!(CommandFault::of(Outcome::Ended).may_be_done());
        assert!(!CommandFault::of(Outcome::Crowded).may_be_done());
    }
}
