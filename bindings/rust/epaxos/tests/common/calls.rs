//! Calls of services on a machine that may be busy: one that waits for too long is refused, and a replica whose thread
//! gets no time is left behind by the others.
#![allow(dead_code)]

use epaxos::service::{CallFault, Service};
use epaxos::{OwnedAnswer, OwnedCommand};
use std::thread;
use std::time::{Duration, Instant};

/// So long what is refused is asked again, and what is to come is waited for.
pub const PATIENCE: Duration = Duration::from_secs(300);

/// Waits until it is so.
pub fn wait_for(is_so: impl Fn() -> bool) {
    let begun = Instant::now();
    while !is_so() {
        assert!(begun.elapsed() < PATIENCE, "it doesn't come");
        thread::sleep(Duration::from_millis(10));
    }
}

/// What is answered in the end. What is refused isn't done, and is asked again.
pub fn outcome_of<T>(ask: impl Fn() -> Result<T, CallFault>) -> Result<T, CallFault> {
    let begun = Instant::now();
    loop {
        match ask() {
            Err(CallFault::Refused(_)) if begun.elapsed() < PATIENCE => thread::sleep(Duration::from_millis(50)),
            outcome => return outcome,
        }
    }
}

/// What a command is answered by a replica that isn't left behind.
pub fn answer(service: &Service, command: &OwnedCommand) -> OwnedAnswer {
    outcome_of(|| service.call(command.clone())).unwrap()
}

/// Has a command done. What it was answered isn't known where the replica is left behind by a generation.
pub fn have_done(service: &Service, command: &OwnedCommand) {
    let outcome = outcome_of(|| service.call(command.clone()));
    assert!(matches!(outcome, Ok(_) | Err(CallFault::DoneUnseen)), "{outcome:?}");
}

/// Raises a key to this number from the one before; before 1 there is none. A replica that is left behind by more than
/// a generation doesn't know whether it was done: then what the key has shows it, as what wasn't done by then never is.
pub fn raise(service: &Service, key: &str, number: u32) {
    let value = |number: u32| (number > 0).then(|| number.to_string().into_bytes());
    let (before, after) = (value(number - 1), value(number));
    let raise = OwnedCommand::Put { key: key.into(), value: number.to_string().into() };
    loop {
        let had = match outcome_of(|| service.call(raise.clone())) {
            Ok(OwnedAnswer::Absent) => None,
            Ok(OwnedAnswer::Present(had)) => Some(had),
            Err(CallFault::DoneUnseen) => return,
            Err(CallFault::Doubtful) if outcome_of(|| service.read(key.as_bytes())).unwrap() == after => return,
            Err(CallFault::Doubtful) => continue,
            other => panic!("{key} to {number}: {other:?}"),
        };
        assert_eq!(had, before, "{key} to {number}");
        return;
    }
}
