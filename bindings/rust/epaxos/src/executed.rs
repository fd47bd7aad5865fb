//! What was executed.
#![forbid(unsafe_code)]

use crate::{Answer, Command, Instance};

/// An instance that was executed here, whoever proposed its command.
///
/// A machine of your own does each [`Command::Opaque`] that was answered [`Ordered`](Answer::Ordered), in this order, and nothing else.
///
/// ```
/// use epaxos::{Answer, Command, Executed};
///
/// fn apply(executed: &Executed, machine: &mut Vec<u8>) {
///     if let (Some(Command::Opaque { body, .. }), Answer::Ordered) = (executed.command, executed.answer) {
///         machine.extend(body);
///     }
/// }
/// ```
#[derive(Clone, Copy, PartialEq, Eq, Hash, Debug)]
pub struct Executed<'a> {
    /// Which one it is.
    pub instance: Instance,
    /// Its command; none of a no-op.
    pub command: Option<Command<'a>>,
    /// What it was answered, which all replicas are.
    pub answer: Answer<'a>,
}
