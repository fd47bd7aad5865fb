//! What comes out of a host.
use crate::host::{KeyChange, Reply, Work, Writes};
use crate::{Instance, OwnedAnswer, OwnedCommand};

/// What is to be done after a turn. All of it is whoever's runs the host: a host does nothing itself.
///
/// ```
/// use epaxos::host::Turn;
///
/// /// Whether there is something to do beside sending.
/// fn is_more(turn: &Turn) -> bool {
///     turn.writes.is_some() || !turn.work.is_empty() || !turn.replies.is_empty()
/// }
/// # assert!(!is_more(&Turn::default()));
/// ```
#[derive(Debug, Default)]
pub struct Turn {
    /// What is to be sent, each with its receiver. Any of it may be lost, repeated or overtaken.
    pub frames: Vec<(u8, Vec<u8>)>,
    /// What the disk is to do next; nothing more comes before [`Host::synced`](super::Host::synced) says that it is
    /// done.
    pub writes: Option<Writes>,
    /// Who is answered what.
    pub replies: Vec<Reply>,
    /// The receipts among them, as an audit takes them: appended to a file before the replies go out, if what was
    /// answered is to be judged.
    pub receipts: Vec<u8>,
    /// Their generation, where there are some.
    pub receipts_of: u32,
    /// What is to be done in the background.
    pub work: Vec<Work>,
    /// What was executed, in its order, where [`Settings::tells_executed`](super::Settings::tells_executed) says so.
    pub executed: Vec<Done>,
    /// What was written in which keys, in the order of execution, where
    /// [`Host::set_tells_changes`](super::Host::set_tells_changes) says so.
    pub changes: Vec<KeyChange>,
    /// Whether changes are lacking behind these, before the next turn's: an opening was taken from a peer, which has
    /// what this replica hasn't executed; or the value of a [`Swap`](crate::Command::Swap) was written over at once.
    pub lacks_changes: bool,
}

/// A command that was executed, whoever proposed it.
///
/// ```
/// use epaxos::host::Done;
///
/// /// How many of these were done.
/// fn count(executed: &[Done]) -> usize {
///     executed.iter().filter(|done| done.answer.is_done()).count()
/// }
/// # assert_eq!(count(&[]), 0);
/// ```
#[derive(Clone, PartialEq, Eq, Debug)]
pub struct Done {
    /// Its generation.
    pub generation: u32,
    /// Its instance there.
    pub instance: Instance,
    /// The command; none of a no-op.
    pub command: Option<OwnedCommand>,
    /// What it was answered, which all replicas are.
    pub answer: OwnedAnswer,
}
