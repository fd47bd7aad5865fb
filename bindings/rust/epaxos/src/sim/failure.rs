//! What a run has found.
use std::fmt;

/// Why a run isn't right.
///
/// ```
/// use epaxos::sim::Failure;
///
/// assert!(Failure::Older(1).to_string().contains("machine 1"));
/// ```
#[derive(Clone, PartialEq, Eq, Debug)]
#[non_exhaustive]
pub enum Failure {
    /// What clients of this key were answered is what no map would have answered them.
    NotLinearizable(String),
    /// Somebody was answered twice.
    ToldTwice(u64),
    /// Who follows the changes that a host reports has another value of this key than its map.
    Watched(u8, String),
    /// Two replicas have executed different commands in one instance, or with other answers, or those of a key in
    /// another order.
    Apart(String),
    /// A command was done twice.
    DoneTwice(String),
    /// A host has ended, or doesn't start.
    Ended(u8, String),
    /// An older copy of a disk was gone on with.
    Older(u8),
    /// A client's request says that it hasn't seen the receipt that the client had before.
    Unseen(String),
    /// Nothing goes wrong any more, and something still waits, or the replicas don't agree.
    Stuck(String),
    /// So many machines were wished, and it was granted though no majority of them, or of those before, was there.
    NoMajority(u8),
    /// Nothing went wrong, and something was recovered.
    Recovered(u64),
    /// The audit of a generation refuses it.
    Refused(String),
    /// A state machine of one's own isn't a function of its state and of what is ordered.
    Machine(String),
    /// What it has replied isn't right, as its [`Workload`](super::Workload) says.
    Reply(String),
}

impl Failure {
    /// Its kind, of which shrinking keeps a run.
    pub(super) fn kind(&self) -> std::mem::Discriminant<Failure> {
        std::mem::discriminant(self)
    }
}

impl fmt::Display for Failure {
    fn fmt(&self, f: &mut fmt::Formatter) -> fmt::Result {
        match self {
            Failure::NotLinearizable(key) => write!(f, "what clients of {key} were told isn't linearizable"),
            Failure::ToldTwice(token) => write!(f, "who asked as {token} was told twice"),
            Failure::Watched(machine, key) => write!(f, "who watches machine {machine} has another value of {key}"),
            Failure::Apart(what) => write!(f, "replicas don't agree: {what}"),
            Failure::DoneTwice(what) => write!(f, "done twice: {what}"),
            Failure::Ended(machine, why) => write!(f, "the host of machine {machine} has ended: {why}"),
            Failure::Older(machine) => write!(f, "machine {machine} goes on with an older copy of its disk"),
            Failure::Unseen(what) => write!(f, "a receipt wasn't handed in: {what}"),
            Failure::Stuck(what) => write!(f, "stuck: {what}"),
            Failure::NoMajority(size) => write!(f, "{size} machines are wished and granted, and no majority is there"),
            Failure::Recovered(count) => write!(f, "nothing went wrong, and {count} instances were recovered"),
            Failure::Refused(what) => write!(f, "the audit refuses {what}"),
            Failure::Machine(what) => write!(f, "the state machine isn't one: {what}"),
            Failure::Reply(what) => write!(f, "a reply isn't right {what}"),
        }
    }
}
