//! How a host starts.

/// How a host starts.
///
/// ```
/// use epaxos::service::Start;
///
/// /// By a mark of one's own that the machine has started before.
/// fn start(has_started: bool) -> Start {
///     if has_started { Start::Again } else { Start::New }
/// }
/// # assert_eq!(start(true), Start::Again);
/// ```
#[derive(Clone, Copy, PartialEq, Eq, Debug)]
pub enum Start {
    /// For the first time, in a new cluster: [`Host::begin`](super::Host::begin).
    New,
    /// With what its disk has: [`Host::open`](super::Host::open).
    Again,
    /// In the place of a machine that is gone for good: [`Host::join`](super::Host::join).
    Join,
}
