//! What learns what the map has.
use crate::Executed;

/// Learns what the map has here, and all that is executed, without a copy of it: for an index of one's own, as of the
/// keys that have a deadline. See [`Host::observe`](super::Host::observe).
///
/// ```
/// use epaxos::Executed;
/// use epaxos::host::Observer;
///
/// /// Counts what was executed, beside the keys that were there before.
/// #[derive(Default)]
/// struct Count(usize);
///
/// impl Observer for Count {
///     fn begin(&mut self, map: &mut dyn Iterator<Item = (&[u8], &[u8])>) {
///         self.0 = map.count();
///     }
///
///     fn note(&mut self, _executed: &Executed) {
///         self.0 += 1;
///     }
/// }
/// ```
pub trait Observer: Send {
    /// The map has these keys, each with its value: at a start, and where an opening was taken from a peer. What was
    /// known before is over.
    fn begin(&mut self, map: &mut dyn Iterator<Item = (&[u8], &[u8])>);

    /// Something was executed, and is on the disk.
    fn note(&mut self, executed: &Executed);
}
