//! The changes of what is watched.
use super::watch_queue::WatchQueue;
use crate::host::KeyChange;
use crate::service::WatchEnd;
use std::sync::Arc;
use std::time::{Duration, Instant};

/// The changes of a key, or of the keys of a prefix: [`Service::watch`](super::Service::watch) makes it.
///
/// It begins with what the keys had at some moment, and reports each write that the replica executes after it, once, in
/// the order of execution. None is left out up to the [end](WatchEnd), across generations too.
///
/// ```
/// use epaxos::service::{Watch, WatchEnd};
///
/// /// Waits until something is deleted: which key.
/// fn deleted(watch: &Watch) -> Result<Vec<u8>, WatchEnd> {
///     loop {
///         let change = watch.next()?;
///         if change.value.is_none() {
///             return Ok(change.key);
///         }
///     }
/// }
/// ```
pub struct Watch {
    pub(super) values: Vec<(Vec<u8>, Vec<u8>)>,
    pub(super) queue: Arc<WatchQueue>,
}

impl std::fmt::Debug for Watch {
    fn fmt(&self, f: &mut std::fmt::Formatter) -> std::fmt::Result {
        f.debug_struct("Watch").field("values", &self.values.len()).finish_non_exhaustive()
    }
}

impl Watch {
    /// The keys that were there when the watch began, in rising order, and what they had.
    ///
    /// ```
    /// use epaxos::service::{Service, Watched};
    /// use epaxos::{Cluster, OwnedCommand};
    ///
    /// # fn main() -> Result<(), Box<dyn std::error::Error>> {
    /// let three = Service::local(Cluster::Three)?;
    /// three[0].call(OwnedCommand::Put { key: b"x".into(), value: b"1".into() })?;
    /// let watch = three[1].watch(Watched::Key(b"x".into()), 100)?;
    /// assert_eq!(watch.values(), [(b"x".into(), b"1".into())]);
    /// # Ok(()) }
    /// ```
    pub fn values(&self) -> &[(Vec<u8>, Vec<u8>)] {
        &self.values
    }

    /// The next change; waits for it.
    ///
    /// # Errors
    ///
    /// [`WatchEnd`], once what came before it is reported.
    ///
    /// ```
    /// use epaxos::service::{CallFault, Service, WatchEnd, Watched};
    /// use std::collections::BTreeMap;
    ///
    /// /// Keeps a copy of some keys, for as long as the host lives.
    /// fn keep(service: &Service, seen: impl Fn(&BTreeMap<Vec<u8>, Vec<u8>>)) -> Result<(), CallFault> {
    ///     loop {
    ///         let watch = service.watch(Watched::Prefix(b"task/".into()), 10_000)?;
    ///         let mut copy: BTreeMap<_, _> = watch.values().iter().cloned().collect();
    ///         let end = loop {
    ///             seen(&copy);
    ///             match watch.next() {
    ///                 Ok(change) => match change.value {
    ///                     Some(value) => _ = copy.insert(change.key, value),
    ///                     None => _ = copy.remove(&change.key),
    ///                 },
    ///                 Err(end) => break end,
    ///             }
    ///         };
    ///         if end == WatchEnd::Ended {
    ///             return Ok(());
    ///         }
    ///     }
    /// }
    /// ```
    pub fn next(&self) -> Result<KeyChange, WatchEnd> {
        loop {
            if let Some(change) = self.next_until(None)? {
                return Ok(change);
            }
        }
    }

    /// The next change, if there is one within this time.
    ///
    /// # Errors
    ///
    /// [`WatchEnd`], once what came before it is reported.
    ///
    /// ```
    /// # use epaxos::{Cluster, service::{Service, Watched}};
    /// # use std::time::Duration;
    /// # fn main() -> Result<(), Box<dyn std::error::Error>> {
    /// let three = Service::local(Cluster::Three)?;
    /// let watch = three[0].watch(Watched::Key(b"x".into()), 100)?;
    /// assert_eq!(watch.next_within(Duration::from_millis(1))?, None);
    /// # Ok(()) }
    /// ```
    pub fn next_within(&self, time: Duration) -> Result<Option<KeyChange>, WatchEnd> {
        self.next_until(Instant::now().checked_add(time))
    }

    fn next_until(&self, until: Option<Instant>) -> Result<Option<KeyChange>, WatchEnd> {
        self.queue.take(until)
    }
}

impl Drop for Watch {
    fn drop(&mut self) {
        self.queue.leave();
    }
}
