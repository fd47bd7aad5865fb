//! Who observes what the map has.
use super::{Host, HostFault, Observer};

impl Host {
    /// From the first turn on, this observer learns what the map has, and all that is executed. To be called once the
    /// host has been begun, before its first turn.
    ///
    /// ```
    /// # use epaxos::{Cluster, Executed, host::{Host, Observer, Settings}, service::MemoryDisk};
    /// # use std::time::Instant;
    /// use std::sync::{Arc, atomic::{AtomicUsize, Ordering}};
    ///
    /// /// Counts the keys that are there at first.
    /// struct Count(Arc<AtomicUsize>);
    ///
    /// impl Observer for Count {
    ///     fn begin(&mut self, map: &mut dyn Iterator<Item = (&[u8], &[u8])>) {
    ///         self.0.store(map.count(), Ordering::Relaxed);
    ///     }
    ///
    ///     fn note(&mut self, _executed: &Executed) {}
    /// }
    ///
    /// # fn main() -> Result<(), Box<dyn std::error::Error>> {
    /// let (now, count) = (Instant::now(), Arc::new(AtomicUsize::new(7)));
    /// let mut host = Host::begin(&Settings::new(Cluster::Three, 0), &MemoryDisk::default(), now)?;
    /// host.observe(Box::new(Count(count.clone())));
    /// let writes = host.turn(now)?.writes.ok_or("nothing to write")?;
    /// host.synced(writes.number, now)?;
    /// assert_eq!(count.load(Ordering::Relaxed), 0);
    /// # Ok(()) }
    /// ```
    pub fn observe(&mut self, observer: Box<dyn Observer>) {
        self.observer = Some(observer);
    }

    /// The map is another one than was observed.
    pub(super) fn begin_observing(&mut self) -> Result<(), HostFault> {
        if let (Some(observer), Some(acting)) = (&mut self.observer, &mut self.acting) {
            observer.begin(&mut acting.replica.contents()?);
        }
        Ok(())
    }
}
