//! A network inside one process.
use crate::Cluster;
use crate::service::{Inbox, LocalLink};
use std::sync::{Arc, Mutex, MutexGuard, PoisonError};

/// A network inside one process: the replicas of a cluster reach each other without a port. For tests.
///
/// ```
/// use epaxos::host::Settings;
/// use epaxos::service::{LocalNetwork, MemoryDisk, Service, Start};
/// use epaxos::{Cluster, OwnedCommand};
///
/// # fn main() -> Result<(), Box<dyn std::error::Error>> {
/// let network = LocalNetwork::new(Cluster::Three);
/// let start = |me: u8| {
///     let settings = Settings { seed: me.into(), ..Settings::new(Cluster::Three, me) };
///     Service::start(&settings, Start::New, MemoryDisk::default(), network.link(me))
/// };
/// let three = (0..3).map(start).collect::<Result<Vec<_>, _>>()?;
/// three[0].call(OwnedCommand::Put { key: b"x".into(), value: b"1".into() })?;
/// assert_eq!(three[1].read(b"x")?, Some(b"1".into()));
/// # Ok(()) }
/// ```
#[derive(Clone, Debug)]
pub struct LocalNetwork {
    inboxes: Arc<Mutex<Vec<Option<Inbox>>>>,
}

impl LocalNetwork {
    /// One that reaches nobody yet.
    ///
    /// ```
    /// # use epaxos::{Cluster, service::LocalNetwork};
    /// let network = LocalNetwork::new(Cluster::Five);
    /// # drop(network);
    /// ```
    pub fn new(cluster: Cluster) -> LocalNetwork {
        LocalNetwork { inboxes: Arc::new(Mutex::new(vec![None; cluster.replicas().into()])) }
    }

    /// The links of the replica of this number, for one start of it: it is reached from then on until it ends.
    ///
    /// ```
    /// # use epaxos::{Cluster, service::LocalNetwork};
    /// let link = LocalNetwork::new(Cluster::Three).link(0);
    /// # drop(link);
    /// ```
    pub fn link(&self, me: u8) -> LocalLink {
        LocalLink { me, network: self.clone(), is_there: false }
    }

    /// Where what is for each replica goes, of those that are there.
    pub(super) fn inboxes(&self) -> MutexGuard<'_, Vec<Option<Inbox>>> {
        self.inboxes.lock().unwrap_or_else(PoisonError::into_inner)
    }
}
