//! Links inside one process.
use crate::service::{Inbox, Link, LocalNetwork};
use std::io::{self, ErrorKind};

/// The links of one replica in a [`LocalNetwork`].
///
/// ```
/// use epaxos::Cluster;
/// use epaxos::service::{LocalLink, LocalNetwork};
///
/// let link: LocalLink = LocalNetwork::new(Cluster::Three).link(1);
/// # drop(link);
/// ```
#[derive(Debug)]
pub struct LocalLink {
    pub(super) me: u8,
    pub(super) network: LocalNetwork,
    pub(super) is_there: bool,
}

impl LocalLink {
    /// Notifies this replica and each of those that are there of the other one.
    fn notify(&self, notify: impl Fn(&Inbox, u8)) {
        let inboxes = self.network.inboxes();
        let Some(Some(own)) = inboxes.get(usize::from(self.me)) else { return };
        for (peer, inbox) in (0..).zip(&*inboxes).filter(|(peer, _)| *peer != self.me) {
            if let Some(inbox) = inbox {
                notify(inbox, self.me);
                notify(own, peer);
            }
        }
    }
}

impl Link for LocalLink {
    fn start(&mut self, inbox: Inbox) -> io::Result<()> {
        match self.network.inboxes().get_mut(usize::from(self.me)) {
            None => return Err(ErrorKind::InvalidInput.into()),
            Some(Some(_)) => return Err(ErrorKind::AddrInUse.into()),
            Some(place) => *place = Some(inbox),
        }
        self.is_there = true;
        self.notify(Inbox::opened);
        Ok(())
    }

    fn send(&mut self, to: u8, bytes: Vec<u8>) {
        if let Some(Some(inbox)) = self.network.inboxes().get(usize::from(to)) {
            inbox.came(self.me, bytes);
        }
    }
}

impl Drop for LocalLink {
    fn drop(&mut self) {
        if self.is_there {
            self.notify(Inbox::lost);
            self.network.inboxes()[usize::from(self.me)] = None;
        }
    }
}
