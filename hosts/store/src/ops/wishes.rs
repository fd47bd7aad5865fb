//! What operators ask for: changes of the cluster, which come with the next generation.
use crate::life::identities::Identity;
use epaxos::parts::wishes::Asked;

/// What somebody who runs the store asks for.
#[derive(Clone, PartialEq, Eq, Debug)]
pub enum Manage {
    /// The next generation.
    Seal,
    /// Who takes part in this one.
    Members,
    /// From the next generation on the replica is who has this identity, at this address of the peers' port; without one where
    /// `--peers` says. One that is reached is replaced only if that is forced.
    Replace { replica: u8, identity: Identity, address: Option<String>, is_forced: bool },
    /// From the next generation on there are so many replicas. Each new one by its number, its identity and its address.
    Resize { size: u8, new: Vec<(u8, Identity, String)> },
}

impl Manage {
    /// What is asked of the next generation; none, where nothing is.
    pub(crate) fn asked(self) -> Option<Asked> {
        match self {
            Manage::Members => None,
            Manage::Seal => Some(Asked::Seal),
            Manage::Replace { replica, identity, address, is_forced } => {
                Some(Asked::Replace { replica, identity, address, is_forced })
            }
            Manage::Resize { size, new } => {
                let new = new.into_iter().map(|(replica, identity, address)| (replica, identity, Some(address)));
                Some(Asked::Resize { size, new: new.collect() })
            }
        }
    }
}
