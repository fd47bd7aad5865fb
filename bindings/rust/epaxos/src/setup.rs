//! How a replica is begun.
#![forbid(unsafe_code)]

use crate::{Cluster, OpenFault, Reference, Replica, ffi};

/// How a replica is begun, or gone on with, where [`Replica::new`] and [`Replica::open`] don't say enough.
///
/// ```
/// use epaxos::{Cluster, Setup};
///
/// // goes on from a log, and reports all its entries once more: for a machine of one's own that keeps nothing itself
/// let setup = Setup { told: Some(0), ..Setup::new(Cluster::Three, 1) };
/// # let mut log = setup.begin()?.ready()?.log().to_vec();
/// let mut replica = setup.open(&log)?;
/// assert_eq!(replica.ready()?.commit(&mut log)?.entries(), 0);
/// # Ok::<(), Box<dyn std::error::Error>>(())
/// ```
#[derive(Clone, PartialEq, Eq, Hash, Debug)]
pub struct Setup<'a> {
    /// How many replicas there are.
    pub cluster: Cluster,
    /// Which one this is, from 0.
    pub me: u8,
    /// What the generation opens with: the bytes that [`close`](Replica::close) handed out, here or at another replica. None: generation 1, whose map
    /// has nothing.
    pub opening: Option<&'a [u8]>,
    /// The reference that stood for the opening before that was written, where the generation was begun by one ([`Replica::succeed`]): its log names the
    /// reference's digest, and not the opening's. Only the [binding](Reference::binding) on the disk says that the two stand for one another: look there before.
    pub reference: Option<Reference>,
    /// How many entries of the log were reported before: behind them the first [`Output`](crate::Output) begins. None:
    /// all that the log has. More than the log has are [`OpenFault::Forgotten`].
    pub told: Option<u32>,
}

impl<'a> Setup<'a> {
    /// That of a replica of generation 1.
    ///
    /// ```
    /// # use epaxos::{Cluster, Setup};
    /// assert_eq!(Setup::new(Cluster::Five, 4).opening, None);
    /// ```
    pub fn new(cluster: Cluster, me: u8) -> Setup<'a> {
        Setup { cluster, me, opening: None, reference: None, told: None }
    }

    /// A replica before any event. Once in the generation: a replica that was lost must not be begun again under its number.
    ///
    /// # Errors
    ///
    /// [`OpenFault`] says which.
    ///
    /// ```
    /// # use epaxos::{Cluster, Setup};
    /// let mut replica = Setup::new(Cluster::Three, 2).begin()?;
    /// # let _ = replica.ready()?;
    /// # Ok::<(), Box<dyn std::error::Error>>(())
    /// ```
    pub fn begin(&self) -> Result<Replica, OpenFault> {
        Replica::begun(self, None)
    }

    /// The replica that this log is of, as if it had never stopped. A crash may have left bytes behind the log's last whole record:
    /// they are left out, and [`cut`](Replica::cut) says how many.
    ///
    /// # Errors
    ///
    /// [`OpenFault`] says which.
    ///
    /// ```
    /// # use epaxos::{Cluster, OpenFault, Setup};
    /// assert_eq!(Setup::new(Cluster::Three, 2).open(b"").unwrap_err(), OpenFault::NoLog);
    /// ```
    pub fn open(&self, log: &[u8]) -> Result<Replica, OpenFault> {
        if log.is_empty() {
            return Err(OpenFault::NoLog);
        }
        Replica::begun(self, Some(log))
    }
}

/// Which replica is begun, and how, as a core gets it.
#[derive(Clone, Copy, Debug)]
pub(crate) struct Begin<'a> {
    pub(crate) cluster: Cluster,
    pub(crate) me: u8,
    pub(crate) opening: Option<&'a [u8]>,
    pub(crate) reference: Option<Reference>,
    /// None: it is new.
    pub(crate) log: Option<&'a [u8]>,
}

impl Begin<'_> {
    /// The generation that the opening begins, as it says; 1 where there is none. (One that says nothing is refused.)
    pub(crate) fn generation(&self) -> u32 {
        let head = self.opening.and_then(|opening| ffi::opening_head(opening).ok());
        head.map_or(1, |head| head.generation)
    }

    /// Whether the opening may be what this reference stood for. (The library says why one is none.)
    pub(crate) fn check(&self, reference: &Reference) -> Result<(), OpenFault> {
        let is_one = self.opening.is_none_or(|opening| ffi::opening_head(opening).is_ok());
        if is_one && (reference.generation(), reference.cluster()) != (self.generation(), self.cluster) {
            return Err(OpenFault::BadOpening("the reference is that of another generation".into()));
        }
        Ok(())
    }
}
