//! How a replica goes on.
#![forbid(unsafe_code)]

use crate::Reference;

/// What a replica goes on as in the next generation ([`Replica::succeed`](crate::Replica::succeed)).
///
/// ```
/// use epaxos::{Cluster, Reference, Succession};
///
/// let reference = Reference::new(Cluster::Three, 2, 43, [0; 32])?;
/// assert_eq!(Succession::new(reference, 0).log, None);
/// # Ok::<(), epaxos::OutOfRange>(())
/// ```
#[derive(Clone, PartialEq, Eq, Hash, Debug)]
pub struct Succession<'a> {
    /// The reference to the log that is closed, which the next log names: with the generation and the cluster that it is of.
    pub reference: Reference,
    /// Which of its replicas this is, from 0.
    pub me: u8,
    /// The bytes of its log, as after a start; none where it is new in that generation.
    pub log: Option<&'a [u8]>,
    /// As of [`Setup::told`](crate::Setup::told): how many entries of that log were reported before.
    pub told: Option<u32>,
}

impl Succession<'_> {
    /// One of a replica that is new in that generation.
    ///
    /// ```
    /// # use epaxos::{Cluster, Reference, Succession};
    /// # let reference = Reference::new(Cluster::Three, 2, 43, [0; 32])?;
    /// assert_eq!(Succession::new(reference, 2).me, 2);
    /// # Ok::<(), epaxos::OutOfRange>(())
    /// ```
    pub fn new(reference: Reference, me: u8) -> Succession<'static> {
        Succession { reference, me, log: None, told: None }
    }
}
