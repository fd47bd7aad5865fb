//! How many replicas there are.
#![forbid(unsafe_code)]

use crate::{OutOfRange, library};
use std::sync::OnceLock;

/// How many replicas there are: three, five or seven, of which one, two or three may be down.
///
/// ```
/// use epaxos::Cluster;
///
/// let cluster = Cluster::try_from(5)?;
/// assert_eq!(cluster, Cluster::Five);
/// assert_eq!((cluster.replicas(), cluster.faults()), (5, 2));
/// assert!(Cluster::try_from(4).is_err());
/// # Ok::<(), epaxos::OutOfRange>(())
/// ```
#[derive(Clone, Copy, PartialEq, Eq, PartialOrd, Ord, Hash, Debug)]
pub enum Cluster {
    /// Three replicas.
    Three,
    /// Five replicas.
    Five,
    /// Seven replicas.
    Seven,
}

impl Cluster {
    /// How many replicas there are. They are numbered from 0.
    ///
    /// ```
    /// assert_eq!(epaxos::Cluster::Three.replicas(), 3);
    /// ```
    pub fn replicas(self) -> u8 {
        2 * self.faults() + 1
    }

    /// How many may be down: commands still go through.
    ///
    /// ```
    /// assert_eq!(epaxos::Cluster::Three.faults(), 1);
    /// ```
    pub fn faults(self) -> u8 {
        match self {
            Cluster::Three => 1,
            Cluster::Five => 2,
            Cluster::Seven => 3,
        }
    }

    /// The file that generation 1 opens with: a map in which nothing is. To begin a replica it need not be handed in; `epaxos collect` wants it beside each
    /// log ([the crate's page](crate#an-audit)).
    ///
    /// ```
    /// use epaxos::{Cluster, Setup};
    ///
    /// let opening = Cluster::Five.first_opening();
    /// let mut replica = Setup { opening: Some(opening), ..Setup::new(Cluster::Five, 0) }.begin()?;
    /// let header = replica.ready()?.log().to_vec();                           // it has the opening's digest
    /// assert_eq!(header, Setup::new(Cluster::Five, 0).begin()?.ready()?.log());
    /// # Ok::<(), Box<dyn std::error::Error>>(())
    /// ```
    pub fn first_opening(self) -> &'static [u8] {
        static OPENINGS: [OnceLock<Vec<u8>>; 3] = [const { OnceLock::new() }; 3];
        let kept = &OPENINGS[usize::from(self.faults() - 1)];
        if kept.get().is_none() {
            // (where there was no memory for it, the next call tries again)
            let _kept = library::first_opening(self.replicas()).map(|made| kept.set(made));
        }
        kept.get().map_or(&[], Vec::as_slice)
    }
}

impl TryFrom<u8> for Cluster {
    type Error = OutOfRange;

    fn try_from(replicas: u8) -> Result<Cluster, OutOfRange> {
        match replicas {
            3 => Ok(Cluster::Three),
            5 => Ok(Cluster::Five),
            7 => Ok(Cluster::Seven),
            _ => Err(OutOfRange),
        }
    }
}
