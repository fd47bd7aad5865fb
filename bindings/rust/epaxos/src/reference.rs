//! What a generation opens with, by the log that leaves it.
#![forbid(unsafe_code)]

use crate::ffi;
use crate::records::HEADER;
use crate::status::DONE;
use crate::{Cluster, OutOfRange, Sum};
use std::alloc::{Layout, handle_alloc_error};

/// How many bytes a binding has.
const BINDING: usize = 69;
/// Where the log's sum stands.
const SUM_AT: usize = 18;

/// A reference: a generation opens with what the log of the generation before, of so many bytes and with this SHA-256, leaves.
///
/// A replica that goes on in the same process ([`Replica::succeed`](crate::Replica::succeed)) has its map in memory, and need not write it at once: the disk
/// first gets the 82 bytes of the reference, as `G/reference`. The digest that they end in is what the log of generation G names.
/// [`Replica::reference`](crate::Replica::reference) makes it.
///
/// ```
/// use epaxos::{Cluster, Reference, Sum};
///
/// let log = [7; 321];
/// let reference = Reference::new(Cluster::Three, 2, log.len() as u64, Sum::of(&log))?;
/// assert_eq!(Reference::read(&reference.bytes()), Some(reference));
/// assert_eq!(reference.bytes()[50..], reference.digest());
/// # Ok::<(), epaxos::OutOfRange>(())
/// ```
#[derive(Clone, Copy, PartialEq, Eq, Hash, Debug)]
pub struct Reference {
    cluster: Cluster,
    generation: u32,
    length: u64,
    sum: [u8; 32],
}

impl Reference {
    /// How many bytes a reference has.
    pub const BYTES: usize = 82;

    /// That of a generation of this cluster, to a log of so many bytes.
    ///
    /// # Errors
    ///
    /// [`OutOfRange`]: the first generation has none; and no log has less than its header, 43 bytes.
    ///
    /// ```
    /// use epaxos::{Cluster, Reference};
    ///
    /// assert!(Reference::new(Cluster::Three, 1, 43, [0; 32]).is_err());
    /// ```
    pub fn new(cluster: Cluster, generation: u32, length: u64, sum: [u8; 32]) -> Result<Reference, OutOfRange> {
        if generation < 2 || length < HEADER as u64 {
            return Err(OutOfRange);
        }
        Ok(Reference { cluster, generation, length, sum })
    }

    /// How many replicas the generation has.
    pub fn cluster(&self) -> Cluster {
        self.cluster
    }

    /// The generation that opens so, from 2.
    pub fn generation(&self) -> u32 {
        self.generation
    }

    /// How many bytes the log of the generation before has, from its first: what stands behind them doesn't count.
    pub fn length(&self) -> u64 {
        self.length
    }

    /// Their SHA-256.
    pub fn sum(&self) -> [u8; 32] {
        self.sum
    }

    /// The digest that the generation's log names.
    pub fn digest(&self) -> [u8; 32] {
        self.bytes().last_chunk().copied().unwrap_or_default()
    }

    /// The bytes of the file.
    ///
    /// ```
    /// # use epaxos::{Cluster, Reference};
    /// # let reference = Reference::new(Cluster::Three, 2, 43, [0; 32])?;
    /// assert_eq!(reference.bytes().len(), Reference::BYTES);
    /// # Ok::<(), epaxos::OutOfRange>(())
    /// ```
    pub fn bytes(&self) -> Vec<u8> {
        let mut bytes = vec![0; Reference::BYTES];
        let Reference { cluster, generation, length, sum } = *self;
        // (its ranges were looked at as it was made)
        had_memory(ffi::reference((cluster.replicas(), generation, length), &sum, &mut bytes));
        bytes
    }

    /// Reads a file. None where the bytes aren't those of a reference, as where one of them was changed.
    ///
    /// ```
    /// assert_eq!(epaxos::Reference::read(b"EPOR"), None);
    /// ```
    pub fn read(bytes: &[u8]) -> Option<Reference> {
        let head = ffi::read_reference(bytes).ok()?;
        let sum = *bytes.get(SUM_AT..)?.first_chunk()?;
        Reference::new(Cluster::try_from(head.replicas).ok()?, head.generation, head.length, sum).ok()
    }

    /// Whether these are the bytes of the log that it names, from its first: as many, with its sum.
    ///
    /// ```
    /// use epaxos::{Cluster, Reference, Sum};
    ///
    /// let mut log = vec![7; 321];
    /// let reference = Reference::new(Cluster::Three, 2, 321, Sum::of(&log))?;
    /// assert!(reference.is_to(&log));
    /// log[320] = 8;
    /// assert!(!reference.is_to(&log));
    /// # Ok::<(), epaxos::OutOfRange>(())
    /// ```
    pub fn is_to(&self, log: &[u8]) -> bool {
        log.len() as u64 == self.length && Sum::of(log) == self.sum
    }

    /// The binding: the bytes of `G/whole`, which say that `G/opening`, a file with this digest (its last 32 bytes), is what the reference stood for. Written once the
    /// opening is on the disk, it makes what is older superfluous.
    ///
    /// ```
    /// # use epaxos::{Cluster, Reference};
    /// let reference = Reference::new(Cluster::Three, 2, 43, [0; 32])?;
    /// let binding = reference.binding(&[9; 32]);
    /// assert_eq!((binding.len(), &binding[..5], &binding[37..]), (69, &b"EPOB\x03"[..], &[9; 32][..]));
    /// assert_eq!(binding[5..37], reference.digest());
    /// # Ok::<(), epaxos::OutOfRange>(())
    /// ```
    pub fn binding(&self, opening: &[u8; 32]) -> Vec<u8> {
        binding(&self.digest(), opening)
    }
}

/// What says that the opening of the second digest is what the reference of the first one stood for.
pub(crate) fn binding(reference: &[u8; 32], opening: &[u8; 32]) -> Vec<u8> {
    let mut bytes = vec![0; BINDING];
    had_memory(ffi::binding(reference, opening, &mut bytes));
    bytes
}

/// Ends the program where a call was refused a few bytes of memory, as `Vec` does: such bytes mustn't reach a disk.
fn had_memory(status: u8) {
    if status != DONE {
        handle_alloc_error(Layout::new::<[u8; Reference::BYTES]>());
    }
}
