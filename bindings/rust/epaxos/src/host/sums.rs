//! How the SHA-256 of bytes is found.
use crate::Sum;
use std::fmt;
use std::sync::Arc;

/// The SHA-256 of bytes that come one after the other.
///
/// ```
/// use epaxos::host::{Summing, Sums};
///
/// let mut sum = (Sums::default().begin)();
/// sum.add(b"a");
/// sum.add(b"bc");
/// assert_eq!(sum.digest(), epaxos::Sum::of(b"abc"));
/// ```
pub trait Summing: Send {
    /// These come next.
    fn add(&mut self, bytes: &[u8]);

    /// The same of bytes that others have too, as they are written: whoever sums them later keeps them, and needn't
    /// copy them.
    fn share(&mut self, bytes: &Arc<Vec<u8>>) {
        self.add(bytes);
    }

    /// The digest of all that came. More may come after it.
    fn digest(&self) -> [u8; 32];
}

impl Summing for Sum {
    fn add(&mut self, bytes: &[u8]) {
        Sum::add(self, bytes);
    }

    fn digest(&self) -> [u8; 32] {
        Sum::digest(self)
    }
}

/// How the SHA-256 of logs is found: by the crate's own [`Sum`], where nothing is said. A program that has a faster one
/// names that: each byte of a log goes through it.
///
/// ```
/// use epaxos::host::{Settings, Sums};
/// use epaxos::{Cluster, Sum};
///
/// let sums = Sums { of: Sum::of, begin: || Box::new(Sum::new()) };
/// let settings = Settings { sums, ..Settings::new(Cluster::Three, 0) };
/// assert_eq!((settings.sums.of)(b"abc"), Sum::of(b"abc"));
/// ```
#[derive(Clone, Copy)]
pub struct Sums {
    /// The digest of bytes that are all there.
    pub of: fn(&[u8]) -> [u8; 32],
    /// That of bytes that come, of none yet.
    pub begin: fn() -> Box<dyn Summing>,
}

impl Default for Sums {
    fn default() -> Sums {
        Sums { of: Sum::of, begin: || Box::new(Sum::new()) }
    }
}

impl fmt::Debug for Sums {
    fn fmt(&self, f: &mut fmt::Formatter) -> fmt::Result {
        f.debug_struct("Sums").finish_non_exhaustive()
    }
}
