//! What the disk has at a start.
use crate::host::Name;
use std::io;

/// What the disk has of a replica when its host starts ([`Act`](super::Act) says where).
///
/// ```
/// use epaxos::host::{Name, Stored};
/// use std::io;
///
/// /// A new disk.
/// struct Empty;
///
/// impl Stored for Empty {
///     fn generations(&self) -> io::Result<Vec<u32>> {
///         Ok(Vec::new())
///     }
///
///     fn read(&self, _generation: u32, _name: Name) -> io::Result<Option<Vec<u8>>> {
///         Ok(None)
///     }
/// }
/// ```
pub trait Stored {
    /// The generations that have a folder, in rising order.
    ///
    /// # Errors
    ///
    /// What the disk says. Then the host doesn't start.
    fn generations(&self) -> io::Result<Vec<u32>>;

    /// The bytes of a file, of a generation or of 0; None where there is none.
    ///
    /// # Errors
    ///
    /// What the disk says. Then the host doesn't start.
    fn read(&self, generation: u32, name: Name) -> io::Result<Option<Vec<u8>>>;

    /// The last 32 bytes of a file, or as many as it has; None where there is none. Of an opening and of a reference
    /// they are the digest: a disk in files reads no more of a long one.
    ///
    /// # Errors
    ///
    /// What the disk says. Then the host doesn't start.
    fn tail(&self, generation: u32, name: Name) -> io::Result<Option<Vec<u8>>> {
        let bytes = self.read(generation, name)?;
        Ok(bytes.map(|mut bytes| bytes.split_off(bytes.len().saturating_sub(32))))
    }
}
