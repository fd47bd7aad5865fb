//! A disk.
use crate::Checkpoint;
use crate::host::{Act, Span, Stored};
use std::io;

/// A disk for a host. A copy of it is the same disk, for another thread.
///
/// ```
/// use epaxos::host::{Name, Stored};
/// use epaxos::service::Disk;
/// use std::io;
///
/// /// How many bytes the logs of all generations have.
/// fn logs(disk: &impl Disk) -> io::Result<usize> {
///     let of = |generation| Ok(disk.read(generation, Name::Log)?.map_or(0, |log| log.len()));
///     disk.generations()?.into_iter().map(of).sum()
/// }
/// # assert_eq!(logs(&epaxos::service::MemoryDisk::default())?, 0);
/// # Ok::<(), io::Error>(())
/// ```
pub trait Disk: Stored + Clone + Send + 'static {
    /// Does these acts, in their order. All of them are on the disk when it returns.
    ///
    /// # Errors
    ///
    /// What the disk says: the host ends then, as nobody knows what is there.
    fn carry_out(&mut self, acts: &[Act]) -> io::Result<()>;

    /// Writes the pieces as the opening of a generation, whole, and on the disk when it returns: its last 32 bytes, and
    /// how many it has.
    ///
    /// # Errors
    ///
    /// What the disk says: the opening isn't there then.
    fn write_opening(&mut self, generation: u32, checkpoint: Checkpoint) -> io::Result<([u8; 32], u64)>;

    /// How many bytes the opening of a generation has, and those from `offset` on, at most `length`.
    ///
    /// # Errors
    ///
    /// What the disk says.
    fn read_opening(&mut self, generation: u32, offset: u64, length: u64) -> io::Result<(u64, Vec<u8>)>;

    /// These bytes.
    ///
    /// # Errors
    ///
    /// What the disk says; `UnexpectedEof` where there are fewer.
    fn read_span(&self, span: &Span) -> io::Result<Vec<u8>> {
        let file = self.read(span.generation, span.name)?.unwrap_or_default();
        Ok(span.of(&file).ok_or(io::ErrorKind::UnexpectedEof)?.to_vec())
    }

    /// Makes room for a generation that is about to begin, beside all else, so that its begin takes less. Nothing
    /// depends on it.
    ///
    /// # Errors
    ///
    /// What the disk says.
    fn prepare(&mut self, _generation: u32) -> io::Result<()> {
        Ok(())
    }

    /// Keeps receipts for an audit, if it is wanted.
    ///
    /// # Errors
    ///
    /// What the disk says: the host ends then.
    fn keep_receipts(&mut self, _receipts: &[u8]) -> io::Result<()> {
        Ok(())
    }
}
