//! The file that a generation opens with, in pieces.
#![forbid(unsafe_code)]

use crate::Fault;
use crate::ffi::CheckpointHandle;
use crate::library;
use std::fmt;
use std::io::{self, Write};
use std::iter::FusedIterator;

/// The opening file of the generation in which a replica has gone on ([`Replica::succeed`](crate::Replica::succeed)), in pieces: to be written when there is time,
/// or sent to a member that lags.
///
/// It shares the map's entries with the replica, and needs nothing of it: any thread may take the pieces, whatever the replica does. All of them, one after the
/// other, are the file; the last one is its digest alone, 32 bytes. It is an iterator of pieces of some [`PIECE`](Checkpoint::PIECE) bytes.
///
/// It keeps what is left of the generation before, which takes some time to let go: [`let_go`](Checkpoint::let_go)
/// does it, in the thread that calls it.
///
/// ```
/// fn is_send<T: Send + 'static>() {}
/// is_send::<epaxos::Checkpoint>();
/// ```
pub struct Checkpoint {
    file: CheckpointHandle,
    is_over: bool,
}

impl fmt::Debug for Checkpoint {
    fn fmt(&self, f: &mut fmt::Formatter) -> fmt::Result {
        f.debug_struct("Checkpoint").field("is_over", &self.is_over).finish_non_exhaustive()
    }
}

impl Checkpoint {
    /// How many bytes the iterator's pieces have, or fewer; one with a field that is longer has more.
    ///
    /// ```
    /// assert_eq!(epaxos::Checkpoint::PIECE, 65_536);
    /// ```
    pub const PIECE: usize = 1 << 16;

    pub(crate) fn of(file: CheckpointHandle) -> Checkpoint {
        Checkpoint { file, is_over: false }
    }

    /// Lets go what is left of the generation before, its journal above all; else it goes with the checkpoint. It
    /// takes the longer the more that generation did, so do it in
    /// a thread that has time.
    pub fn let_go(&mut self) {
        self.file.rest();
    }

    /// Lends the next piece: at most `most` bytes, or 189,004 where that is more, since no field is cut; never none. None: all was given.
    ///
    /// # Errors
    ///
    /// [`Fault::Memory`]: the same call may succeed later, and nothing is left out.
    ///
    /// ```no_run
    /// # fn of(mut checkpoint: epaxos::Checkpoint, out: &mut impl std::io::Write) -> Result<(), Box<dyn std::error::Error>> {
    /// while let Some(piece) = checkpoint.piece(4_096)? {
    ///     out.write_all(piece)?;
    /// }
    /// # Ok(()) }
    /// ```
    pub fn piece(&mut self, most: usize) -> Result<Option<&[u8]>, Fault> {
        if self.is_over {
            return Ok(None);
        }
        let piece = library::next_piece(&mut self.file, most)?;
        self.is_over = piece.is_none();
        Ok(piece)
    }

    /// Writes all that is left of the file, and returns its last 32 bytes: its digest, for the [binding](crate::Reference::binding). What is written isn't synced.
    ///
    /// # Errors
    ///
    /// The writer's; of kind `OutOfMemory` where a piece had no memory.
    ///
    /// ```no_run
    /// # fn of(checkpoint: epaxos::Checkpoint, reference: epaxos::Reference) -> std::io::Result<()> {
    /// let mut file = std::fs::File::create("zero/2/opening.new")?;
    /// let digest = checkpoint.write(&mut file)?;
    /// file.sync_all()?;
    /// // .. renamed to zero/2/opening, and the folder synced:
    /// std::fs::write("zero/2/whole.new", reference.binding(&digest))?;
    /// # Ok(()) }
    /// ```
    pub fn write(mut self, out: &mut impl Write) -> io::Result<[u8; 32]> {
        let mut digest = [0; 32];
        while let Some(piece) =
            self.piece(Checkpoint::PIECE).map_err(|_| io::Error::from(io::ErrorKind::OutOfMemory))?
        {
            out.write_all(piece)?;
            digest = piece.try_into().unwrap_or(digest);
        }
        Ok(digest)
    }
}

impl Iterator for Checkpoint {
    type Item = Result<Vec<u8>, Fault>;

    fn next(&mut self) -> Option<Result<Vec<u8>, Fault>> {
        match self.piece(Checkpoint::PIECE) {
            Ok(piece) => piece.map(|it| Ok(it.to_vec())),
            Err(fault) => Some(Err(fault)),
        }
    }
}

impl FusedIterator for Checkpoint {}
