//! What is to be done beside the log.
use crate::Checkpoint;
use crate::host::{Span, Trail};

/// What is to be done in the background: whoever runs the host may take its time, and goes on with
/// [`Turn::writes`](super::Turn::writes) meanwhile.
///
/// ```
/// use epaxos::host::Work;
///
/// /// How many bytes of the disk it takes at most, as far as that is known.
/// fn bytes(work: &Work) -> Option<u64> {
///     if let Work::Read { length, .. } = work { Some(*length) } else { None }
/// }
/// ```
#[derive(Debug)]
pub enum Work {
    /// The pieces of this checkpoint are written as `G/opening`, whole and synced, and then
    /// [`Host::opening_written`](super::Host::opening_written) is called. Where there is a machine, `G/machine` gets
    /// these bytes first, whole and synced.
    Write {
        /// The generation G.
        generation: u32,
        /// The bytes of `G/machine`.
        machine: Option<Vec<u8>>,
        /// The pieces.
        checkpoint: Checkpoint,
    },
    /// The folder of a generation that is about to begin is made, so that its begin takes less. Nothing is reported of
    /// it, and nothing depends on it.
    Prepare {
        /// The generation.
        generation: u32,
    },
    /// A part of `G/opening` is read, and [`Host::opening_read`](super::Host::opening_read) is called: `length` bytes
    /// from `offset` on, or as many as there are.
    Read {
        /// The generation G.
        generation: u32,
        /// Where the part begins.
        offset: u64,
        /// How many bytes it has at most.
        length: u64,
    },
    /// What is left of the generation before is [let go](Checkpoint::let_go), which takes the longer the more that did,
    /// and [`Host::let_go`](super::Host::let_go) is given the checkpoint back.
    LetGo {
        /// The generation that began.
        generation: u32,
        /// The checkpoint.
        checkpoint: Checkpoint,
    },
    /// These bytes are read, one behind the other, and [`Host::gathered`](super::Host::gathered) is called.
    Gather {
        /// The number under which that is called.
        number: u64,
        /// Where they are.
        spans: Vec<Span>,
    },
    /// What a peer has handed is [gone through](Trail::opening), and [`Host::followed`](super::Host::followed) is
    /// called.
    Follow {
        /// The generation that it leads to.
        generation: u32,
        /// What was handed.
        trail: Trail,
    },
}
