//! How far a replica is in its generation.
#![forbid(unsafe_code)]

use crate::bytes::Fields;

/// How far a replica is in its generation.
///
/// ```
/// # let mut log = Vec::new();
/// use epaxos::{Cluster, Replica};
///
/// let mut replica = Replica::new(Cluster::Three, 0)?;
/// replica.ready()?.commit(&mut log)?;
/// let state = replica.state()?;
/// assert_eq!((state.generation, state.entries, state.used), (1, 0, 0));
/// # Ok::<(), Box<dyn std::error::Error>>(())
/// ```
#[derive(Clone, Copy, Default, PartialEq, Eq, Hash, Debug)]
pub struct State {
    /// The generation, from 1.
    pub generation: u32,
    /// How many entries its log has.
    pub entries: u32,
    /// The number that its last proposal took, 0 before any. A command takes none above 8,990: propose a seal in time.
    pub used: u16,
    /// The most dependencies of an own instance that is committed: 3 bytes each in every frame of such a command.
    pub dependencies: u16,
    /// Whether it has executed a seal.
    pub is_sealed: bool,
    /// The stamp of its last entry; before any, the one that its clock goes on from.
    pub stamp: u64,
}

impl State {
    pub(crate) fn read(fields: &mut Fields) -> Option<State> {
        Some(State {
            generation: fields.u32()?,
            entries: fields.u32()?,
            used: fields.u16()?,
            dependencies: fields.u16()?,
            is_sealed: match fields.u8()? {
                0 => false,
                1 => true,
                _ => return None,
            },
            stamp: fields.u64()?,
        })
    }
}
