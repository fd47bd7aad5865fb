//! Why a folder's generations aren't gone on with, by what it has of each.
use std::error::Error;
use std::fmt;

#[derive(Clone, Copy, PartialEq, Eq, Debug)]
pub enum PlanFault {
    /// No generation is there.
    None,
    /// A replica is to be begun, and this generation is there already.
    Begun(u32),
    /// The replica has been in this generation, which is gone, or which is to be taken.
    Left(u32),
    /// An opening of an earlier generation than this one, which is there, is to be taken.
    Earlier(u32),
    /// Another opening of this generation is there.
    Other(u32),
    /// What this generation opens with is gone, and a later one rests on it.
    Broken(u32),
    /// There is no memory.
    Memory,
}

impl fmt::Display for PlanFault {
    fn fmt(&self, f: &mut fmt::Formatter) -> fmt::Result {
        match self {
            PlanFault::None => f.write_str("folder refused: no generation is here"),
            PlanFault::Begun(generation) => write!(f, "folder refused: generation {generation} is here already"),
            PlanFault::Left(generation) => write!(
                f,
                "folder refused: the replica has been in generation {generation}, which is gone; \
                 take the opening of a later one"
            ),
            PlanFault::Memory => f.write_str("out of memory"),
            PlanFault::Earlier(here) => {
                write!(f, "opening refused: it is of an earlier generation than {here}, which is here")
            }
            PlanFault::Other(generation) => write!(f, "opening refused: generation {generation} has another one here"),
            PlanFault::Broken(generation) => write!(
                f,
                "folder refused: what generation {generation} opens with is gone, and a later one rests on it; \
                 take the opening of a later one"
            ),
        }
    }
}

impl Error for PlanFault {}
