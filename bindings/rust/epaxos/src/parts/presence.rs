//! Whether a peer is there.

/// As far as this replica knows.
#[derive(Clone, Copy, PartialEq, Eq, Debug)]
pub enum Presence {
    /// Frames to it arrive, and it answers, or sends something else.
    There,
    /// Frames to it arrive as far as the system reports, and nothing comes from it.
    Silent,
    /// There is no connection to it.
    Gone,
}
