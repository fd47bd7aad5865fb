//! A replica among the others.

/// The most replicas that there may be.
pub const MOST_REPLICAS: u8 = 7;

/// This replica among the others.
#[derive(Clone, Copy, PartialEq, Eq, Debug)]
pub struct Place {
    /// How many there are.
    pub replicas: usize,
    /// Its number, from 0.
    pub replica: u8,
}
