//! A replicated store over TCP: the host around the proved core, which the library has in this process.
/// What hosts that are embedded have too.
pub use epaxos::parts::{
    commits, connect_fault, frames, generation, linearizable, link, link_fault, map, members, messages, opening,
    planning, random, receipts, receipts_fault, timed,
};

pub mod client;
pub mod core;
pub mod life;
pub mod ops;
pub mod peer;
