//! How a store starts, ends, and comes back: its folder, who it is, its starts, and recovery.
pub mod directory;
pub mod directory_fault;
pub mod identities;
pub mod identities_fault;
pub mod recovery;
pub mod recovery_fault;
pub mod starts;
pub mod starts_fault;
pub mod stop_fault;
pub mod sum;
