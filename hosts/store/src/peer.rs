//! The other replicas: links to them, their keys, and when they were last seen.
pub mod peers;
pub mod sealed;
pub mod seen;
pub mod twice;
