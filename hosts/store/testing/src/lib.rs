//! What the trial, the bench and the tests of the store share. The store itself has none of it.
pub mod client;
#[path = "../../../../bindings/rust/epaxos/tests/common/ports.rs"]
pub mod ports;
#[cfg(test)]
mod ports_tests;
pub mod processes;
