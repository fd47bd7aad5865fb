//! What operators have: the command line, the admin socket, changes of the cluster, INFO, metrics and the log.
pub mod admin;
pub mod info;
pub mod manage_fault;
pub mod metrics;
pub mod notify;
pub mod options;
pub mod options_fault;
pub mod say;
pub mod wishes;
