//! What was proposed here.
#![forbid(unsafe_code)]

use crate::Instance;

/// A command that was proposed here, and its instance.
///
/// ```
/// # let proposed = epaxos::Proposed { client: 1, request: 2, instance: epaxos::Instance { replica: 0, number: 1 } };
/// println!("request {} of client {} is to stand in {}", proposed.request, proposed.client, proposed.instance);
/// ```
#[derive(Clone, Copy, PartialEq, Eq, Hash, Debug)]
pub struct Proposed {
    /// Whose command it is.
    pub client: u32,
    /// Which of that client's.
    pub request: u32,
    /// Where it is to stand.
    pub instance: Instance,
}
