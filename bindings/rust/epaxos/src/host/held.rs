//! A call that a host was asked.
use crate::OwnedCommand;
use crate::host::Begun;
use crate::parts::calls::Called;
use crate::parts::together::Asked;
use std::sync::Arc;
use std::time::Instant;

/// A call, with its token.
pub(super) struct Held {
    pub(super) since: Instant,
    pub(super) token: u64,
    pub(super) command: OwnedCommand,
    /// It isn't to be proposed, or not once more.
    pub(super) is_given_up: bool,
    /// By which another thread knows whether it was proposed, where one wants to.
    pub(super) begun: Option<Arc<Begun>>,
}

impl Asked for Held {
    fn command(&self) -> &OwnedCommand {
        &self.command
    }
}

impl Called for Held {
    fn since(&self) -> Instant {
        self.since
    }

    fn is_given_up(&self) -> bool {
        self.is_given_up || self.begun.as_ref().is_some_and(|begun| begun.is_given_up())
    }

    fn begin(&self) -> bool {
        !self.is_given_up && self.begun.as_ref().is_none_or(|begun| begun.begin())
    }

    fn take_back(&self) {
        self.begun.iter().for_each(|begun| begun.take_back());
    }
}

/// What is asked together.
pub(super) type Batch = crate::parts::batch::Batch<Held>;
pub(super) type Request = crate::parts::batch::Request<Held>;
