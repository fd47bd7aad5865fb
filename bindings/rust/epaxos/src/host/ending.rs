//! A slow end: what is under way is finished, and nothing more is begun.
use super::{Host, Plant};
use crate::host::{Refusal, Told};
use std::time::Instant;

impl Host {
    /// The host is to end. Nothing more is begun: what is asked from now on is refused, and so are calls that weren't
    /// proposed yet, or would have to be proposed again, and wishes: [`Refusal::Ending`]. What is under way goes on,
    /// by turns as before, until [`is_ended`](Host::is_ended). Who is out of patience drops the host before; nothing
    /// that was answered is lost then, and who isn't answered doesn't know whether it was done.
    ///
    /// ```
    /// # use epaxos::{Cluster, host::{Host, Settings}, service::MemoryDisk};
    /// # use std::time::Instant;
    /// use epaxos::OwnedCommand;
    /// use epaxos::host::{Refusal, Reply, Told};
    ///
    /// # fn main() -> Result<(), Box<dyn std::error::Error>> {
    /// let now = Instant::now();
    /// let mut host = Host::begin(&Settings::new(Cluster::Three, 0), &MemoryDisk::default(), now)?;
    /// host.call(7, OwnedCommand::Del { key: b"x".into() }, now);
    /// host.end(now);
    /// assert!(!host.is_ended()); // there is somebody to be answered
    /// assert_eq!(host.turn(now)?.replies, [Reply { token: 7, told: Told::Refused(Refusal::Ending) }]);
    /// assert!(host.is_ended());
    /// # Ok(()) }
    /// ```
    pub fn end(&mut self, now: Instant) {
        self.due = self.due.min(now);
        self.ends = true;
        self.refuse_held();
        for (token, _) in self.wishes.take().collect::<Vec<_>>() {
            self.reply(token, Told::Refused(Refusal::Ending));
        }
    }

    /// Whether it was asked to [end](Host::end), and all who asked were answered.
    ///
    /// ```
    /// # use epaxos::{Cluster, host::{Host, Settings}, service::MemoryDisk};
    /// # use std::time::Instant;
    /// # fn main() -> Result<(), Box<dyn std::error::Error>> {
    /// let now = Instant::now();
    /// let mut host = Host::begin(&Settings::new(Cluster::Three, 0), &MemoryDisk::default(), now)?;
    /// assert!(!host.is_ended());
    /// host.end(now);
    /// assert!(host.is_ended());
    /// # Ok(()) }
    /// ```
    pub fn is_ended(&self) -> bool {
        let proposes = self.busy.iter().flat_map(|busy| &busy.requests).any(|it| it.is_proposal());
        let reads = !self.reads.is_empty() || !self.here.is_empty();
        let is_idle = self.calls.is_empty() && !reads && self.out.replies.is_empty() && !proposes;
        self.ends && (is_idle || self.settings.has(Plant::EndsEarly))
    }

    /// Calls that aren't proposed aren't done.
    pub(super) fn refuse_held(&mut self) {
        for held in std::mem::take(&mut self.calls.held) {
            self.reply(held.token, Told::Refused(Refusal::Ending));
        }
    }
}
