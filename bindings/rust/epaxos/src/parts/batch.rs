//! What a core is asked together.
use crate::parts::frames::Head;
use crate::{Call, Event, Fault, Instance, OwnedCommand};
use std::time::{Duration, Instant};

/// At most so many events share one sync, and those behind so many bytes of frames wait for the next one.
pub const MOST_EVENTS: usize = 512;
pub const MOST_BYTES: usize = 1 << 20;
/// Commits that nobody waits for may wait so long for something that their sync is shared with.
const COMMITS_PATIENCE: Duration = Duration::from_millis(3);

/// A command that is to be proposed.
pub struct Proposal {
    pub call: Call,
    pub command: OwnedCommand,
    /// The replica that it names as the spared one, if it names one.
    pub spared: Option<u8>,
}

impl Proposal {
    fn event(&self) -> Event<'_> {
        let (call, command) = (self.call, self.command.lent());
        match self.spared {
            None => Event::Propose { call, command },
            Some(spared) => Event::ProposeSparing { call, command, spared },
        }
    }
}

/// What the core is to take.
pub enum Request<M> {
    /// A command, and those whose command it is.
    Propose(Proposal, Vec<M>),
    Seal(Proposal),
    /// A frame that came from a peer.
    Frame(u8, Head, Vec<u8>),
    GiveUp(Instance),
    Recover(Instance),
}

impl<M> Request<M> {
    pub fn event(&self) -> Event<'_> {
        match self {
            Request::Propose(proposal, ..) | Request::Seal(proposal) => proposal.event(),
            Request::Frame(_, _, bytes) => Event::Handle(bytes),
            Request::GiveUp(instance) => Event::GiveUp(*instance),
            Request::Recover(instance) => Event::Recover(*instance),
        }
    }

    pub fn is_proposal(&self) -> bool {
        matches!(self, Request::Propose(..))
    }

    fn bytes(&self) -> usize {
        if let Request::Frame(_, _, bytes) = self { bytes.len() } else { 0 }
    }
}

/// Requests that are asked together.
pub struct Batch<M>(pub Vec<Request<M>>);

impl<M> Default for Batch<M> {
    fn default() -> Batch<M> {
        Batch(Vec::new())
    }
}

impl<M> Batch<M> {
    /// Whether it has nothing but commits of peers, of which none is a seal's.
    pub fn is_commits(&self) -> bool {
        let is_it = |head: &Head| head.is_commit() && !head.is_seal_committed();
        self.0.iter().all(|request| matches!(request, Request::Frame(_, head, _) if is_it(head)))
    }

    /// The instances that peers have reported to be committed, of what the core has taken.
    pub fn committed<'a>(&'a self, done: &'a [Result<(), Fault>]) -> impl Iterator<Item = Instance> {
        self.0.iter().zip(done).filter_map(|it| match it {
            (Request::Frame(_, head, _), Ok(())) if head.is_commit() => Some(head.instance),
            _ => None,
        })
    }

    /// Whether a peer reports in it something that is committed.
    pub fn has_commits(&self) -> bool {
        self.0.iter().any(|request| matches!(request, Request::Frame(_, head, _) if head.is_commit()))
    }

    /// Whether a peer reports in it that this instance is committed.
    pub fn commits(&self, instance: Instance) -> bool {
        let is_it = |head: &Head| head.is_commit() && head.instance == instance;
        self.0.iter().any(|request| matches!(request, Request::Frame(_, head, _) if is_it(head)))
    }

    /// Has what is late given up or recovered.
    pub fn remedy(&mut self, late: Vec<Event>) {
        self.0.extend(late.into_iter().filter_map(|event| match event {
            Event::GiveUp(instance) => Some(Request::GiveUp(instance)),
            Event::Recover(instance) => Some(Request::Recover(instance)),
            _ => None,
        }));
    }

    /// The first ones, as many as are asked at once.
    fn take_first(&mut self) -> Batch<M> {
        let mut bytes = 0;
        let is_next = |request: &Request<M>| {
            let is_one = bytes < MOST_BYTES;
            bytes += request.bytes();
            is_one
        };
        let count = self.0.iter().take(MOST_EVENTS).map(is_next).take_while(|is_next| *is_next).count();
        let rest = self.0.split_off(count);
        Batch(std::mem::replace(&mut self.0, rest))
    }
}

/// What came and the core wasn't asked yet, and until when that may wait for more.
pub struct Pending<M> {
    pub batch: Batch<M>,
    until: Option<Instant>,
}

impl<M> Default for Pending<M> {
    fn default() -> Pending<M> {
        Pending { batch: Batch::default(), until: None }
    }
}

impl<M> Pending<M> {
    /// When it is to be asked at the latest.
    pub fn due(&self) -> Option<Instant> {
        self.until
    }

    /// What is to be asked now. Where nobody waits for anything commits wait for what else comes: by themselves they
    /// would take a sync.
    pub fn take(&mut self, is_idle: bool, now: Instant) -> Batch<M> {
        let may_wait = is_idle && self.batch.is_commits();
        if self.batch.0.is_empty() || (may_wait && now < *self.until.get_or_insert(now + COMMITS_PATIENCE)) {
            return Batch::default();
        }
        let first = self.batch.take_first();
        self.until = (!self.batch.0.is_empty()).then_some(now);
        first
    }
}

#[cfg(test)]
mod tests {
    use super::*;

    /// A frame of this kind and length: a Commit by 5.
    fn frame(kind: u8, length: usize) -> Request<()> {
        let mut bytes = vec![0; length.max(48)];
        bytes[..4].copy_from_slice(&[0x45, 0x50, 3, kind]);
        bytes[22] = 7;
        Request::Frame(1, Head::read(&bytes).unwrap(), bytes)
    }

    #[test]
    fn commits_wait_for_company() {
        let start = Instant::now();
        let mut pending = Pending::default();
        assert!(pending.take(true, start).0.is_empty() && pending.due().is_none());
        pending.batch.0.push(frame(5, 0));
        assert!(pending.take(true, start).0.is_empty());
        assert_eq!(pending.due(), Some(start + COMMITS_PATIENCE));
        assert_eq!(pending.take(true, start + COMMITS_PATIENCE).0.len(), 1);
        assert!(pending.due().is_none());
        // Where somebody waits, or something else came, they don't.
        pending.batch.0.push(frame(5, 0));
        assert_eq!(pending.take(false, start).0.len(), 1);
        pending.batch.0.extend([frame(5, 0), frame(1, 0)]);
        let batch = pending.take(true, start);
        let instance = Instance { replica: 0, number: 7 };
        assert!(batch.has_commits() && batch.commits(instance) && !batch.is_commits());
        assert_eq!(batch.committed(&[Ok(()), Ok(())]).collect::<Vec<_>>(), [instance]);
        assert_eq!(batch.committed(&[Err(Fault::Memory), Ok(())]).count(), 0);
    }

    #[test]
    fn so_much_is_asked_at_once() {
        let now = Instant::now();
        let mut pending = Pending::default();
        pending.batch.0.extend((0..MOST_EVENTS + 1).map(|_| frame(1, 0)));
        assert_eq!((pending.take(true, now).0.len(), pending.due()), (MOST_EVENTS, Some(now)));
        assert_eq!((pending.take(true, now).0.len(), pending.due()), (1, None));
        pending.batch.0.extend((0..5).map(|_| frame(1, 400_000)));
        pending.batch.remedy(vec![Event::GiveUp(Instance { replica: 0, number: 1 })]);
        assert_eq!([0; 3].map(|_| pending.take(true, now).0.len()), [3, 3, 0]);
    }
}
