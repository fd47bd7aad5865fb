//! Calls: from when they are asked until they are proposed.
use super::Host;
use super::held::{Batch, Held, Request};
use crate::host::{Begun, Refusal, Reply, Told};
use crate::parts::calls::{self, Called, Released};
use crate::parts::together::Whole;
use crate::{Call, OwnedCommand};
use std::cell::Cell;
use std::sync::Arc;
use std::time::Instant;

impl Host {
    /// A client asks for a command to be done. It is answered under this number, once: [`Reply`].
    ///
    /// The command is proposed as a request of its own, or with others in one command
    /// ([`Settings::together`](super::Settings::together)); and again, in another request, where it wasn't done. Who
    /// isn't answered, as the host has ended before, doesn't know whether it was done. A
    /// [`Command::Seal`](crate::Command::Seal) is the host's to propose, and is refused.
    ///
    /// ```
    /// # use epaxos::{Cluster, host::{Host, Settings}, service::MemoryDisk};
    /// # use std::time::Instant;
    /// use epaxos::OwnedCommand;
    /// use epaxos::host::{Refusal, Reply, Told};
    ///
    /// # fn main() -> Result<(), Box<dyn std::error::Error>> {
    /// let now = Instant::now();
    /// let mut host = Host::join(&Settings::new(Cluster::Three, 0), &MemoryDisk::default(), now)?;
    /// host.call(7, OwnedCommand::Get { key: b"x".into() }, now);
    /// assert_eq!(host.turn(now)?.replies[0], Reply { token: 7, told: Told::Refused(Refusal::Joining) });
    /// # Ok(()) }
    /// ```
    pub fn call(&mut self, token: u64, command: OwnedCommand, now: Instant) {
        self.hold(Held { since: now, token, command, is_given_up: false, begun: None });
    }

    /// The same, and another thread may [give it up](Begun::give_up) by `begun`, and knows at once whether it was
    /// proposed by then. (A reply comes all the same.)
    ///
    /// ```
    /// # use epaxos::{Cluster, host::{Host, Settings}, service::MemoryDisk};
    /// # use std::{sync::Arc, time::Instant};
    /// use epaxos::OwnedCommand;
    /// use epaxos::host::Begun;
    ///
    /// # fn main() -> Result<(), Box<dyn std::error::Error>> {
    /// let now = Instant::now();
    /// let mut host = Host::begin(&Settings::new(Cluster::Three, 0), &MemoryDisk::default(), now)?;
    /// let begun = Arc::<Begun>::default();
    /// host.call_with(7, OwnedCommand::Del { key: b"x".into() }, begun.clone(), now);
    /// assert!(begun.give_up()); // nobody else is there, so that it wasn't proposed
    /// # Ok(()) }
    /// ```
    pub fn call_with(&mut self, token: u64, command: OwnedCommand, begun: Arc<Begun>, now: Instant) {
        self.hold(Held { since: now, token, command, is_given_up: false, begun: Some(begun) });
    }

    /// How many more calls the host can make use of now: those that it may propose, and some that wait. Whoever has
    /// more to ask for many clients may let these take turns meanwhile: who comes late then waits for fewer.
    ///
    /// ```
    /// # use epaxos::{Cluster, OwnedCommand, host::{Host, Settings}, service::MemoryDisk};
    /// # use std::time::Instant;
    /// # fn main() -> Result<(), Box<dyn std::error::Error>> {
    /// let now = Instant::now();
    /// let mut host = Host::begin(&Settings::new(Cluster::Three, 0), &MemoryDisk::default(), now)?;
    /// let before = host.wanted();
    /// host.call(7, OwnedCommand::Del { key: b"x".into() }, now);
    /// assert_eq!(host.wanted(), before - 1);
    /// # Ok(()) }
    /// ```
    pub fn wanted(&self) -> usize {
        self.calls.wanted()
    }

    fn hold(&mut self, held: Held) {
        self.due = self.due.min(held.since);
        let refusal = match &held.command {
            _ if self.acting.is_none() => Some(Refusal::Joining),
            _ if self.has_left() => Some(Refusal::Left),
            _ if self.ends => Some(Refusal::Ending),
            OwnedCommand::Seal { .. } => Some(Refusal::Fault(crate::Fault::OutOfRange)),
            _ if self.calls.held.len() + self.reads.count() >= self.settings.most => Some(Refusal::Full),
            _ => None,
        };
        match refusal {
            Some(refusal) => self.reply(held.token, Told::Refused(refusal)),
            None => self.calls.held.push_back(held),
        }
    }

    /// Whoever asked under this number waits no more: a client that went away, or whose patience has ended. It is
    /// answered once all the same. What wasn't proposed yet never is, and a read is answered no more:
    /// [`Refusal::GivenUp`]. A command that was proposed may still be done, and whoever asked is answered so; where it
    /// wasn't done it is refused, and not proposed again. Nothing comes of a wish, nor of what was answered already.
    ///
    /// ```
    /// # use epaxos::{Cluster, host::{Host, Settings}, service::MemoryDisk};
    /// # use std::time::Instant;
    /// use epaxos::OwnedCommand;
    /// use epaxos::host::{Refusal, Reply, Told};
    ///
    /// # fn main() -> Result<(), Box<dyn std::error::Error>> {
    /// let now = Instant::now();
    /// let mut host = Host::begin(&Settings::new(Cluster::Three, 0), &MemoryDisk::default(), now)?;
    /// host.call(7, OwnedCommand::Del { key: b"x".into() }, now);
    /// host.give_up(7, now);
    /// assert_eq!(host.turn(now)?.replies, [Reply { token: 7, told: Told::Refused(Refusal::GivenUp) }]);
    /// # Ok(()) }
    /// ```
    pub fn give_up(&mut self, token: u64, now: Instant) {
        self.due = self.due.min(now);
        let was_reading = Cell::new(false);
        self.reads.drop_where(|reader| {
            was_reading.set(was_reading.get() || *reader == token);
            *reader == token
        });
        let held = self.calls.held.iter().position(|held| held.token == token);
        let was_held = held.and_then(|place| self.calls.held.remove(place)).is_some();
        let here = self.here.iter().position(|here| here.token == token).map(|place| self.here.remove(place));
        if was_held || was_reading.get() || here.is_some() {
            return self.reply(token, Told::Refused(Refusal::GivenUp));
        }
        // (what the core has taken and isn't on the disk is proposed too)
        let taken = self.busy.iter_mut().flat_map(|busy| &mut busy.requests);
        let taken = taken.flat_map(|request| match request {
            Request::Propose(_, members) => members.iter_mut(),
            _ => [].iter_mut(),
        });
        let mut proposed = self.calls.waiting.members_mut().chain(taken).filter(|held| held.token == token);
        let is_proposed = proposed.next().map(|held| held.is_given_up = true).is_some();
        drop(proposed);
        if is_proposed && self.settings.has(super::Plant::GivesUpProposed) {
            self.reply(token, Told::Refused(Refusal::GivenUp));
        }
    }

    pub(super) fn reply(&mut self, token: u64, outcome: Told) {
        self.out.replies.push(Reply { token, told: outcome });
    }

    /// What is to be asked now.
    pub(super) fn take_pending(&mut self, now: Instant) -> Batch {
        let is_idle = self.calls.is_empty() && !self.progress.generation.is_holding() && !self.reads.is_waiting();
        self.pending.take(is_idle, now)
    }

    /// Has what clients call proposed, or refused.
    pub(super) fn release(&mut self, batch: &mut Batch, now: Instant) {
        if self.ends {
            self.refuse_held();
        }
        let Released { wholes, refused, is_alone } = self.calls.release(&mut self.progress, now);
        for (held, why) in refused {
            let why = if held.is_given_up() { Refusal::GivenUp } else { why.into() };
            self.reply(held.token, Told::Refused(why));
        }
        if is_alone {
            for token in self.reads.take() {
                self.reply(token, Told::Refused(Refusal::Alone));
            }
        }
        wholes.into_iter().for_each(|whole| self.propose(whole, batch, now));
    }

    fn propose(&mut self, Whole { members, command }: Whole<Held>, batch: &mut Batch, now: Instant) {
        // (there are more numbers than may be under way)
        let Some((client, request)) = self.ids.take() else {
            self.calls.room.settle(&command, None);
            return self.calls.hold_again(members);
        };
        let seen = if self.settings.has(super::Plant::SeenZero) { 0 } else { self.seen };
        let proposal = self.progress.proposal(Call { client, request, seen }, command, now);
        batch.0.push(Request::Propose(proposal, members));
    }

    /// Has the generation sealed, where that is due.
    pub(super) fn seal(&mut self, batch: &mut Batch, now: Instant) {
        let is_used = self.is_opening_used(now);
        let is_away = self.progress.is_alone() || self.progress.is_behind() || self.ends;
        if is_away || !self.progress.generation.wants_seal(&self.settings.limits(), is_used, now) {
            return;
        }
        let Some(value) = self.seal_value() else { return };
        let (client, request) = self.ids.seal();
        batch.0.push(self.progress.seal(Call::new(client, request), value, now));
    }

    /// Has what is late given up or recovered.
    pub(super) fn remedy_late(&mut self, batch: &mut Batch, now: Instant) {
        let late = self.progress.watch.take_late(now);
        if !self.settings.has(super::Plant::NoRecovery) {
            batch.remedy(late);
        }
    }
}

impl From<calls::Refusal> for Refusal {
    fn from(why: calls::Refusal) -> Refusal {
        match why {
            calls::Refusal::Late => Refusal::Late,
            calls::Refusal::Alone => Refusal::Alone,
            calls::Refusal::MapFull => Refusal::MapFull,
        }
    }
}
