//! What the core is asked, and what comes of it.
use super::acting::{Outcome, Receipt};
use super::held::{Batch, Request};
use super::{BETWEEN_EXECUTIONS, BETWEEN_EXECUTIONS_ASIDE, Host, HostFault, Plant};
use crate::host::{Act, Done, KeyChange, Name, Refusal, Told};
use crate::parts::calls::Accepted;
use crate::parts::commits::Committed;
use crate::parts::executions::Executions;
use crate::parts::generation::Stage;
use crate::parts::together::answers;
use crate::parts::under_way::Waiting;
use crate::{Event, Fault, Instance, MOST_COMMANDS, OwnedAnswer, OwnedCommand, Proposed};
use std::collections::BTreeMap;
use std::sync::Arc;
use std::time::Instant;

impl Host {
    /// Asks all of a batch with one sync.
    pub(super) fn carry_out(&mut self, batch: Batch, now: Instant) -> Result<(), HostFault> {
        let is_wanted = self.reads_want(&batch);
        let is_closing = self.progress.generation.stage == Stage::Committed;
        let is_aside = !batch.0.is_empty() && now >= self.next_aside;
        let is_due = self.executions.is_due() && (now >= self.next_execution || is_closing || is_aside);
        let executes_all = is_wanted || is_due || !self.here.is_empty();
        self.here.iter_mut().for_each(|here| here.is_due = true);
        let Some(acting) = self.acting.as_mut().filter(|_| executes_all || !batch.0.is_empty()) else { return Ok(()) };
        let events: Vec<Event> = batch.0.iter().map(Request::event).collect();
        let done = acting.replica.take_all(&events);
        drop(events);
        if let Some(Err(Fault::Ended(why))) = done.iter().find(|done| matches!(done, Err(Fault::Ended(_)))) {
            return Err(HostFault::Core(Fault::Ended(why.clone())));
        }
        match acting.replica.advance() {
            // (where there is no memory, something stays to be executed)
            Ok(()) | Err(Fault::Memory | Fault::StampFull) => {}
            Err(fault) => return Err(HostFault::Core(fault)),
        }
        if executes_all {
            batch.committed(&done).for_each(|instance| self.executions.commit(instance));
            self.execute_due(now)?;
        }
        let Some(acting) = &mut self.acting else { return Ok(()) };
        let (lent, generation) = (acting.lend()?, acting.generation);
        let is_idle = lent.is_none();
        self.acts.extend(lent.map(|(bytes, is_anew)| match is_anew {
            true => Act::Put { generation, name: Name::Log, bytes: Arc::unwrap_or_clone(bytes) },
            false => Act::Append { generation, bytes },
        }));
        if is_idle && self.acts.is_empty() {
            let busy = super::Busy { number: 0, requests: batch.0, done, is_core: true, change: None };
            return self.finish(busy, now);
        }
        self.write(batch.0, done, (true, None));
        if self.settings.has(Plant::BeforeSync)
            && let Some(busy) = self.busy.take()
        {
            return self.finish(busy, now);
        }
        Ok(())
    }

    /// Executes what is to be tried, others' too.
    fn execute_due(&mut self, now: Instant) -> Result<(), HostFault> {
        (self.next_aside, self.next_execution) = (now + BETWEEN_EXECUTIONS_ASIDE, now + BETWEEN_EXECUTIONS);
        let Some(acting) = &mut self.acting else { return Ok(()) };
        let tried = self.executions.take();
        let events: Vec<Event> = tried.iter().copied().map(Event::Execute).collect();
        for (instance, done) in tried.into_iter().zip(acting.replica.take_all(&events)) {
            match done {
                Ok(()) => {}
                Err(Fault::NotCommitted(other)) => {
                    self.executions.wait(instance, other);
                    // (no frame may have named it)
                    self.progress.watch.note(other, None, now);
                }
                Err(Fault::Memory | Fault::StampFull) => self.executions.put_back(instance),
                Err(fault) => return Err(HostFault::Core(fault)),
            }
        }
        Ok(())
    }

    /// What came of a request. `proposed` has the instances of those that are proposals, in their order.
    pub(super) fn accept(
        &mut self,
        asked: (Request, Result<(), Fault>),
        proposed: &mut impl Iterator<Item = Proposed>,
        now: Instant,
    ) -> Result<(), HostFault> {
        match self.calls.accept(&mut self.progress, asked, proposed, now).ok_or(HostFault::NotAsked)? {
            Accepted::Nothing => {}
            Accepted::UnderWay(call) => {
                self.counts.proposals += 1;
                if self.settings.has(Plant::EarlyAnswer) {
                    self.answer_early(call);
                }
            }
            Accepted::Held(call) => self.ids.give_back(call.client),
            Accepted::Refused(call, members, fault) => {
                self.ids.give_back(call.client);
                let outcome = Told::Refused(Refusal::Fault(fault));
                members.iter().for_each(|held| self.reply(held.token, outcome.clone()));
            }
        }
        Ok(())
    }

    /// Who puts something is answered that it was done, before it is.
    fn answer_early(&mut self, call: (u32, u32)) {
        let Some(waiting) = self.calls.waiting.remove(call) else { return };
        if matches!(waiting.command, OwnedCommand::Put { .. }) {
            waiting.members.iter().for_each(|held| self.reply(held.token, Told::Done(OwnedAnswer::Absent)));
        } else {
            self.calls.waiting.insert(call, waiting);
        }
    }

    /// Hands out what is on the disk.
    pub(super) fn hand_out(&mut self, outcome: Outcome, now: Instant) {
        outcome.committed.iter().for_each(|instance| self.executions.commit(*instance));
        self.executions.drop_executed(&outcome.tried);
        let Outcome { entries, frames, mut receipts, bytes, executed, changes, lacks_changes, is_sealed, .. } = outcome;
        if entries > self.progress.generation.entries {
            self.progress.generation.entries = entries;
            self.progress.watch.change();
        }
        if !bytes.is_empty() {
            self.out.receipts.extend(bytes);
            self.out.receipts_of = self.progress.generation.number;
        }
        let mut replied = self.note_executed(executed);
        self.report_changes(changes, lacks_changes);
        for (to, frame) in frames {
            self.progress.note_own_frame(&frame, to, now);
            if self.progress.others.is_heard(to) {
                self.send(to, frame);
            }
        }
        if self.settings.has(Plant::Swapped) && receipts.len() > 1 {
            let [one, other, ..] = &mut receipts[..] else { return };
            std::mem::swap(&mut one.answer, &mut other.answer);
        }
        receipts.into_iter().for_each(|receipt| self.answer_receipt(receipt, &mut replied));
        if is_sealed && !self.progress.generation.is_sealed() {
            self.progress.generation.stage = Stage::Sealed(now);
            self.note_sealed();
            self.greet_all();
        }
    }

    /// Behind a place where changes are lacking none is reported in the same turn.
    pub(super) fn report_changes(&mut self, mut changes: Vec<KeyChange>, lacks_more: bool) {
        if self.settings.has(Plant::LosesChange) && changes.len() > 1 {
            changes.pop();
        }
        if !self.out.lacks_changes {
            self.out.changes.extend(changes);
            self.out.lacks_changes = lacks_more;
        }
    }

    /// What was executed: the machine does it, and it is reported to whoever wants to know. What it replied in the
    /// instances of this replica.
    pub(super) fn note_executed(&mut self, executed: Vec<Done>) -> BTreeMap<Instance, Vec<u8>> {
        let me = self.progress.place.replica;
        let replied = self.applying.as_mut().map(|it| it.apply(&executed, me));
        if self.settings.tells_executed {
            self.out.executed.extend(executed);
        }
        replied.unwrap_or_default()
    }

    fn answer_receipt(&mut self, receipt: Receipt, replied: &mut BTreeMap<Instance, Vec<u8>>) {
        let Receipt { client, request, stamp, entry, answer } = receipt;
        self.seen = self.seen.max(stamp);
        if client == self.ids.sealer() {
            self.progress.end_own_seal(answer == OwnedAnswer::Lost);
        }
        // (a receipt for nobody is of a proposal before this start)
        let waiting = self.calls.answer((client, request), &answer.lent());
        let Some(Waiting { instance, members, .. }) = waiting else { return };
        self.ids.give_back(client);
        // (one that is undone is answered: what it required wasn't there)
        let is_lost = matches!(answer, OwnedAnswer::Lost | OwnedAnswer::Closed);
        if is_lost || (self.settings.has(Plant::DoneTwice) && entry % 8 == 0) {
            return self.calls.hold_again(members);
        }
        if self.settings.has(Plant::ToldTwice) && entry % 64 == 0 {
            members.iter().for_each(|held| self.reply(held.token, Told::Done(answer.clone())));
        }
        let mut answers = answers(answer, members.len());
        if self.settings.has(Plant::ToldAnothers) {
            answers.rotate_left(1);
        }
        for (held, answer) in members.into_iter().zip(answers) {
            if held.is_given_up && self.settings.has(Plant::GivesUpProposed) {
                continue;
            }
            let replied = replied.remove(&instance).map(Told::Replied);
            self.reply(held.token, replied.unwrap_or(Told::Done(answer)));
        }
    }

    /// Looks for open instances.
    pub(super) fn look(&mut self, now: Instant) -> Result<(), HostFault> {
        let Some(acting) = &mut self.acting else { return Ok(()) };
        if let Some(cost) = self.progress.look(&mut acting.replica, now)? {
            self.progress.watch.end_whole_look(cost, now);
        }
        Ok(())
    }

    /// Learns what is committed in a generation that the core goes on with.
    pub(super) fn recollect(&mut self) -> Result<(), HostFault> {
        self.executions = Executions::new(self.progress.place.replicas);
        let Some(acting) = &mut self.acting else { return Ok(()) };
        let state = acting.replica.state()?;
        let (used, dependencies, entries) = (state.used, state.dependencies, state.entries);
        let generation = &mut self.progress.generation;
        (generation.used, generation.last, generation.dependencies) = (used.min(MOST_COMMANDS), used, dependencies);
        (generation.entries, generation.first_entries) = (entries, entries);
        self.progress.recollect(&mut acting.replica)?;
        let none = Committed::new(self.progress.place.replicas);
        self.progress.commits.here.beyond(&none).for_each(|instance| self.executions.commit(instance));
        if entries > 0 {
            self.executions.drop_executed(&acting.replica.report(0, 0)?.executed_instances().collect());
        }
        Ok(())
    }
}
