//! From one generation to the next.
use super::{Act, Change, Host, HostFault, LISTENING, Name, Next, Plant, Work, applying, cluster_of, starting};
use crate::host::acting::Acting;
use crate::host::{Refusal, Told};
use crate::parts::calls::Fate;
use crate::parts::fetch::{Fetch, Form};
use crate::parts::generation::{Generation, Stage};
use crate::parts::opening::Opening;
use crate::parts::under_way::Waiting;
use crate::{State, Succession};
use std::collections::BTreeSet;
use std::time::{Duration, Instant};

impl Host {
    /// Goes on to a later generation, where that is due.
    pub(super) fn go_on(&mut self, now: Instant) -> Result<(), HostFault> {
        if self.progress.generation.is_sealed() {
            return if self.progress.serves_on(now) { Ok(()) } else { self.change() };
        }
        self.catch_up(now)
    }

    /// Where a seal is under way: has room made for the next generation.
    pub(super) fn prepare_next(&mut self) {
        let next = self.progress.generation.number.saturating_add(1);
        if self.progress.generation.stage != Stage::Open && self.prepared != next {
            self.prepared = next;
            self.out.work.push(Work::Prepare { generation: next });
        }
    }

    fn put(generation: u32, name: Name, bytes: Vec<u8>) -> Act {
        Act::Put { generation, name, bytes }
    }

    /// The next generation begins in memory, and on the disk by a reference to the log that is left.
    fn change(&mut self) -> Result<(), HostFault> {
        if let Stage::Sealed(since) = self.progress.generation.stage {
            self.changes_since = Some(since);
        }
        let Some(acting) = &self.acting else { return Ok(()) };
        let (left, members) = (acting.generation, acting.members.clone());
        if let Some(members) = &members {
            self.check_members(members, left + 1)?;
        }
        let cluster = members.as_ref().and_then(cluster_of).unwrap_or(self.cluster());
        let Some(acting) = &mut self.acting else { return Ok(()) };
        let reference = acting.reference(cluster)?;
        let generation = reference.generation();
        self.files.unwritten = None;
        let checkpoint = acting.replica.succeed(&Succession::new(reference, self.progress.place.replica))?;
        acting.begin(generation);
        self.applying.as_mut().into_iter().for_each(|it| it.begin(generation));
        let log = acting.lend_whole()?.map(|bytes| Host::put(generation, Name::Log, bytes));
        let named = Host::put(generation, Name::Reference, reference.bytes());
        let mark = Host::put(left, Name::Left, generation.to_string().into());
        let is_late = self.settings.has(Plant::LateReference);
        self.acts.extend((!is_late).then(|| named.clone()));
        self.acts.extend(log);
        self.acts.push(mark);
        self.files.letting = Some(reference);
        self.out.work.push(Work::LetGo { generation, checkpoint });
        self.counts.changes += 1;
        let next = Next { replicas: cluster.replicas().into(), members };
        self.write(Vec::new(), Vec::new(), (true, Some(Change::Sealed(reference, next))));
        self.acts.extend(is_late.then_some(named));
        Ok(())
    }

    /// A generation has begun, and its log is on the disk.
    pub(super) fn begin_generation(&mut self, change: Change, now: Instant) -> Result<(), HostFault> {
        let Some(acting) = &self.acting else { return Ok(()) };
        let (number, is_start) = (acting.generation, matches!(change, Change::Start));
        let next = match change {
            Change::Start => None,
            Change::Sealed(reference, next) => {
                self.files.leave(reference);
                // (what wasn't done before the seal never is: each is proposed again)
                for Waiting { members, .. } in self.calls.waiting.take() {
                    if !self.settings.has(Plant::ForgetsWaiting) {
                        self.calls.held.extend(members);
                    }
                }
                Some(next)
            }
            Change::Taken(bytes, next) => {
                self.files.keep(number, bytes, None);
                (self.files.unwritten, self.files.letting, self.files.writing) = (None, None, None);
                Some(next)
            }
        };
        if let Some(Next { replicas, members }) = next {
            self.meet(replicas, members, now)?;
        }
        if !is_start {
            // (no call is under way, and each client goes on with its requests)
            self.ids.free_all();
            self.progress.others.begin(number);
        }
        let state = State { generation: number, ..State::default() };
        let took = self.changes_since.take().map(|since| now.saturating_duration_since(since));
        self.changed_in = took.unwrap_or(self.changed_in);
        self.progress.generation = Generation::new(state, took.unwrap_or_default(), now);
        self.progress.watch.begin(now);
        if self.settings.has(Plant::FixedWaits) {
            self.progress.peers().for_each(|peer| self.progress.watch.measure(peer, Duration::ZERO));
            self.progress.watch.hurry();
        }
        self.reads.begin();
        self.pending = Default::default();
        // (what was asked of the generation before isn't answered; hellos at a start are)
        self.asked.retain(|(_, message)| matches!(message, crate::parts::messages::Message::Hello { .. }));
        self.wanting = BTreeSet::new();
        (self.fetch, self.going, self.taken, self.joins) = (None, None, None, None);
        self.lag.end();
        self.next_execution = now;
        self.recollect()?;
        if is_start && self.progress.generation.entries > 0 {
            self.listens_until = now + LISTENING;
        }
        let Some(acting) = &mut self.acting else { return Ok(()) };
        match self.progress.generation.entries {
            0 => self.calls.room.begin(acting.map(), self.progress.place.replicas),
            _ => self.calls.room.resume(acting.map(), self.progress.place.replicas),
        }
        if acting.replica.state()?.is_sealed {
            self.progress.generation.stage = Stage::Sealed(now);
            self.note_sealed();
        }
        for (token, granted) in self.wishes.fulfil(number, &self.named) {
            let outcome = granted.map_or_else(|fault| Told::Refused(Refusal::Wish(fault)), |()| Told::Changed(number));
            self.reply(token, outcome);
        }
        self.asking = None;
        if !self.wishes.is_empty() {
            self.ask_for_wishes(now);
        }
        self.greet_all();
        self.note_left();
        if self.files.is_due(self.settings.checkpoint, self.progress.place) {
            self.write_opening();
        }
        Ok(())
    }

    /// Asks for an opening, where peers are in a later generation and this replica doesn't close its own.
    pub(super) fn catch_up(&mut self, now: Instant) -> Result<(), HostFault> {
        if let Some((generation, bytes)) = self.taken.take()
            && generation > self.progress.generation.number
        {
            return self.take_opening(generation, bytes, now);
        }
        if self.going.is_some() {
            self.say_going(now);
            return Ok(());
        }
        if let Some(fetch) = self.fetch.as_mut().filter(|fetch| !fetch.is_over(now)) {
            let (from, again) = (fetch.from(), if fetch.due() <= now { fetch.again(now) } else { Vec::new() });
            again.into_iter().for_each(|message| self.send(from, message.write()));
            return Ok(());
        }
        let own = self.progress.generation.number;
        let ahead = self.progress.ahead(|there| match self.settings.identity {
            _ if self.settings.has(Plant::StaysBehind) => false,
            Some(_) if self.acting.is_none() => there > self.looked,
            None if self.acting.is_none() => self.least > 0 && there >= self.least,
            _ => there > own,
        });
        if ahead.is_empty() {
            self.fetch = None;
        }
        let Some(peer) = self.lag.whom(&ahead, &mut self.random, now) else { return Ok(()) };
        // (with an opening comes the machine's state; what logs have done it hasn't)
        let form = if self.applying.is_some() { Form::Opening } else { Form::Way };
        let (fetch, want) = Fetch::begin(Vec::new(), form, peer, now);
        self.fetch = Some(fetch);
        self.send(peer, want.write());
        Ok(())
    }

    /// Whether nothing was done in the present generation, by what the next one opens with, under a number of this
    /// replica that its log doesn't have: each is in the log before anybody hears of it.
    fn check_own(&self, opening: &Opening) -> Result<(), HostFault> {
        let (generation, last) = (self.progress.generation.number, self.progress.generation.last);
        let is_next = generation > 0 && opening.generation == generation.saturating_add(1);
        let me = self.progress.place.replica;
        let own = opening.executed.iter().filter(|it| is_next && it.replica == me && it.number > last);
        match own.min().filter(|_| !self.progress.is_trusting) {
            Some(instance) => Err(HostFault::Disowned { generation, instance: *instance }),
            None => Ok(()),
        }
    }

    /// Begins the generation of an opening that a peer has handed.
    fn take_opening(&mut self, generation: u32, bytes: Vec<u8>, now: Instant) -> Result<(), HostFault> {
        self.fetch = None;
        self.lag.end();
        // (the state of the machine comes before the opening)
        let front = match &self.applying {
            None => 0,
            Some(_) => match applying::split(&bytes) {
                Some((.., rest)) => bytes.len() - rest.len(),
                None => return Ok(()),
            },
        };
        let (state, bytes) = (bytes[..front].to_vec(), bytes[front..].to_vec());
        let fits = |it: &Opening| it.generation == generation && generation >= self.least;
        let Some(opening) = Opening::of(&bytes).filter(fits) else { return Ok(()) };
        let members = opening.members();
        if self.acting.is_none() && self.settings.identity.is_some() {
            let own = members.as_ref().and_then(|members| members.0.get(usize::from(self.progress.place.replica)));
            if own.is_none_or(|own| own.identity != self.settings.identity) {
                self.looked = generation;
                return Ok(());
            }
        } else if let Some(members) = &members {
            self.check_members(members, generation)?;
        }
        self.check_own(&opening)?;
        let Some(replica) = starting::taken(&self.settings, opening.replicas, &bytes) else { return Ok(()) };
        if let Some(applying) = &mut self.applying
            && !self.settings.has(Plant::StaleMachine)
            && !applying.restore(generation, &state).map_err(HostFault::Restore)?
        {
            return Ok(());
        }
        let next = Next { replicas: opening.replicas.into(), members };
        let before = self.progress.generation.number;
        let is_own = self.progress.has_met_all();
        for (fate, Waiting { members, .. }) in self.calls.settle(&opening, before, is_own) {
            let outcome = match fate {
                _ if self.settings.has(Plant::TakenTwice) => None,
                Fate::Undone => None,
                Fate::Unseen => Some(Told::DoneUnseen),
                Fate::Doubtful if self.settings.has(Plant::DeniesDoubtful) => Some(Told::Refused(Refusal::Late)),
                Fate::Doubtful => Some(Told::Doubtful),
            };
            match outcome {
                None => self.calls.held.extend(members),
                Some(outcome) => members.iter().for_each(|held| self.reply(held.token, outcome.clone())),
            }
        }
        let acting = Acting::new(replica, generation, opening.map, &self.settings);
        let mut acting = acting.reporting(self.applying.is_some());
        let log = acting.lend_whole()?.map(|bytes| Host::put(generation, Name::Log, bytes));
        let length = bytes.len() as u64;
        // (the opening last: before it is there, the generation isn't)
        self.acts.extend(log);
        self.acts.extend(self.applying.is_some().then(|| Host::put(generation, Name::Machine, state)));
        self.acts.push(Host::put(generation, Name::Opening, bytes));
        if before > 0 {
            self.acts.push(Host::put(before, Name::Left, generation.to_string().into()));
        }
        self.acting = Some(acting);
        self.changes_since = Some(now);
        // (what it has beyond what was executed here isn't known by command)
        self.report_changes(Vec::new(), self.reports_changes);
        (self.counts.changes, self.counts.taken) = (self.counts.changes + 1, self.counts.taken + 1);
        self.write(Vec::new(), Vec::new(), (true, Some(Change::Taken(length, next))));
        Ok(())
    }
}
