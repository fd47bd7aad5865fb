//! How far a replica and its peers are in a generation, as frames and their hosts' messages say.
use crate::parts::batch::{Proposal, Request};
use crate::parts::commits::{Commits, Committed, Lacking};
use crate::parts::distances::Distances;
use crate::parts::frames::Head;
use crate::parts::generation::Generation;
use crate::parts::messages::Message;
use crate::parts::others::Others;
use crate::parts::place::{MOST_REPLICAS, Place};
use crate::parts::presence::Presence;
use crate::parts::queries::{Queries, Report};
use crate::parts::watch::Watch;
use crate::{Call, Instance, MOST_COMMANDS, OpenFault, OwnedCommand, Phase, State};
use std::collections::BTreeSet;
use std::time::{Duration, Instant};

/// So many bytes of Commits are sent a peer again at once.
const MOST_AGAIN: usize = 4 << 20;

/// So many open instances are reported at once.
const MOST_FOUND: u8 = 255;
/// A pass over what the core knows, which each of these takes, is so long an entry at least.
const PASS: Duration = Duration::from_nanos(10);

/// What is counted since the start.
#[derive(Clone, Copy, Default)]
pub struct Counts {
    /// Second phases that were begun here.
    pub accepts: u64,
    /// Recoveries that were begun here.
    pub recoveries: u64,
    /// Commits that were sent again.
    pub sent_again: u64,
    /// What came and was no frame, or none that the core takes.
    pub refused: u64,
}

/// What is to be done with a frame that has come.
pub enum Came {
    /// The core is to take it.
    Frame(Head, Vec<u8>),
    /// Its sender lags, and is to be notified.
    Late,
    /// Nothing now.
    Nothing,
}

/// How far they are.
pub struct Progress {
    pub place: Place,
    pub generation: Generation,
    pub others: Others,
    pub commits: Commits,
    /// How far the peers are, and which of them proposals spare.
    pub distances: Distances,
    pub watch: Watch,
    /// Which peers' links are open, those of machines outside too.
    pub links: Vec<bool>,
    /// Whether waits go by how long answers take; not so where that is planted.
    pub measures: bool,
    /// Whether it never doubts that its log is the newest one, where that is planted.
    pub is_trusting: bool,
    pub counts: Counts,
}

impl Progress {
    /// At a start. `seed`: for what is left to chance.
    ///
    /// # Errors
    ///
    /// As [`Watch::new`].
    pub fn new(place: Place, state: State, seed: u64, now: Instant) -> Result<Progress, OpenFault> {
        Ok(Progress::with(Watch::new(place, now, seed)?, place, state, now))
    }

    /// The same, over a watch that is there.
    pub fn with(watch: Watch, place: Place, state: State, now: Instant) -> Progress {
        Progress {
            place,
            generation: Generation::new(state, Duration::ZERO, now),
            others: Others::new(place.replicas),
            commits: Commits::new(place.replicas),
            distances: Distances::new(place.replicas, place.replica, now),
            watch,
            links: vec![false; MOST_REPLICAS.into()],
            measures: true,
            is_trusting: false,
            counts: Counts::default(),
        }
    }

    /// From now on there are so many replicas.
    ///
    /// # Errors
    ///
    /// As [`Watch::new`]; nothing has changed then.
    pub fn resize(&mut self, replicas: usize, seed: u64, now: Instant) -> Result<(), OpenFault> {
        let place = Place { replicas, ..self.place };
        self.watch = Watch::new(place, now, seed)?;
        self.place = place;
        self.others.resize(replicas);
        self.commits = Commits::new(replicas);
        self.distances = Distances::new(replicas, self.place.replica, now);
        let linked = |peer: &u8| self.links.get(usize::from(*peer)).is_some_and(|is_open| *is_open);
        self.peers().filter(linked).for_each(|peer| self.watch.open(peer, now));
        Ok(())
    }

    /// All replicas but this one.
    pub fn peers(&self) -> impl Iterator<Item = u8> + use<> {
        let (me, replicas) = (self.place.replica, self.place.replicas as u8);
        (0..replicas).filter(move |replica| *replica != me)
    }

    /// Whether the link to a peer is open.
    pub fn has_link(&self, peer: u8) -> bool {
        self.links.get(usize::from(peer)).is_some_and(|is_open| *is_open)
    }

    /// Whether frames to a peer go out: its link is open, and it has reported what it saw of this replica.
    pub fn is_reached(&self, peer: u8) -> bool {
        self.has_link(peer) && self.others.is_heard(peer)
    }

    /// The peers that are reached.
    pub fn reached(&self) -> impl Iterator<Item = u8> {
        self.peers().filter(|peer| self.is_reached(*peer))
    }

    /// Whether so few peers are reached that nothing can be recovered.
    pub fn is_alone(&self) -> bool {
        self.reached().count() < self.place.replicas / 2
    }

    /// Learns which peers are reached. What is to be sent them: pings, where these are due. `wanted`: for when this
    /// look was wanted at the latest.
    pub fn look_at_peers(&mut self, wanted: Instant, now: Instant) -> Vec<(u8, Vec<u8>)> {
        let mut pings = Vec::new();
        self.distances.look(now, wanted);
        for peer in self.peers() {
            let is_reached = self.is_reached(peer);
            self.distances.reach(peer, is_reached, now);
            let ping = self.distances.ping(peer, now);
            pings.extend(ping.map(|number| (peer, Message::Ping(number).write())));
            let presence = match is_reached {
                true if self.distances.is_silent(peer, now) => Presence::Silent,
                true => Presence::There,
                false => Presence::Gone,
            };
            self.watch.reach(peer, presence, now);
        }
        pings
    }

    /// A peer has answered a ping.
    pub fn hear_pong(&mut self, peer: u8, number: u64, now: Instant) {
        self.others.hear_answer(peer, number);
        let took = self.distances.answer(peer, number, now).filter(|_| self.measures);
        took.into_iter().for_each(|took| self.watch.measure(peer, took));
    }

    /// A peer reports how far it is. Whether it is the first time.
    pub fn hear_hello(&mut self, peer: u8, (generation, is_sealed, seen): (u32, bool, u32)) -> bool {
        let is_first = self.others.hear(peer, generation, is_sealed);
        if generation == self.generation.number {
            self.others.hear_seen(peer, seen);
        }
        is_first
    }

    /// Where this replica has forgotten what a peer has seen of it in this generation: how many entries it has of that.
    /// A peer that is heard for the first time can have seen none of this start: before, it was sent none.
    pub fn forgotten(&self, peer: u8, generation: u32, seen: u32) -> Option<u32> {
        let own = self.generation.number;
        let entries = match self.others.was_heard(peer) {
            _ if generation != own => 0,
            true => self.generation.entries,
            false => self.generation.first_entries,
        };
        // (what a machine before this one has reported isn't forgotten: it was another one's)
        (own > 0 && generation >= own && seen > entries).then_some(entries)
    }

    /// Whether a peer that is reached has left the present generation: nothing that is proposed there now is ever done.
    pub fn is_behind(&self) -> bool {
        let has_left = |peer| self.others.generation(peer) > self.generation.number;
        !self.is_trusting && self.reached().any(has_left)
    }

    /// Whether all others have reported in the present generation, since this start, what they saw of this replica: so
    /// nothing was done under its numbers there that it has forgotten.
    pub fn has_met_all(&self) -> bool {
        self.is_trusting || self.peers().all(|peer| self.others.is_met(peer))
    }

    /// What is reported to a peer of how far this replica is.
    pub fn hello(&self, peer: u8) -> Vec<u8> {
        let (generation, is_sealed) = (self.generation.number, self.generation.is_sealed());
        Message::Hello { generation, is_sealed, seen: self.others.seen(peer) }.write()
    }

    /// What is reported to a peer of what is committed here, so that both get what they lack.
    pub fn committed(&self) -> Vec<u8> {
        let (generation, committed) = (self.generation.number, self.commits.here.clone());
        Message::Committed { generation, committed }.write()
    }

    /// A frame has come. One of this generation is for the core, but for a Commit of what is committed: it would change
    /// nothing. One of an earlier generation is of a peer that lags; one of a later one is kept until this replica is
    /// there.
    pub fn hear_frame(&mut self, from: u8, bytes: Vec<u8>) -> Came {
        let own = self.generation.number;
        match Head::read(&bytes) {
            None => self.counts.refused += 1,
            Some(head) if head.generation == own => {
                if !head.is_commit() || !self.commits.here.has(head.instance) {
                    return Came::Frame(head, bytes);
                }
            }
            Some(head) if head.generation < own => return Came::Late,
            Some(head) => self.others.keep_early(from, head.generation, bytes),
        }
        Came::Nothing
    }

    /// The core has taken a frame of a peer.
    pub fn take_in(&mut self, from: u8, head: &Head, now: Instant) {
        self.others.see(from, head.entry);
        if head.is_commit() {
            self.commits.here.insert(head.instance);
            self.watch.forget(head.instance);
        } else if !self.commits.here.has(head.instance) {
            // (who goes on to a later phase leads it)
            self.watch.note(head.instance, head.is_past_first().then_some(None), now);
        }
        // (of a vote on what a recovery proposes anew it isn't known when it was asked for)
        if head.is_vote() && self.measures {
            let took = self.watch.answer(head.instance, from, now);
            took.into_iter().for_each(|took| self.distances.note(from, took, now));
        } else if head.is_past_first() && !self.commits.here.has(head.instance) {
            self.watch.put_off(head.instance, head.ballot, now);
        }
        if head.is_seal_committed() {
            self.commit_seal();
        } else if head.is_seal_proposed() {
            self.generation.note_seal(now);
        }
    }

    /// A proposal of now: it spares the peer that is lost, or is the farthest.
    pub fn proposal(&mut self, call: Call, command: OwnedCommand, now: Instant) -> Proposal {
        self.distances.choose(now);
        Proposal { call, command, spared: self.distances.named() }
    }

    /// The generation is to be sealed by this value.
    pub fn seal<M>(&mut self, call: Call, value: Vec<u8>, now: Instant) -> Request<M> {
        self.generation.note_seal(now);
        Request::Seal(self.proposal(call, OwnedCommand::Seal { value }, now))
    }

    /// An own proposal took this instance, and spares this replica, if it names one.
    pub fn propose(&mut self, instance: Instance, spared: Option<u8>, now: Instant) {
        self.generation.last = self.generation.last.max(instance.number);
        if instance.number <= MOST_COMMANDS {
            self.generation.used = self.generation.used.max(instance.number);
        }
        self.watch.propose(instance, spared);
        self.watch.note(instance, Some(Some(Phase::Proposing)), now);
    }

    /// A frame of this replica goes to a peer.
    pub fn note_own_frame(&mut self, frame: &[u8], to: u8, now: Instant) {
        let Some(head) = Head::read(frame) else { return };
        if head.is_commit() {
            self.commits.send(head.instance, head.entry, Some(now));
            self.watch.forget(head.instance);
        } else if head.is_asking() {
            self.distances.owe(to, now);
            self.watch.ask(head.instance, to, now);
        } else if head.is_past_first() {
            self.distances.owe(to, now);
            self.watch.pass_first(head.instance);
            let phase = if head.is_accept() { Phase::Accepting } else { Phase::Preparing };
            self.watch.note(head.instance, Some(Some(phase)), now);
            self.watch.put_off(head.instance, head.ballot, now);
            // (they go to all others, and count once)
            if Some(to) == self.peers().next() {
                self.counts.accepts += u64::from(head.is_accept());
                self.counts.recoveries += u64::from(head.is_prepare());
            }
        }
        if head.instance.replica == self.place.replica {
            self.generation.dependencies = self.generation.dependencies.max(head.dependencies);
        }
        if head.is_seal_committed() {
            self.commit_seal();
        }
    }

    /// A seal is committed. What it stands behind has to be committed too, so that nothing that is open waits for long.
    pub fn commit_seal(&mut self) {
        if self.generation.commit_seal() {
            self.watch.hurry();
        }
    }

    /// An own seal was answered.
    pub fn end_own_seal(&mut self, is_lost: bool) {
        if is_lost { self.generation.lose_seal() } else { self.commit_seal() }
    }

    /// A peer has reported what is committed there. What is committed here by this replica's Commits is sent again
    /// where it is lost: these frames. What isn't committed here comes so too, or is recovered.
    ///
    /// # Errors
    ///
    /// What befell the core.
    pub fn hear_commits<Q: Queries>(
        &mut self,
        from: u8,
        there: &Committed,
        core: &mut Q,
        now: Instant,
    ) -> Result<Vec<Vec<u8>>, Q::Fault> {
        if there.replicas() != self.place.replicas {
            return Ok(Vec::new());
        }
        self.watch.hear(there.beyond(&self.commits.here));
        let lacking = self.commits.lacking(from, there, self.others.sees(from), now);
        let Some(Lacking { entry, instances }) = lacking else { return Ok(Vec::new()) };
        let (mut bytes, mut again, mut frames) = (0, BTreeSet::new(), Vec::new());
        for (to, frame) in core.report(entry.saturating_sub(1), 0)?.frames {
            let is_lost = |head: &Head| head.is_commit() && instances.contains(&head.instance);
            let Some(head) = Head::read(&frame).filter(is_lost).filter(|_| to == from) else { continue };
            bytes += frame.len();
            if bytes > MOST_AGAIN {
                break;
            }
            frames.push(frame);
            again.insert(head.instance);
        }
        self.counts.sent_again += frames.len() as u64;
        self.commits.send_again(from, again, now);
        Ok(frames)
    }

    /// Looks for open instances, where that is due: how long that took at least, by an estimate, as a host goes by no
    /// clock. The look is to be ended.
    ///
    /// # Errors
    ///
    /// What befell the core.
    pub fn look<Q: Queries>(&mut self, core: &mut Q, now: Instant) -> Result<Option<Duration>, Q::Fault> {
        if !self.watch.is_look_due(now) {
            return Ok(None);
        }
        let _ = self.watch.after();
        let found = core.report(u32::MAX, MOST_FOUND)?.open;
        self.watch.find(&found);
        if let Some(last) = found.last().filter(|_| found.len() == usize::from(MOST_FOUND)) {
            self.watch.keep_above(last.instance);
        }
        self.watch.find_no_more(now);
        Ok(Some(PASS * self.generation.entries * (found.len() as u32 + 1)))
    }

    /// Learns what was seen and what is committed in a generation that the core goes on with.
    ///
    /// # Errors
    ///
    /// What befell the core.
    pub fn recollect<Q: Queries>(&mut self, core: &mut Q) -> Result<(), Q::Fault> {
        self.commits = Commits::new(self.place.replicas);
        if self.generation.entries == 0 {
            return Ok(());
        }
        for peer in self.peers() {
            self.others.see(peer, core.handled(peer)?);
        }
        let Report { frames, committed, .. } = core.report(0, 0)?;
        committed.into_iter().for_each(|instance| self.commits.here.insert(instance));
        let heads = frames.iter().filter_map(|(_, frame)| Head::read(frame));
        heads.filter(Head::is_commit).for_each(|head| self.commits.send(head.instance, head.entry, None));
        Ok(())
    }
}
