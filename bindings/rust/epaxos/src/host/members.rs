//! Who takes part: machines that wait to be let in, what is wished, and what seals say.
use super::{Host, HostFault, Plant};
use crate::host::{Identity, Refusal, Told, Wish, WishFault};
use crate::parts::members::{Member, Members};
use crate::parts::messages::Message;
use crate::parts::place::Place;
use crate::parts::wishes::{Machines, Wishes, present};
use crate::{Cluster, OpenFault};
use std::time::{Duration, Instant};

/// A machine that waits to be let in and hasn't said so for so long isn't there any more.
const WAITS: Duration = Duration::from_secs(5);
/// At most so many that wait are known.
const MOST_WAITING: usize = 64;
/// Who is to take part has so long to answer once something is wished, and is asked again and again meanwhile.
const ANSWERS: Duration = Duration::from_secs(3);
const BETWEEN_QUESTIONS: Duration = Duration::from_millis(250);
/// Numbers of questions are above those of other pings.
const QUESTIONS: u64 = 1 << 63;

/// What is wished waits for answers.
#[derive(Clone, Copy)]
pub(super) struct Asking {
    since: Instant,
    again: Instant,
    until: Instant,
}

impl Asking {
    pub(super) fn due(&self) -> Instant {
        self.again.min(self.until)
    }
}

/// The machines that have answered since the wish, or have said since then that they wait.
struct Answered<'a>(&'a Host, Instant);

impl Machines for Answered<'_> {
    fn place(&self) -> Place {
        self.0.place()
    }

    fn named(&self) -> &Members {
        self.0.named()
    }

    fn is_reached(&self, peer: u8) -> bool {
        self.0.is_reached(peer)
    }

    fn known(&self, replica: u8) -> Option<Identity> {
        self.0.known(replica)
    }

    fn is_waiting(&self, replica: u8, identity: &Identity) -> bool {
        self.0.is_waiting(replica, identity)
    }

    fn counts(&self, peer: u8) -> bool {
        let Answered(host, _) = self;
        host.is_reached(peer) && (host.progress.others.has_answered(peer) || host.settings.has(Plant::ResizesAlone))
    }

    fn counts_waiting(&self, replica: u8, identity: &Identity) -> bool {
        let Answered(host, since) = self;
        let said = host.outside.get(&(replica, *identity));
        said.is_some_and(|said| said >= since) || host.settings.has(Plant::ResizesAlone)
    }
}

impl Machines for Host {
    fn place(&self) -> Place {
        self.progress.place
    }

    fn named(&self) -> &Members {
        &self.named
    }

    fn is_reached(&self, peer: u8) -> bool {
        let is_here = usize::from(peer) < self.progress.place.replicas;
        self.progress.is_reached(peer) || (is_here && self.settings.has(Plant::ResizesAlone))
    }

    fn known(&self, replica: u8) -> Option<Identity> {
        let named = || self.named.0.get(usize::from(replica)).and_then(|member| member.identity);
        let met = || self.met.get(usize::from(replica)).copied().flatten();
        if replica == self.progress.place.replica { self.settings.identity } else { named().or_else(met) }
    }

    fn is_waiting(&self, replica: u8, identity: &Identity) -> bool {
        self.outside.contains_key(&(replica, *identity)) || self.settings.has(Plant::ResizesAlone)
    }
}

/// The size of a cluster of these members.
pub(super) fn cluster_of(members: &Members) -> Option<Cluster> {
    u8::try_from(members.0.len()).ok().and_then(|count| Cluster::try_from(count).ok())
}

impl Host {
    /// Somebody who runs the cluster wishes the next generation to be another one: a machine that waits takes the place
    /// of one that is gone, or there are 3, 5 or 7 replicas from then on. It is answered under this number, once:
    /// [`Told::Changed`], when a generation has begun in which it is so, or [`Told::Refused`].
    ///
    /// It is granted only where majorities of the present generation, and of the next one, answer a question that is
    /// asked for it, within some seconds. Machines are named by their identities
    /// ([`Settings::identity`](super::Settings::identity)), and wait to be let in by
    /// [`Host::join`]. A machine that is replaced, or isn't among fewer replicas, ends with [`HostFault::Replaced`] or
    /// [`HostFault::Left`], and must not come back.
    ///
    /// ```
    /// use epaxos::host::{Host, Refusal, Settings, Told, Wish, WishFault};
    /// # use epaxos::{Cluster, service::{Disk, MemoryDisk}};
    /// # use std::time::Instant;
    ///
    /// # fn main() -> Result<(), Box<dyn std::error::Error>> {
    /// # let now = Instant::now();
    /// let settings = Settings { identity: Some([7; 16]), ..Settings::new(Cluster::Three, 0) };
    /// let mut host = Host::begin(&settings, &MemoryDisk::default(), now)?;
    /// host.wish(1, Wish::Seal, now);
    /// // nobody else is there:
    /// let refusal = Refusal::Wish(WishFault::Alone { reached: 1, replicas: 3 });
    /// assert_eq!(host.turn(now)?.replies[0].told, Told::Refused(refusal));
    /// # Ok(()) }
    /// ```
    pub fn wish(&mut self, token: u64, wish: Wish, now: Instant) {
        self.due = self.due.min(now);
        self.forget_gone(now);
        if self.acting.is_none() {
            return self.reply(token, Told::Refused(Refusal::Joining));
        }
        if self.has_left() || self.ends {
            let why = if self.ends { Refusal::Ending } else { Refusal::Left };
            return self.reply(token, Told::Refused(why));
        }
        if self.settings.identity.is_none() && wish != Wish::Seal {
            return self.reply(token, Told::Refused(Refusal::Fault(crate::Fault::OutOfRange)));
        }
        match self.wishes.change(wish, self) {
            Ok(Some(change)) => {
                self.wishes.ask(self.progress.generation.number, change, token);
                self.ask_for_wishes(now);
            }
            Ok(None) => self.reply(token, Told::Changed(self.progress.generation.number)),
            Err(fault) => self.reply(token, Told::Refused(Refusal::Wish(fault))),
        }
    }

    /// Whether a wish would be granted now, where all answer that are reached, and isn't so by now: what
    /// [`wish`](Host::wish) would be answered at once is
    /// `Ok(false)`, or the refusal.
    ///
    /// # Errors
    ///
    /// Why it isn't granted.
    ///
    /// ```
    /// use epaxos::host::{Host, Settings, Wish, WishFault};
    /// # use epaxos::{Cluster, service::MemoryDisk};
    /// # use std::time::Instant;
    ///
    /// # fn main() -> Result<(), Box<dyn std::error::Error>> {
    /// let settings = Settings { identity: Some([7; 16]), ..Settings::new(Cluster::Three, 0) };
    /// let host = Host::begin(&settings, &MemoryDisk::default(), Instant::now())?;
    /// assert_eq!(host.judge(Wish::Seal), Err(WishFault::Alone { reached: 1, replicas: 3 }));
    /// # Ok(()) }
    /// ```
    pub fn judge(&self, wish: Wish) -> Result<bool, WishFault> {
        self.wishes.change(wish, self).map(|change| change.is_some())
    }

    /// The machines that wait to be let in, each with the number that it is to have.
    ///
    /// ```
    /// # use epaxos::{Cluster, host::{Host, Settings}, service::MemoryDisk};
    /// # use std::time::Instant;
    /// # fn main() -> Result<(), Box<dyn std::error::Error>> {
    /// let host = Host::begin(&Settings::new(Cluster::Three, 0), &MemoryDisk::default(), Instant::now())?;
    /// assert!(host.waiting_machines().is_empty());
    /// # Ok(()) }
    /// ```
    pub fn waiting_machines(&self) -> Vec<(u8, Identity)> {
        self.outside.keys().copied().collect()
    }

    /// A machine of this identity waits to be let in under this number, as whoever carries frames has heard before
    /// there is a link to it. It is one that waits for some seconds, and is to be named again and again.
    ///
    /// ```
    /// # use epaxos::{Cluster, host::{Host, Settings}, service::MemoryDisk};
    /// # use std::time::Instant;
    /// # fn main() -> Result<(), Box<dyn std::error::Error>> {
    /// let now = Instant::now();
    /// let mut host = Host::begin(&Settings::new(Cluster::Three, 0), &MemoryDisk::default(), now)?;
    /// host.note_waiting(3, [7; 16], now);
    /// assert_eq!(host.waiting_machines(), [(3, [7; 16])]);
    /// # Ok(()) }
    /// ```
    pub fn note_waiting(&mut self, replica: u8, identity: Identity, now: Instant) {
        self.forget_gone(now);
        if self.outside.len() < MOST_WAITING || self.outside.contains_key(&(replica, identity)) {
            self.outside.insert((replica, identity), now);
        }
    }

    /// The machine that has a number, where none was met under it yet: what a program keeps beside the disk.
    ///
    /// ```
    /// # use epaxos::{Cluster, host::{Host, Settings}, service::MemoryDisk};
    /// # use std::time::Instant;
    /// # fn main() -> Result<(), Box<dyn std::error::Error>> {
    /// let settings = Settings { identity: Some([7; 16]), ..Settings::new(Cluster::Three, 0) };
    /// let mut host = Host::begin(&settings, &MemoryDisk::default(), Instant::now())?;
    /// host.know(1, [8; 16]);
    /// assert_eq!(host.members()[1].identity, Some([8; 16]));
    /// # Ok(()) }
    /// ```
    pub fn know(&mut self, replica: u8, identity: Identity) {
        if let Some(met) = self.met.get_mut(usize::from(replica)) {
            met.get_or_insert(identity);
        }
    }

    /// Who takes part in the present generation, as far as is known, by number.
    ///
    /// ```
    /// # use epaxos::{Cluster, host::{Host, Settings}, service::MemoryDisk};
    /// # use std::time::Instant;
    /// # fn main() -> Result<(), Box<dyn std::error::Error>> {
    /// let settings = Settings { identity: Some([7; 16]), ..Settings::new(Cluster::Three, 0) };
    /// let host = Host::begin(&settings, &MemoryDisk::default(), Instant::now())?;
    /// assert_eq!((host.members()[0].identity, host.members()[1].identity), (Some([7; 16]), None));
    /// # Ok(()) }
    /// ```
    pub fn members(&self) -> Vec<Member> {
        present(self).0
    }

    /// Lets go of machines that don't wait any more.
    pub(super) fn forget_gone(&mut self, now: Instant) {
        self.outside.retain(|_, since| now < *since + WAITS);
    }

    /// A peer says which machine it is.
    pub(super) fn hear_machine(&mut self, from: u8, (identity, waits): (Identity, bool), now: Instant) {
        if waits {
            // (what was heard before was another machine's)
            self.progress.others.forget(from);
            self.note_waiting(from, identity, now);
            // (two machines that wait have nothing to say to one another: they would answer without end)
            if self.acting.is_some() {
                self.say_hello(from);
            }
            return;
        }
        self.outside.remove(&(from, identity));
        if self.known(from).is_none()
            && let Some(met) = self.met.get_mut(usize::from(from))
        {
            *met = Some(identity);
        }
    }

    /// Asks all who may be there, by whose answers it is judged what is wished: all of it, where there is more.
    pub(super) fn ask_for_wishes(&mut self, now: Instant) {
        self.questions += 1;
        let question = QUESTIONS | u64::from(self.ids.sealer()) << 31 | self.questions;
        self.progress.others.ask(question);
        self.progress.generation.is_asked = false;
        self.asking = Some(Asking { since: now, again: now, until: now + ANSWERS });
        self.grant(now);
    }

    /// Has what is wished granted, once enough have answered; or refused, once their time is over.
    pub(super) fn grant(&mut self, now: Instant) {
        let Some(asking) = self.asking else { return };
        let mut wishes: Wishes<u64> = std::mem::take(&mut self.wishes);
        let (machines, is_over) = (Answered(self, asking.since), now >= asking.until);
        let is_granted = wishes.all_fit(&machines);
        let refused = if is_over && !is_granted { wishes.drop_unfit(&machines) } else { Vec::new() };
        self.wishes = wishes;
        for (token, fault) in refused {
            self.reply(token, Told::Refused(Refusal::Wish(fault)));
        }
        if is_granted || is_over {
            self.asking = None;
            self.progress.generation.is_asked = !self.wishes.is_empty();
        } else if now >= asking.again {
            self.asking = Some(Asking { again: now + BETWEEN_QUESTIONS, ..asking });
            let ping = Message::Ping(self.progress.others.question()).write();
            let left: Vec<u8> = self.progress.peers().filter(|it| !self.progress.others.has_answered(*it)).collect();
            left.into_iter().for_each(|peer| self.send(peer, ping.clone()));
        }
    }

    /// What a seal that this replica proposes says. Who has wished what can't be granted any more is answered so; what
    /// waits for answers is left to the next generation.
    pub(super) fn seal_value(&mut self) -> Option<Vec<u8>> {
        if self.asking.is_some() {
            let names = self.settings.identity.is_some();
            return Some(if names { present(self).write().into_bytes() } else { Vec::new() });
        }
        let mut wishes: Wishes<u64> = std::mem::take(&mut self.wishes);
        let was_asked = !wishes.is_empty();
        let dropped = wishes.drop_unfit(self);
        self.wishes = wishes;
        for (token, fault) in dropped {
            self.reply(token, Told::Refused(Refusal::Wish(fault)));
        }
        if was_asked && self.wishes.is_empty() {
            self.progress.generation.is_asked = false;
            return None;
        }
        let names = self.settings.identity.is_some();
        Some(if names { self.wishes.next(self).write().into_bytes() } else { Vec::new() })
    }

    /// Whether it is known by now that it does.
    pub(super) fn has_left(&self) -> bool {
        self.progress.generation.is_sealed() && self.progress.leaves()
    }

    /// The seal was executed: all know who goes on.
    pub(super) fn note_sealed(&mut self) {
        let members = self.acting.as_ref().and_then(|acting| acting.members.as_ref());
        self.progress.note_sealed(members);
        if !self.progress.leaves() {
            return;
        }
        // (what wasn't done before the seal never is)
        let waiting = self.calls.waiting.take().flat_map(|waiting| waiting.members);
        let held = waiting.chain(std::mem::take(&mut self.calls.held)).map(|held| held.token);
        let wishes: Vec<u64> = self.wishes.take().map(|(token, _)| token).collect();
        self.asking = None;
        let all: Vec<u64> = held.chain(self.reads.take()).chain(wishes).collect();
        all.into_iter().for_each(|token| self.reply(token, Told::Refused(Refusal::Left)));
    }

    /// Whether this machine may act in a generation of these members.
    pub(super) fn check_members(&self, members: &Members, generation: u32) -> Result<(), HostFault> {
        let Some(member) = members.0.get(usize::from(self.progress.place.replica)) else {
            return Err(HostFault::Left(generation));
        };
        match (member.identity, self.settings.identity) {
            (Some(named), Some(own)) if named != own => Err(HostFault::Replaced(generation)),
            _ => Ok(()),
        }
    }

    /// A generation begins of so many replicas, that names these.
    pub(super) fn meet(&mut self, replicas: usize, members: Option<Members>, now: Instant) -> Result<(), OpenFault> {
        if replicas != self.progress.place.replicas {
            self.resize(replicas, now)?;
        }
        let Some(members) = members else { return Ok(()) };
        for (replica, member) in (0..).zip(&members.0) {
            if member.identity.is_some() && member.identity != self.known(replica) {
                // (what is known is of the machine before)
                self.progress.others.forget(replica);
                self.met.get_mut(usize::from(replica)).into_iter().for_each(|met| *met = None);
            }
        }
        self.named = members;
        Ok(())
    }

    /// From now on there are so many replicas.
    fn resize(&mut self, replicas: usize, now: Instant) -> Result<(), OpenFault> {
        self.progress.resize(replicas, self.settings.seed, now)?;
        self.met.iter_mut().skip(replicas).for_each(|met| *met = None);
        self.reads.resize(replicas);
        Ok(())
    }

    /// How many replicas there are.
    pub(super) fn cluster(&self) -> Cluster {
        u8::try_from(self.progress.place.replicas)
            .ok()
            .and_then(|it| Cluster::try_from(it).ok())
            .unwrap_or(self.settings.cluster)
    }

    /// Reports to a peer how far this host is, or which machine it is that waits.
    pub(super) fn say_hello(&mut self, peer: u8) {
        match self.settings.identity.filter(|_| self.acting.is_none()) {
            Some(identity) => self.send(peer, Message::Machine { identity, waits: true }.write()),
            None => self.send(peer, self.progress.hello(peer)),
        }
    }

    /// The same, and which machine this is, and what is committed here.
    pub(super) fn greet(&mut self, peer: u8) {
        if let Some(identity) = self.settings.identity.filter(|_| self.acting.is_some()) {
            self.send(peer, Message::Machine { identity, waits: false }.write());
        }
        self.say_hello(peer);
        self.send_commits(peer);
    }
}
