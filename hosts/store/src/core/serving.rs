//! The one thread that serves: a host ([`Host`]), over the store's folder, its peers' links and its clients' questions.
use crate::core::ask::{Ask, What};
use crate::core::asks::Asks;
use crate::core::event::Event;
use crate::core::expiring::Expiring;
use crate::core::outcome::{Outcome, so_from};
use crate::core::plants::{Plant, changed};
use crate::core::reply_sender::ReplySender;
use crate::core::worked::Worked;
use crate::life::directory::Directory;
use crate::life::identities::{self, digits};
use crate::life::starts::is_of;
use crate::life::stop_fault::StopFault;
use crate::ops::info;
use crate::ops::manage_fault::ManageFault;
use crate::ops::metrics::Metrics;
use crate::ops::notify;
use crate::ops::say::{say, warn};
use crate::ops::wishes::Manage;
use crate::peer::peers::{Membership, Peers};
use crate::peer::seen::Seen;
use crate::receipts::Receipts;
use epaxos::host::{self, Act, Host, HostFault, Name, Refusal, Reply, Turn, Wish, WishFault, Work};
use epaxos::parts::batch::{MOST_BYTES, MOST_EVENTS};
use epaxos::parts::give_way;
use epaxos::parts::place::MOST_REPLICAS;
use epaxos::service::{Disk, Folder};
use std::collections::HashMap;
use std::fs;
use std::path::PathBuf;
use std::sync::Arc;
use std::sync::mpsc::{Receiver, RecvTimeoutError, SyncSender};
use std::thread::{self, JoinHandle};
use std::time::{Duration, Instant};

/// Metrics are set that often,
const BETWEEN_METRICS: Duration = Duration::from_millis(50);
/// and so often it looks after itself.
const TICK: Duration = Duration::from_secs(1);
/// Who leaves and waits for the others says so that often.
const BETWEEN_WORDS: Duration = Duration::from_secs(60);
/// So many commands of clients are taken at once at most, of those that the host can make use of, and so many of their
/// reads, of which so many are there; the rest waits here, where connections take turns.
const MOST_COMMANDS: usize = 256;
const MOST_AT_ONCE: usize = 64;
const MOST_READS: usize = 512;
/// Who was asked to end waits so long for what is under way.
const MOST_WAIT_FOR_END: Duration = Duration::from_secs(5);

/// What it serves with.
pub struct Parts {
    pub host: Host,
    pub disk: Folder,
    pub peers: Peers,
    pub directory: Directory,
    pub membership: Arc<Membership>,
    /// What clients were answered in the generation in which it begins.
    pub receipts: Receipts,
    pub seen: Seen,
    pub expiring: Expiring,
    pub events: Receiver<Event>,
    pub asks: Arc<Asks>,
    /// Where its events come from, for what is done in the background.
    pub own: SyncSender<Event>,
    pub metrics: Arc<Metrics>,
    pub plant: Option<Plant>,
    /// Where it listens, as its lines say it.
    pub place: String,
}

/// The host, and all that it serves with.
pub struct Serving {
    it: Parts,
    /// Who waits, by the number under which the host was asked.
    waiting: HashMap<u64, Waiting>,
    /// How many of these have asked something else than a command.
    reading: usize,
    asked: u64,
    ends_at: Option<Instant>,
    next_metrics: Instant,
    next_tick: Instant,
    /// When it says next that it leaves, and waits for the others.
    next_word: Option<Instant>,
    workers: Vec<JoinHandle<()>>,
    /// The generation whose members are known to the links, and whose receipts are open.
    generation: u32,
    /// How many openings were taken by then.
    taken: u64,
}

/// Who waits.
struct Waiting {
    reply: ReplySender,
    /// Of who wishes something of the next generation: how many replicas there are to be, where that was asked for.
    wish: Option<Option<u8>>,
    is_command: bool,
}

/// Nothing serves any more, and what is asked isn't done.
fn refuse(event: Event) {
    if let Event::Ask(ask) = event {
        ask.refuse();
    }
}

impl Serving {
    pub fn new(it: Parts) -> Serving {
        let (now, generation) = (Instant::now(), it.host.generation());
        let mut serving = Serving {
            it,
            waiting: HashMap::new(),
            reading: 0,
            asked: 0,
            ends_at: None,
            next_metrics: now,
            next_tick: now,
            next_word: None,
            workers: Vec::new(),
            generation,
            taken: 0,
        };
        serving.meet_members();
        serving
    }

    /// Says how it starts.
    pub fn report_start(&self) {
        let membership = &self.it.membership;
        if !membership.waits() {
            return self.report_ready();
        }
        let (replica, own) = (membership.replica, digits(&membership.identities.own()));
        say(&format!(
            "it waits to be let in, by EPAXOS REPLACE {replica} {own} at another replica's admin socket, or EPAXOS \
             RESIZE"
        ));
        notify::ready("waits to be let in");
    }

    /// Serves until something ends.
    pub fn run(mut self) -> StopFault {
        let stop = loop {
            if let Err(stop) = self.go_on() {
                break stop;
            }
        };
        // (what wasn't proposed never is)
        for (_, Waiting { reply, .. }) in self.waiting.drain() {
            if reply.begun().give_up() {
                reply.send(Outcome::Ending);
            }
        }
        if let StopFault::Host(HostFault::Left(next)) = &stop {
            self.mark_left(*next);
        }
        let Serving { it: Parts { events, asks, .. }, workers, .. } = self;
        asks.end();
        events.try_iter().for_each(refuse);
        let left = events;
        // (what is dropped at the end of this may bring the next one of its key, and clients may ask until the process
        // ends)
        let _ = thread::Builder::new().name("end".into()).spawn(move || left.into_iter().for_each(refuse));
        workers.into_iter().for_each(|worker| _ = worker.join());
        stop
    }

    /// It has left its generation, and takes part in no later one: a start knows.
    fn mark_left(&mut self, next: u32) {
        let (generation, bytes) = (self.it.host.generation(), next.to_string().into());
        if generation > 0 {
            let marked = self.it.disk.carry_out(&[Act::Put { generation, name: Name::Left, bytes }]);
            marked.unwrap_or_else(|error| warn(&error.to_string()));
        }
    }

    fn go_on(&mut self) -> Result<(), StopFault> {
        self.turn()?;
        let now = Instant::now();
        if self.it.host.is_ended() || self.ends_at.is_some_and(|at| now >= at) {
            return Err(StopFault::Asked);
        }
        let due = self.ends_at.map_or(self.it.host.due(), |at| at.min(self.it.host.due())).min(self.next_tick);
        let pause = if self.take_asks(now) { Duration::ZERO } else { due.saturating_duration_since(now) };
        let mut next = match self.it.events.recv_timeout(pause) {
            Ok(event) => Some(event),
            Err(RecvTimeoutError::Timeout) => None,
            Err(RecvTimeoutError::Disconnected) => return Err(StopFault::Alone),
        };
        let (mut count, mut bytes) = (0, 0);
        while let Some(event) = next {
            (count, bytes) = (count + 1, bytes + event.bytes());
            self.take(event)?;
            let has_room = count < MOST_EVENTS && bytes < MOST_BYTES;
            next = if has_room { self.it.events.try_recv().ok() } else { None };
        }
        Ok(())
    }

    /// Takes what clients ask, as far as there is room in the host: whether there was any.
    fn take_asks(&mut self, now: Instant) -> bool {
        let reads = MOST_READS.saturating_sub(self.reading).min(MOST_AT_ONCE);
        let asks = self.it.asks.take(self.it.host.wanted().min(MOST_COMMANDS), reads, now);
        let is_some = !asks.is_empty();
        asks.into_iter().for_each(|Ask { what, reply }| self.ask(what, reply, now));
        is_some
    }

    fn take(&mut self, event: Event) -> Result<(), StopFault> {
        let (now, host) = (Instant::now(), &mut self.it.host);
        match event {
            Event::Came { from, bytes } => host.receive(from, bytes, now)?,
            Event::PeerReached(peer) => host.link_opened(peer, now),
            Event::PeerLost(peer) => {
                host.link_lost(peer, now);
                self.end_links();
            }
            Event::PeerCame(peer) => self.it.peers.hurry(peer),
            Event::Waits(replica, identity) => host.note_waiting(replica, identity, now),
            Event::Twice(peer) => return Err(StopFault::Twice(peer)),
            Event::Worked(worked) => worked.report(host, now),
            Event::End => {
                host.end(now);
                self.ends_at.get_or_insert(now + MOST_WAIT_FOR_END);
            }
            // (they are taken after the next turn)
            Event::Asked => {}
            Event::Ask(Ask { what, reply }) => self.ask(what, reply, now),
        }
        Ok(())
    }

    fn ask(&mut self, what: What, reply: ReplySender, now: Instant) {
        self.asked += 1;
        let (token, host) = (self.asked, &mut self.it.host);
        let (mut wish, is_command) = (None, matches!(what, What::Propose(_)));
        match what {
            What::Propose(command) => host.call_with(token, command, reply.shared(), now),
            What::Get(key) => host.read(token, key, now),
            What::Read(key) => host.read_here(token, key, now),
            What::Contents => host.read_all_here(token, now),
            What::Over(now) => return reply.send(Outcome::Over(self.it.expiring.over(now))),
            What::Info => return reply.send(Outcome::Info(self.info())),
            What::Manage(manage, fault) => {
                match self.manage(manage, fault, token, now) {
                    Ok(size) => wish = Some(size),
                    Err(result) => return reply.send(Outcome::Managed(result)),
                };
            }
        }
        self.reading += usize::from(!is_command);
        self.waiting.insert(token, Waiting { reply, wish, is_command });
    }

    fn info(&self) -> String {
        let (status, own) = (self.it.host.status(), self.it.membership.identities.own());
        match status.generation {
            0 => format!("state:joining\r\nidentity:{}\r\n", digits(&own)),
            _ => info::info(self.it.membership.replica, &status, self.it.peers.lost()),
        }
    }

    /// Wishes what somebody who runs the store asks for; `fault` is what is wrong with an address in it. What is
    /// replied at once; else how many replicas there are to be, where that is asked for.
    fn manage(
        &mut self,
        manage: Manage,
        fault: Option<ManageFault>,
        token: u64,
        now: Instant,
    ) -> Result<Option<u8>, Result<String, ManageFault>> {
        let (host, replica) = (&mut self.it.host, self.it.membership.replica);
        let generation = host.generation();
        if generation == 0 {
            return Err(Err(ManageFault::Joining(self.it.membership.identities.own())));
        }
        let Some(wish) = manage.asked() else { return Err(Ok(info::members(replica, host))) };
        let size = if let Wish::Resize { size, .. } = &wish { Some(*size) } else { None };
        match (host.judge(wish.clone()), fault) {
            (Ok(false), _) => Err(Ok(so_from(generation, size))),
            (Err(refused), _) => Err(Err(refused.into())),
            (Ok(true), Some(fault)) => Err(Err(fault)),
            (Ok(true), None) => {
                host.wish(token, wish, now);
                Ok(size)
            }
        }
    }

    /// Has turns while the disk has something to do for the host.
    fn turn(&mut self) -> Result<(), StopFault> {
        loop {
            let now = Instant::now();
            let turn = self.it.host.turn(now)?;
            self.it.metrics.asks.add(1);
            self.it.metrics.takes_part.set(self.it.host.takes_part().into());
            self.meet()?;
            let Turn { frames, writes, replies, receipts, work, .. } = turn;
            self.keep(receipts)?;
            for Reply { token, told: outcome } in replies {
                self.send_reply(token, outcome);
            }
            self.send(frames);
            work.into_iter().for_each(|work| self.begin(work));
            self.tick(now);
            let Some(writes) = writes else { return Ok(()) };
            let is_drop = |act: &Act| matches!(act, Act::Drop { .. });
            let (drops, acts): (Vec<Act>, Vec<Act>) = writes.acts.into_iter().partition(is_drop);
            self.it.disk.carry_out(&acts).map_err(StopFault::Disk)?;
            drops.into_iter().for_each(|drop| self.drop_beside(drop));
            self.it.host.synced(writes.number, Instant::now())?;
        }
    }

    /// Before anybody gets a reply: what an audit needs.
    fn keep(&mut self, receipts: Vec<u8>) -> Result<(), StopFault> {
        let receipts = if self.it.plant == Some(Plant::Changed) { changed(&receipts) } else { receipts };
        if receipts.is_empty() { Ok(()) } else { self.it.receipts.append(&receipts).map_err(StopFault::Receipts) }
    }

    fn send_reply(&mut self, token: u64, outcome: host::Told) {
        let Some(Waiting { reply, wish, is_command }) = self.waiting.remove(&token) else { return };
        self.reading -= usize::from(!is_command);
        reply.send(match (outcome, wish) {
            (host::Told::Changed(generation), Some(size)) => Outcome::Managed(Ok(so_from(generation, size))),
            (host::Told::Refused(Refusal::Left), Some(size)) => Outcome::Managed(self.left_for(size)),
            (outcome, _) => Outcome::of(outcome),
        });
    }

    /// The outcome for somebody who wished something of a replica that takes part no more. It may serve for long yet,
    /// and how many others go on is known.
    fn left_for(&self, size: Option<u8>) -> Result<String, ManageFault> {
        let status = self.it.host.status();
        let next = status.next_replicas.map(|next| next as u8);
        match next.filter(|next| size.is_none_or(|size| size == *next)) {
            Some(next) => Ok(so_from(status.generation + 1, Some(next))),
            None => Err(WishFault::Overruled.into()),
        }
    }

    fn send(&self, frames: Vec<(u8, Vec<u8>)>) {
        let mut all: [Vec<Vec<u8>>; MOST_REPLICAS as usize] = Default::default();
        for (to, bytes) in frames {
            if let Some(all) = all.get_mut(usize::from(to)) {
                all.push(bytes);
            }
        }
        let sent = (0..).zip(all).filter(|(_, all)| !all.is_empty());
        sent.for_each(|(to, all)| self.it.peers.send_several(to, all));
    }

    /// Has generations dropped, and the receipts of what was answered in them: beside all else, as long files take a
    /// while, and nothing rests on it.
    fn drop_beside(&mut self, drop: Act) {
        let Act::Drop { below } = drop else { return };
        let there = self.it.directory.generations_with_receipts().into_iter().filter(|it| *it < below);
        let receipts: Vec<PathBuf> = there.map(|generation| self.it.directory.receipts(generation)).collect();
        let mut disk = self.it.disk.clone();
        let run = move || {
            give_way();
            // (what can't be dropped now is dropped later)
            let dropped = disk.carry_out(&[drop]);
            dropped.unwrap_or_else(|error| warn(&error.to_string()));
            receipts.iter().for_each(|path| _ = fs::remove_file(path));
        };
        self.workers.extend(thread::Builder::new().name("drop".into()).spawn(run));
    }

    /// A generation has begun: its receipts are opened, and the links learn who its members are.
    fn meet(&mut self) -> Result<(), StopFault> {
        let generation = self.it.host.generation();
        if generation == self.generation {
            return Ok(());
        }
        let taken = self.it.host.status().taken;
        if self.it.membership.waits() {
            say(&format!("generation {generation} names this machine, and it comes in"));
            let ended = self.it.directory.end_joining();
            ended.unwrap_or_else(|fault| warn(&format!("it isn't forgotten that it has waited: {fault}")));
        } else if taken > self.taken {
            say(&format!("generation {generation} is taken from a peer"));
        }
        let path = self.it.directory.receipts(generation);
        self.it.receipts = Receipts::open(&path, is_of).map_err(StopFault::Receipts)?;
        (self.generation, self.taken) = (generation, taken);
        self.meet_members();
        Ok(())
    }

    /// The links learn where the members of the generation are, and which machines.
    fn meet_members(&mut self) {
        let Parts { host, peers, membership, .. } = &mut self.it;
        let (generation, members) = (host.generation(), host.members());
        if generation == 0 {
            return;
        }
        let is_resized = membership.take_part(members.len() as u8);
        for (peer, member) in (0..).zip(members).filter(|(peer, _)| *peer != membership.replica) {
            let placed = member.address.map_or(Ok(()), |address| peers.set_address(peer, &address));
            placed.unwrap_or_else(|error| warn(&format!("replica {peer} can't be connected to: {error}")));
            let Some(identity) = member.identity else { continue };
            match membership.identities.set(peer, identity) {
                Ok(true) => {
                    say(&format!("replica {peer} is {} from generation {generation} on", digits(&identity)));
                    peers.part(peer);
                }
                Ok(false) => {}
                Err(error) => warn(&format!("{}: {error}", identities::NAME)),
            }
        }
        self.end_links();
        if is_resized {
            self.report_ready();
        }
    }

    /// Says that it serves, one of so many.
    fn report_ready(&self) {
        let (replica, replicas) = (self.it.membership.replica, self.it.host.members().len());
        let (generation, place) = (self.it.host.generation(), &self.it.place);
        notify::ready(&format!("replica {replica} of {replicas} serves"));
        say(&format!("replica {replica} of {replicas} in generation {generation}, {place}"));
    }

    /// Who has left isn't connected to any more, once it is lost.
    fn end_links(&mut self) {
        let size = self.it.host.members().len();
        if self.it.host.generation() > 0 {
            self.it.peers.end_from(size as u8);
        }
    }

    /// Now and then publishes its metrics, and looks after itself.
    fn tick(&mut self, now: Instant) {
        if now < self.next_metrics.min(self.next_tick) {
            return;
        }
        self.next_metrics = now + BETWEEN_METRICS;
        let status = self.it.host.status();
        info::set(&self.it.metrics, &status, self.it.peers.lost());
        if status.waits_for_majority && self.next_word.is_none_or(|next| now >= next) {
            self.next_word = Some(now + BETWEEN_WORDS);
            let generation = status.generation;
            say(&format!(
                "this replica takes part no more: it serves generation {generation} until a majority of the others has \
                 left it"
            ));
        }
        if now < self.next_tick {
            return;
        }
        self.next_tick = now + TICK;
        self.it.seen.save(&self.it.host);
        let gone = self.waiting.iter().filter(|(_, waiting)| waiting.reply.begun().is_given_up());
        let gone: Vec<u64> = gone.map(|(token, _)| *token).collect();
        gone.into_iter().for_each(|token| self.it.host.give_up(token, now));
        self.workers.retain(|worker| !worker.is_finished());
    }

    /// Has something done in the background.
    fn begin(&mut self, work: Work) {
        let (mut disk, own) = (self.it.disk.clone(), self.it.own.clone());
        let run = move || {
            let worked = Worked::of(work, &mut disk);
            worked.into_iter().for_each(|worked| _ = own.send(Event::Worked(worked)));
        };
        self.workers.extend(thread::Builder::new().name("work".into()).spawn(run));
    }
}
