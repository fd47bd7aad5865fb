//! A run: machines, their disks, the network between them, clients, and time.
use super::audit::Audit;
use super::book::Own;
use super::disk::{Content, Disk};
use super::failure::Failure;
use super::judge::{Asked, Judge, Kind};
use super::left::{self, Left};
use super::mix::Mix;
use super::older::Older;
use super::operator::{Operator, Task};
use super::pair::{self, Pair};
use super::plan::{Age, Plan, Trouble, What, mixed};
use super::queue::Queue;
use super::registers::Registers;
use super::seen::Seen;
use super::watched::Watched;
use crate::host::{
    FolderFault, Host, HostFault, Name, Plant, Refusal, Reply, Settings, Span, Start, StartFault, Told, Turn, Work,
};
use crate::parts::plan_fault::PlanFault;
use crate::parts::random::Random;
use crate::{Checkpoint, Cluster, OwnedAnswer, OwnedCommand};
use std::collections::BTreeMap;
use std::ops::Range;
use std::path::Path;
use std::time::{Duration, Instant};
use std::{fs, io};

pub(super) const MS: u64 = 1_000;
pub(super) const S: u64 = 1_000_000;
/// A host has its turn so long after something has happened, as its processor takes.
const TURN: u64 = 20;
/// A client that isn't answered for so long asks another machine.
const CLIENT_PATIENCE: u64 = 10 * S;
/// Once nothing goes wrong any more, all are to be answered and to agree within so long.
const BOUND: u64 = 180 * S;
/// Where nothing has gone wrong for so long, a machine that has reached a majority has answered who asked before, and
/// one that has reached all is in no earlier generation than the newest one of then.
const WITHIN: u64 = 60 * S;
/// In the end so many keys are read at once.
const READ_AT_ONCE: u32 = 16;
/// So much a machine is asked at once where it is to lose its power with calls under way.
const AT_ONCE: u64 = 4;
/// A host that was asked to end has so long for it.
const ENDING: u64 = 5 * S;
/// (one of the machines' clocks never reads less)
const BEGIN: u64 = 100 * S;

#[derive(Debug)]
pub(super) enum Event {
    Turn(u8),
    Frame { from: u8, to: u8, bytes: Vec<u8> },
    Synced(u8, u32),
    Kept { machine: u8, start: u32, generation: u32, bytes: Vec<u8> },
    Written { machine: u8, start: u32, generation: u32, bytes: Vec<u8> },
    Read { machine: u8, start: u32, generation: u32, offset: u64, length: u64 },
    LetGo { machine: u8, start: u32, generation: u32, checkpoint: Checkpoint },
    Gather { machine: u8, start: u32, number: u64, spans: Vec<Span> },
    Followed { machine: u8, start: u32, generation: u32, opening: Option<Vec<u8>> },
    Lost(u8, u8),
    Ask(u32),
    Waited(u32, u64),
    GiveUp(u64),
    Trouble(usize),
    Start(u8),
    Again(u8),
    Mended(u8, u8, bool),
    Back(u8, Age, u8),
    Left(u8, u8),
    Fail(u8),
    Check(u8, u32),
    Operate(u64),
    Look,
    Round(u8, u8),
    Fall { machine: u8, start: u32, rounds: u8 },
    Gone(u8, u32),
}

/// How a machine comes to its replica.
#[derive(Clone, Copy, PartialEq, Eq, Debug)]
pub(super) enum How {
    First,
    Again,
    Joins,
    /// It takes no part.
    Outside,
}

pub(super) struct Machine {
    pub(super) host: Option<Host>,
    pub(super) disk: Disk,
    /// How often it has started.
    pub(super) start: u32,
    pub(super) how: How,
    /// How many machines have had its number before.
    pub(super) before: u8,
    pub(super) paused: u64,
    /// Its clock: what it reads at first, and how it runs, in parts of 1,000,000.
    begin: u64,
    rate: u64,
    /// When its host has its next turn.
    turn: u64,
    crash_in_change: Option<(u8, u64)>,
    pub(super) older: Older,
    /// Its disk has lost what it had said was there.
    has_lied: bool,
    pub(super) is_busy: bool,
    recoveries: u64,
    /// Since when it has reached a majority, and all.
    able: Option<u64>,
    whole: Option<u64>,
    /// The newest generation when it was last compared, and when that was.
    goal: (u64, u32),
    /// Who watches all keys at this start.
    watched: Watched,
}

struct Client {
    machine: u8,
    token: Option<u64>,
    random: Random,
}

/// What was seen of a run, and what was found.
pub(super) struct World<'a> {
    pub(super) plan: &'a Plan,
    plant: Option<Plant>,
    base: Instant,
    pub(super) now: u64,
    events: Queue<Event>,
    pub(super) machines: Vec<Machine>,
    pub(super) operator: Operator,
    clients: Vec<Client>,
    pub(super) random: Random,
    cuts: Vec<Vec<u32>>,
    judge: Judge,
    /// The first question that may not be answered yet.
    first_open: usize,
    pub(super) left: u32,
    pub(super) unhealed: usize,
    pub(super) seen: Seen,
    audit: Option<&'a Audit>,
    /// Whether all that the disks had is kept, with the receipts.
    pub(super) keeps: bool,
    /// What is known of the state machines, where they are somebody's own.
    own: Option<Own>,
    /// What the disks have of machines that were replaced, and the receipts of each generation, for an audit.
    pub(super) gone: Vec<(u8, Content)>,
    receipts: BTreeMap<u32, Vec<u8>>,
}

impl<'a> World<'a> {
    pub(super) fn new(plan: &'a Plan, plant: Option<Plant>, audit: Option<&'a Audit>) -> World<'a> {
        let mut random = Random::from_seed(mixed(plan.seed ^ 0x5151));
        let (count, begun) = (plan.machines(), plan.cluster.replicas());
        let machines = (0..count).map(|machine| Machine {
            host: None,
            disk: Disk::default(),
            start: 0,
            how: if machine < begun { How::First } else { How::Outside },
            before: 0,
            paused: 0,
            begin: BEGIN + random.below(BEGIN),
            rate: S + random.below(2 * plan.drift * 1_000 + 1) - plan.drift * 1_000,
            turn: u64::MAX,
            crash_in_change: None,
            older: Older::default(),
            has_lied: false,
            is_busy: false,
            recoveries: 0,
            able: None,
            whole: None,
            goal: (0, 0),
            watched: Watched::default(),
        });
        let machines = machines.collect();
        let client = |number: u32| Client {
            machine: (number % u32::from(begun)) as u8,
            token: None,
            random: Random::from_seed(mixed(plan.seed ^ u64::from(number) << 32)),
        };
        let mut world = World {
            plan,
            plant,
            base: Instant::now(),
            now: 0,
            events: Queue::new(),
            machines,
            operator: Operator::new(begun),
            clients: (0..plan.clients).map(client).collect(),
            random,
            cuts: vec![vec![0; count.into()]; count.into()],
            judge: Judge::default(),
            first_open: 0,
            left: plan.asks,
            unhealed: plan.troubles.len(),
            seen: Seen::default(),
            audit,
            keeps: false,
            own: None,
            gone: Vec::new(),
            receipts: BTreeMap::new(),
        };
        (0..begun).for_each(|machine| world.at(0, Event::Start(machine)));
        world.at(S, Event::Look);
        (0..plan.clients).for_each(|client| world.at(S / 2 + u64::from(client) * MS, Event::Ask(client)));
        (0..plan.troubles.len()).for_each(|trouble| world.at(plan.troubles[trouble].at, Event::Trouble(trouble)));
        if audit.is_some() { world.keeping() } else { world }
    }

    /// The same, of which all that the disks had is kept.
    fn keeping(mut self) -> World<'a> {
        self.keeps = true;
        self.machines.iter_mut().for_each(|it| it.disk = Disk::new(true));
        self
    }

    /// The same, of state machines of somebody's own.
    pub(super) fn with_own(mut self, own: Own) -> World<'a> {
        self.judge.may_repeat = true;
        World { own: Some(own), ..self }
    }

    fn at(&mut self, at: u64, event: Event) {
        self.events.put(at, event);
    }

    pub(super) fn after(&mut self, wait: u64, event: Event) {
        self.at(self.now + wait, event);
    }

    /// What the clock of a machine reads at a time.
    pub(super) fn clock(&self, machine: u8, at: u64) -> Instant {
        let Machine { begin, rate, .. } = self.machines[usize::from(machine)];
        let reads = match at.checked_mul(rate) {
            Some(all) => all / S,
            None => (u128::from(at) * u128::from(rate) / u128::from(S)) as u64,
        };
        self.base + Duration::from_micros(begin + reads)
    }

    /// The first time at which its clock reads this.
    fn time(&self, machine: u8, clock: Instant) -> u64 {
        let Machine { begin, rate, .. } = self.machines[usize::from(machine)];
        let reads = (clock.saturating_duration_since(self.base).as_micros() as u64).saturating_sub(begin);
        match reads.checked_mul(S) {
            Some(all) => all.div_ceil(rate),
            None => (u128::from(reads) * u128::from(S)).div_ceil(u128::from(rate)) as u64,
        }
    }

    pub(super) fn machine(&mut self, machine: u8) -> &mut Machine {
        &mut self.machines[usize::from(machine)]
    }

    fn count(&self) -> u8 {
        self.machines.len() as u8
    }

    fn is_cut(&self, from: u8, to: u8) -> bool {
        self.cuts[usize::from(from)][usize::from(to)] > 0
    }

    /// Goes through all of it.
    pub(super) fn run(mut self) -> (Seen, Option<Failure>) {
        let failure = self.go().and_then(|()| self.settle()).and_then(|()| self.conclude()).err();
        let failure = failure.filter(|failure| self.is_promised(failure));
        self.seen.asks = self.judge.asked.len() as u64;
        self.seen.told = self.judge.asked.iter().filter(|asked| asked.end.is_some()).count() as u64;
        self.seen.commands = self.judge.count();
        self.seen.time = Duration::from_micros(self.now);
        for machine in &self.machines {
            let changes = machine.host.as_ref().map_or(0, |host| host.status().generation);
            self.seen.generations = self.seen.generations.max(changes.into());
        }
        (self.seen, failure)
    }

    /// Goes through all of it, and leaves what the disks have then in a folder.
    pub(super) fn run_into(self, folder: &Path) -> io::Result<Vec<Left>> {
        let mut world = self.keeping();
        let _ = world.go().and_then(|()| world.settle()).and_then(|()| world.conclude());
        let left = world.lay_out(folder)?;
        fs::write(folder.join("asked"), world.judge.lines())?;
        Ok(left)
    }

    fn lay_out(&self, folder: &Path) -> io::Result<Vec<Left>> {
        let of = |machine: u8| {
            let gone = self.gone.iter().filter(|(number, _)| *number == machine).map(|(_, content)| content.clone());
            gone.chain([self.machines[usize::from(machine)].disk.whole()]).collect()
        };
        let machines: Vec<Vec<Content>> = (0..self.count()).map(of).collect();
        left::put(folder, &machines, &self.receipts)
    }

    fn audited(&self) -> Result<u64, Failure> {
        self.audit.map_or(Ok(0), |audit| audit.judge(|| self.lay_out(&audit.scratch)))
    }

    /// Whether it is promised that this isn't so: where a disk has lied nothing is, and what noticed it is counted.
    fn is_promised(&mut self, failure: &Failure) -> bool {
        if self.seen.lies == 0 {
            return true;
        }
        self.seen.lies_unseen = 0;
        match failure {
            Failure::Refused(_) => self.seen.lies_refused += 1,
            _ => {
                self.seen.lies_found += 1;
                self.seen.lies_refused += u64::from(self.audited().is_err());
            }
        }
        false
    }

    /// Until all was asked for, and nothing goes wrong any more.
    fn go(&mut self) -> Result<(), Failure> {
        while self.left > 0 || self.unhealed > 0 || self.clients.iter().any(|client| client.token.is_some()) {
            self.step()?;
        }
        Ok(())
    }

    fn step(&mut self) -> Result<(), Failure> {
        let Some((at, event)) = self.events.take() else {
            return Err(Failure::Stuck("nothing happens any more".into()));
        };
        self.now = self.now.max(at);
        self.seen.events += 1;
        let Some(own) = self.own.clone() else { return self.happen(event) };
        own.set_now(self.now);
        let happened = self.happen(event);
        own.take_failure().and(happened)
    }

    /// Until all agree.
    fn settle(&mut self) -> Result<(), Failure> {
        let until = self.now + BOUND;
        loop {
            let next = self.now + S;
            while self.now < next {
                self.step()?;
            }
            match self.unsettled() {
                None => return Ok(()),
                Some(what) if self.now >= until => return Err(Failure::Stuck(what)),
                Some(_) => {}
            }
        }
    }

    /// What isn't settled.
    fn unsettled(&mut self) -> Option<String> {
        let mut asked = self.judge.asked.iter().enumerate().skip(self.first_open);
        if let Some((token, asked)) = asked.find(|(_, asked)| self.is_open(asked)) {
            return Some(format!("machine {} hasn't told who asked as {token}", asked.at.0));
        }
        let generation = |machine: &Machine| machine.host.as_ref().map_or(0, |host| host.status().generation);
        let size = self.operator.size.into();
        let newest = self.machines.iter().take(size).map(generation).max().unwrap_or_default();
        let mut contents = None;
        for (number, machine) in self.machines.iter_mut().take(size).enumerate() {
            let Some(host) = &mut machine.host else { return Some(format!("machine {number} is down")) };
            if host.status().generation != newest {
                return Some(format!("machine {number} is in generation {}, of {newest}", host.status().generation));
            }
            if !host.is_quiet() {
                return Some(format!("machine {number} isn't quiet: {:?}", host.status()));
            }
            let Ok(map) = host.contents() else { return Some(format!("machine {number} is at work")) };
            let here = (map, host.machine().map(|it| it.snapshot()));
            if contents.get_or_insert_with(|| here.clone()) != &here {
                return Some(format!("machine {number} has another map, or its machine another state"));
            }
        }
        None
    }

    /// Reads each key once more, everywhere, and judges all.
    fn conclude(&mut self) -> Result<(), Failure> {
        for first in (0..self.plan.keys).step_by(READ_AT_ONCE as usize) {
            self.read_all(first..self.plan.keys.min(first + READ_AT_ONCE))?;
        }
        self.judge.check()?;
        let recoveries: u64 = self.machines.iter().map(|machine| machine.recoveries).sum();
        self.seen.audited += self.audited()?;
        self.seen.lies_unseen = self.seen.lies - self.seen.lies_noticed;
        match recoveries {
            1.. if self.plan.is_calm() => Err(Failure::Recovered(recoveries)),
            _ => Ok(()),
        }
    }

    /// Reads these keys everywhere.
    fn read_all(&mut self, keys: Range<u32>) -> Result<(), Failure> {
        let first = self.judge.asked.len();
        for machine in 0..self.operator.size {
            for key in keys.clone() {
                self.put_question(machine, (key, Kind::Read, 0));
                self.put_question(machine, (key, Kind::Look, 0));
            }
        }
        let until = self.now + BOUND;
        // (each is answered once, and stays answered)
        for token in first..self.judge.asked.len() {
            while !self.judge.asked[token].is_answered {
                if self.now >= until {
                    return Err(Failure::Stuck("the last reads".into()));
                }
                self.step()?;
            }
        }
        Ok(())
    }

    fn happen(&mut self, event: Event) -> Result<(), Failure> {
        // (a machine that stands still does nothing; what comes waits for it)
        let of = match &event {
            Event::Turn(machine) | Event::Frame { to: machine, .. } | Event::Synced(machine, _) => Some(*machine),
            Event::Written { machine, .. } | Event::Read { machine, .. } | Event::Lost(machine, _) => Some(*machine),
            Event::Kept { machine, .. } | Event::Gather { machine, .. } => Some(*machine),
            Event::Followed { machine, .. } | Event::LetGo { machine, .. } => Some(*machine),
            _ => None,
        };
        if let Some(paused) = of.map(|machine| self.machine(machine).paused).filter(|paused| *paused > self.now) {
            if let Event::Turn(machine) = event {
                self.machine(machine).turn = paused;
            }
            self.at(paused, event);
            return Ok(());
        }
        match event {
            Event::Turn(machine) => self.turn(machine),
            Event::Frame { from, to, bytes } => {
                self.seen.note(&[from, to], &bytes);
                self.operator.hear(from, to);
                let now = self.clock(to, self.now);
                let it = self.machine(to);
                let Some(host) = &mut it.host else { return Ok(()) };
                it.older.deliver(from, &bytes, host.generation());
                let heard = host.receive(from, bytes, now);
                self.hear(to, heard)
            }
            Event::Synced(machine, start) => {
                let now = self.clock(machine, self.now);
                let it = self.machine(machine);
                if it.start != start {
                    return Ok(());
                }
                let Some(number) = it.disk.sync() else { return Ok(()) };
                it.is_busy = false;
                if it.how == How::First {
                    it.how = How::Again;
                }
                let Some(host) = &mut it.host else { return Ok(()) };
                let heard = host.synced(number, now);
                self.seen.note(&[machine, 250], &number.to_be_bytes());
                self.mark(machine);
                self.hear(machine, heard)
            }
            Event::Kept { machine, start, generation, bytes } => {
                let it = self.machine(machine);
                if it.start == start && it.host.is_some() {
                    it.disk.put((generation, Name::Machine), bytes);
                }
                Ok(())
            }
            Event::Written { machine, start, generation, bytes } => {
                let now = self.clock(machine, self.now);
                let it = self.machine(machine);
                let (Some(host), Some(digest)) = (&mut it.host, bytes.last_chunk().copied()) else { return Ok(()) };
                if it.start == start {
                    let length = bytes.len() as u64;
                    it.disk.put((generation, Name::Opening), bytes);
                    host.opening_written(generation, &digest, length, now);
                    self.turn_soon(machine);
                }
                Ok(())
            }
            Event::Read { machine, start, generation, offset, length } => {
                let now = self.clock(machine, self.now);
                let it = self.machine(machine);
                let Some(host) = it.host.as_mut().filter(|_| it.start == start) else { return Ok(()) };
                if let Some(all) = it.disk.content().get(&(generation, Name::Opening)) {
                    let from = (offset as usize).min(all.len());
                    let part = all[from..].iter().take(length as usize).copied().collect();
                    host.opening_read(generation, offset, (all.len() as u64, part), now);
                    self.turn_soon(machine);
                }
                Ok(())
            }
            Event::LetGo { machine, start, generation, checkpoint } => {
                let now = self.clock(machine, self.now);
                let it = self.machine(machine);
                let Some(host) = it.host.as_mut().filter(|_| it.start == start) else { return Ok(()) };
                host.let_go(generation, checkpoint, now);
                self.turn_soon(machine);
                Ok(())
            }
            Event::Gather { machine, start, number, spans } => {
                let now = self.clock(machine, self.now);
                let it = self.machine(machine);
                let Some(host) = it.host.as_mut().filter(|_| it.start == start) else { return Ok(()) };
                let file = |span: &Span| it.disk.content().get(&(span.generation, span.name));
                let read = spans.iter().map(|span| span.of(file(span)?)).collect::<Option<Vec<_>>>();
                host.gathered(number, read.map(|all| all.concat()), now);
                self.turn_soon(machine);
                Ok(())
            }
            Event::Followed { machine, start, generation, opening } => {
                let now = self.clock(machine, self.now);
                let it = self.machine(machine);
                let Some(host) = it.host.as_mut().filter(|_| it.start == start) else { return Ok(()) };
                host.followed(generation, opening, now);
                self.turn_soon(machine);
                Ok(())
            }
            Event::Lost(machine, peer) => {
                let now = self.clock(machine, self.now);
                // (it may be there again by now)
                let is_there = self.machines[usize::from(peer)].host.is_some() && !self.is_cut(machine, peer);
                if let Some(host) = self.machine(machine).host.as_mut().filter(|_| !is_there) {
                    host.link_lost(peer, now);
                    self.turn_soon(machine);
                }
                Ok(())
            }
            Event::Ask(client) => {
                self.ask(client);
                Ok(())
            }
            Event::Waited(client, token) => {
                let count = self.count();
                let it = &mut self.clients[client as usize];
                if it.token == Some(token) {
                    (it.token, it.machine) = (None, (it.machine + 1) % count);
                    self.after(MS, Event::Ask(client));
                }
                Ok(())
            }
            Event::GiveUp(token) => {
                self.give_up(token);
                Ok(())
            }
            Event::Trouble(number) => {
                let trouble = self.plan.troubles[number].clone();
                self.trouble(trouble)
            }
            Event::Look => {
                self.after(S, Event::Look);
                self.look()
            }
            Event::Round(machine, rounds) => self.round(machine, rounds),
            Event::Fall { machine, start, rounds } => {
                self.fall(machine, start, rounds);
                Ok(())
            }
            Event::Gone(machine, start) => {
                if self.machine(machine).start == start && self.machine(machine).host.is_some() {
                    self.stop(machine, None);
                }
                Ok(())
            }
            Event::Start(machine) => self.start(machine),
            Event::Again(machine) => {
                self.unhealed -= 1;
                self.start(machine)
            }
            Event::Mended(one, other, is_reported) => {
                self.mend((one, other), is_reported);
                self.unhealed -= 1;
                Ok(())
            }
            Event::Back(machine, age, tries) => {
                self.come_back(machine, age, tries);
                Ok(())
            }
            Event::Left(machine, tries) => self.leave_behind(machine, tries),
            Event::Fail(machine) => {
                let it = self.machine(machine);
                if it.host.is_some() && it.disk.is_lying() {
                    self.stop(machine, None);
                }
                self.after(50 * MS, Event::Again(machine));
                Ok(())
            }
            Event::Operate(token) => self.operate(token),
            Event::Check(machine, start) => self.check_older(machine, start),
        }
    }

    /// Whether each machine goes on: none that has reached a majority all the while has somebody wait, and none that
    /// has reached all stays behind.
    fn look(&mut self) -> Result<(), Failure> {
        let (now, count) = (self.now, self.operator.size);
        let is_up = |it: &Machine| it.host.is_some() && it.paused <= now;
        let up: Vec<bool> = self.machines.iter().map(is_up).collect();
        let generation = |it: &Machine| it.host.as_ref().map_or(0, |host| host.generation());
        let generations: Vec<u32> = self.machines.iter().map(generation).collect();
        let newest = generations.iter().take(count.into()).copied().max().unwrap_or_default();
        // (who takes part no more, or doesn't yet, is held to nothing)
        self.machines.iter_mut().skip(count.into()).for_each(|it| (it.able, it.whole) = (None, None));
        for machine in 0..count {
            let is_there = |peer: &u8| up[usize::from(*peer)] && !self.is_cut(machine, *peer);
            let there = (0..count).filter(is_there).count();
            let is_able = up[usize::from(machine)] && there > usize::from(count / 2);
            let it = &mut self.machines[usize::from(machine)];
            it.able = it.able.filter(|_| is_able).or(is_able.then_some(now));
            let is_whole = is_able && there == usize::from(count);
            it.whole = it.whole.filter(|_| is_whole).or(is_whole.then_some(now));
            let (here, (since, goal)) = (generations[usize::from(machine)], it.goal);
            match it.whole {
                None => it.goal = (now, newest),
                Some(whole) if whole > since => it.goal = (now, newest),
                Some(_) if now < since + WITHIN => {}
                Some(_) if here >= goal => it.goal = (now, newest),
                Some(_) => {
                    return Err(Failure::Stuck(format!("machine {machine} stays in generation {here}, of {goal}")));
                }
            }
        }
        let first = |content: &Content| content.keys().map(|(generation, _)| *generation).find(|it| *it > 0);
        let copies = self.machines.iter().flat_map(|it| it.older.copy.as_ref().map(|(content, ..)| content));
        let disks = self.machines.iter().map(|it| it.disk.least());
        let least = disks.chain(copies).filter_map(first).min();
        self.judge.forget(least.unwrap_or_default());
        self.own.iter().for_each(|own| own.forget(least.unwrap_or_default()));
        while self.judge.asked.get(self.first_open).is_some_and(|asked| !self.is_open(asked)) {
            self.first_open += 1;
        }
        let Some(asked) = self.judge.asked.get(self.first_open) else { return Ok(()) };
        let able = self.machines[usize::from(asked.at.0)].able;
        match able {
            Some(able) if now >= able.max(asked.start) + WITHIN => {
                Err(Failure::Stuck(format!("machine {} hasn't told who asked as {}", asked.at.0, self.first_open)))
            }
            _ => Ok(()),
        }
    }

    /// Whether somebody waits for a machine that knows of it.
    fn is_open(&self, asked: &Asked) -> bool {
        let machine = &self.machines[usize::from(asked.at.0)];
        !asked.is_answered && machine.start == asked.at.1 && machine.host.is_some()
    }

    /// A machine starts and is asked several things at once, and loses its power soon after, where that is to come.
    fn round(&mut self, machine: u8, rounds: u8) -> Result<(), Failure> {
        self.start(machine)?;
        for _ in 0..AT_ONCE {
            let key = self.random.below(self.plan.keys.into()) as u32;
            let kind = if self.random.below(4) == 0 { Kind::Get } else { Kind::Put };
            self.put_question(machine, (key, kind, 0));
        }
        if rounds == 0 {
            self.unhealed -= 1;
            return Ok(());
        }
        let way = self.plan.delays[usize::from(machine)].iter().max().copied().unwrap_or_default();
        let wait = 1 + self.random.below(2 * (self.plan.sync + way) + MS);
        let start = self.machine(machine).start;
        self.after(wait, Event::Fall { machine, start, rounds: rounds - 1 });
        Ok(())
    }

    /// It loses its power, where it hasn't meanwhile, and comes back.
    fn fall(&mut self, machine: u8, start: u32, rounds: u8) {
        let it = self.machine(machine);
        if it.host.is_none() || it.start != start {
            self.unhealed -= 1;
            return;
        }
        self.stop(machine, None);
        let least = [MS, 50 * MS, S][self.random.below(3) as usize];
        let wait = least + self.random.below(least);
        self.after(wait, Event::Round(machine, rounds));
    }

    pub(super) fn turn_soon(&mut self, machine: u8) {
        let at = self.now + TURN;
        if self.machine(machine).turn > at {
            self.machine(machine).turn = at;
            self.at(at, Event::Turn(machine));
        }
    }

    /// A host has heard something.
    fn hear(&mut self, machine: u8, heard: Result<(), HostFault>) -> Result<(), Failure> {
        match heard {
            Ok(()) => {
                self.turn_soon(machine);
                Ok(())
            }
            Err(fault) => self.end(machine, fault),
        }
    }

    /// A host has ended: one that has noticed that its disk is an older copy is replaced.
    fn end(&mut self, machine: u8, fault: HostFault) -> Result<(), Failure> {
        if matches!(fault, HostFault::Left(_)) && self.may_leave(machine) {
            self.leave(machine);
            return Ok(());
        }
        let it = self.machine(machine);
        let (is_older, has_lied) = (it.older.is.is_some(), it.has_lied);
        let is_it = matches!(fault, HostFault::Forgotten { .. } | HostFault::Disowned { .. });
        if !is_it || !(is_older || has_lied) {
            return Err(Failure::Ended(machine, fault.to_string()));
        }
        self.seen.older += u64::from(is_older);
        self.seen.lies_noticed += u64::from(has_lied);
        self.stop(machine, None);
        self.replace(machine);
        self.after(S, Event::Start(machine));
        Ok(())
    }

    fn turn(&mut self, machine: u8) -> Result<(), Failure> {
        if self.machine(machine).turn != self.now {
            return Ok(());
        }
        self.machine(machine).turn = u64::MAX;
        let now = self.clock(machine, self.now);
        let it = self.machine(machine);
        let start = it.start;
        let Some(host) = &mut it.host else { return Ok(()) };
        // (receipts are of the generation before the turn, if it changes)
        let generation = host.generation();
        let before = host.status_together();
        let Turn { frames, writes, replies, work, executed, receipts, changes, lacks_changes, .. } =
            match host.turn(now) {
                Ok(turn) => turn,
                Err(fault) => return self.end(machine, fault),
            };
        it.watched.follow(changes, lacks_changes);
        it.watched.compare(|| host.contents()).map_err(|key| Failure::Watched(machine, key))?;
        let together = host.status_together() - before;
        let due = host.due();
        let (recoveries, is_ended) = (host.status_recoveries(), host.is_ended());
        it.recoveries = it.recoveries.max(recoveries);
        self.seen.turns += 1;
        self.seen.together += together;
        self.judge.hear_receipts((machine, start), &receipts)?;
        if self.keeps && !receipts.is_empty() {
            self.receipts.entry(generation).or_default().extend(receipts);
        }
        for done in executed {
            self.judge.execute((machine, start), done)?;
        }
        frames.into_iter().for_each(|(to, bytes)| self.send(machine, to, bytes));
        for reply in replies {
            self.take_reply(machine, reply)?;
        }
        if is_ended {
            return self.part(machine);
        }
        for work in work {
            if let Work::Prepare { .. } = work {
                continue;
            }
            if let Work::LetGo { generation, mut checkpoint } = work {
                checkpoint.let_go();
                self.after(self.plan.sync, Event::LetGo { machine, start, generation, checkpoint });
                continue;
            }
            let wait = 1 + self.random.below(self.plan.sync * 20);
            match work {
                Work::LetGo { .. } | Work::Prepare { .. } => {}
                Work::Write { generation, machine: state, checkpoint } => {
                    if let Some(bytes) = state {
                        self.after(wait / 2, Event::Kept { machine, start, generation, bytes });
                    }
                    let mut bytes = Vec::new();
                    let _ = checkpoint.write(&mut bytes);
                    self.after(wait, Event::Written { machine, start, generation, bytes });
                }
                Work::Read { generation, offset, length } => {
                    self.after(wait / 20, Event::Read { machine, start, generation, offset, length });
                }
                Work::Gather { number, spans } => {
                    self.after(wait / 20, Event::Gather { machine, start, number, spans });
                }
                Work::Follow { generation, trail } => {
                    let opening = trail.opening().ok();
                    self.after(wait, Event::Followed { machine, start, generation, opening });
                }
            }
        }
        if let Some(writes) = writes {
            let takes = 1 + self.random.below(self.plan.sync);
            let it = self.machine(machine);
            it.disk.give(writes);
            it.is_busy = true;
            if let Some((acts, lasts)) = it.crash_in_change.take_if(|_| it.disk.begins() && it.how == How::Again) {
                self.stop(machine, Some(acts.into()));
                self.after(lasts, Event::Start(machine));
                return Ok(());
            }
            self.after(takes, Event::Synced(machine, start));
        }
        let due = self.time(machine, due).max(self.now + TURN);
        self.machine(machine).turn = due;
        self.at(due, Event::Turn(machine));
        Ok(())
    }

    /// A host that was asked to end has answered all who asked.
    fn part(&mut self, machine: u8) -> Result<(), Failure> {
        let of = (machine, self.machine(machine).start);
        let mut asked = self.judge.asked.iter().enumerate().skip(self.first_open);
        if let Some((token, _)) = asked.find(|(_, asked)| !asked.is_answered && asked.at == of) {
            return Err(Failure::Stuck(format!("machine {machine} ends, and hasn't told who asked as {token}")));
        }
        self.seen.ended += 1;
        self.stop(machine, None);
        Ok(())
    }

    fn send(&mut self, from: u8, to: u8, bytes: Vec<u8>) {
        self.seen.frames += 1;
        self.machine(from).older.send(&bytes);
        if self.is_cut(from, to) {
            return;
        }
        let is = |random: &mut Random, of: u64| of > 0 && random.below(1_000) < of;
        let count =
            1 + u32::from(is(&mut self.random, self.plan.twice)) - u32::from(is(&mut self.random, self.plan.lost));
        let mut left = Some(bytes);
        for copy in 0..count {
            let way = self.plan.delays[usize::from(from)][usize::from(to)];
            let mut takes = way + self.random.below(way / 8 + 1);
            if is(&mut self.random, self.plan.late) {
                takes *= 2 + self.random.below(9);
            }
            let bytes = if copy + 1 < count { left.clone() } else { left.take() };
            bytes.into_iter().for_each(|bytes| self.after(takes, Event::Frame { from, to, bytes }));
        }
    }

    /// A client asks for something.
    fn ask(&mut self, client: u32) {
        if self.left == 0 {
            return;
        }
        let (keys, mix, count) = (self.plan.keys, self.plan.mix, self.count());
        let it = &mut self.clients[client as usize];
        let key = it.random.below(keys.into()) as u32;
        let kind = kind_of(mix, &mut it.random);
        let machine = it.machine;
        if self.machine(machine).host.is_none() {
            self.clients[client as usize].machine = (machine + 1) % count;
            return self.after(10 * MS, Event::Ask(client));
        }
        self.left -= 1;
        let token = self.put_question(machine, (key, kind, client + 1));
        self.clients[client as usize].token = Some(token);
        self.after(CLIENT_PATIENCE, Event::Waited(client, token));
        let chance = mixed(self.plan.seed ^ token << 20 ^ 0x6775);
        if chance % 1_000 < self.plan.given_up {
            let way = self.plan.delays[usize::from(machine)].iter().max().copied().unwrap_or_default();
            self.after((chance >> 16) % (2 * (way + self.plan.sync) + MS), Event::GiveUp(token));
        }
    }

    /// Who has asked this waits no more. It is answered all the same.
    fn give_up(&mut self, token: u64) {
        let (machine, start) = self.judge.asked[token as usize].at;
        let now = self.clock(machine, self.now);
        let it = self.machine(machine);
        if let Some(host) = it.host.as_mut().filter(|_| it.start == start) {
            host.give_up(token, now);
            self.turn_soon(machine);
        }
    }

    /// Asks a machine, whose host is there: by which number.
    pub(super) fn put_question(&mut self, machine: u8, (key, kind, _): (u32, Kind, u32)) -> u64 {
        let token = self.judge.asked.len() as u64;
        let value = token as u32 + 1;
        let (start, at) = (self.now, (machine, self.machine(machine).start));
        let (end, before, is_refused, is_answered, with) = (None, None, false, false, None);
        let asked = Asked { key, kind, value, start, end, before, is_refused, is_answered, at, with };
        let now = self.clock(machine, self.now);
        if let Some(own) = &self.own {
            let command = own.ask(token, &mut self.random);
            self.judge.asked.push(Asked { kind: Kind::Own, ..asked });
            if let Some(host) = &mut self.machine(machine).host {
                host.call(token, command, now);
                self.turn_soon(machine);
            }
            return token;
        }
        let (key, bytes) = (asked.key_bytes(), value.to_be_bytes().to_vec());
        if let Kind::Pair(pair) = kind {
            let second = Asked {
                key: (asked.key + 1) % self.plan.keys,
                kind: pair.of_second(),
                value: value + 1,
                ..asked.clone()
            };
            let (keys, values) = ([&key[..], &second.key_bytes()], [&bytes[..], &second.value.to_be_bytes()]);
            // (where there is one key only it is a put)
            if let Some(command) = pair.command(keys, values) {
                let with = Some(self.judge.asked.len() + 1);
                self.judge.asked.extend([Asked { kind: Kind::Put, with, ..asked }, second]);
                if let Some(host) = &mut self.machine(machine).host {
                    host.call(token, command, now);
                    self.turn_soon(machine);
                }
                return token;
            }
        }
        let kind = if let Kind::Pair(_) = kind { Kind::Put } else { kind };
        self.judge.asked.push(Asked { kind, ..asked });
        if let Some(host) = &mut self.machine(machine).host {
            match kind {
                Kind::Pair(_) | Kind::Own => {}
                Kind::Put => host.call(token, OwnedCommand::Put { key, value: bytes }, now),
                Kind::Del => host.call(token, OwnedCommand::Del { key }, now),
                Kind::New => host.call(token, OwnedCommand::Cas { key, expected: None, new: Some(bytes) }, now),
                Kind::Get => host.call(token, OwnedCommand::Get { key }, now),
                Kind::Read => host.read(token, key, now),
                Kind::Write | Kind::Look => {
                    let is_reading = kind == Kind::Look;
                    let body = if is_reading { Vec::new() } else { bytes };
                    host.call(token, OwnedCommand::Opaque { is_reading, first: key, second: None, body }, now);
                }
            }
            self.turn_soon(machine);
        }
        token
    }

    /// Somebody is answered.
    fn take_reply(&mut self, machine: u8, reply: Reply) -> Result<(), Failure> {
        let Reply { token, told: outcome } = reply;
        if self.operator.is_its(token) {
            return self.operator_answered(token, &outcome);
        }
        self.seen.note(&[machine, 251], &token.to_be_bytes());
        let now = self.now;
        let all = &mut self.judge.asked;
        let is_open = all.get(token as usize).is_some_and(|asked| !asked.is_answered);
        let Some((asked, rest)) = all.get_mut(token as usize..).and_then(<[Asked]>::split_first_mut) else {
            return Err(Failure::ToldTwice(token));
        };
        if !is_open {
            return Err(Failure::ToldTwice(token));
        }
        match (&self.own, &outcome) {
            (Some(own), Told::Replied(reply)) => own.note_reply(token, Some((asked.start, reply)))?,
            (Some(own), Told::Refused(_)) => own.note_reply(token, None)?,
            _ => {}
        }
        let number = |value: &[u8]| value.try_into().ok().map(u32::from_be_bytes);
        let mut second = rest.first_mut().filter(|_| asked.with.is_some());
        let mut of_second = None;
        match outcome {
            Told::Done(answer) => {
                asked.end = Some(now);
                asked.before = match &mut second {
                    Some(second) => pair::had_before([&mut *asked, &mut **second], &answer).map(|[first, other]| {
                        of_second = Some(other);
                        first
                    }),
                    None => match &answer {
                        OwnedAnswer::Present(value) => Some(number(value)),
                        _ => Some(None),
                    },
                };
            }
            Told::Replied(reply) => (asked.end, asked.before) = (Some(now), Some(number(&reply))),
            Told::Value(value) => (asked.end, asked.before) = (Some(now), Some(value.as_deref().and_then(number))),
            // (one that requires something may have been executed and not done)
            Told::DoneUnseen if second.as_ref().is_some_and(|it| it.kind == Kind::Get) => {}
            Told::DoneUnseen => asked.end = Some(now),
            Told::Doubtful | Told::Changed(_) | Told::All(_) => {}
            Told::Refused(why) => {
                self.seen.given_up += u64::from(why == Refusal::GivenUp);
                asked.is_refused = true;
                self.seen.refused += 1;
            }
        }
        asked.is_answered = true;
        if let Some(second) = second {
            (second.end, second.before) = (asked.end, of_second);
            (second.is_refused, second.is_answered) = (asked.is_refused, true);
        }
        let is_refused = asked.is_refused;
        let count = self.count();
        let think = self.plan.think;
        if let Some((client, it)) = (0..).zip(&mut self.clients).find(|(_, client)| client.token == Some(token)) {
            it.token = None;
            if is_refused {
                it.machine = (it.machine + 1) % count;
            }
            let wait = 1 + it.random.below(think);
            self.after(wait, Event::Ask(client));
        }
        Ok(())
    }

    fn settings(&self, machine: u8) -> Settings {
        let start = self.machines[usize::from(machine)].start;
        Settings {
            seed: mixed(self.plan.seed ^ u64::from(machine) << 48 ^ u64::from(start) << 20),
            numbers: self.plan.numbers,
            checkpoint: self.plan.checkpoint,
            together: self.plan.together,
            kept: 0,
            tells_executed: true,
            plant: self.plant,
            identity: self.plan.is_named.then(|| self.identity(machine)),
            ..Settings::new(
                if machine < self.plan.cluster.replicas() { self.plan.cluster } else { Cluster::Seven },
                machine,
            )
        }
    }

    /// A machine starts, with what its disk has.
    pub(super) fn start(&mut self, machine: u8) -> Result<(), Failure> {
        if self.machine(machine).host.is_some() || self.machine(machine).how == How::Outside {
            return Ok(());
        }
        if !self.may_start(machine) {
            // (meanwhile the others have gone on, and have seen nothing of it since: nobody could notify it)
            self.replace(machine);
        }
        self.machine(machine).start += 1;
        let (settings, now) = (self.settings(machine), self.clock(machine, self.now));
        let it = &self.machines[usize::from(machine)];
        let (how, disk) = (it.how, &it.disk);
        let state_machine = || match &self.own {
            Some(own) => own.machine(machine),
            None => Box::<Registers>::default(),
        };
        let begin = |start| Host::with_machine(&settings, start, disk, state_machine(), now);
        let host = match how {
            How::First => begin(Start::New),
            How::Again => begin(Start::Again),
            How::Joins => match begin(Start::Again) {
                Err(StartFault::Folder(FolderFault::Plan(PlanFault::None))) => begin(Start::Join),
                started => started,
            },
            How::Outside => return Ok(()),
        };
        let mut host = match host {
            Ok(host) => host,
            Err(_) if self.machine(machine).has_lied => {
                self.seen.lies_noticed += 1;
                self.replace(machine);
                self.after(S, Event::Start(machine));
                return Ok(());
            }
            Err(fault) => return Err(Failure::Ended(machine, format!("it doesn't start: {fault}"))),
        };
        host.set_tells_changes(true);
        self.machine(machine).watched = Watched::default();
        self.seen.starts += 1;
        let peers: Vec<u8> =
            (0..self.count()).filter(|peer| *peer != machine && !self.is_cut(machine, *peer)).collect();
        let up = |world: &World, peer: &u8| world.machines[usize::from(*peer)].host.is_some();
        peers.iter().filter(|peer| up(self, peer)).for_each(|peer| host.link_opened(*peer, now));
        self.machine(machine).host = Some(host);
        self.turn_soon(machine);
        for peer in peers {
            let now = self.clock(peer, self.now);
            if let Some(host) = &mut self.machine(peer).host {
                host.link_opened(machine, now);
                self.turn_soon(peer);
            }
        }
        self.look_after(machine);
        Ok(())
    }

    /// Something goes wrong: from now on the machines have time again.
    fn disturb(&mut self) {
        self.machines.iter_mut().for_each(|it| (it.able, it.whole) = (None, None));
    }

    /// A machine loses its power.
    pub(super) fn stop(&mut self, machine: u8, done: Option<usize>) {
        self.disturb();
        let mut random = Random::from_seed(mixed(self.plan.seed ^ self.now));
        let it = self.machine(machine);
        it.host = None;
        it.is_busy = false;
        it.turn = u64::MAX;
        it.disk.crash(&mut random, done);
        it.older.stop();
        let has_lied = it.disk.take_lied();
        it.has_lied |= has_lied;
        self.seen.lies += u64::from(has_lied);
        self.seen.crashes += 1;
        // (who asked there isn't answered)
        let count = self.count();
        for client in 0..self.clients.len() {
            let it = &mut self.clients[client];
            let of = it.token.and_then(|token| self.judge.asked.get(token as usize)).map(|asked| asked.at.0);
            if of == Some(machine) {
                (it.token, it.machine) = (None, (machine + 1) % count);
                self.after(5 * MS, Event::Ask(client as u32));
            }
        }
        for peer in (0..count).filter(|peer| *peer != machine) {
            // (power that is lost notifies nobody; a program that ends has its connections closed)
            let wait = if self.random.below(2) == 0 { 1 } else { 2 * S };
            self.after(wait, Event::Lost(peer, machine));
        }
    }

    /// It is gone for good, with its disk.
    pub(super) fn take_out(&mut self, machine: u8) {
        let keeps = self.keeps;
        if keeps && self.machine(machine).older.is.is_none() {
            let content = self.machine(machine).disk.whole();
            self.gone.push((machine, content));
        }
        let it = self.machine(machine);
        it.disk = Disk::new(keeps);
        it.before += 1;
        (it.older, it.crash_in_change, it.has_lied) = (Older::default(), None, false);
    }

    /// Another machine takes its number.
    pub(super) fn replace(&mut self, machine: u8) {
        self.take_out(machine);
        self.machine(machine).how = How::Joins;
        self.seen.replaced += 1;
        if self.plan.is_named {
            self.unhealed += 1;
            self.wish(Task::Replace(machine));
        }
    }

    /// Whether one more machine may be lost for good: all others have what they sent, and are in the cluster.
    pub(super) fn may_lose(&self, machine: u8) -> bool {
        let is_in = |it: &Machine| {
            let generation = it.host.as_ref().map_or(0, |host| host.status().generation);
            (generation > 0 || it.host.is_none()) && it.older.is.is_none() && (it.how != How::Joins || generation > 0)
        };
        let size = self.operator.size;
        let others = (0..size).zip(&self.machines).filter(|(number, _)| *number != machine);
        machine < size && self.operator.is_idle() && others.map(|(_, it)| it).all(is_in)
    }

    fn trouble(&mut self, trouble: Trouble) -> Result<(), Failure> {
        let Trouble { machine, what, lasts, .. } = trouble;
        match what {
            What::Crash if self.machine(machine).host.is_some() => {
                self.stop(machine, None);
                self.after(lasts, Event::Again(machine));
            }
            What::End if self.machine(machine).host.is_some() => {
                let (now, start) = (self.clock(machine, self.now), self.machine(machine).start);
                if let Some(host) = &mut self.machine(machine).host {
                    host.end(now);
                    self.turn_soon(machine);
                }
                self.after(ENDING, Event::Gone(machine, start));
                self.after(ENDING + lasts, Event::Again(machine));
            }
            What::CrashInCalls(times) if self.machine(machine).host.is_some() => {
                self.stop(machine, None);
                self.after(lasts, Event::Round(machine, times));
            }
            What::CrashInChange(acts) if self.machine(machine).crash_in_change.is_none() => {
                self.machine(machine).crash_in_change = Some((acts, lasts));
                // (where no generation begins in time nothing comes of it)
                self.after(lasts + 5 * S, Event::Again(machine));
                self.unhealed += 1;
                self.after(lasts + 4 * S, Event::Mended(machine, machine, false));
            }
            What::Pause => {
                self.disturb();
                self.machine(machine).paused = self.now + lasts;
                self.after(lasts, Event::Again(machine));
            }
            What::Cut(other, is_reported) => {
                self.cut((machine, other), is_reported);
                self.after(lasts, Event::Mended(machine, other, is_reported));
            }
            What::Apart(is_reported) => self.cut_off(&[machine], is_reported, lasts),
            What::Split(other, is_reported) => self.cut_off(&[machine, other], is_reported, lasts),
            What::Replace if self.may_lose(machine) => {
                if self.machine(machine).host.is_some() {
                    self.stop(machine, None);
                }
                self.replace(machine);
                self.after(lasts, Event::Again(machine));
            }
            What::Older(age) => self.begin_older(machine, age),
            What::Lie if self.machine(machine).host.is_some() => {
                self.machine(machine).disk.begin_lie();
                self.after(lasts, Event::Fail(machine));
            }
            What::Resize(cluster) => self.wish(Task::Resize(cluster)),
            _ => self.unhealed -= 1,
        }
        Ok(())
    }

    /// These are cut off from all others for so long.
    fn cut_off(&mut self, some: &[u8], is_reported: bool, lasts: u64) {
        let others: Vec<u8> = (0..self.count()).filter(|other| !some.contains(other)).collect();
        self.unhealed += some.len() * others.len() - 1;
        for (one, other) in some.iter().flat_map(|one| others.iter().map(move |other| (*one, *other))) {
            self.cut((one, other), is_reported);
            self.after(lasts, Event::Mended(one, other, is_reported));
        }
    }

    fn cut(&mut self, (one, other): (u8, u8), is_reported: bool) {
        self.disturb();
        for (from, to) in [(one, other), (other, one)] {
            self.cuts[usize::from(from)][usize::from(to)] += 1;
            if is_reported {
                self.after(MS, Event::Lost(from, to));
            }
        }
    }

    fn mend(&mut self, (one, other): (u8, u8), _is_reported: bool) {
        if one == other {
            self.machine(one).crash_in_change = None;
            return;
        }
        for (from, to) in [(one, other), (other, one)] {
            self.cuts[usize::from(from)][usize::from(to)] -= 1;
        }
        for (from, to) in [(one, other), (other, one)] {
            let now = self.clock(from, self.now);
            let is_up = self.machines[usize::from(to)].host.is_some() && !self.is_cut(from, to);
            if let Some(host) = self.machine(from).host.as_mut().filter(|_| is_up) {
                host.link_opened(to, now);
                self.turn_soon(from);
            }
        }
    }
}

/// What a client asks for next.
fn kind_of(mix: Mix, random: &mut Random) -> Kind {
    let Mix { puts, dels, news, reads, gets, pairs, machine } = mix;
    let pair = Kind::Pair(if random.below(2) == 0 { Pair::Both } else { Pair::Guarded });
    let of_machine = if random.below(2) == 0 { Kind::Write } else { Kind::Look };
    let (writes, others) = (
        [(puts, Kind::Put), (dels, Kind::Del), (news, Kind::New)],
        [(reads, Kind::Read), (gets, Kind::Get), (pairs, pair)],
    );
    let all = [&writes[..], &others, &[(machine, of_machine)]].concat();
    let sum: u64 = all.iter().map(|(part, _)| u64::from(*part)).sum();
    let mut place = random.below(sum.max(1));
    for (part, kind) in all {
        match place.checked_sub(part.into()) {
            Some(rest) => place = rest,
            None => return kind,
        }
    }
    Kind::Put
}
