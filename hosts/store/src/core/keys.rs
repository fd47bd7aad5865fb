//! What clients ask of keys, made into commands of the protocol.
//!
//! What only reads a key is no command: it goes at once, by itself, as a read that writes nothing. Of each key one
//! command of this replica is under way, or two where the replicas are far apart: then what is asked while the first is
//! on its way needn't wait until that is back. All that is asked of the key meanwhile, but for reads, waits, and the
//! next command does it all: where something is written whatever was there one `put` or `del`, else a comparison
//! (`cas`) from what is there to what is to be there; a read returns what that is, where it isn't known. So all of it
//! happens at the command's place in the history, one after the other in the order in which it was asked. A comparison
//! that finds another value is tried again with that one. Of two commands, or reads, either may be done first, so no
//! two of them have something of one connection.
//!
//! What is asked of several keys at once waits in the queue of each (`transacting.rs`) for its commands, and for the
//! reads of its own connection; and what is behind it there waits for it.
use crate::client::actions::Action;
use crate::client::command_fault::CommandFault;
use crate::client::replies::ReplyTo;
use crate::client::resp::Reply;
use crate::core::ask::{Ask, What};
use crate::core::asks::Asks;
use crate::core::outcome::Outcome;
use crate::core::reply_sender::ReplySender;
use crate::core::stored::{self, Stored};
use crate::core::transacting::Transacting;
use crate::core::transaction::Transaction;
use crate::ops::metrics::Metrics;
use epaxos::host::Begun;
use epaxos::{OwnedAnswer, OwnedCommand};
use std::collections::{HashMap, HashSet, VecDeque};
use std::io;
use std::sync::atomic::{AtomicU64, Ordering};
use std::sync::mpsc::{Receiver, Sender, channel};
use std::sync::{Arc, Mutex, MutexGuard, PoisonError, Weak};
use std::thread;
use std::time::{Duration, Instant};

/// A comparison that finds another value is proposed at most so often.
pub(crate) const MOST_TRIES: usize = 100;
/// Where the fast quorum's round trip is so long at least, two commands of a key may be under way; and once one is done that was for several, its clients
/// are waited for, so that they go together again: for one part in so many of the round trip, at most for so long.
const FAR: Duration = Duration::from_millis(20);
const SHARE_OF_REST: u32 = 16;
const LONGEST_REST: Duration = Duration::from_millis(10);
/// At most so much is done by one command.
const MOST_TOGETHER: usize = 512;
/// So many keys' last values are kept, of at most so many bytes, as what a comparison may find.
const MOST_KNOWN: usize = 1_024;
const LONGEST_KNOWN: usize = 1_024;

/// All keys that something is asked of.
pub struct Keys {
    state: Mutex<State>,
    asks: Arc<Asks>,
    given: AtomicU64,
}

pub(crate) struct State {
    pub(crate) keys: HashMap<Vec<u8>, Key>,
    /// What is asked of several keys, by its number.
    pub(crate) transactions: HashMap<u64, Transacting>,
    /// The transactions that have each of their keys, and begin; and keys where another command may begin.
    pub(crate) ready: Vec<u64>,
    pub(crate) left: Vec<Vec<u8>>,
    /// What is to be launched once the state isn't locked any more.
    pub(crate) launches: Vec<Launch>,
    /// What some keys had when their last command was done. Others may have changed it.
    pub(crate) known: HashMap<Vec<u8>, Option<Vec<u8>>>,
    metrics: Arc<Metrics>,
    /// Where keys go that rest, with the end of that.
    resting: Sender<(Instant, Vec<u8>)>,
    pub(crate) flights: u64,
    /// Whether reads pass what waits of their own connection: a fault that is planted.
    passes: bool,
}

#[derive(Default)]
pub(crate) struct Key {
    /// The oldest first.
    flights: Vec<Flight>,
    pub(crate) waiting: VecDeque<Queued>,
    /// The transaction that has the key: nothing else is under way but reads.
    pub(crate) held_by: Option<Turn>,
    /// Whether clients are waited for before the next one.
    rests: bool,
}

impl Key {
    /// Whether something of this connection is under way, or waits.
    fn has_of(&self, connection: u64) -> bool {
        let mut under_way = self.flights.iter().flat_map(|flight| &flight.asked);
        under_way.any(|asked| asked.to.connection == connection)
            || self.waiting.iter().any(|queued| queued.connection() == connection)
            || self.held_by.is_some_and(|turn| turn.connection == connection)
    }

    /// How many commands are under way.
    fn commands(&self) -> usize {
        self.flights.iter().filter(|flight| !flight.is_reading).count()
    }

    /// The transaction that may have the key now: the first that waits, where no command is under way, nor a read of
    /// its own connection, which was asked before it.
    fn next_turn(&self) -> Option<Turn> {
        let Some(Queued::Turn(turn)) = self.waiting.front() else { return None };
        let is_its = |flight: &Flight| flight.asked.iter().any(|asked| asked.to.connection == turn.connection);
        (!self.flights.iter().any(|flight| !flight.is_reading || is_its(flight))).then_some(*turn)
    }

    fn flight(&mut self, number: u64) -> Option<&mut Flight> {
        self.flights.iter_mut().find(|flight| flight.number == number)
    }

    /// Takes what waits up to the first transaction, at most so much, but for what is of a connection that has
    /// something in another flight than this one.
    fn take_waiting(&mut self, number: u64, most: usize) -> Vec<Asked> {
        let others = self.flights.iter().filter(|flight| flight.number != number);
        let others: HashSet<u64> = others.flat_map(|flight| &flight.asked).map(|asked| asked.to.connection).collect();
        let (mut taken, mut left) = (Vec::new(), VecDeque::new());
        while taken.len() < most {
            match self.waiting.pop_front() {
                Some(Queued::One(asked)) if !others.contains(&asked.to.connection) => taken.push(asked),
                Some(one @ Queued::One(_)) => left.push_back(one),
                Some(turn @ Queued::Turn(_)) => {
                    left.push_back(turn);
                    break;
                }
                None => break,
            }
        }
        left.append(&mut self.waiting);
        self.waiting = left;
        taken
    }

    /// Whether nothing is to be done of it.
    fn is_idle(&self) -> bool {
        self.flights.is_empty() && self.waiting.is_empty() && self.held_by.is_none() && !self.rests
    }
}

/// What a connection wants done, under a number, and where its reply goes.
pub enum Wanted {
    Action(u64, Vec<u8>, Action, ReplyTo),
    Transaction(u64, Transaction, ReplyTo),
}

/// What waits for a key.
pub(crate) enum Queued {
    One(Asked),
    Turn(Turn),
}

/// That a transaction waits for the key, or has it.
#[derive(Clone, Copy)]
pub(crate) struct Turn {
    pub(crate) transaction: u64,
    pub(crate) connection: u64,
}

impl Queued {
    fn connection(&self) -> u64 {
        match self {
            Queued::One(asked) => asked.to.connection,
            Queued::Turn(turn) => turn.connection,
        }
    }

    fn is_asked(&self, id: u64) -> bool {
        matches!(self, Queued::One(asked) if asked.id == id)
    }

    pub(crate) fn is_of(&self, transaction: u64) -> bool {
        matches!(self, Queued::Turn(turn) if turn.transaction == transaction)
    }
}

/// What a client asks of a key.
pub(crate) struct Asked {
    id: u64,
    action: Action,
    to: ReplyTo,
    /// Whether its client waits no longer.
    is_over: bool,
}

/// A command that is under way, and what it does; or a read.
struct Flight {
    number: u64,
    /// Whether all of it only reads: it doesn't count among the key's commands.
    is_reading: bool,
    asked: Vec<Asked>,
    /// How many that were when it was proposed.
    together: usize,
    step: Step,
    /// What the key then has, where it is done as is expected. None: nobody knows.
    after: Option<Option<Vec<u8>>>,
    /// The time by which deadlines are judged.
    now: u64,
    tries: usize,
    /// Whether its last command was proposed.
    begun: Arc<Begun>,
}

#[derive(Clone, PartialEq, Eq, Debug)]
enum Step {
    Read,
    /// Written whatever is there.
    Write,
    /// Written where this is there.
    Compare(Option<Vec<u8>>),
}

/// A command that is to be proposed, or a read that is to be asked, once the state isn't locked any more.
pub(crate) struct Launch {
    pub(crate) of: Of,
    /// In whose turn: where it is for several connections, in that of the first.
    pub(crate) connection: u64,
    /// None: the key is read.
    pub(crate) command: Option<OwnedCommand>,
    pub(crate) begun: Arc<Begun>,
}

/// What something is launched for.
pub(crate) enum Of {
    Flight(Vec<u8>, u64),
    /// A transaction, at this attempt; and the key that is read.
    Transaction(u64, u64, Vec<u8>),
}

impl Of {
    fn key(&self) -> &Vec<u8> {
        match self {
            Of::Flight(key, _) | Of::Transaction(_, _, key) => key,
        }
    }
}

impl Keys {
    pub fn start(asks: Arc<Asks>, metrics: Arc<Metrics>) -> io::Result<Arc<Keys>> {
        let (resting, rests) = channel();
        let state = State {
            keys: HashMap::new(),
            transactions: HashMap::new(),
            ready: Vec::new(),
            left: Vec::new(),
            launches: Vec::new(),
            known: HashMap::new(),
            metrics,
            resting,
            flights: 0,
            passes: false,
        };
        let keys = Arc::new(Keys { state: Mutex::new(state), asks, given: AtomicU64::new(0) });
        let weak = Arc::downgrade(&keys);
        thread::Builder::new().name("rests".into()).spawn(move || wake_all(&weak, &rests))?;
        Ok(keys)
    }

    /// From now on reads pass what waits of their own connection: a fault that is planted.
    pub fn let_reads_pass(&self) {
        self.state().passes = true;
    }

    /// A number for what is asked, by which it can be withdrawn.
    pub fn id(&self) -> u64 {
        self.given.fetch_add(1, Ordering::Relaxed)
    }

    /// Has the action done.
    pub fn ask(self: &Arc<Keys>, id: u64, key: Vec<u8>, action: Action, to: ReplyTo) {
        let mut state = self.state();
        let launch = state.ask(id, key, action, to);
        self.hand_on(state, launch);
    }

    /// Has all of this done.
    pub fn ask_all(self: &Arc<Keys>, wanted: &mut Vec<Wanted>) {
        let mut state = self.state();
        for it in wanted.drain(..) {
            match it {
                Wanted::Action(id, key, action, to) => {
                    let launch = state.ask(id, key, action, to);
                    state.launches.extend(launch);
                }
                Wanted::Transaction(number, asked, to) => state.enqueue(number, asked, to),
            }
            state.settle();
        }
        self.hand_on(state, None);
    }

    /// Its client waits no longer: the error that it is to get. None where it was answered already.
    pub fn withdraw(self: &Arc<Keys>, id: u64, key: &[u8]) -> Option<CommandFault> {
        let mut state = self.state();
        let found = state.keys.get_mut(key)?;
        if let Some(place) = found.waiting.iter().position(|queued| queued.is_asked(id)) {
            found.waiting.remove(place);
            return Some(CommandFault::Waiting);
        }
        let has_it = |flight: &&mut Flight| flight.asked.iter().any(|asked| asked.id == id);
        let flight = found.flights.iter_mut().find(has_it)?;
        let asked = flight.asked.iter_mut().find(|asked| asked.id == id)?;
        asked.is_over = true;
        let changes = !asked.action.only_reads() && flight.step != Step::Read;
        // A command that nobody waits for is left to itself. One that wasn't proposed yet never is, and others that it was for get another one.
        let is_left = flight.asked.iter().all(|asked| asked.is_over);
        let is_undone = (changes || is_left) && flight.begun.give_up();
        let number = flight.number;
        let launch = match (is_left, is_undone) {
            (true, _) => state.next(key.to_vec(), number),
            (false, true) => state.propose_anew(key.to_vec(), number),
            (false, false) => None,
        };
        self.hand_on(state, launch);
        Some(match (changes, is_undone) {
            (false, _) => CommandFault::NotInTime,
            (true, true) => CommandFault::Waiting,
            (true, false) => CommandFault::Unanswered,
        })
    }

    /// The rest of a key is over.
    fn wake(self: &Arc<Keys>, key: Vec<u8>) {
        let mut state = self.state();
        let launch = state.wake(key);
        self.hand_on(state, launch);
    }

    pub(crate) fn state(&self) -> MutexGuard<'_, State> {
        // (a thread that panics ends the store)
        self.state.lock().unwrap_or_else(PoisonError::into_inner)
    }

    /// Has all begun that may begin now, and launched with this.
    pub(crate) fn hand_on(self: &Arc<Keys>, mut state: MutexGuard<'_, State>, launch: Option<Launch>) {
        state.launches.extend(launch);
        state.settle();
        let launches = std::mem::take(&mut state.launches);
        drop(state);
        launches.into_iter().for_each(|launch| self.launch(launch));
    }

    /// Hands a command to the driver.
    fn launch(self: &Arc<Keys>, launch: Launch) {
        let Launch { of, connection, command, begun } = launch;
        let what = command.map_or_else(|| What::Get(of.key().clone()), What::Propose);
        let keys = self.clone();
        let reply = ReplySender::of(begun, move |outcome| keys.take(of, outcome));
        self.send(connection, Ask { what, reply });
    }

    /// Asks the driver in a connection's turn, without waiting for it.
    pub fn send(&self, connection: u64, ask: Ask) {
        self.asks.put(connection, ask);
    }

    /// What became of a command, or of a read.
    fn take(self: &Arc<Keys>, of: Of, outcome: Outcome) {
        let mut state = self.state();
        let launch = match of {
            Of::Flight(key, flight) => state.take(key, flight, outcome),
            Of::Transaction(number, attempt, key) => {
                state.take_transaction(number, attempt, key, outcome);
                None
            }
        };
        self.hand_on(state, launch);
    }
}

/// Wakes each key once its rest is over, until there are no keys any more.
fn wake_all(keys: &Weak<Keys>, rests: &Receiver<(Instant, Vec<u8>)>) {
    for (end, key) in rests {
        thread::sleep(end.saturating_duration_since(Instant::now()));
        let Some(keys) = keys.upgrade() else { return };
        keys.wake(key);
    }
}

impl State {
    /// Has the action begun, where it may begin.
    fn ask(&mut self, id: u64, key: Vec<u8>, action: Action, to: ReplyTo) -> Option<Launch> {
        let found = self.keys.entry(key.clone()).or_default();
        let asked = Asked { id, action, to, is_over: false };
        if asked.action.only_reads() && (self.passes || !found.has_of(asked.to.connection)) {
            return Some(self.begin_reading(key, asked));
        }
        found.waiting.push_back(Queued::One(asked));
        self.begin(key)
    }

    /// The round trip to the fast quorum, where that is far.
    fn far(&self) -> Option<Duration> {
        Some(Duration::from_micros(self.metrics.quorum_round_trip.get())).filter(|it| *it >= FAR)
    }

    /// Begins a command for what waits, where there may be another one.
    fn begin(&mut self, key: Vec<u8>) -> Option<Launch> {
        let most = if self.far().is_some() { 2 } else { 1 };
        let found = self.keys.get_mut(&key)?;
        if found.held_by.is_some() {
            return None;
        }
        if let Some(turn) = found.next_turn() {
            found.held_by = Some(turn);
            found.waiting.pop_front();
            self.lend(turn);
            return None;
        }
        if found.rests || found.commands() >= most {
            return None;
        }
        let asked = found.take_waiting(0, MOST_TOGETHER);
        if asked.is_empty() {
            return None;
        }
        self.flights += 1;
        let number = self.flights;
        // (what the one before it leaves, where it is done)
        let before = found.flights.iter().rfind(|flight| !flight.is_reading).and_then(|flight| flight.after.clone());
        found.flights.push(Flight::new(number, asked, false));
        let known = before.or_else(|| self.known.get(&key).cloned());
        self.propose(key, number, known)
    }

    /// Begins a read of what only reads.
    fn begin_reading(&mut self, key: Vec<u8>, asked: Asked) -> Launch {
        self.flights += 1;
        let connection = asked.to.connection;
        let flight = Flight::new(self.flights, vec![asked], true);
        let (number, begun) = (flight.number, flight.begun.clone());
        self.keys.entry(key.clone()).or_default().flights.push(flight);
        Launch { of: Of::Flight(key, number), connection, command: None, begun }
    }

    /// Has all begun that may begin now.
    fn settle(&mut self) {
        loop {
            if let Some(number) = self.ready.pop() {
                self.begin_transaction(number);
            } else if let Some(key) = self.left.pop() {
                let launch = self.go_on(key);
                self.launches.extend(launch);
            } else {
                return;
            }
        }
    }

    /// A command of the key is over: the next one, where something waits.
    fn next(&mut self, key: Vec<u8>, number: u64) -> Option<Launch> {
        let far = self.far();
        let found = self.keys.get_mut(&key)?;
        let place = found.flights.iter().position(|flight| flight.number == number)?;
        let over = found.flights.remove(place);
        if let Some(far) = far.filter(|_| over.together > 1 && !found.rests) {
            let end = Instant::now() + (far / SHARE_OF_REST).min(LONGEST_REST);
            found.rests = self.resting.send((end, key.clone())).is_ok();
        }
        self.go_on(key)
    }

    fn wake(&mut self, key: Vec<u8>) -> Option<Launch> {
        self.keys.get_mut(&key)?.rests = false;
        self.go_on(key)
    }

    /// Begins a command of the key, or forgets it, where that is due.
    fn go_on(&mut self, key: Vec<u8>) -> Option<Launch> {
        let found = self.keys.get_mut(&key)?;
        if found.is_idle() {
            self.keys.remove(&key);
            return None;
        }
        self.begin(key)
    }

    /// Proposes the command of a flight of the key, of all that waits and isn't over. `current` is what the key may have now.
    fn propose(&mut self, key: Vec<u8>, number: u64, current: Option<Option<Vec<u8>>>) -> Option<Launch> {
        let found = self.keys.get_mut(&key)?;
        let flight = found.flight(number)?;
        flight.asked.retain(|asked| !asked.is_over);
        let room = MOST_TOGETHER.saturating_sub(flight.asked.len());
        let more = found.take_waiting(number, room);
        let flight = found.flight(number)?;
        flight.asked.extend(more);
        let Some(first) = flight.asked.first() else { return self.next(key, number) };
        let connection = first.to.connection;
        flight.now = stored::now();
        let (step, after, command) = command(&flight.asked, &key, current, flight.now);
        (flight.step, flight.after, flight.together) = (step, after, flight.asked.len());
        flight.begun = Arc::default();
        let begun = flight.begun.clone();
        Some(Launch { of: Of::Flight(key, number), connection, command, begun })
    }

    fn take(&mut self, key: Vec<u8>, number: u64, outcome: Outcome) -> Option<Launch> {
        let flight = self.keys.get_mut(&key)?.flight(number)?;
        match outcome {
            Outcome::Value(value) if flight.is_reading => self.read(key, number, value),
            Outcome::Value(value) => self.done(key, number, value),
            Outcome::Done(OwnedAnswer::Absent) => self.done(key, number, None),
            Outcome::Done(OwnedAnswer::Present(value)) => self.done(key, number, Some(value)),
            // (it was one of one key)
            Outcome::Done(_) => self.fail(key, number, CommandFault::Doubtful),
            Outcome::DoneUnseen if flight.step == Step::Write => self.done_unseen(key, number),
            outcome => self.fail(key, number, CommandFault::of(outcome)),
        }
    }

    /// Its command was given up: another one for the rest. The outcome of the first one is nobody's.
    fn propose_anew(&mut self, key: Vec<u8>, number: u64) -> Option<Launch> {
        self.flights += 1;
        let anew = self.flights;
        self.keys.get_mut(&key)?.flight(number)?.number = anew;
        self.propose_again(key, anew)
    }

    /// Nothing was done: the same again, with what else waits by now.
    fn propose_again(&mut self, key: Vec<u8>, number: u64) -> Option<Launch> {
        let current = match &self.keys.get_mut(&key)?.flight(number)?.step {
            Step::Compare(expected) => Some(expected.clone()),
            Step::Read | Step::Write => None,
        };
        self.propose(key, number, current)
    }

    /// The key has this. What is past its deadline is removed by a command before anybody is answered.
    fn read(&mut self, key: Vec<u8>, number: u64, value: Option<Vec<u8>>) -> Option<Launch> {
        let found = self.keys.get_mut(&key)?;
        let asked = std::mem::take(&mut found.flight(number)?.asked);
        let (current, now) = (value.clone().map(Stored::read), stored::now());
        if current.as_ref().is_some_and(|stored| stored.is_over(now)) {
            asked.into_iter().rev().for_each(|asked| found.waiting.push_front(Queued::One(asked)));
        } else {
            let (_, replies) = fold(&asked, current, now);
            asked.into_iter().zip(replies).for_each(|(asked, reply)| asked.answer(reply));
        }
        self.know(&key, value);
        self.next(key, number)
    }

    /// The command was done, where the key had this.
    fn done(&mut self, key: Vec<u8>, number: u64, before: Option<Vec<u8>>) -> Option<Launch> {
        let flight = self.keys.get_mut(&key)?.flight(number)?;
        let is_written = match &flight.step {
            Step::Read => false,
            Step::Write => true,
            Step::Compare(expected) => *expected == before,
        };
        if !is_written {
            flight.now = stored::now();
        }
        let current = before.clone().map(Stored::read);
        let (after, replies) = fold(&flight.asked, current.clone(), flight.now);
        if !is_written && after != current {
            flight.tries += usize::from(flight.step != Step::Read);
            let is_hopeless = flight.tries == MOST_TRIES;
            return if is_hopeless {
                self.fail(key, number, CommandFault::Contended)
            } else {
                self.propose(key, number, Some(before))
            };
        }
        for (asked, reply) in std::mem::take(&mut flight.asked).into_iter().zip(replies) {
            asked.answer(reply);
        }
        self.know(&key, if is_written { after.map(Stored::into_bytes) } else { before });
        self.next(key, number)
    }

    /// What was written whatever was there was done, and nobody knows what was there.
    fn done_unseen(&mut self, key: Vec<u8>, number: u64) -> Option<Launch> {
        let flight = self.keys.get_mut(&key)?.flight(number)?;
        let first = flight.asked.iter().position(|asked| asked.action.is_blind())?;
        let (_, replies) = fold(&flight.asked[first..], None, flight.now);
        let mut asked = std::mem::take(&mut flight.asked);
        for (place, (asked, reply)) in asked.split_off(first).into_iter().zip(replies).enumerate() {
            let is_known = place > 0 || asked.action.replies_blindly();
            asked.answer(if is_known { reply } else { Reply::Error(CommandFault::Unseen) });
        }
        asked.into_iter().for_each(|asked| asked.answer(Reply::Error(CommandFault::Unseen)));
        self.known.remove(&key);
        self.next(key, number)
    }

    pub(crate) fn know(&mut self, key: &[u8], value: Option<Vec<u8>>) {
        if value.as_ref().is_some_and(|value| value.len() > LONGEST_KNOWN) {
            self.known.remove(key);
            return;
        }
        if self.known.len() >= MOST_KNOWN && !self.known.contains_key(key) {
            self.known.clear();
        }
        self.known.insert(key.to_vec(), value);
    }

    /// Nothing more is done for what the key's flight has asked.
    fn fail(&mut self, key: Vec<u8>, number: u64, fault: CommandFault) -> Option<Launch> {
        let flight = self.keys.get_mut(&key)?.flight(number)?;
        for asked in std::mem::take(&mut flight.asked) {
            asked.answer(Reply::Error(fault.clone()));
        }
        self.known.remove(&key);
        self.next(key, number)
    }
}

impl Flight {
    /// One that isn't proposed yet; or a read.
    fn new(number: u64, asked: Vec<Asked>, is_reading: bool) -> Flight {
        Flight {
            number,
            is_reading,
            asked,
            together: 0,
            step: Step::Read,
            after: None,
            now: stored::now(),
            tries: 0,
            begun: Arc::default(),
        }
    }
}

impl Asked {
    fn answer(self, reply: Reply) {
        if !self.is_over {
            self.to.send(reply);
        }
    }
}

/// Does all actions, one after the other: what then lies there, and the replies.
fn fold(asked: &[Asked], current: Option<Stored>, now: u64) -> (Option<Stored>, Vec<Reply>) {
    let mut current = current;
    let mut replies = Vec::with_capacity(asked.len());
    for Asked { action, .. } in asked {
        let reply;
        (current, reply) = action.apply(current, now);
        replies.push(reply);
    }
    (current.filter(|stored| !stored.is_over(now)), replies)
}

/// The command that does all of this, and what the key then has, where that is known; none where it has to be read.
/// `current` is what may be there.
fn command(
    asked: &[Asked],
    key: &[u8],
    current: Option<Option<Vec<u8>>>,
    now: u64,
) -> (Step, Option<Option<Vec<u8>>>, Option<OwnedCommand>) {
    let key = key.to_vec();
    if let Some(first) = asked.iter().position(|asked| asked.action.is_blind()) {
        let (after, _) = fold(&asked[first..], None, now);
        let after = after.map(Stored::into_bytes);
        let command = match after.clone() {
            Some(value) => OwnedCommand::Put { key, value },
            None => OwnedCommand::Del { key },
        };
        return (Step::Write, Some(after), Some(command));
    }
    let Some(before) = current else { return (Step::Read, None, None) };
    let stored = before.clone().map(Stored::read);
    let (after, _) = fold(asked, stored.clone(), now);
    if after == stored {
        return (Step::Read, Some(before), None);
    }
    let new = after.map(Stored::into_bytes);
    (Step::Compare(before.clone()), Some(new.clone()), Some(OwnedCommand::Cas { key, expected: before, new }))
}

#[cfg(test)]
pub(crate) mod tests {
    use super::*;
    use crate::client::actions::{Keep, Only, Set, SetReply};
    use crate::client::outbox::{Message, Messages, Outbox};
    use crate::map::{Map, execute};
    use crate::random::Random;
    use epaxos::Fault;
    use std::collections::BTreeSet;
    use std::sync::atomic::AtomicBool;
    use std::sync::mpsc::sync_channel;

    /// The keys of a store, whose commands the test does.
    pub(crate) struct Store {
        pub(crate) keys: Arc<Keys>,
        metrics: Arc<Metrics>,
        asks: Arc<Asks>,
        come: Mutex<VecDeque<Ask>>,
        pub(crate) outbox: Arc<Outbox>,
    }

    impl Store {
        pub(crate) fn new() -> Store {
            let (asks, metrics) = (Asks::new(sync_channel(1).0, Duration::MAX), Arc::<Metrics>::default());
            let keys = Keys::start(asks.clone(), metrics.clone()).unwrap();
            Store { keys, metrics, asks, come: Mutex::default(), outbox: Arc::default() }
        }

        /// Asks; its reply comes under this number.
        pub(crate) fn ask(&self, command: u64, key: &str, action: Action) -> u64 {
            self.ask_by(1, command, key, action)
        }

        /// The same, on this connection.
        fn ask_by(&self, connection: u64, command: u64, key: &str, action: Action) -> u64 {
            let id = self.keys.id();
            self.keys.ask(id, key.into(), action, ReplyTo::part(self.outbox.clone(), connection, command, 0));
            id
        }

        /// The next command that is proposed.
        pub(crate) fn proposed(&self) -> (OwnedCommand, ReplySender) {
            match self.asked() {
                (What::Propose(command), reply) => {
                    assert!(reply.begun().begin());
                    (command, reply)
                }
                _ => panic!("no command"),
            }
        }

        /// The next read is of this key; where its outcome goes.
        pub(crate) fn reads(&self, key: &str) -> ReplySender {
            match self.asked() {
                (What::Get(read), reply) if read == key.as_bytes() => reply,
                _ => panic!("no read"),
            }
        }

        fn asked(&self) -> (What, ReplySender) {
            let start = Instant::now();
            loop {
                if let Some(Ask { what, reply }) = self.come().pop_front() {
                    return (what, reply);
                }
                assert!(start.elapsed() < Duration::from_secs(60));
                thread::sleep(Duration::from_millis(1));
            }
        }

        /// All that has come to be asked.
        pub(crate) fn come(&self) -> MutexGuard<'_, VecDeque<Ask>> {
            let mut come = self.come.lock().unwrap();
            come.extend(self.asks.take(usize::MAX, usize::MAX, Instant::now()));
            come
        }

        pub(crate) fn is_idle(&self) -> bool {
            self.come().is_empty()
        }

        /// The replies that came, by the numbers.
        pub(crate) fn replies(&self) -> Vec<(u64, Reply)> {
            let mut messages = Messages::new();
            self.outbox.take(&mut messages);
            messages.into_iter().map(|(_, message)| part(message)).collect()
        }

        /// Waits for so many of them.
        fn await_replies(&self, count: usize) -> Vec<(u64, Reply)> {
            let (mut replies, start) = (Vec::new(), Instant::now());
            while replies.len() < count {
                assert!(start.elapsed() < Duration::from_secs(300));
                replies.extend(self.replies());
                thread::sleep(Duration::from_millis(1));
            }
            replies
        }
    }

    fn part(message: Message) -> (u64, Reply) {
        if let Message::Part(command, 0, reply) = message { (command, reply) } else { panic!() }
    }

    pub(crate) fn done(reply: OwnedAnswer) -> Outcome {
        Outcome::Done(reply)
    }

    fn present(value: &str) -> OwnedAnswer {
        OwnedAnswer::Present(value.into())
    }

    pub(crate) fn set(value: &str) -> Action {
        Action::Set(Set { value: value.into(), keep: Keep::None, only: Only::Always, reply: SetReply::Ok })
    }

    pub(crate) fn value(value: &str) -> Outcome {
        Outcome::Value(Some(value.into()))
    }

    fn cas(key: &str, expected: Option<&str>, new: Option<&str>) -> OwnedCommand {
        OwnedCommand::Cas { key: key.into(), expected: expected.map(Into::into), new: new.map(Into::into) }
    }

    #[test]
    fn what_waits_is_done_by_one_command() {
        let store = Store::new();
        (0..3).for_each(|number| _ = store.ask(number, "x", set("0")));
        let put = |value: &str| OwnedCommand::Put { key: b"x".to_vec(), value: value.into() };
        let (command, sender) = store.proposed();
        assert_eq!(command, put("0"));
        // Another key doesn't wait for it.
        store.ask(3, "y", Action::Delete);
        let (command, other) = store.proposed();
        assert_eq!(command, OwnedCommand::Del { key: b"y".to_vec() });
        assert!(store.is_idle() && store.replies().is_empty());
        sender.send(done(present("1")));
        assert_eq!(store.replies(), [(0, Reply::Simple("OK"))]);
        let (command, sender) = store.proposed();
        assert_eq!(command, put("0"));
        other.send(done(OwnedAnswer::Absent));
        assert_eq!(store.replies(), [(3, Reply::Integer(0))]);
        // What is written whatever was there is put, and what was asked before and after it is answered by what was
        // there.
        for (number, action) in [(4, Action::Add(1)), (5, set("5")), (6, Action::Add(2)), (7, Action::Get)] {
            store.ask(number, "x", action);
        }
        sender.send(done(present("2")));
        assert_eq!(store.replies(), [(1, Reply::Simple("OK")), (2, Reply::Simple("OK"))]);
        let (command, sender) = store.proposed();
        assert_eq!(command, put("7"));
        sender.send(done(present("3")));
        let expected =
            [(4, Reply::Integer(4)), (5, Reply::Simple("OK")), (6, Reply::Integer(7)), (7, Reply::text("7"))];
        assert_eq!(store.replies(), expected);
        assert!(store.is_idle());
    }

    #[test]
    fn what_looks_first_is_compared() {
        let store = Store::new();
        store.ask(0, "x", Action::Add(1));
        store.reads("x").send(Outcome::Value(None));
        let (command, sender) = store.proposed();
        assert_eq!(command, cas("x", None, Some("1")));
        // Another one was first. What came meanwhile is done with it.
        store.ask(1, "x", Action::Add(10));
        sender.send(done(present("5")));
        let (command, sender) = store.proposed();
        assert_eq!(command, cas("x", Some("5"), Some("16")));
        assert!(store.replies().is_empty());
        sender.send(done(present("5")));
        assert_eq!(store.replies(), [(0, Reply::Integer(6)), (1, Reply::Integer(16))]);
        // The next one begins with what is known, and takes the outcome.
        store.ask(2, "x", Action::Add(1));
        let (command, sender) = store.proposed();
        assert_eq!(command, cas("x", Some("16"), Some("17")));
        sender.send(done(present("a")));
        assert_eq!(store.replies(), [(2, Reply::Error(CommandFault::NotAnInteger))]);
        // Where nothing is to change, the key is read.
        store.ask(3, "x", Action::Add(1));
        store.reads("x").send(value("1"));
        let (command, sender) = store.proposed();
        assert_eq!(command, cas("x", Some("1"), Some("2")));
        sender.send(done(present("1")));
        assert_eq!(store.replies(), [(3, Reply::Integer(2))]);
    }

    #[test]
    fn what_only_reads_goes_by_itself() {
        let store = Store::new();
        store.ask_by(1, 0, "x", set("1"));
        let writes = store.proposed().1;
        // Others' reads don't wait for it, nor for one another; what its own connection reads does.
        store.ask_by(2, 1, "x", Action::Get);
        let second = store.reads("x");
        store.ask_by(3, 2, "x", Action::Exists);
        let third = store.reads("x");
        store.ask_by(1, 3, "x", Action::Get);
        assert!(store.is_idle());
        third.send(Outcome::Value(None));
        assert_eq!(store.replies(), [(2, Reply::Integer(0))]);
        // What a connection writes waits until it has read; another one's goes as soon as there may be a command.
        store.ask_by(2, 4, "x", Action::Delete);
        writes.send(done(OwnedAnswer::Absent));
        assert_eq!(store.replies(), [(0, Reply::Simple("OK"))]);
        store.reads("x").send(value("1"));
        assert_eq!(store.replies(), [(3, Reply::text("1"))]);
        assert!(store.is_idle());
        second.send(value("1"));
        assert_eq!(store.replies(), [(1, Reply::text("1"))]);
        let (command, sender) = store.proposed();
        assert_eq!(command, OwnedCommand::Del { key: b"x".to_vec() });
        sender.send(done(present("1")));
        assert_eq!(store.replies(), [(4, Reply::Integer(1))]);
        // Who waits no longer for a read is answered so, and the driver may let go of it.
        let id = store.ask(5, "x", Action::Get);
        let reads = store.reads("x");
        assert_eq!(store.keys.withdraw(id, b"x"), Some(CommandFault::NotInTime));
        assert!(reads.begun().is_given_up());
        reads.send(value("1"));
        store.ask(6, "x", Action::Get);
        store.reads("x").send(Outcome::Alone);
        assert_eq!(store.replies(), [(6, Reply::Error(CommandFault::NoMajority))]);
        assert!(store.is_idle());
    }

    #[test]
    fn beside_long_pipelines_a_command_waits_for_one_of_each() {
        let store = Store::new();
        for number in 0..1_000 {
            for connection in 1..5 {
                let key = format!("{connection}-{number}");
                store.ask_by(connection, number, &key, if number % 2 == 0 { set("1") } else { Action::Get });
            }
        }
        store.ask_by(9, 0, "mine", set("1"));
        store.ask_by(9, 1, "its", Action::Get);
        // (none of theirs comes again meanwhile, as none is answered)
        let place = |asks: Vec<Ask>| {
            asks.iter().position(|ask| match &ask.what {
                What::Propose(command) => *command == OwnedCommand::Put { key: b"mine".into(), value: b"1".into() },
                What::Get(key) => key == b"its",
                _ => false,
            })
        };
        assert_eq!(place(store.asks.take(100, 0, Instant::now())), Some(4));
        assert_eq!(place(store.asks.take(0, 100, Instant::now())), Some(4));
    }

    #[test]
    fn what_is_past_its_deadline_is_removed_before_the_reply_is_nil() {
        let store = Store::new();
        store.ask(0, "x", Action::Get);
        let old = Stored::Value { content: b"v".to_vec(), deadline: Some(1) }.into_bytes();
        store.reads("x").send(Outcome::Value(Some(old.clone())));
        assert!(store.replies().is_empty());
        let (command, sender) = store.proposed();
        assert_eq!(command, OwnedCommand::Cas { key: b"x".to_vec(), expected: Some(old.clone()), new: None });
        // Another one has given it a value.
        sender.send(done(present("w")));
        assert_eq!(store.replies(), [(0, Reply::text("w"))]);
        store.ask(1, "x", Action::Get);
        store.reads("x").send(Outcome::Value(Some(old.clone())));
        store.proposed().1.send(done(OwnedAnswer::Present(old)));
        assert_eq!(store.replies(), [(1, Reply::Nil)]);
        assert!(store.is_idle());
    }

    #[test]
    fn what_others_are_before_is_tried_again() {
        let store = Store::new();
        store.ask(1, "x", Action::Add(1));
        store.reads("x").send(value("0"));
        for number in 1..MOST_TRIES {
            store.proposed().1.send(done(present(&number.to_string())));
        }
        assert!(store.replies().is_empty());
        store.proposed().1.send(done(present("0")));
        assert_eq!(store.replies(), [(1, Reply::Error(CommandFault::Contended))]);
        assert!(store.is_idle());
    }

    #[test]
    fn replies_that_nobody_knows() {
        let store = Store::new();
        for (number, action) in [(9, set("0")), (0, Action::Get), (1, set("1")), (2, Action::Add(1))] {
            store.ask(number, "x", action);
        }
        store.proposed().1.send(done(OwnedAnswer::Absent));
        assert_eq!(store.replies(), [(9, Reply::Simple("OK"))]);
        let (command, sender) = store.proposed();
        assert_eq!(command, OwnedCommand::Put { key: b"x".to_vec(), value: b"2".to_vec() });
        sender.send(Outcome::DoneUnseen);
        let unseen = Reply::Error(CommandFault::Unseen);
        assert_eq!(store.replies(), [(1, Reply::Simple("OK")), (2, Reply::Integer(2)), (0, unseen.clone())]);
        for (number, action) in [(3, Action::Delete), (4, Action::Get)] {
            store.ask(number, "x", action);
        }
        store.proposed().1.send(Outcome::DoneUnseen);
        assert_eq!(store.replies(), [(3, unseen)]);
        store.reads("x").send(Outcome::Value(None));
        assert_eq!(store.replies(), [(4, Reply::Nil)]);
        // Whether a comparison found what it expected nobody knows.
        for outcome in [Outcome::DoneUnseen, Outcome::Doubtful] {
            store.ask(5, "x", Action::Add(1));
            match store.asked() {
                (What::Get(_), reply) => {
                    reply.send(Outcome::Value(None));
                    store.proposed().1.send(outcome);
                }
                (_, reply) => reply.send(outcome),
            }
            assert_eq!(store.replies(), [(5, Reply::Error(CommandFault::Doubtful))]);
        }
        store.ask(6, "y", set("1"));
        store.proposed().1.send(Outcome::Doubtful);
        assert_eq!(store.replies(), [(6, Reply::Error(CommandFault::Doubtful))]);
    }

    #[test]
    fn all_are_sent_the_refusal() {
        let store = Store::new();
        let refused = [
            (Some(Outcome::Refused(Fault::Memory)), CommandFault::Node(Fault::Memory)),
            (Some(Outcome::Alone), CommandFault::NoMajority),
            (Some(Outcome::Late), CommandFault::Waiting),
            (Some(Outcome::MapFull), CommandFault::MapFull),
            (Some(Outcome::Ending), CommandFault::Ending),
            (Some(Outcome::Ended), CommandFault::StoreEnds),
            // (the driver drops it)
            (None, CommandFault::StoreEnds),
        ];
        for (outcome, fault) in refused {
            store.ask(0, "x", set("1"));
            let sender = store.proposed().1;
            store.ask(1, "x", set("2"));
            match outcome {
                Some(outcome) => sender.send(outcome),
                None => drop(sender),
            }
            assert_eq!(store.replies(), [(0, Reply::Error(fault))]);
            store.proposed().1.send(done(OwnedAnswer::Absent));
            assert_eq!(store.replies(), [(1, Reply::Simple("OK"))]);
        }
    }

    #[test]
    fn who_waits_no_longer_learns_whether_it_may_be_done() {
        let store = Store::new();
        let first = store.ask(0, "x", set("1"));
        let second = store.ask(1, "x", set("2"));
        let sender = store.proposed().1;
        assert_eq!(store.keys.withdraw(second, b"x"), Some(CommandFault::Waiting));
        assert_eq!(store.keys.withdraw(second, b"x"), None);
        let third = store.ask(2, "x", Action::Add(1));
        // A command that nobody waits for doesn't hold up what follows.
        assert_eq!(store.keys.withdraw(first, b"x"), Some(CommandFault::Unanswered));
        let look = store.reads("x");
        // Its answer comes late, and is nobody's.
        sender.send(done(OwnedAnswer::Absent));
        assert!(store.replies().is_empty());
        assert_eq!(store.keys.withdraw(third, b"x"), Some(CommandFault::NotInTime));
        assert!(look.begun().is_given_up());
        look.send(Outcome::Value(None));
        assert!(store.replies().is_empty() && store.is_idle());
        // What is withdrawn isn't proposed again, but what was proposed counts.
        let ids = [3, 4].map(|number| store.ask(number, "y", Action::Add(1)));
        store.reads("y").send(Outcome::Value(None));
        let (command, sender) = store.proposed();
        assert_eq!(command, cas("y", None, Some("2")));
        assert_eq!(store.keys.withdraw(ids[0], b"y"), Some(CommandFault::Unanswered));
        sender.send(done(present("7")));
        let (command, sender) = store.proposed();
        assert_eq!(command, cas("y", Some("7"), Some("8")));
        sender.send(done(present("7")));
        assert_eq!(store.replies(), [(4, Reply::Integer(8))]);
        let ids = [5, 6].map(|number| store.ask(number, "y", Action::Add(1)));
        let (command, sender) = store.proposed();
        assert_eq!(command, cas("y", Some("8"), Some("9")));
        store.keys.withdraw(ids[0], b"y");
        let (next, other) = store.proposed();
        assert_eq!(next, cas("y", Some("8"), Some("9")));
        sender.send(done(present("8")));
        other.send(done(present("9")));
        store.proposed().1.send(done(present("9")));
        assert_eq!(store.replies(), [(6, Reply::Integer(10))]);
    }

    #[test]
    fn what_was_not_proposed_was_not_done() {
        let store = Store::new();
        let held = || if let (What::Propose(command), reply) = store.asked() { (command, reply) } else { panic!() };
        let put = |value: &str| OwnedCommand::Put { key: b"x".to_vec(), value: value.into() };
        // It waits for the next generation, and nobody for it any more.
        let id = store.ask(0, "x", set("1"));
        let (command, reply) = held();
        assert_eq!((command, store.keys.withdraw(id, b"x")), (put("1"), Some(CommandFault::Waiting)));
        assert!(!reply.begun().begin());
        reply.send(Outcome::Late);
        assert!(store.is_idle() && store.replies().is_empty());
        // What is asked with it is done without it.
        let ids = [1, 2, 3].map(|number| store.ask(number, "x", Action::Add(1)));
        store.reads("x").send(Outcome::Value(None));
        let (command, first) = held();
        assert_eq!(command, cas("x", None, Some("3")));
        assert_eq!(store.keys.withdraw(ids[0], b"x"), Some(CommandFault::Waiting));
        let (command, second) = held();
        assert_eq!(command, cas("x", None, Some("2")));
        assert!(!first.begun().begin() && second.begun().begin());
        // (the outcome of the given-up one is nobody's)
        first.send(Outcome::Late);
        assert_eq!(store.keys.withdraw(ids[1], b"x"), Some(CommandFault::Unanswered));
        second.send(done(OwnedAnswer::Absent));
        assert_eq!(store.replies(), [(3, Reply::Integer(2))]);
        assert_eq!(store.keys.withdraw(ids[2], b"x"), None);
        assert!(store.is_idle());
    }

    #[test]
    fn far_away_two_commands_of_a_key_are_under_way() {
        let store = Store::new();
        store.metrics.quorum_round_trip.set(19_999);
        store.ask_by(1, 0, "x", Action::Add(1));
        store.ask_by(2, 1, "x", Action::Add(1));
        store.reads("x").send(value("5"));
        let (command, first) = store.proposed();
        assert_eq!(command, cas("x", Some("5"), Some("7")));
        assert!(store.is_idle());
        store.metrics.quorum_round_trip.set(20_000);
        // What its connection asks behind it waits; another one's goes at once, and expects what the first one leaves.
        store.ask_by(2, 2, "x", Action::Add(10));
        assert!(store.is_idle());
        store.ask_by(3, 3, "x", Action::Add(100));
        let (command, second) = store.proposed();
        assert_eq!(command, cas("x", Some("7"), Some("107")));
        store.ask_by(4, 4, "x", Action::Add(1_000));
        assert!(store.is_idle());
        // The second one was done first: it is tried again, with what may go with it by now.
        second.send(done(present("5")));
        let (command, second) = store.proposed();
        assert_eq!(command, cas("x", Some("5"), Some("1105")));
        first.send(done(present("5")));
        assert_eq!(store.replies(), [(0, Reply::Integer(6)), (1, Reply::Integer(7))]);
        // Now nothing of that connection is under way.
        let (command, third) = store.proposed();
        assert_eq!(command, cas("x", Some("1105"), Some("1115")));
        second.send(done(present("7")));
        let (command, second) = store.proposed();
        assert_eq!(command, cas("x", Some("7"), Some("1107")));
        second.send(done(present("7")));
        assert_eq!(store.replies(), [(3, Reply::Integer(107)), (4, Reply::Integer(1_107))]);
        third.send(done(present("1107")));
        store.proposed().1.send(done(present("1107")));
        assert_eq!(store.replies(), [(2, Reply::Integer(1_117))]);
        assert!(store.is_idle());
    }

    /// Three stores, whose drivers execute all on one map, and lose and hold up some.
    #[test]
    fn counters_and_locks_of_several_stores() {
        let map = Arc::new(Mutex::new(Map::new()));
        let stores = [0, 1, 2].map(|_| Store::new());
        let (add, most) = (60, 10);
        let mut replies: Vec<_> = thread::scope(|scope| {
            let askers = stores.iter().enumerate().map(|(seed, store)| {
                let map = map.clone();
                let is_over = Arc::new(AtomicBool::new(false));
                let ends = is_over.clone();
                let drive = move || {
                    let mut random = Random::from_seed(seed as u64 + 1);
                    while !is_over.load(Ordering::Relaxed) {
                        thread::sleep(Duration::from_micros(random.below(300)));
                        let next = store.come().pop_front();
                        let Some(Ask { what, reply }) = next else { continue };
                        let outcome = match what {
                            What::Propose(command) => done(execute(&mut map.lock().unwrap(), &command)),
                            What::Get(key) => Outcome::Value(map.lock().unwrap().get(&key).cloned()),
                            _ => panic!(),
                        };
                        thread::sleep(Duration::from_micros(random.below(300)));
                        reply.send(outcome);
                    }
                };
                scope.spawn(drive);
                scope.spawn(move || {
                    for number in 0..add {
                        store.ask(number, "counter", Action::Add(1));
                        thread::sleep(Duration::from_micros(100));
                    }
                    for number in 0..most {
                        let owner = format!("{seed}-{number}").into_bytes();
                        store.ask(1_000 + number, "lock", Action::Lock { owner: owner.clone(), deadline: u64::MAX });
                        store.ask(2_000 + number, "lock", Action::Unlock { owner });
                        thread::sleep(Duration::from_micros(100));
                    }
                    let replies = store.await_replies((add + 2 * most) as usize);
                    ends.store(true, Ordering::Relaxed);
                    replies
                })
            });
            let askers: Vec<_> = askers.collect();
            askers.into_iter().map(|asker| asker.join().unwrap()).collect()
        });
        let mut counted = BTreeSet::new();
        let mut tokens = BTreeSet::new();
        for replies in &mut replies {
            // The replies of one store rise in the order in which it asked.
            let mut last = 0;
            for (number, reply) in replies.iter() {
                match (number, reply) {
                    (..1_000, Reply::Integer(value)) => {
                        assert!(*value > last && counted.insert(*value));
                        last = *value;
                    }
                    (1_000..2_000, Reply::Integer(token)) => assert!(tokens.insert(*token)),
                    (1_000.., Reply::Nil | Reply::Integer(0 | 1)) => {}
                    odd => panic!("{odd:?}"),
                }
            }
        }
        assert_eq!(counted, (1..=3 * add as i64).collect());
        assert_eq!(map.lock().unwrap()[&b"counter".to_vec()], (3 * add).to_string().into_bytes());
        assert_eq!(tokens, (1..=tokens.len() as i64).collect());
    }
}
