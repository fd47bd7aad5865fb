//! A connection of a client: what has come on it, what is done of that, and its replies. Nothing here waits: where a
//! command has to, what comes behind it isn't taken before.
use crate::client::actions::Action;
use crate::client::clients::{Shared, Turn, about_server, tidy};
use crate::client::command_fault::CommandFault;
use crate::client::commands::{self, Asked, Hello, understand};
use crate::client::connections::Connection;
use crate::client::memory::Share;
use crate::client::multi::{Judged, Multi};
use crate::client::outbox::{Message, Outbox};
use crate::client::password::Password;
use crate::client::replies::{Combine, Needs, Part, Replies, ReplyTo, Slot};
use crate::client::resp::{Input, Reply, Version, read_command};
use crate::client::step::Step;
use crate::core::ask::{Ask, What};
use crate::core::keys::{Keys, Wanted};
use crate::core::outcome::Outcome;
use crate::core::reply_sender::ReplySender;
use crate::core::stored::{self, Stored};
use crate::core::transaction::Transaction;
use crate::core::view::Values;
use crate::core::watching::{Look, Looked};
use crate::ops::say::warn;
use crate::ops::wishes::Manage;
use crate::timed::read_some;
use epaxos::MOST_TOLD;
use std::collections::BTreeSet;
use std::io::{self, ErrorKind};
use std::net::{Shutdown, TcpStream};
use std::sync::Arc;
use std::time::{Duration, Instant};

/// A client that asks nothing for so long is gone, or connects again.
const SILENCE: Duration = Duration::from_secs(3_600);
/// So much is read at once.
pub const CHUNK: usize = 16 << 10;
/// And so much may come in all before the password.
const MOST_UNKNOWN: usize = 16 << 10;
/// How long who said a wrong password waits.
const WRONG: Duration = Duration::from_millis(200);
/// After so long INFO is answered without the driver.
const INFO_PATIENCE: Duration = Duration::from_secs(1);
/// What a command takes beside its words.
const OVERHEAD: usize = 256;
/// A reply that is known at once and as short as that of PING or HELLO is sent though there is no room for it.
const SHORT: usize = 1_024;

/// What a connection's commands leave for those that follow.
pub struct Session {
    shared: Arc<Shared>,
    outbox: Arc<Outbox>,
    id: u64,
    address: String,
    stream: Arc<TcpStream>,
    connection: Connection,
    /// What has come and wasn't taken yet, with what it takes, and whether there may be a whole command.
    bytes: Vec<u8>,
    share: Option<Share>,
    is_held: bool,
    /// Whether there may be more to be read, and whether the client's end may be closed behind that.
    is_readable: bool,
    is_closed: bool,
    /// Whether no more commands are taken.
    is_heard_out: bool,
    /// When something came last.
    heard: Instant,
    /// What is waited for before more commands are taken.
    wait: Option<Wait>,
    replies: Replies,
    /// How many looks at watched keys there were.
    looks: u64,
    version: Version,
    name: Option<Vec<u8>>,
    /// Whether the password was said, where there is one.
    is_known: bool,
    is_read_only: bool,
    /// Whether something that isn't a local read may be under way.
    is_writing: bool,
    multi: Multi,
    /// What the commands that wait for EXEC take, and what watched keys had.
    queued: Option<Share>,
}

/// What a command waits for.
enum Wait {
    /// For room for what it needs, with so many bytes.
    Room(Asked, Needs, usize),
    /// For what was asked before it to be done.
    Settled(Later),
    /// For what keys have.
    Look(Look, Looking),
    /// For a list.
    List,
    /// For the end of what a wrong password costs.
    Wrong(Instant),
}

/// What is done once all that was asked before it is.
enum Later {
    Watch(Vec<Vec<u8>>),
    Look(Combine, Vec<(Vec<u8>, Action)>),
    List(commands::List),
    Read(Combine, Vec<(Vec<u8>, Action)>, Share),
}

/// What is looked at keys for.
enum Looking {
    Watch,
    Read(Combine, Vec<(Vec<u8>, Action)>),
}

impl Session {
    /// A connection that has a place, under this number.
    pub fn begin(
        shared: &Arc<Shared>,
        outbox: &Arc<Outbox>,
        (id, stream): (u64, Arc<TcpStream>),
        connection: Connection,
    ) -> io::Result<Session> {
        stream.set_nodelay(true)?;
        Ok(Session {
            address: stream.peer_addr()?.to_string(),
            shared: shared.clone(),
            outbox: outbox.clone(),
            id,
            stream,
            connection,
            bytes: Vec::new(),
            share: None,
            is_held: false,
            is_readable: true,
            is_closed: false,
            is_heard_out: false,
            heard: Instant::now(),
            wait: None,
            replies: Replies::new(shared.keys.clone(), shared.metrics.clone(), shared.memory.part()),
            looks: 0,
            version: Version::Two,
            name: None,
            is_known: shared.password.is_none(),
            is_read_only: false,
            is_writing: false,
            multi: Multi::default(),
            queued: None,
        })
    }

    /// There may be something to be read, and nothing behind it any more.
    pub fn note_readable(&mut self, is_closed: bool) {
        self.is_readable = true;
        self.is_closed |= is_closed;
    }

    /// The client may take more replies.
    pub fn note_writable(&mut self) {
        self.replies.unstick();
    }

    /// Whether commands are taken now.
    fn takes(&self) -> bool {
        self.wait.is_none() && !self.is_heard_out && self.replies.has_room(Needs { parts: 1, longest: 0 })
    }

    /// Whether there may be something to be read that may be taken.
    pub fn may_read(&self) -> bool {
        self.is_readable && self.takes()
    }

    /// Whether all is done and answered.
    pub fn is_over(&self) -> bool {
        self.is_heard_out && self.wait.is_none() && self.replies.is_over()
    }

    /// When something is to be done though nothing comes.
    pub fn due(&self) -> Instant {
        let wait = match &self.wait {
            Some(Wait::Look(look, _)) => Some(look.deadline),
            Some(Wait::Wrong(end)) => Some(*end),
            _ => None,
        };
        let silent = || if self.takes() { self.heard } else { Instant::now() } + SILENCE;
        wait.into_iter().chain(self.replies.due()).min().unwrap_or_else(silent)
    }

    /// Does what is due by now: whether the connection goes on.
    pub fn look(&mut self, now: Instant) -> bool {
        self.replies.withdraw(now);
        self.is_heard_out |= self.takes() && now >= self.heard + SILENCE;
        if let Some(Wait::Look(look, _)) = &self.wait
            && now >= look.deadline
        {
            look.give_up();
            self.looked(Err(CommandFault::NotInTime));
        }
        if let Some(Wait::Wrong(end)) = &self.wait
            && now >= *end
        {
            self.wait = None;
            self.fail(CommandFault::WrongPassword);
        }
        !self.replies.is_lost(now)
    }

    /// Reads some of what has come, and has it done.
    pub fn read(&mut self, turn: &mut Turn) {
        if !self.count_bytes() {
            self.fail(CommandFault::NoMemory);
            self.is_heard_out = true;
            return;
        }
        let mut chunk = std::mem::take(&mut turn.chunk);
        match read_some(&mut &*self.stream, &mut chunk) {
            Ok(0) => self.is_heard_out = true,
            Ok(length) => {
                // (more than fits comes, or only the end)
                self.is_readable = length == chunk.len() || self.is_closed;
                self.heard = turn.now;
                self.connection.hear();
                self.take_in(&chunk[..length], turn);
            }
            Err(error) if error.kind() == ErrorKind::WouldBlock => self.is_readable = false,
            Err(_) => self.is_heard_out = true,
        }
        turn.chunk = chunk;
        self.keep_bytes();
    }

    /// Takes what was read, behind what was there.
    fn take_in(&mut self, chunk: &[u8], turn: &mut Turn) {
        if self.bytes.is_empty() {
            let taken = self.take_commands(chunk, turn);
            self.bytes.extend(&chunk[taken..]);
        } else {
            self.bytes.extend(chunk);
            self.take_held(turn);
        }
    }

    /// Takes what is there.
    fn take_held(&mut self, turn: &mut Turn) {
        let mut bytes = std::mem::take(&mut self.bytes);
        let taken = self.take_commands(&bytes, turn);
        bytes.drain(..taken);
        self.bytes = bytes;
    }

    /// What has come and wasn't taken stays, as far as it may.
    fn keep_bytes(&mut self) {
        if self.is_heard_out {
            self.bytes = Vec::new();
        }
        self.bytes.shrink_to(CHUNK);
        if self.takes() && !self.is_known && self.bytes.len() >= MOST_UNKNOWN {
            self.fail(CommandFault::NoMemory);
            self.is_heard_out = true;
        }
        self.count_bytes();
    }

    /// Counts what has come and wasn't taken, but for what is read at once: whether there is room for it.
    fn count_bytes(&mut self) -> bool {
        let share = self.share.get_or_insert_with(|| self.shared.memory.empty_share());
        share.resize(self.bytes.len().saturating_sub(CHUNK))
    }

    /// Takes the commands that these bytes begin with, as long as any are taken: how many bytes that were.
    fn take_commands(&mut self, bytes: &[u8], turn: &mut Turn) -> usize {
        let mut start = 0;
        while self.takes() {
            if self.shared.due.is_over() {
                self.is_heard_out = true;
                break;
            }
            match read_command(&bytes[start..]) {
                Input::Command(words, length) => {
                    start += length;
                    if !words.is_empty() {
                        self.take(words, length, turn);
                    }
                }
                Input::Partial => break,
                Input::Fault(fault) => {
                    self.fail(CommandFault::Malformed(fault));
                    self.is_heard_out = true;
                }
            }
        }
        self.is_held = !self.takes() && start < bytes.len();
        start
    }

    /// Goes on with what has come, where something that it waited for is there: whether it did.
    pub fn go_on(&mut self, turn: &mut Turn) -> bool {
        match self.wait.take() {
            Some(Wait::Room(asked, needs, bytes)) if self.replies.has_room(needs) => {
                self.carry_out(asked, bytes, turn);
            }
            Some(Wait::Settled(later)) if self.replies.is_settled() => self.do_later(later, turn),
            wait => {
                self.wait = wait;
                if !self.is_held || !self.takes() {
                    return false;
                }
                self.take_held(turn);
                self.keep_bytes();
            }
        }
        true
    }

    /// Sends what there is to reply, as far as the client takes it, and so many bytes at most.
    pub fn send(&mut self, slice: &mut usize) -> io::Result<()> {
        self.replies.send(&*self.stream, slice)
    }

    /// Whether there is more to be done at once, in its next turn.
    pub fn is_ready(&self) -> bool {
        self.may_read() || self.replies.is_sending()
    }

    /// Closes the connection: it doesn't go on.
    pub fn end(&self) -> bool {
        let _ = self.stream.shutdown(Shutdown::Both);
        false
    }

    /// What its commands and replies take that aren't sent.
    pub fn unsent(&self) -> usize {
        self.replies.bytes()
    }

    /// Whether its client takes no replies now.
    pub fn is_stuck(&self) -> bool {
        self.replies.is_stuck()
    }

    /// Closes the connection, whose client takes its replies too slowly: it doesn't go on.
    pub fn end_slow(&self) -> bool {
        let (id, address, bytes) = (self.id, &self.address, self.unsent());
        warn(&format!("client {id} at {address} is closed: it takes no replies, and {bytes} bytes wait for it"));
        self.shared.metrics.slow.add(1);
        self.end()
    }

    /// Takes what has come from elsewhere.
    pub fn take_message(&mut self, message: Message) {
        match message {
            Message::Part(command, part, reply) => self.replies.take(command, part, reply),
            Message::Looked(number, key, outcome) => self.go_on_looking(number, |look| look.take(key, outcome)),
            Message::Removed(number, reply) => self.go_on_looking(number, |look| look.take_removed(reply)),
            Message::Listed(reply) => {
                if matches!(self.wait, Some(Wait::List)) {
                    self.wait = None;
                    self.answer(reply);
                }
            }
        }
    }

    fn go_on_looking(&mut self, number: u64, take: impl FnOnce(&mut Look) -> Option<Looked>) {
        // (the outcome of an earlier look is nobody's)
        if let Some(Wait::Look(look, _)) = &mut self.wait
            && look.is(number)
            && let Some(looked) = take(look)
        {
            self.looked(looked);
        }
    }

    /// Takes a command, of so many bytes.
    fn take(&mut self, words: Vec<Vec<u8>>, bytes: usize, turn: &mut Turn) {
        if !self.keep(words.len(), bytes) {
            self.multi.abort();
            return self.fail(CommandFault::NoMemory);
        }
        let asked = self.permitted(understand(words));
        let needs = self.multi.needs(&asked).unwrap_or_else(|| needs(&asked));
        if self.replies.has_room(needs) {
            self.carry_out(asked, bytes, turn);
        } else {
            self.wait = Some(Wait::Room(asked, needs, bytes));
        }
    }

    /// Has a command done, of so many bytes, for which there is room.
    fn carry_out(&mut self, asked: Asked, bytes: usize, turn: &mut Turn) {
        let asked = match self.multi.judge(asked) {
            Judged::Do(asked) => asked,
            Judged::Reply(reply) => Asked::Answered(reply),
            Judged::Watch(keys) => return self.settle(Later::Watch(keys), turn),
            Judged::Look(combine, actions) => return self.settle(Later::Look(combine, actions), turn),
            Judged::Exec(transaction) => {
                let share = self.queued.take();
                return self.transact(Combine::One, vec![transaction], share, turn);
            }
        };
        if !self.multi.is_open() && !self.multi.is_watching() {
            self.queued = None;
        }
        match asked {
            Asked::Keys(combine, actions) => {
                let Some(share) = self.share_of(bytes, actions.len()) else { return };
                let is_local = self.is_read_only && actions.iter().all(|(_, action)| action.only_reads());
                if is_local {
                    self.settle(Later::Read(combine, actions, share), turn);
                } else {
                    self.ask(combine, actions, share, turn);
                }
            }
            Asked::Joint(combine, steps) => {
                let Some(share) = self.share_of(bytes, steps.len()) else { return };
                self.transact(combine, apart(combine, steps), Some(share), turn);
            }
            Asked::Txn(transaction) => {
                let Some(share) = self.share_of(bytes, transaction.steps.len()) else { return };
                self.transact(Combine::One, vec![transaction], Some(share), turn);
            }
            Asked::Ping(text) => {
                let takes_part = self.shared.metrics.takes_part.get() == 1;
                let pong = text.map_or(Reply::Simple("PONG"), Reply::Bulk);
                self.answer(if takes_part { pong } else { Reply::Error(CommandFault::Apart) });
            }
            Asked::List(list) => self.settle(Later::List(list), turn),
            Asked::Info => {
                let brief = Reply::Bulk(self.brief().into_bytes());
                self.ask_driver(What::Info, INFO_PATIENCE, Some(brief));
            }
            Asked::Manage(manage @ Manage::Members) => {
                self.ask_driver(What::Manage(manage, None), self.shared.patience, None);
            }
            // (who may write data may not end the cluster)
            Asked::Manage(_) => self.fail(CommandFault::ForOperators(self.shared.operators.clone())),
            Asked::Hello(hello) => self.greet(hello),
            Asked::Client(client) => self.about(client),
            Asked::ReadOnly(is_read_only) => {
                self.is_read_only = is_read_only;
                self.answer(Reply::Simple("OK"));
            }
            Asked::Reset => {
                (self.version, self.name, self.is_read_only) = (Version::Two, None, false);
                self.is_known = self.shared.password.is_none();
                self.answer(Reply::Simple("RESET"));
            }
            Asked::Auth(words) => {
                if self.know(|password| password.is_in(&words)) {
                    self.answer(Reply::Simple("OK"));
                }
            }
            Asked::Quit => {
                self.answer(Reply::Simple("OK"));
                self.is_heard_out = true;
            }
            Asked::Http => {
                self.fail(CommandFault::Http);
                self.is_heard_out = true;
            }
            Asked::Answered(reply) => self.answer(reply),
            // (these are answered before)
            Asked::Multi | Asked::Exec | Asked::Discard | Asked::Watch(_) | Asked::Unwatch => {
                self.fail(CommandFault::NotInMulti);
            }
        }
    }

    /// What is asked, where it may be asked of this connection.
    fn permitted(&self, asked: Asked) -> Asked {
        let is_of_all = matches!(asked, Asked::Auth(_) | Asked::Hello(_) | Asked::Quit | Asked::Reset | Asked::Http);
        if !self.is_known && !is_of_all {
            return Asked::Answered(Reply::Error(CommandFault::NotKnown));
        }
        let is_of_kept = is_of_all || matches!(asked, Asked::Ping(_) | Asked::Info | Asked::Client(_));
        if self.connection.is_kept() && !is_of_kept {
            return Asked::Answered(Reply::Error(CommandFault::Full));
        }
        asked
    }

    /// Whether the password was said: from now on the connection is known. Else it is answered, after a while where it
    /// was wrong.
    fn know(&mut self, is_said: impl FnOnce(&Password) -> bool) -> bool {
        match &self.shared.password {
            None => self.fail(CommandFault::NoPassword),
            Some(password) if is_said(password) => {
                self.is_known = true;
                return true;
            }
            Some(_) => self.wait = Some(Wait::Wrong(Instant::now() + WRONG)),
        }
        false
    }

    /// What INFO says where the driver doesn't answer in time.
    fn brief(&self) -> String {
        let metrics = &self.shared.metrics;
        let lines = [
            ("core_is_slow", 1),
            ("generation", metrics.generation.get()),
            ("generation_entries", metrics.entries.get()),
            ("log_bytes", metrics.log_bytes.get()),
            ("instances_open", metrics.open_instances.get()),
            ("peers_reached", metrics.peers_reached.get()),
        ];
        let lines: String = lines.into_iter().map(|(name, value)| format!("{name}:{value}\r\n")).collect();
        lines + &self.shared.about_clients()
    }

    /// Room for a command of so many bytes and parts, or the reply that there is none.
    fn share_of(&mut self, bytes: usize, parts: usize) -> Option<Share> {
        let share = self.shared.memory.share(bytes + OVERHEAD * parts);
        if share.is_none() {
            self.fail(CommandFault::NoMemory);
        }
        share
    }

    /// Begins a command, with the parts of its reply, each of which has so many bytes at most, and with what its own
    /// bytes take: its number.
    fn begin_for(
        &mut self,
        combine: Combine,
        (parts, longest): (Vec<Part>, usize),
        patience: Duration,
        share: Option<Share>,
    ) -> u64 {
        let (begun, version, due) = (Instant::now(), self.version, self.shared.due.begin());
        let is_counted = !parts.iter().all(|part| matches!(part, Part::Come(_)));
        let deadline = begun + patience;
        self.replies.begin(Slot { combine, parts, longest, version, begun, deadline, share, is_counted, due })
    }

    fn reply_to(&self, command: u64, part: usize) -> ReplyTo {
        ReplyTo::part(self.outbox.clone(), self.id, command, part)
    }

    /// Answers at once. What is long and can't wait to be written isn't sent.
    fn answer(&mut self, reply: Reply) {
        let (memory, bytes) = (&self.shared.memory, OVERHEAD + reply.size());
        let is_short = reply.size() <= SHORT;
        let share = memory.share(bytes).or_else(|| is_short.then(|| memory.share_anyway(bytes)));
        let reply = if share.is_some() { reply } else { Reply::Error(CommandFault::NoMemory) };
        self.begin_for(Combine::One, (vec![Part::Come(reply)], 0), self.shared.patience, share);
    }

    fn fail(&mut self, fault: CommandFault) {
        self.answer(Reply::Error(fault));
    }

    /// Has actions done, each by a command of the protocol or by a read.
    fn ask(&mut self, combine: Combine, actions: Vec<(Vec<u8>, Action)>, share: Share, turn: &mut Turn) {
        let longest = longest_of(&actions);
        let asked: Vec<_> = actions.into_iter().map(|(key, action)| (self.shared.keys.id(), key, action)).collect();
        let parts = asked.iter().map(|(id, key, _)| Part::Asked(key.clone(), *id)).collect();
        let command = self.begin_for(combine, (parts, longest), self.shared.patience, Some(share));
        self.is_writing = true;
        for (part, (id, key, action)) in asked.into_iter().enumerate() {
            turn.wanted.push(Wanted::Action(id, key, action, self.reply_to(command, part)));
        }
    }

    /// Has transactions done, each at once.
    fn transact(&mut self, combine: Combine, all: Vec<Transaction>, share: Option<Share>, turn: &mut Turn) {
        if let [one] = all.as_slice()
            && let Some(reply) = one.untouched()
        {
            return self.answer(reply);
        }
        // (one has put its replies together)
        let combine = if all.len() == 1 { Combine::One } else { combine };
        let longest = all.iter().map(Transaction::longest_reply).max().unwrap_or(0);
        let all: Vec<_> = all.into_iter().map(|it| (self.shared.keys.id(), it)).collect();
        let parts = all.iter().map(|(number, _)| Part::Joint(*number)).collect();
        let command = self.begin_for(combine, (parts, longest), self.shared.patience, share);
        self.is_writing = true;
        for (part, (number, transaction)) in all.into_iter().enumerate() {
            turn.wanted.push(Wanted::Transaction(number, transaction, self.reply_to(command, part)));
        }
    }

    /// Makes room for a command that may have to wait for EXEC: whether there is any.
    fn keep(&mut self, words: usize, bytes: usize) -> bool {
        if !self.multi.is_open() {
            return true;
        }
        let more = bytes + OVERHEAD * words;
        match &mut self.queued {
            Some(share) => share.grow(more),
            None => {
                self.queued = self.shared.memory.share(more);
                self.queued.is_some()
            }
        }
    }

    /// Does this once what this connection has asked before is done. What it asks later waits for it.
    fn settle(&mut self, later: Later, turn: &mut Turn) {
        if self.is_writing && !self.replies.is_settled() {
            self.wait = Some(Wait::Settled(later));
        } else {
            self.do_later(later, turn);
        }
    }

    fn do_later(&mut self, later: Later, turn: &mut Turn) {
        self.is_writing = false;
        match later {
            Later::Watch(keys) => {
                let keys = self.multi.unwatched(keys);
                self.begin_look(keys, Looking::Watch);
            }
            Later::Look(combine, actions) => {
                let keys = actions.iter().map(|(key, _)| key.clone()).collect();
                self.begin_look(keys, Looking::Read(combine, actions));
            }
            Later::List(list) => {
                self.wait = Some(Wait::List);
                // (it goes on as long as there are clients)
                let _ = turn.lists.send((self.id, list));
            }
            Later::Read(combine, actions, share) => self.read_here(combine, actions, share),
        }
    }

    fn begin_look(&mut self, keys: BTreeSet<Vec<u8>>, looking: Looking) {
        self.looks += 1;
        let (of, deadline) = ((self.id, self.looks), Instant::now() + self.shared.patience);
        let mut look = Look::new(&self.shared.keys, &self.outbox, of, keys, deadline);
        let looked = look.read();
        self.wait = Some(Wait::Look(look, looking));
        if let Some(looked) = looked {
            self.looked(looked);
        }
    }

    /// It is known what keys have, or can't be.
    fn looked(&mut self, looked: Looked) {
        let Some(Wait::Look(_, looking)) = self.wait.take() else { return };
        match (looked, looking) {
            (Err(fault), _) => self.fail(fault),
            (Ok(values), Looking::Watch) => self.watch(values),
            (Ok(values), Looking::Read(combine, actions)) => self.compare(&values, combine, &actions),
        }
    }

    /// What these keys have now they have to have at EXEC.
    fn watch(&mut self, values: Values) {
        let bytes = values.values().flatten().map(Vec::len).sum::<usize>() + OVERHEAD * values.len();
        let share = self.queued.get_or_insert_with(|| self.shared.memory.empty_share());
        if !share.grow(bytes) {
            return self.fail(CommandFault::NoMemory);
        }
        self.multi.watch(values);
        self.answer(Reply::Simple("OK"));
    }

    /// Watched keys were read, among others: another value than that which was there when it was watched is a change.
    fn compare(&mut self, values: &Values, combine: Combine, actions: &[(Vec<u8>, Action)]) {
        self.multi.compare(values);
        let now = stored::now();
        let reply = |(key, action): &(Vec<u8>, Action)| {
            let value = values.get(key).cloned().flatten();
            action.apply(value.map(Stored::read), now).1
        };
        self.answer(combine.combine(actions.iter().map(reply).collect()));
    }

    /// Reads at this replica alone.
    fn read_here(&mut self, combine: Combine, actions: Vec<(Vec<u8>, Action)>, share: Share) {
        let parts = actions.iter().map(|_| Part::Wanted(None)).collect();
        let command = self.begin_for(combine, (parts, longest_of(&actions)), self.shared.patience, Some(share));
        for (part, (key, action)) in actions.into_iter().enumerate() {
            let to = self.reply_to(command, part);
            let (keys, of) = (self.shared.keys.clone(), key.clone());
            let reply = ReplySender::new(move |outcome| to.send(local(&keys, of, &action, outcome)));
            self.shared.keys.send(self.id, Ask { what: What::Read(key), reply });
        }
    }

    /// Asks the driver of what isn't of keys. Where it doesn't answer in time the reply is the other one, if there is
    /// one.
    fn ask_driver(&mut self, what: What, patience: Duration, other: Option<Reply>) {
        let command = self.begin_for(Combine::One, (vec![Part::Wanted(other)], 0), patience, None);
        let (to, shared) = (self.reply_to(command, 0), self.shared.clone());
        let reply = ReplySender::new(move |outcome| {
            to.send(match outcome {
                Outcome::Info(text) => Reply::Bulk((text + &shared.about_clients()).into_bytes()),
                Outcome::Managed(Ok(text)) => Reply::Bulk(text.into_bytes()),
                Outcome::Managed(Err(fault)) => Reply::Error(CommandFault::Managing(fault)),
                outcome => Reply::Error(CommandFault::of(outcome)),
            });
        });
        self.shared.keys.send(self.id, Ask { what, reply });
    }

    fn greet(&mut self, hello: Hello) {
        if let Some((user, secret)) = &hello.auth
            && !self.know(|password| password.is_said(user, secret))
        {
            return;
        }
        if !self.is_known {
            return self.fail(CommandFault::NotKnown);
        }
        self.version = hello.version.unwrap_or(self.version);
        self.name = hello.name.or(self.name.take()).filter(|name| !name.is_empty());
        self.answer(about_server(self.version, self.id));
    }

    fn about(&mut self, client: commands::Client) {
        let reply = match client {
            commands::Client::Id => Reply::Integer(self.id as i64),
            commands::Client::Name => self.name.clone().map_or(Reply::Nil, Reply::Bulk),
            commands::Client::SetName(name) => {
                self.name = Some(name).filter(|name| !name.is_empty());
                Reply::Simple("OK")
            }
            commands::Client::Info => {
                let name = self.name.as_deref().map_or("".into(), String::from_utf8_lossy);
                let version = if self.version == Version::Two { 2 } else { 3 };
                let (id, address) = (self.id, &self.address);
                Reply::text(&format!("id={id} addr={address} name={name} db=0 resp={version}\n"))
            }
        };
        self.answer(reply);
    }
}

/// What the reply to a command needs.
fn needs(asked: &Asked) -> Needs {
    let (parts, longest) = match asked {
        Asked::Keys(_, actions) => (actions.len(), longest_of(actions)),
        Asked::Joint(Combine::Sum, steps) => (steps.len().div_ceil(MOST_TOLD), 0),
        Asked::Txn(transaction) => (1, transaction.longest_reply()),
        _ => (1, 0),
    };
    Needs { parts, longest }
}

/// How many bytes the reply of one of these takes at most.
fn longest_of(actions: &[(Vec<u8>, Action)]) -> usize {
    actions.iter().map(|(_, action)| action.longest_reply()).max().unwrap_or(0)
}

/// A DEL of many keys takes several transactions: one reports of so many keys at most what they had.
fn apart(combine: Combine, steps: Vec<Step>) -> Vec<Transaction> {
    let most = if combine == Combine::Sum { MOST_TOLD } else { usize::MAX };
    let mut all = Vec::new();
    let mut steps = steps.into_iter().peekable();
    while steps.peek().is_some() {
        all.push(Transaction::one(combine, steps.by_ref().take(most).collect()));
    }
    all
}

/// What a local read replies. What is past its deadline is nil, and is removed.
fn local(keys: &Arc<Keys>, key: Vec<u8>, action: &Action, outcome: Outcome) -> Reply {
    let Outcome::Value(value) = outcome else { return Reply::Error(CommandFault::of(outcome)) };
    let (current, now) = (value.map(Stored::read), stored::now());
    if current.as_ref().is_some_and(|stored| stored.is_over(now)) {
        tidy(keys, key);
    }
    action.apply(current, now).1
}
