//! Connections of clients. One thread serves them all: it reads what has come, hands all commands of a turn on, and
//! writes the replies that are there.
use crate::client::actions::Action;
use crate::client::command_fault::CommandFault;
use crate::client::commands::List;
use crate::client::connections::{Connection, Connections};
use crate::client::door::{Door, Waiting};
use crate::client::memory::Memory;
use crate::client::outbox::{Message, Messages, Outbox};
use crate::client::password::Password;
use crate::client::replies::{Due, ReplyTo, SLICE};
use crate::client::resp::{Reply, Version};
use crate::client::session::{CHUNK, Session};
use crate::core::keys::{Keys, Wanted};
use crate::core::listing::Listing;
use crate::ops::metrics::Metrics;
use crate::ops::say::warn;
use mio::unix::SourceFd;
use mio::{Events, Interest, Poll, Token, Waker};
use std::collections::HashMap;
use std::io::{self, ErrorKind, Write};
use std::net::{TcpListener, TcpStream};
use std::os::fd::AsRawFd;
use std::sync::Arc;
use std::sync::atomic::{AtomicU64, Ordering};
use std::sync::mpsc::{Receiver, Sender, channel};
use std::thread;
use std::time::{Duration, Instant};

/// The tokens of the listener and of messages; of connections, by their numbers, which begin at 1.
const COMING: Token = Token(0);
const WOKEN: Token = Token(usize::MAX);
/// So much is learnt at once, and so many connections are taken in a turn.
const MOST_EVENTS: usize = 1_024;
const MOST_TAKEN: usize = 64;
/// Where no connection can be taken, it is tried again after this.
const PAUSE: Duration = Duration::from_millis(20);
/// Nothing is waited for longer.
const LONGEST: Duration = Duration::from_secs(60);

/// What all connections share.
pub struct Shared {
    pub keys: Arc<Keys>,
    pub listing: Arc<Listing>,
    pub patience: Duration,
    pub password: Option<Password>,
    /// Where operators ask.
    pub operators: String,
    pub memory: Arc<Memory>,
    pub metrics: Arc<Metrics>,
    pub connections: Arc<Connections>,
    pub due: Arc<Due>,
    /// How many connections there have been.
    pub served: AtomicU64,
    pub started: Instant,
}

impl Shared {
    /// What INFO says of this process and its clients.
    pub(crate) fn about_clients(&self) -> String {
        let version = env!("CARGO_PKG_VERSION");
        let numbers = [
            ("uptime_in_seconds", self.started.elapsed().as_secs()),
            ("connected_clients", self.connections.count() as u64),
            ("clients_memory", self.memory.used() as u64),
            ("client_output_buffer_limit_disconnections", self.metrics.slow.get()),
            ("commands_answered", self.metrics.answered.get()),
            ("commands_refused", self.metrics.refused.get()),
            ("takes_part", self.metrics.takes_part.get()),
            ("expired_kept", self.metrics.expired.get()),
        ];
        let lines: String = numbers.into_iter().map(|(name, number)| format!("{name}:{number}\r\n")).collect();
        format!("store_version:{version}\r\n{lines}")
    }
}

/// Serves clients, from now on.
pub fn listen(listener: TcpListener, shared: Arc<Shared>) {
    match Clients::begin(listener, shared) {
        Ok(clients) => clients.serve(),
        Err(error) => warn(&format!("clients can't be served: {error}")),
    }
}

/// What a turn has to use, and what came of it.
pub struct Turn {
    pub now: Instant,
    /// For what is read.
    pub chunk: Vec<u8>,
    /// What is asked of keys.
    pub wanted: Vec<Wanted>,
    /// Where keys are listed, for a connection.
    pub lists: Sender<(u64, List)>,
}

/// The thread that serves clients.
struct Clients {
    shared: Arc<Shared>,
    poll: Poll,
    outbox: Arc<Outbox>,
    listener: TcpListener,
    /// When connections may be taken that may be there.
    takes_at: Option<Instant>,
    door: Door,
    sessions: HashMap<u64, Session>,
    /// Those that may have something to be read, or to be sent.
    ready: Vec<u64>,
    turn: Turn,
    messages: Messages,
    /// When it is looked at all of them next.
    next_look: Instant,
}

impl Clients {
    fn begin(listener: TcpListener, shared: Arc<Shared>) -> io::Result<Clients> {
        let poll = Poll::new()?;
        listener.set_nonblocking(true)?;
        poll.registry().register(&mut SourceFd(&listener.as_raw_fd()), COMING, Interest::READABLE)?;
        let outbox = Arc::new(Outbox::new(Waker::new(poll.registry(), WOKEN)?));
        let (lists, wanted) = channel();
        let (listing, keys, to) = (shared.listing.clone(), shared.keys.clone(), outbox.clone());
        thread::Builder::new().name("lists".into()).spawn(move || list_all(&wanted, &listing, &keys, &to))?;
        let now = Instant::now();
        let turn = Turn { now, chunk: vec![0; CHUNK], wanted: Vec::new(), lists };
        Ok(Clients {
            shared,
            poll,
            outbox,
            listener,
            takes_at: Some(now),
            door: Door::default(),
            sessions: HashMap::new(),
            ready: Vec::new(),
            turn,
            messages: Messages::new(),
            next_look: now,
        })
    }

    fn serve(mut self) {
        let mut events = Events::with_capacity(MOST_EVENTS);
        loop {
            let pause = self.pause();
            if let Err(error) = self.poll.poll(&mut events, Some(pause))
                && error.kind() != ErrorKind::Interrupted
            {
                warn(&format!("what clients send can't be learnt: {error}"));
                thread::sleep(PAUSE);
            }
            self.outbox.awake();
            self.turn.now = Instant::now();
            self.note(&events);
            self.turn();
        }
    }

    /// How long nothing may be to do.
    fn pause(&self) -> Duration {
        let all = [Some(self.next_look), self.takes_at, self.door.due()];
        let due = all.into_iter().flatten().min().unwrap_or(self.next_look);
        let left = due.saturating_duration_since(Instant::now()).min(LONGEST);
        if self.ready.is_empty() && !left.is_zero() && self.outbox.may_sleep() { left } else { Duration::ZERO }
    }

    /// Notes who may have something to be read, or may be sent something.
    fn note(&mut self, events: &Events) {
        for event in events {
            match event.token() {
                COMING => self.takes_at = Some(self.turn.now),
                WOKEN => {}
                Token(id) => {
                    // (who waits at the door is looked at there)
                    let Some(session) = self.sessions.get_mut(&(id as u64)) else { continue };
                    if event.is_readable() || event.is_read_closed() || event.is_error() {
                        session.note_readable(event.is_read_closed());
                    }
                    if event.is_writable() || event.is_error() {
                        session.note_writable();
                    }
                    self.ready.push(id as u64);
                }
            }
        }
    }

    /// Reads what has come and hands it on; then writes what is to be replied.
    fn turn(&mut self) {
        if self.takes_at.is_some_and(|at| at <= self.turn.now) {
            self.take_connections();
        }
        if self.door.due().is_some_and(|due| due <= self.turn.now) {
            self.look_at_door();
        }
        let mut ready = std::mem::take(&mut self.ready);
        for id in &ready {
            if let Some(session) = self.sessions.get_mut(id).filter(|session| session.may_read()) {
                session.read(&mut self.turn);
            }
        }
        self.hand_on();
        let mut messages = std::mem::take(&mut self.messages);
        self.outbox.take(&mut messages);
        for (id, message) in messages.drain(..) {
            // (whose connection has ended waits no longer)
            if let Some(session) = self.sessions.get_mut(&id) {
                session.take_message(message);
                ready.push(id);
            }
            if self.shared.memory.is_short() {
                self.make_room();
            }
        }
        self.messages = messages;
        if self.next_look <= self.turn.now {
            self.next_look = self.turn.now + LONGEST;
            let now = self.turn.now;
            self.sessions.retain(|_, session| session.look(now) || session.end_slow());
            ready = self.sessions.keys().copied().collect();
            self.note_count();
        }
        ready.sort_unstable();
        ready.dedup();
        ready.retain(|id| self.tend(*id));
        self.ready = ready;
        self.hand_on();
    }

    /// Closes connections whose clients take no replies, first those that have most memory, until enough is free.
    fn make_room(&mut self) {
        // (who takes some isn't among them; an error comes again)
        self.sessions.values_mut().for_each(|session| _ = session.send(&mut SLICE.clone()));
        while self.shared.memory.is_short() {
            let stuck = self.sessions.iter().filter(|(_, session)| session.is_stuck());
            let Some((id, session)) = stuck.max_by_key(|(_, session)| session.unsent()) else { return };
            session.end_slow();
            let id = *id;
            self.sessions.remove(&id);
            self.note_count();
        }
    }

    fn hand_on(&mut self) {
        if !self.turn.wanted.is_empty() {
            self.shared.keys.ask_all(&mut self.turn.wanted);
        }
    }

    /// Sends a slice of what there is to be sent, and goes on with what has come: whether there is more to be done.
    fn tend(&mut self, id: u64) -> bool {
        let Some(session) = self.sessions.get_mut(&id) else { return false };
        let mut slice = SLICE;
        loop {
            let is_sent = session.send(&mut slice).is_ok();
            if !is_sent || session.is_over() {
                session.end();
                self.sessions.remove(&id);
                self.note_count();
                return false;
            }
            if !session.go_on(&mut self.turn) {
                break;
            }
        }
        self.next_look = self.next_look.min(session.due());
        session.is_ready()
    }

    /// Takes connections, some at a time. Those that find no place wait at the door.
    fn take_connections(&mut self) {
        for _ in 0..MOST_TAKEN {
            match self.listener.accept() {
                Ok((stream, _)) => self.take_connection(Arc::new(stream)),
                Err(error) if error.kind() == ErrorKind::WouldBlock => return self.takes_at = None,
                Err(_) => return self.takes_at = Some(self.turn.now + PAUSE),
            }
        }
    }

    fn take_connection(&mut self, stream: Arc<TcpStream>) {
        let id = self.shared.served.fetch_add(1, Ordering::Relaxed) + 1;
        let both = Interest::READABLE | Interest::WRITABLE;
        let of = Token(id as usize);
        if stream.set_nonblocking(true).is_err()
            || self.poll.registry().register(&mut SourceFd(&stream.as_raw_fd()), of, both).is_err()
        {
            return;
        }
        match self.shared.connections.take(id, &stream) {
            Some(connection) => self.let_in((id, stream), connection),
            None => self.door.add((id, stream)).iter().for_each(|oldest| turn_away(oldest)),
        }
    }

    fn look_at_door(&mut self) {
        let looked = self.door.look(&self.shared.connections);
        looked.turned_away.iter().for_each(|stream| turn_away(stream));
        looked.let_in.into_iter().for_each(|(one, connection)| self.let_in(one, connection));
    }

    /// Serves a connection that has a place.
    fn let_in(&mut self, one: Waiting, connection: Connection) {
        let id = one.0;
        if let Ok(session) = Session::begin(&self.shared, &self.outbox, one, connection) {
            self.next_look = self.next_look.min(session.due());
            self.sessions.insert(id, session);
            self.ready.push(id);
        }
        self.note_count();
    }

    fn note_count(&self) {
        self.shared.metrics.clients.set(self.shared.connections.count() as u64);
    }
}

/// Lists keys for connections, one list at a time, as long as there are clients.
fn list_all(wanted: &Receiver<(u64, List)>, listing: &Listing, keys: &Arc<Keys>, outbox: &Outbox) {
    for (connection, list) in wanted {
        let listed = listing.answer(&list);
        let (reply, hidden) = listed.unwrap_or_else(|fault| (Reply::Error(fault), Vec::new()));
        hidden.into_iter().for_each(|key| tidy(keys, key));
        outbox.put(connection, Message::Listed(reply));
    }
}

/// Replies to a connection that there is no place for it. Who doesn't take it at once isn't waited for.
fn turn_away(mut stream: &TcpStream) {
    let _ = write!(stream, "-{}\r\n", CommandFault::NoPlace);
}

/// What HELLO replies to a client of this number.
pub(crate) fn about_server(version: Version, id: u64) -> Reply {
    let version = if version == Version::Two { 2 } else { 3 };
    let pairs = [
        ("server", Reply::text("epaxos")),
        ("version", Reply::text(env!("CARGO_PKG_VERSION"))),
        ("proto", Reply::Integer(version)),
        ("id", Reply::Integer(id as i64)),
        ("mode", Reply::text("standalone")),
        ("role", Reply::text("master")),
        ("modules", Reply::Array(Vec::new())),
    ];
    Reply::Map(pairs.into_iter().map(|(name, value)| (Reply::text(name), value)).collect())
}

/// Has what is past its deadline removed from the key. Nobody waits for it.
pub(crate) fn tidy(keys: &Arc<Keys>, key: Vec<u8>) {
    keys.ask(keys.id(), key, Action::Tidy, ReplyTo::nobody());
}
