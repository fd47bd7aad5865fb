//! The connection to a peer, over TCP.
//!
//! There is one for each direction, so that each end opens again what it needs. It begins by a proof that both ends
//! have the cluster's key ([`sealed`]), and by a greeting and its answer, by which both ends know each other. Then come
//! frames; the other way goes a message each second, so that a peer whose machine or network is gone is noticed. A
//! frame that can't be sent is lost: the protocol allows for it.
use crate::parts::connect_fault::ConnectFault;
use crate::parts::ends::Ends;
use crate::parts::happened::Happened;
use crate::parts::link::Link;
use crate::parts::link_fault::LinkFault;
use crate::parts::mac::Mac;
use crate::parts::sealed::{self, Channel, Direction, Hello, Key};
use crate::parts::timed::Timed;
use crate::system::send_at_once;
use std::collections::VecDeque;
use std::io::{self, BufReader, ErrorKind, Read, Write};
use std::net::{Shutdown, TcpStream, ToSocketAddrs};
use std::sync::atomic::{AtomicBool, AtomicU64, Ordering};
use std::sync::{Arc, Condvar, Mutex, MutexGuard, PoisonError};
use std::thread;
use std::time::Duration;

/// What waits for one peer is at most so many bytes; then the oldest frames are lost.
const MOST_WAITING: usize = 8 << 20;
/// So many bytes are sent by whoever has them, where the thread that sends waits: that takes less than to wake it.
const MOST_AT_ONCE: usize = 1 << 10;
/// And the thread sends so many at once.
const MOST_TOGETHER: usize = 1 << 16;
/// What messages are: a greeting or its answer, a frame of the protocol or a message of a host, and that this end is
/// there.
pub(super) const GREETING: u8 = 0;
pub(super) const FRAME: u8 = 1;
pub(super) const BEAT: u8 = 2;
/// How long a greeting and its answer may be.
pub(super) const LONGEST_GREETING: usize = 64;
const CONNECT_PATIENCE: Duration = Duration::from_secs(2);
pub(super) const WRITE_PATIENCE: Duration = Duration::from_secs(5);
/// A peer that sends nothing for so long is lost.
const SILENCE: Duration = Duration::from_secs(5);
pub(super) const LEAST_PAUSE: Duration = Duration::from_millis(20);
const GREATEST_PAUSE: Duration = Duration::from_millis(500);

/// The frames that wait for one peer.
struct Queue<M> {
    frames: VecDeque<Vec<u8>>,
    bytes: usize,
    /// Whether the thread that sends waits for them.
    is_awaited: bool,
    /// Why the connection is over, if it is.
    over: Option<LinkFault>,
    /// Whether the peer was seen to be there since the last try to connect.
    has_come: bool,
    /// Whether nothing more comes.
    is_ended: bool,
    /// The connection, while that thread waits.
    way: Option<Way<M>>,
}

impl<M> Default for Queue<M> {
    fn default() -> Queue<M> {
        let frames = VecDeque::new();
        Queue { frames, bytes: 0, is_awaited: false, over: None, has_come: false, is_ended: false, way: None }
    }
}

impl<M: Mac> Queue<M> {
    /// Whether there is nothing to do for the thread that sends.
    fn is_idle(&self) -> bool {
        self.frames.is_empty() && self.over.is_none() && self.way.as_ref().is_none_or(|way| way.out.is_empty())
    }

    /// Sends frames without that thread, where they are short and it waits: whether they are on their way.
    fn send_at_once(&mut self, all: &[Vec<u8>]) -> bool {
        let is_short = all.iter().map(Vec::len).sum::<usize>() <= MOST_AT_ONCE;
        if !is_short || self.is_ended || !self.is_idle() {
            return false;
        }
        let Some(way) = &mut self.way else { return false };
        let sent = all.iter().try_for_each(|frame| way.add(frame)).and_then(|()| way.send());
        self.over = sent.err().map(|error| LinkFault::Unsent(error.kind()));
        true
    }
}

/// What sends on a connection.
struct Way<M> {
    stream: Arc<TcpStream>,
    sending: Direction<M>,
    /// What is to be sent, and isn't yet.
    out: Vec<u8>,
}

impl<M: Mac> Way<M> {
    fn add(&mut self, frame: &[u8]) -> io::Result<()> {
        self.sending.write(&mut self.out, FRAME, frame)
    }

    /// Sends as much as is taken without waiting.
    fn send(&mut self) -> io::Result<()> {
        match send_at_once(&self.stream, &self.out) {
            Ok(length) => _ = self.out.drain(..length),
            Err(error) if matches!(error.kind(), ErrorKind::WouldBlock | ErrorKind::Interrupted) => {}
            Err(error) => return Err(error),
        }
        Ok(())
    }

    /// Sends all of it, and these frames behind it.
    fn send_all(&mut self, frames: &VecDeque<Vec<u8>>) -> io::Result<()> {
        for frame in frames {
            self.add(frame)?;
            if self.out.len() >= MOST_TOGETHER {
                (&*self.stream).write_all(&self.out)?;
                self.out.clear();
            }
        }
        (&*self.stream).write_all(&self.out)?;
        self.out.clear();
        self.out.shrink_to(MOST_TOGETHER);
        Ok(())
    }
}

/// The connection to a peer.
pub struct TcpSender<E: Ends> {
    to: u8,
    address: Mutex<String>,
    ends: Arc<E>,
    queue: Mutex<Queue<E::Mac>>,
    changed: Condvar,
    came: Condvar,
    is_reached: AtomicBool,
    lost: AtomicU64,
}

impl<E: Ends> Link for TcpSender<E> {
    fn send(&self, bytes: Vec<u8>) {
        self.send_several(vec![bytes]);
    }

    fn send_several(&self, all: Vec<Vec<u8>>) {
        let mut queue = self.queue();
        if queue.send_at_once(&all) {
            if !queue.is_idle() {
                self.wake(queue);
            }
            return;
        }
        queue.bytes += all.iter().map(Vec::len).sum::<usize>();
        queue.frames.extend(all);
        while queue.bytes > MOST_WAITING {
            let Some(oldest) = queue.frames.pop_front() else {
                break;
            };
            queue.bytes -= oldest.len();
            self.lost.fetch_add(1, Ordering::Relaxed);
        }
        self.wake(queue);
    }

    fn send_first(&self, bytes: Vec<u8>) {
        let mut queue = self.queue();
        queue.bytes += bytes.len();
        queue.frames.push_front(bytes);
        self.wake(queue);
    }

    fn is_reached(&self) -> bool {
        self.is_reached.load(Ordering::Relaxed)
    }

    fn is_idle(&self) -> bool {
        let queue = self.queue();
        !self.is_reached() || (queue.is_idle() && queue.is_awaited)
    }

    fn lost(&self) -> u64 {
        self.lost.load(Ordering::Relaxed)
    }

    fn set_address(&self, address: &str) {
        if std::mem::replace(&mut *self.address(), address.to_string()) != address {
            self.part(LinkFault::OtherAddress);
        }
    }

    fn part(&self, fault: LinkFault) {
        let mut queue = self.queue();
        queue.over = Some(fault);
        self.wake(queue);
    }

    fn hurry(&self) {
        self.queue().has_come = true;
        self.came.notify_one();
    }
}

impl<E: Ends> TcpSender<E> {
    /// Starts a thread that connects to the peer at this address, whenever it isn't connected.
    pub fn start(to: u8, address: String, ends: Arc<E>) -> io::Result<Arc<TcpSender<E>>> {
        let it = Arc::new(TcpSender::new(to, address, ends));
        let runner = it.clone();
        thread::Builder::new().name(format!("to {to}")).spawn(move || runner.run())?;
        Ok(it)
    }

    fn new(to: u8, address: String, ends: Arc<E>) -> TcpSender<E> {
        TcpSender {
            to,
            address: Mutex::new(address),
            ends,
            queue: Mutex::default(),
            changed: Condvar::new(),
            came: Condvar::new(),
            is_reached: AtomicBool::new(false),
            lost: AtomicU64::new(0),
        }
    }

    /// Nothing more is sent than what waits, if it is connected.
    pub fn end(&self) {
        self.queue().is_ended = true;
        self.changed.notify_one();
        self.came.notify_one();
    }

    fn queue(&self) -> MutexGuard<'_, Queue<E::Mac>> {
        self.queue.lock().unwrap_or_else(PoisonError::into_inner)
    }

    /// Wakes the thread that sends, where it waits: each word takes a call of the system. (Woken while the queue is
    /// locked, the thread would wait for that.)
    fn wake(&self, mut queue: MutexGuard<'_, Queue<E::Mac>>) {
        let is_awaited = std::mem::take(&mut queue.is_awaited);
        drop(queue);
        if is_awaited {
            self.changed.notify_one();
        }
    }

    fn address(&self) -> MutexGuard<'_, String> {
        self.address.lock().unwrap_or_else(PoisonError::into_inner)
    }

    fn log(&self, is_well: bool, what: &str) {
        self.ends.log(is_well, &format!("peer {} at {} {what}", self.to, self.address()));
    }

    /// Connects, sends until the connection is lost, and again.
    fn run(&self) {
        let mut pause = LEAST_PAUSE;
        let (mut was_lost, mut was_refused) = (false, false);
        loop {
            let connected = self.connect();
            if let Err(fault) = &connected
                && fault.is_lasting()
                && !was_refused
            {
                was_refused = true;
                let of_keys = if *fault == ConnectFault::OtherKey { E::OF_KEYS } else { "" };
                self.log(false, &format!("{fault}{of_keys}"));
            }
            if let Ok((stream, channel)) = connected {
                was_refused = false;
                pause = LEAST_PAUSE;
                self.log(true, if was_lost { "regained" } else { "reached" });
                self.is_reached.store(true, Ordering::Relaxed);
                if !self.ends.happen(Happened::Reached(self.to)) {
                    return;
                }
                let cause = self.send_all(stream, channel);
                self.is_reached.store(false, Ordering::Relaxed);
                if !self.ends.happen(Happened::Lost(self.to)) {
                    return;
                }
                was_lost = true;
                self.log(false, &format!("lost: {cause}"));
            }
            if self.rest(pause) {
                return;
            }
            pause = (pause * 2).min(GREATEST_PAUSE);
        }
    }

    /// Waits until the next try to connect, or until the peer was seen to be there. Whether there is no next one.
    fn rest(&self, pause: Duration) -> bool {
        let waits = |queue: &mut Queue<E::Mac>| !queue.has_come && !queue.is_ended;
        let waited = self.came.wait_timeout_while(self.queue(), pause, waits);
        let (mut queue, _) = waited.unwrap_or_else(PoisonError::into_inner);
        queue.has_come = false;
        queue.is_ended
    }

    fn connect(&self) -> Result<(TcpStream, Channel<E::Mac>), ConnectFault> {
        let (place, address) = (self.ends.place(), self.address().clone());
        let hello = Hello::new(E::MAGIC, [place.replicas as u8, place.replica, self.to])?;
        let (stream, channel, answer) = greet(self.ends.key(), &hello, &address, &self.ends.greeting())?;
        stream.set_read_timeout(Some(SILENCE))?;
        self.ends.judge(self.to, &answer)?;
        Ok((stream, channel))
    }

    /// Sends what comes; ends with the cause.
    fn send_all(&self, stream: TcpStream, channel: Channel<E::Mac>) -> LinkFault {
        let Channel { sending, receiving } = channel;
        self.queue().over = None;
        let Ok(reading) = stream.try_clone() else {
            return LinkFault::NoHandles;
        };
        let stream = Arc::new(stream);
        let way = Way { stream: stream.clone(), sending, out: Vec::new() };
        thread::scope(|scope| {
            scope.spawn(|| {
                let over = heard_out(reading, receiving);
                self.part(over);
            });
            let cause = self.send_while_open(way);
            let _ = stream.shutdown(Shutdown::Both);
            cause
        })
    }

    fn send_while_open(&self, mut way: Way<E::Mac>) -> LinkFault {
        loop {
            let mut queue = self.queue();
            queue.way = Some(way);
            while queue.is_idle() && !queue.is_ended {
                queue.is_awaited = true;
                queue = self.changed.wait(queue).unwrap_or_else(PoisonError::into_inner);
            }
            queue.is_awaited = false;
            let Some(taken) = queue.way.take() else { return LinkFault::Broken };
            way = taken;
            if let Some(over) = queue.over {
                return over;
            }
            // (what was sent before it was ended goes out)
            if queue.frames.is_empty() && way.out.is_empty() {
                return LinkFault::Ended;
            }
            let frames = std::mem::take(&mut queue.frames);
            queue.bytes = 0;
            drop(queue);
            if let Err(error) = way.send_all(&frames) {
                return LinkFault::Unsent(error.kind());
            }
        }
    }
}

/// Hears the other end say that it is there, until it doesn't: why.
fn heard_out<M: Mac>(stream: impl Read, mut receiving: Direction<M>) -> LinkFault {
    let mut reader = BufReader::with_capacity(64, stream);
    loop {
        match receiving.read(&mut reader, 0) {
            Ok(_) => {}
            Err(error) => return LinkFault::of_read(&error),
        }
    }
}

/// Greets whoever listens at an address: the connection, and the answer.
pub fn greet<M: Mac>(
    key: &Key<M>,
    hello: &Hello,
    address: &str,
    greeting: &[u8],
) -> Result<(TcpStream, Channel<M>, Vec<u8>), ConnectFault> {
    let stream = connect_to(address)?;
    stream.set_nodelay(true)?;
    stream.set_write_timeout(Some(WRITE_PATIENCE))?;
    let mut timed = Timed::new(&stream, CONNECT_PATIENCE);
    let mut channel = sealed::call(&mut timed, key, hello)?;
    channel.sending.write(&mut timed, GREETING, greeting)?;
    // The other end answers the greeting: whoever only takes the connection, and closes it, wasn't reached.
    match channel.receiving.read(&mut timed, LONGEST_GREETING)? {
        (GREETING, answer) => Ok((stream, channel, answer)),
        _ => Err(ConnectFault::Failed),
    }
}

fn connect_to(address: &str) -> io::Result<TcpStream> {
    let mut last = io::Error::from(io::ErrorKind::AddrNotAvailable);
    for address in address.to_socket_addrs()? {
        match TcpStream::connect_timeout(&address, CONNECT_PATIENCE) {
            Ok(stream) => return Ok(stream),
            Err(error) => last = error,
        }
    }
    Err(last)
}

#[cfg(test)]
#[path = "tcp_tests.rs"]
mod tests;
