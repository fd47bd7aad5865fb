//! The connections of peers, over TCP: see [`TcpSender`](crate::parts::tcp_sender::TcpSender).
use crate::parts::ends::Ends;
use crate::parts::happened::Happened;
use crate::parts::mac::Mac;
use crate::parts::place::{MOST_REPLICAS, Place};
use crate::parts::sealed::{self, Channel, Direction};
use crate::parts::tcp_sender::{BEAT, FRAME, GREETING, LEAST_PAUSE, LONGEST_GREETING, WRITE_PATIENCE};
use crate::parts::timed::Timed;
use std::collections::{HashMap, VecDeque};
use std::io::{self, BufReader, Write};
use std::net::{Shutdown, TcpListener, TcpStream};
use std::sync::atomic::{AtomicBool, Ordering};
use std::sync::{Arc, Mutex, MutexGuard, PoisonError};
use std::thread;
use std::time::{Duration, Instant};

/// How long a frame may be, as in a bundle, or a message of a host.
pub(super) const SHORTEST_FRAME: usize = 3;
pub(super) const LONGEST_FRAME: usize = 400_000;
/// For all of a greeting, which comes as soon as the connection is there.
const GREETING_PATIENCE: Duration = Duration::from_secs(5);
/// Between two messages by which the receiving end says that it is there.
const BEATS: Duration = Duration::from_secs(1);
/// Strangers of one kind are logged once in so long.
const SILENT: Duration = Duration::from_secs(60);
/// At most so many connections that nobody has greeted on: one more ends the oldest of them.
pub(super) const MOST_STRANGERS: usize = 64;

/// What those who receive from peers have in common.
pub struct TcpReceiver<E> {
    ends: Arc<E>,
    /// The connection of each replica.
    current: Vec<Mutex<Option<TcpStream>>>,
    strangers: Mutex<Strangers>,
    /// When strangers were logged last, by what was logged.
    reported: Mutex<HashMap<&'static str, Instant>>,
    is_ended: AtomicBool,
}

/// The connections that nobody has greeted on yet, in the order in which they came, by numbers.
#[derive(Default)]
struct Strangers {
    next: u64,
    waiting: VecDeque<(u64, TcpStream)>,
}

impl<E: Ends> TcpReceiver<E> {
    pub fn new(ends: Arc<E>) -> TcpReceiver<E> {
        let current = (0..MOST_REPLICAS).map(|_| Mutex::default()).collect();
        let (strangers, reported, is_ended) = (Mutex::default(), Mutex::default(), AtomicBool::new(false));
        TcpReceiver { ends, current, strangers, reported, is_ended }
    }

    /// Takes connections of other replicas, each in a thread, until it is ended and one more has come. A new one of a
    /// replica closes the one before.
    pub fn listen(self: &Arc<Self>, listener: &TcpListener) {
        for stream in listener.incoming() {
            if self.is_ended.load(Ordering::Acquire) {
                return;
            }
            let Some((stream, number)) = stream.ok().and_then(|it| self.came(&it).ok().map(|number| (it, number)))
            else {
                thread::sleep(LEAST_PAUSE);
                continue;
            };
            let served = self.clone();
            let started = thread::Builder::new().name("from a peer".into()).spawn(move || {
                let greeted = served.greet(&stream);
                served.greeted(number);
                if let Ok(Some((from, who, channel))) = greeted {
                    let _ = served.receive((from, who), &stream, channel);
                }
                // There may be other handles of the connection, so it doesn't end with this one.
                let _ = stream.shutdown(Shutdown::Both);
            });
            if started.is_err() {
                self.greeted(number);
            }
        }
    }

    /// All connections are closed, and no more are taken.
    pub fn end(&self) {
        self.is_ended.store(true, Ordering::Release);
        let strangers = std::mem::take(&mut self.strangers().waiting);
        let lock = |it: &Mutex<Option<TcpStream>>| it.lock().unwrap_or_else(PoisonError::into_inner).take();
        let all = strangers.into_iter().map(|(_, stream)| stream).chain(self.current.iter().filter_map(lock));
        all.for_each(|stream| _ = stream.shutdown(Shutdown::Both));
    }

    fn strangers(&self) -> MutexGuard<'_, Strangers> {
        self.strangers.lock().unwrap_or_else(PoisonError::into_inner)
    }

    /// Notes a new connection: its number. Where too many wait for a greeting, the oldest is closed: a replica greets
    /// at once, and so strangers who don't can't keep it out.
    fn came(&self, stream: &TcpStream) -> io::Result<u64> {
        let stream = stream.try_clone()?;
        let mut strangers = self.strangers();
        let number = strangers.next;
        strangers.next += 1;
        strangers.waiting.push_back((number, stream));
        if strangers.waiting.len() > MOST_STRANGERS
            && let Some((_, oldest)) = strangers.waiting.pop_front()
        {
            let _ = oldest.shutdown(Shutdown::Both);
        }
        Ok(number)
    }

    /// The connection of this number is no stranger's any more.
    fn greeted(&self, number: u64) {
        self.strangers().waiting.retain(|(other, _)| *other != number);
    }

    /// How many wait for a greeting.
    #[cfg(test)]
    pub(super) fn count_strangers(&self) -> usize {
        self.strangers().waiting.len()
    }

    /// Reads a greeting and answers it: the replica that greets, if it has the key and its frames are taken. Whoever
    /// hasn't the key learns nothing about this replica.
    fn greet(&self, stream: &TcpStream) -> io::Result<Option<(u8, E::Who, Channel<E::Mac>)>> {
        stream.set_nodelay(true)?;
        stream.set_write_timeout(Some(WRITE_PATIENCE))?;
        let mut timed = Timed::new(stream, GREETING_PATIENCE);
        let hello = sealed::heard(&mut timed)?;
        let Some(from) = greeter(self.ends.place(), hello.ends(&E::MAGIC)) else {
            self.complain(stream, "is not from a replica that has this one as its peer", "")?;
            return Ok(None);
        };
        let mut channel = sealed::answer(&mut timed, self.ends.key(), &hello)?;
        let greeting = channel.receiving.read(&mut timed, LONGEST_GREETING);
        if matches!(&greeting, Err(error) if error.kind() == io::ErrorKind::InvalidData) {
            self.complain(stream, "has another key than this one", E::OF_KEYS)?;
        }
        let (GREETING, greeting) = greeting? else { return Ok(None) };
        let Some((answer, who)) = self.ends.answer(from, &greeting)? else { return Ok(None) };
        channel.sending.write(&mut timed, GREETING, &answer)?;
        Ok(who.map(|who| (from, who, channel)))
    }

    /// Logs a stranger; of others like it after a while again.
    fn complain(&self, stream: &TcpStream, what: &'static str, more: &str) -> io::Result<()> {
        let mut reported = self.reported.lock().unwrap_or_else(PoisonError::into_inner);
        let is_due = reported.get(what).is_none_or(|at| at.elapsed() >= SILENT);
        if is_due {
            reported.insert(what, Instant::now());
            let (from, silent) = (stream.peer_addr()?, SILENT.as_secs());
            let again = format!("(further ones aren't logged for {silent} s)");
            self.ends.log(false, &format!("a connection from {from} to the peers' port {what}{more} {again}"));
        }
        Ok(())
    }

    /// Takes a replica's frames until its connection is over.
    fn receive(&self, whose: (u8, E::Who), stream: &TcpStream, channel: Channel<E::Mac>) -> io::Result<()> {
        let Channel { sending, receiving } = channel;
        stream.set_read_timeout(None)?;
        self.replace(whose.0, stream.try_clone()?);
        // It is there, so that the connection to it needn't wait for its next try.
        if self.is_ended.load(Ordering::Acquire) || !self.ends.happen(Happened::Called(whose.0)) {
            return Ok(());
        }
        let beating = stream.try_clone()?;
        thread::Builder::new().name("beats".into()).stack_size(64 << 10).spawn(move || beat(beating, sending))?;
        self.take_frames(whose, stream, receiving)
    }

    fn take_frames(
        &self,
        (from, who): (u8, E::Who),
        stream: &TcpStream,
        mut receiving: Direction<E::Mac>,
    ) -> io::Result<()> {
        let mut reader = BufReader::with_capacity(1 << 16, stream);
        loop {
            let (kind, bytes) = receiving.read(&mut reader, LONGEST_FRAME)?;
            // (another machine may be the peer since)
            if kind != FRAME || bytes.len() < SHORTEST_FRAME || !self.ends.takes(from, who) {
                return Err(io::ErrorKind::InvalidData.into());
            }
            if !self.ends.happen(Happened::Came(from, bytes)) {
                return Ok(());
            }
        }
    }

    /// Keeps a replica's connection, and closes the one before.
    fn replace(&self, from: u8, stream: TcpStream) {
        if let Ok(mut current) = self.current[usize::from(from)].lock()
            && let Some(before) = current.replace(stream)
        {
            let _ = before.shutdown(Shutdown::Both);
        }
    }
}

/// Says to the other end that this one is there, until the connection is over.
fn beat<M: Mac>(mut stream: TcpStream, mut sending: Direction<M>) {
    let mut message = Vec::new();
    while sending.write(&mut message, BEAT, &[]).is_ok() && stream.write_all(&message).is_ok() {
        message.clear();
        thread::sleep(BEATS);
    }
}

/// Who greets, where the hello is of another replica of such a cluster and for this one.
fn greeter(place: Place, ends: Option<[u8; 3]>) -> Option<u8> {
    let [replicas, from, to] = ends?;
    // (their number may have changed, and one of both not know it yet)
    let is_ours = [3, 5, 7].contains(&replicas) && from < replicas && from != place.replica && to == place.replica;
    is_ours.then_some(from)
}

#[cfg(test)]
mod tests {
    use super::*;

    #[test]
    fn greeters() {
        let place = Place { replicas: 3, replica: 1 };
        assert_eq!(greeter(place, Some([3, 2, 1])), Some(2));
        assert_eq!(greeter(place, Some([5, 4, 1])), Some(4));
        for ends in [[4, 2, 1], [3, 2, 0], [3, 1, 1], [3, 3, 1], [7, 7, 1]] {
            assert_eq!(greeter(place, Some(ends)), None);
        }
        assert_eq!(greeter(place, None), None);
    }
}
