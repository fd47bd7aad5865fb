//! The connections of clients. Where there are as many as may be, the one that was silent for longest is closed, if it was for a minute; else there are a few
//! more, for who asks how the store is.
use std::collections::HashMap;
use std::net::{Shutdown, TcpStream};
use std::sync::atomic::{AtomicU64, Ordering};
use std::sync::{Arc, Mutex, MutexGuard, PoisonError};
use std::time::{Duration, Instant};

/// So many connections. With what peers and files take that is below 1,024, which is how many handles a process mostly may have.
const MOST: usize = 900;
/// And so many for who asks how the store is.
const KEPT: usize = 16;
/// Who was silent for so long makes room for another one.
const SILENCE: Duration = Duration::from_secs(60);
/// And so does who asks how the store is.
const KEPT_SILENCE: Duration = Duration::from_secs(1);

/// All connections.
pub struct Connections {
    most: usize,
    silence: Duration,
    start: Instant,
    taken: Mutex<HashMap<u64, Arc<Taken>>>,
}

/// What is known of one.
struct Taken {
    stream: Arc<TcpStream>,
    /// When it was heard last, in milliseconds since the start.
    heard: AtomicU64,
    is_kept: bool,
}

/// A connection, which makes room for another one once it is dropped.
pub struct Connection {
    all: Arc<Connections>,
    id: u64,
    taken: Arc<Taken>,
}

impl Default for Connections {
    fn default() -> Connections {
        Connections::new(MOST, SILENCE)
    }
}

impl Connections {
    pub fn new(most: usize, silence: Duration) -> Connections {
        Connections { most, silence, start: Instant::now(), taken: Mutex::default() }
    }

    /// Takes a connection under this number; None where there is no room.
    pub fn take(self: &Arc<Connections>, id: u64, stream: &Arc<TcpStream>) -> Option<Connection> {
        let mut all = self.all();
        if count(&all, false) >= self.most {
            self.make_room(&mut all, self.silence, |_| true);
        }
        (count(&all, false) < self.most).then(|| self.insert(all, id, stream, false))
    }

    /// Takes one for who asks how the store is, where no other place is free; None where these are taken too.
    pub fn take_kept(self: &Arc<Connections>, id: u64, stream: &Arc<TcpStream>) -> Option<Connection> {
        let mut all = self.all();
        if count(&all, false) < self.most {
            return Some(self.insert(all, id, stream, false));
        }
        if count(&all, true) >= KEPT {
            self.make_room(&mut all, KEPT_SILENCE, |taken| taken.is_kept);
        }
        (count(&all, true) < KEPT).then(|| self.insert(all, id, stream, true))
    }

    fn insert(
        self: &Arc<Connections>,
        mut all: MutexGuard<'_, HashMap<u64, Arc<Taken>>>,
        id: u64,
        stream: &Arc<TcpStream>,
        is_kept: bool,
    ) -> Connection {
        let taken = Arc::new(Taken { stream: stream.clone(), heard: AtomicU64::new(self.now()), is_kept });
        all.insert(id, taken.clone());
        Connection { all: self.clone(), id, taken }
    }

    /// Closes which of these was silent for longest, if it was for so long.
    fn make_room(&self, all: &mut HashMap<u64, Arc<Taken>>, silence: Duration, which: impl Fn(&Taken) -> bool) {
        let heard = |(id, taken): (&u64, &Arc<Taken>)| (taken.heard.load(Ordering::Relaxed), *id);
        let silent = all.iter().filter(|(_, taken)| which(taken)).map(heard).min();
        let silent = silent.filter(|(heard, _)| self.now().saturating_sub(*heard) >= silence.as_millis() as u64);
        if let Some(taken) = silent.and_then(|(_, id)| all.remove(&id)) {
            let _ = taken.stream.shutdown(Shutdown::Both);
        }
    }

    pub fn count(&self) -> usize {
        self.all().len()
    }

    fn now(&self) -> u64 {
        self.start.elapsed().as_millis() as u64
    }

    fn all(&self) -> MutexGuard<'_, HashMap<u64, Arc<Taken>>> {
        self.taken.lock().unwrap_or_else(PoisonError::into_inner)
    }
}

/// How many there are that are kept for who asks how the store is, or of the others.
fn count(all: &HashMap<u64, Arc<Taken>>, is_kept: bool) -> usize {
    all.values().filter(|taken| taken.is_kept == is_kept).count()
}

impl Connection {
    /// Whether it is one for who asks how the store is.
    pub fn is_kept(&self) -> bool {
        self.taken.is_kept
    }

    /// Something has come from its client.
    pub fn hear(&self) {
        self.taken.heard.store(self.all.now(), Ordering::Relaxed);
    }
}

impl Drop for Connection {
    fn drop(&mut self) {
        self.all.all().remove(&self.id);
    }
}

#[cfg(test)]
mod tests {
    use super::*;
    use std::io::Read;
    use std::net::TcpListener;
    use std::thread;

    /// A new connection: both ends.
    fn connect(listener: &TcpListener) -> (TcpStream, Arc<TcpStream>) {
        let client = TcpStream::connect(listener.local_addr().unwrap()).unwrap();
        (client, Arc::new(listener.accept().unwrap().0))
    }

    #[test]
    fn who_is_silent_makes_room() {
        let listener = TcpListener::bind("127.0.0.1:0").unwrap();
        let silence = Duration::from_millis(100);
        let connections = Arc::new(Connections::new(2, silence));
        let mut ends: Vec<_> = (0..3).map(|_| connect(&listener)).collect();
        let [first, second] = [0, 1].map(|place| connections.take(place as u64, &ends[place].1).unwrap());
        thread::sleep(2 * silence);
        second.hear();
        let third = connections.take(2, &ends[2].1).unwrap();
        assert!(!first.is_kept() && !second.is_kept() && !third.is_kept());
        assert_eq!(connections.count(), 2);
        assert_eq!(ends[0].0.read(&mut [0]).unwrap(), 0);
        // Its place is another one's by now.
        drop(first);
        assert_eq!(connections.count(), 2);
        drop((second, third));
        assert_eq!(connections.count(), 0);
    }

    #[test]
    fn who_asks_how_it_is_finds_a_place() {
        let listener = TcpListener::bind("127.0.0.1:0").unwrap();
        let connections = Arc::new(Connections::new(2, Duration::from_secs(3_600)));
        let mut ends: Vec<_> = (0..2 + KEPT).map(|_| connect(&listener)).collect();
        let take = |(id, end): (usize, &(TcpStream, Arc<TcpStream>))| {
            let id = id as u64;
            connections.take(id, &end.1).or_else(|| connections.take_kept(id, &end.1)).unwrap()
        };
        let all: Vec<_> = ends.iter().enumerate().map(take).collect();
        assert!(all.iter().enumerate().all(|(place, it)| it.is_kept() == (place >= 2)));
        let more = connect(&listener);
        // (what is heard after that was heard just now, also where the machine is slow)
        let later = connections.now() + 60_000;
        all.iter().for_each(|it| it.taken.heard.store(later, Ordering::Relaxed));
        assert!(connections.take(100, &more.1).is_none() && connections.take_kept(100, &more.1).is_none());
        all.iter().for_each(Connection::hear);
        // The one that was silent for longest makes room, but for those that came first.
        thread::sleep(KEPT_SILENCE);
        all[3..].iter().for_each(Connection::hear);
        assert!(connections.take(101, &more.1).is_none());
        assert!(connections.take_kept(101, &more.1).unwrap().is_kept());
        assert_eq!(ends[2].0.read(&mut [0]).unwrap(), 0);
        assert_eq!(connections.count(), 1 + KEPT);
    }
}
