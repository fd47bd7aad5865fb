//! Where connections wait that find all places taken: one that says something gets a place of those for who asks how the store is. So a flood of
//! connections that say nothing takes none of these.
use crate::client::connections::{Connection, Connections};
use std::io::ErrorKind;
use std::net::TcpStream;
use std::sync::Arc;
use std::time::{Duration, Instant};

/// Who says nothing for so long is turned away.
const PATIENCE: Duration = Duration::from_secs(5);
/// So many wait at most: one more has the oldest turned away.
const MOST: usize = 64;
/// Between two looks at those that wait.
const PAUSE: Duration = Duration::from_millis(5);

/// A connection with its number.
pub type Waiting = (u64, Arc<TcpStream>);

/// Those that wait, the oldest first.
#[derive(Default)]
pub struct Door {
    waiting: Vec<(Instant, Waiting)>,
    /// When they are looked at next.
    next: Option<Instant>,
}

/// What becomes of one that waits.
enum Fate {
    Stays,
    TurnedAway,
    Gone,
    Let(Connection),
}

/// What came of a look.
#[derive(Default)]
pub struct Looked {
    /// Those that have a place now.
    pub let_in: Vec<(Waiting, Connection)>,
    pub turned_away: Vec<Arc<TcpStream>>,
}

impl Door {
    /// One more waits, and is looked at soon: who is turned away for it.
    pub fn add(&mut self, one: Waiting) -> Option<Arc<TcpStream>> {
        let oldest = (self.waiting.len() >= MOST).then(|| self.waiting.remove(0).1.1);
        self.waiting.push((Instant::now(), one));
        self.next = Some(Instant::now());
        oldest
    }

    /// When it is to be looked at those that wait, if there are any.
    pub fn due(&self) -> Option<Instant> {
        self.next
    }

    /// Looks at all that wait.
    pub fn look(&mut self, connections: &Arc<Connections>) -> Looked {
        let mut looked = Looked::default();
        for (since, one) in std::mem::take(&mut self.waiting) {
            match fate(since, &one, connections) {
                Fate::Stays => self.waiting.push((since, one)),
                Fate::TurnedAway => looked.turned_away.push(one.1),
                Fate::Gone => {}
                Fate::Let(place) => looked.let_in.push((one, place)),
            }
        }
        self.next = (!self.waiting.is_empty()).then(|| Instant::now() + PAUSE);
        looked
    }
}

fn fate(since: Instant, (id, stream): &Waiting, connections: &Arc<Connections>) -> Fate {
    let has_time = since.elapsed() < PATIENCE;
    match stream.peek(&mut [0]) {
        Ok(1..) => match connections.take_kept(*id, stream) {
            Some(place) => Fate::Let(place),
            None if has_time => Fate::Stays,
            None => Fate::TurnedAway,
        },
        Err(error) if error.kind() == ErrorKind::WouldBlock && has_time => Fate::Stays,
        Err(error) if error.kind() == ErrorKind::WouldBlock => Fate::TurnedAway,
        Ok(_) | Err(_) => Fate::Gone,
    }
}
