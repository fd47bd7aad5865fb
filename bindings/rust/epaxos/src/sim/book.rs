//! What is known of the state machines of a run that are somebody's own.
use super::failure::Failure;
use super::plan::mixed;
use super::workload::Workload;
use crate::host::{Machine, Ordered};
use crate::parts::random::Random;
use crate::{Instance, OwnedCommand};
use std::collections::BTreeMap;
use std::hash::{DefaultHasher, Hash, Hasher};
use std::io;
use std::sync::{Arc, Mutex, MutexGuard, PoisonError};

/// The states after one of so many commands are compared, beside those with which generations begin.
const COMPARED: u64 = 4;

/// What a machine has done: a generation, and a digest of the instances that it has done there.
#[derive(Clone, Copy, Default, PartialEq, Eq, PartialOrd, Ord, Debug)]
struct Place {
    generation: u32,
    instances: u64,
}

impl Place {
    fn add(&mut self, ordered: &Ordered) {
        let Instance { replica, number } = ordered.instance;
        if self.generation != ordered.generation {
            *self = Place { generation: ordered.generation, instances: 0 };
        }
        // (the order of those that have no key in common is nobody's)
        self.instances ^= mixed(u64::from(replica) << 32 | u64::from(number));
    }

    /// Whether states are compared here: at all replicas at the same places.
    fn is_compared(self) -> bool {
        self.instances % COMPARED == 0
    }
}

/// A command, as it is compared.
type Said = (bool, Vec<u8>, Option<Vec<u8>>, Vec<u8>);

/// How often a command was asked and not refused, and its executions: when, and the reply, until somebody gets it.
#[derive(Default)]
struct Asks {
    open: u64,
    count: u64,
    replies: Vec<(u64, Vec<u8>)>,
}

struct Book {
    workload: Box<dyn Workload>,
    /// The machine that never fails.
    never_fails: Box<dyn Machine>,
    place: Place,
    now: u64,
    /// What was replied in each instance, and a digest of the state at each place.
    replies: BTreeMap<(u32, Instance), Vec<u8>>,
    states: BTreeMap<Place, u64>,
    asks: BTreeMap<Said, Asks>,
    /// What was asked by which token, and not answered yet.
    tokens: BTreeMap<u64, Said>,
    failure: Option<Failure>,
}

impl Book {
    fn fail(&mut self, failure: Failure) {
        self.failure.get_or_insert(failure);
    }

    fn apply(&mut self, machine: u8, ordered: &Ordered, reply: &[u8]) {
        let Ordered { generation, instance, .. } = *ordered;
        let expected = match self.replies.get(&(generation, instance)) {
            Some(expected) => expected.clone(),
            None => self.apply_first(ordered),
        };
        if expected != reply {
            let [reply, expected] = [reply, &expected].map(|it| it.escape_ascii());
            self.fail(Failure::Machine(format!(
                "at {instance} of generation {generation} that of machine {machine} replies \"{reply}\", and one that \
                 never fails \"{expected}\""
            )));
        }
    }

    /// Nobody has executed it before: what the machine that never fails replies.
    fn apply_first(&mut self, ordered: &Ordered) -> Vec<u8> {
        let Ordered { generation, instance, is_reading, first, second, body } = *ordered;
        let is_looked_at = is_reading && self.place.is_compared();
        let before = is_looked_at.then(|| self.never_fails.snapshot());
        let reply = self.never_fails.apply(ordered);
        if before.is_some_and(|before| before != self.never_fails.snapshot()) {
            self.fail(Failure::Machine(format!("at {instance} of generation {generation} it writes where it reads")));
        }
        self.place.add(ordered);
        self.replies.insert((generation, instance), reply.clone());
        let said = (is_reading, first.to_vec(), second.map(<[u8]>::to_vec), body.to_vec());
        let asks = self.asks.entry(said).or_default();
        asks.count += 1;
        asks.replies.push((self.now, reply.clone()));
        if asks.count > asks.open {
            self.fail(Failure::DoneTwice(format!("\"{}\" at {instance} of {generation}", body.escape_ascii())));
        }
        if let Err(why) = self.workload.check(ordered, &reply) {
            self.fail(Failure::Reply(format!("at {instance} of generation {generation}: {why}")));
        }
        reply
    }

    /// A machine has this state once it has done this.
    fn compare(&mut self, machine: u8, place: Place, snapshot: &[u8]) {
        let digest = |snapshot: &[u8]| {
            let mut hasher = DefaultHasher::new();
            snapshot.hash(&mut hasher);
            hasher.finish()
        };
        let own = digest(snapshot);
        let other = (place == self.place).then(|| digest(&self.never_fails.snapshot()));
        let other = *self.states.entry(place).or_insert(other.unwrap_or(own));
        if other != own {
            let generation = place.generation;
            self.fail(Failure::Machine(format!(
                "in generation {generation} that of machine {machine} has another state than others after the same \
                 commands"
            )));
        }
    }

    fn take_reply(&mut self, token: u64, (since, reply): (u64, &[u8])) -> Result<(), Failure> {
        let asks = self.tokens.remove(&token).and_then(|said| self.asks.get_mut(&said));
        let is_it = |(at, given): &(u64, Vec<u8>)| *at >= since && given == reply;
        let place = asks.as_ref().and_then(|asks| asks.replies.iter().position(is_it));
        match (asks, place) {
            (Some(asks), Some(place)) => {
                asks.replies.remove(place);
                Ok(())
            }
            _ => Err(Failure::NotLinearizable(format!("the state machine, of whom {token}"))),
        }
    }
}

/// The book of a run, which all its machines write.
#[derive(Clone)]
pub(super) struct Own(Arc<Mutex<Book>>);

impl Own {
    pub(super) fn new(workload: Box<dyn Workload>) -> Own {
        let never_fails = workload.machine();
        Own(Arc::new(Mutex::new(Book {
            workload,
            never_fails,
            place: Place::default(),
            now: 0,
            replies: BTreeMap::new(),
            states: BTreeMap::new(),
            asks: BTreeMap::new(),
            tokens: BTreeMap::new(),
            failure: None,
        })))
    }

    fn book(&self) -> MutexGuard<'_, Book> {
        self.0.lock().unwrap_or_else(PoisonError::into_inner)
    }

    /// The machine of a replica, at a start.
    pub(super) fn machine(&self, machine: u8) -> Box<dyn Machine> {
        Box::new(Watched { own: self.book().workload.machine(), machine, place: None, book: self.clone() })
    }

    /// What a client asks, under this token.
    pub(super) fn ask(&self, token: u64, random: &mut Random) -> OwnedCommand {
        let mut book = self.book();
        let command = book.workload.command(&mut |bound| random.below(bound.max(1)));
        if let OwnedCommand::Opaque { is_reading, first, second, body } = &command {
            let said = (*is_reading, first.clone(), second.clone(), body.clone());
            book.asks.entry(said.clone()).or_default().open += 1;
            book.tokens.insert(token, said);
        }
        command
    }

    /// Who has asked under this token gets this reply, or that it won't be done.
    pub(super) fn note_reply(&self, token: u64, reply: Option<(u64, &[u8])>) -> Result<(), Failure> {
        let mut book = self.book();
        if let Some(reply) = reply {
            return book.take_reply(token, reply);
        }
        let Some(said) = book.tokens.remove(&token) else { return Ok(()) };
        let asks = book.asks.entry(said).or_default();
        asks.open -= 1;
        if asks.count > asks.open {
            return Err(Failure::DoneTwice(format!("what {token} asked, though it was refused")));
        }
        Ok(())
    }

    pub(super) fn set_now(&self, now: u64) {
        self.book().now = now;
    }

    pub(super) fn take_failure(&self) -> Result<(), Failure> {
        self.book().failure.take().map_or(Ok(()), Err)
    }

    /// No machine begins with an earlier generation than this one any more.
    pub(super) fn forget(&self, least: u32) {
        let mut book = self.book();
        book.replies = book.replies.split_off(&(least, Instance { replica: 0, number: 0 }));
        book.states = book.states.split_off(&Place { generation: least, instances: 0 });
    }
}

/// A replica's machine, which writes in the book what it does.
struct Watched {
    own: Box<dyn Machine>,
    machine: u8,
    /// None until it has done something since it was restored.
    place: Option<Place>,
    book: Own,
}

impl Watched {
    fn compare(&self, snapshot: &[u8]) {
        self.place.into_iter().for_each(|place| self.book.book().compare(self.machine, place, snapshot));
    }
}

impl Machine for Watched {
    fn apply(&mut self, ordered: &Ordered) -> Vec<u8> {
        let reply = self.own.apply(ordered);
        self.book.book().apply(self.machine, ordered, &reply);
        let place = self.place.get_or_insert_default();
        place.add(ordered);
        if place.is_compared() {
            self.compare(&self.own.snapshot());
        }
        reply
    }

    fn snapshot(&self) -> Vec<u8> {
        let snapshot = self.own.snapshot();
        self.compare(&snapshot);
        snapshot
    }

    fn restore(&mut self, snapshot: &[u8]) -> io::Result<()> {
        self.own.restore(snapshot)?;
        self.place = None;
        if self.own.snapshot() != snapshot {
            let machine = self.machine;
            let text = format!("that of machine {machine}, restored, has another snapshot than the one it was given");
            self.book.book().fail(Failure::Machine(text));
        }
        Ok(())
    }
}
