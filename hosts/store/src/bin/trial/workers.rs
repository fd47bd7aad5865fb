//! The clients of a round, and the notes that they take.
use crate::cluster::Cluster;
use crate::pipelines::{self, PairNote};
use std::sync::atomic::{AtomicBool, AtomicU32, AtomicU64, Ordering};
use std::thread;
use std::time::{Duration, Instant};
use store::linearizable::{Action, Operation};
use store::random::Random;
use testing::client::{Client, Refusal, Reply};

/// Longer than a store's patience.
const PATIENCE: Duration = Duration::from_secs(15);
/// In the end a replica that answers nothing for so long is at fault: then nothing is cut, but the machine may be busy.
const AT_THE_END: Duration = Duration::from_secs(180);
/// A connection is used for at most so many commands.
const MOST_COMMANDS: u32 = 200;
const HOT_KEYS: u64 = 3;
const COLD_KEYS: u64 = 40;
/// The mean pause of a client between two commands.
const PAUSE: Duration = Duration::from_millis(45);
/// In a life keys are used for so many commands, and then others, so that each has as many commands as can be judged: one that a fifth of
/// all commands are of, and these.
const AGE: u64 = 8_000;
const LIFE_KEYS: u64 = 100;

/// What a client asked of a key and was answered.
#[derive(Clone, Debug)]
pub struct Note {
    pub key: u64,
    pub replica: usize,
    pub operation: Operation,
}

/// What clients noted, and replies that no store may give.
#[derive(Default)]
pub struct Notes {
    pub all: Vec<Note>,
    pub pairs: Vec<PairNote>,
    pub faults: Vec<String>,
}

impl Notes {
    pub fn extend(&mut self, more: Notes) {
        self.all.extend(more.all);
        self.pairs.extend(more.pairs);
        self.faults.extend(more.faults);
    }
}

/// What the clients of a round have in common.
pub struct Work<'a> {
    pub cluster: &'a Cluster,
    pub start: Instant,
    pub is_over: AtomicBool,
    /// The last value that was made, and the last pipeline.
    pub values: AtomicU32,
    pub pipelines: AtomicU32,
    /// How many commands were answered.
    pub answered: AtomicU64,
    /// Whether clients don't pause, and go on to other keys.
    pub is_life: bool,
}

fn key_bytes(key: u64) -> Vec<u8> {
    let mut bytes = format!("key\r\n{key}\0").into_bytes();
    if key % 10 == 9 {
        bytes.resize(255, b'k');
    }
    bytes
}

pub fn value_bytes(value: u32) -> Vec<u8> {
    let mut bytes = value.to_be_bytes().to_vec();
    if value.is_multiple_of(8) {
        bytes.resize(1_024, value as u8);
    }
    bytes
}

pub fn value_of(bytes: &[u8]) -> Option<u32> {
    let value = u32::from_be_bytes(*bytes.first_chunk()?);
    (value_bytes(value) == bytes).then_some(value)
}

/// What came of a question.
pub enum Outcome<A = Action> {
    Answer(A),
    /// It surely wasn't done.
    Refused,
    /// It may be done.
    Nothing,
}

impl<A> Outcome<A> {
    /// The same, of another action.
    pub fn map<B>(self, of: impl FnOnce(A) -> B) -> Outcome<B> {
        match self {
            Outcome::Answer(action) => Outcome::Answer(of(action)),
            Outcome::Refused => Outcome::Refused,
            Outcome::Nothing => Outcome::Nothing,
        }
    }

    fn without_answer(self) -> Outcome<()> {
        self.map(|_| ())
    }
}

/// What is read in the end.
#[derive(Clone, Copy)]
enum Last {
    Key(u64),
    Pair(u64),
}

impl Work<'_> {
    pub fn now(&self) -> u64 {
        self.start.elapsed().as_nanos() as u64
    }

    /// Waits until so many commands were answered, for so long at most; whether they were.
    pub fn await_commands(&self, count: u64, patience: Duration) -> bool {
        let start = Instant::now();
        while self.answered.load(Ordering::Relaxed) < count && start.elapsed() < patience {
            thread::sleep(Duration::from_millis(100));
        }
        self.answered.load(Ordering::Relaxed) >= count
    }

    /// A client's work until the round is over: what it noted.
    pub fn run(&self, home: usize, seed: u64) -> Notes {
        let mut random = Random::from_seed(seed);
        let mut notes = Notes::default();
        let mut replica = home;
        let mut connection = None;
        let mut count = 0;
        while !self.is_over.load(Ordering::Relaxed) {
            if !self.is_life {
                thread::sleep(random.from_once_to_twice(PAUSE * 2 / 3));
            }
            let Some(client) = self.connection(&mut connection, replica) else {
                replica = random.below(self.cluster.replicas as u64) as usize;
                thread::sleep(Duration::from_millis(5));
                continue;
            };
            let outcome = if !self.is_life && random.below(8) == 0 {
                pipelines::run(self, client, &mut random, &mut notes)
            } else {
                let key = self.choose_key(&mut random);
                let action = self.choose_action(&mut random, key);
                self.note(client, replica, key, action, &mut notes).without_answer()
            };
            count += 1;
            match outcome {
                Outcome::Answer(()) => {}
                Outcome::Refused => replica = random.below(self.cluster.replicas as u64) as usize,
                // Home, or wherever else somebody listens.
                Outcome::Nothing if random.below(2) == 0 => replica = home,
                Outcome::Nothing => replica = random.below(self.cluster.replicas as u64) as usize,
            }
            if !matches!(outcome, Outcome::Answer(())) || count % MOST_COMMANDS == 0 {
                connection = None;
            }
        }
        notes
    }

    fn connection<'c>(&self, connection: &'c mut Option<Client>, replica: usize) -> Option<&'c mut Client> {
        if connection.is_none() {
            *connection = Client::connect(self.cluster.client_ports[replica], PATIENCE).ok();
        }
        connection.as_mut()
    }

    fn choose_key(&self, random: &mut Random) -> u64 {
        if self.is_life {
            let age = self.answered.load(Ordering::Relaxed) / AGE;
            let place = if random.below(5) == 0 { 0 } else { 1 + random.below(LIFE_KEYS) };
            return age * (LIFE_KEYS + 1) + place;
        }
        if random.below(10) < 7 { random.below(HOT_KEYS) } else { HOT_KEYS + random.below(COLD_KEYS) }
    }

    /// All keys that may have been used. Some are long, and none is text alone.
    fn keys(&self) -> impl Iterator<Item = u64> + use<> {
        let ages = self.answered.load(Ordering::Relaxed) / AGE + 1;
        0..if self.is_life { ages * (LIFE_KEYS + 1) } else { HOT_KEYS + COLD_KEYS }
    }

    fn choose_action(&self, random: &mut Random, key: u64) -> Action {
        let value = || self.values.fetch_add(1, Ordering::Relaxed) + 1;
        if self.is_life {
            // (of others what was reported to nobody can't be left out, and there is too much of it)
            return match random.below(10) {
                0..5 => Action::Get(None),
                5 if !key.is_multiple_of(LIFE_KEYS + 1) => Action::Exchange(value(), None),
                _ => Action::Set(value()),
            };
        }
        match random.below(20) {
            0..10 => Action::Get(None),
            10..15 => Action::Set(value()),
            15..17 => Action::Exchange(value(), None),
            17 | 18 => Action::New(value(), None),
            _ => Action::Del(None),
        }
    }

    /// Asks, and notes what was answered and when; but not what surely wasn't done.
    fn note(&self, client: &mut Client, replica: usize, key: u64, action: Action, notes: &mut Notes) -> Outcome {
        let start = self.now();
        let outcome = ask(client, key, action).unwrap_or_else(|fault| {
            notes.faults.push(fault);
            Outcome::Nothing
        });
        let (action, end) = match outcome {
            Outcome::Answer(action) => {
                self.answered.fetch_add(1, Ordering::Relaxed);
                (action, Some(self.now()))
            }
            Outcome::Nothing => (action, None),
            Outcome::Refused => return outcome,
        };
        notes.all.push(Note { key, replica, operation: Operation { action, start, end, pipeline: None } });
        outcome
    }

    /// Reads all keys at a replica, in the end, with patience.
    pub fn read_all(&self, replica: usize) -> Notes {
        let mut notes = Notes::default();
        let mut answered_at = Instant::now();
        let mut connection = None;
        let pairs = if self.is_life { 0 } else { pipelines::PAIRS };
        let mut left: Vec<Last> = self.keys().map(Last::Key).chain((0..pairs).map(Last::Pair)).collect();
        while let Some(last) = left.pop() {
            if answered_at.elapsed() > AT_THE_END {
                notes.faults.push(format!("replica {replica} doesn't answer in the end"));
                return notes;
            }
            let outcome = match (self.connection(&mut connection, replica), last) {
                (Some(client), Last::Key(key)) => {
                    self.note(client, replica, key, Action::Get(None), &mut notes).without_answer()
                }
                (Some(client), Last::Pair(pair)) => pipelines::look(self, client, pair, &mut notes),
                (None, _) => Outcome::Nothing,
            };
            match outcome {
                Outcome::Answer(()) => answered_at = Instant::now(),
                Outcome::Refused | Outcome::Nothing => {
                    connection = None;
                    left.push(last);
                    thread::sleep(Duration::from_millis(100));
                }
            }
        }
        notes
    }
}

/// An error is a reply that no store may give.
fn ask(client: &mut Client, key: u64, action: Action) -> Result<Outcome, String> {
    let words = words(&key_bytes(key), action);
    match client.ask(&words.iter().map(Vec::as_slice).collect::<Vec<_>>()) {
        Ok(reply) => outcome_of(action, reply),
        Err(_) => Ok(Outcome::Nothing),
    }
}

/// The words of the command.
pub fn words(key: &[u8], action: Action) -> Vec<Vec<u8>> {
    let word = <[u8]>::to_vec;
    match action {
        Action::Get(_) => vec![word(b"GET"), word(key)],
        Action::Set(value) => vec![word(b"SET"), word(key), value_bytes(value)],
        Action::Del(_) => vec![word(b"DEL"), word(key)],
        Action::Exchange(value, _) => vec![word(b"SET"), word(key), value_bytes(value), word(b"GET")],
        Action::New(value, _) => {
            vec![word(b"SET"), word(key), value_bytes(value), word(b"NX"), word(b"PX"), word(b"3600000")]
        }
    }
}

/// The value in a reply; none where the key has none.
pub fn value_in(bytes: Option<Vec<u8>>) -> Result<Option<u32>, String> {
    match bytes {
        None => Ok(None),
        Some(bytes) => value_of(&bytes).map(Some).ok_or("a value was told that nobody has set".into()),
    }
}

/// What an error in the place of a reply says of the command. One that no store may give is a fault.
pub fn refused<A>(text: &str) -> Result<Outcome<A>, String> {
    match Refusal::of(text) {
        Some(Refusal::Undone) => Ok(Outcome::Refused),
        Some(Refusal::Doubtful) => Ok(Outcome::Nothing),
        None => Err(format!("an error that doesn't fit: {text}")),
    }
}

/// What was answered.
pub fn outcome_of(action: Action, reply: Reply) -> Result<Outcome, String> {
    match (action, reply) {
        (Action::Get(_), Reply::Bulk(bytes)) => Ok(Outcome::Answer(Action::Get(value_in(bytes)?))),
        (Action::Exchange(value, _), Reply::Bulk(bytes)) => {
            Ok(Outcome::Answer(Action::Exchange(value, Some(value_in(bytes)?))))
        }
        (Action::New(value, _), Reply::Simple(_)) => Ok(Outcome::Answer(Action::New(value, Some(true)))),
        (Action::New(value, _), Reply::Bulk(None)) => Ok(Outcome::Answer(Action::New(value, Some(false)))),
        (Action::Set(_), Reply::Simple(text)) if text == "OK" => Ok(Outcome::Answer(action)),
        (Action::Del(_), Reply::Integer(count @ 0..2)) => Ok(Outcome::Answer(Action::Del(Some(count == 1)))),
        (_, Reply::Error(text)) => refused(&text),
        (_, reply) => Err(format!("an answer that doesn't fit: {reply:?}")),
    }
}
