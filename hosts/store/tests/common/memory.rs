//! A store's clients' side over a map in memory, in the place of a driver and its node.
use std::net::TcpListener;
use std::path::PathBuf;
use std::sync::Arc;
use std::sync::atomic::{AtomicU64, Ordering};
use std::sync::mpsc::{Receiver, sync_channel};
use std::thread;
use std::time::{Duration, Instant};
use store::client::clients::{Shared, listen};
use store::client::memory::Memory as Bytes;
use store::core::ask::{Ask, What};
use store::core::asks::Asks;
use store::core::event::Event;
use store::core::keys::Keys;
use store::core::listing::Listing;
use store::core::outcome::Outcome;
use store::core::stored::deadline_in;
use store::map::{Map, execute};
use store::ops::metrics::Metrics;
use store::random::Random;
use testing::client::Client;

const PATIENCE: Duration = Duration::from_secs(300);

/// A server that takes clients. Its threads end with the process; its folder is removed when it is let go.
pub struct Memory {
    pub port: u16,
    pub folder: PathBuf,
    turns: Arc<AtomicU64>,
}

impl Memory {
    /// Starts one that takes so long for what has come.
    pub fn start(name: &str, takes: Duration) -> Memory {
        Memory::start_with(name, takes, |_| ())
    }

    /// Likewise, with other settings.
    pub fn start_with(name: &str, takes: Duration, change: impl FnOnce(&mut Shared)) -> Memory {
        Memory::begin(name, (takes, usize::MAX), change)
    }

    /// One that takes so long for what has come, and so many commands of that at most.
    pub fn begin(name: &str, turn: (Duration, usize), change: impl FnOnce(&mut Shared)) -> Memory {
        let folder = std::env::temp_dir().join(format!("store-memory-{name}-{}", std::process::id()));
        std::fs::create_dir_all(&folder).unwrap();
        let listener = TcpListener::bind("127.0.0.1:0").unwrap();
        let port = listener.local_addr().unwrap().port();
        let (events, asked) = sync_channel(4_096);
        let metrics = Arc::<Metrics>::default();
        let asks = Asks::new(events.clone(), PATIENCE);
        let keys = Keys::start(asks.clone(), metrics.clone()).unwrap();
        let listing = Arc::new(Listing::new(events, PATIENCE));
        metrics.takes_part.set(1);
        let mut shared = Shared {
            keys,
            listing,
            patience: PATIENCE,
            password: None,
            operators: "the socket".into(),
            memory: Bytes::new(64 << 20),
            metrics,
            connections: Arc::default(),
            due: Arc::default(),
            served: AtomicU64::new(0),
            started: Instant::now(),
        };
        change(&mut shared);
        let turns = Arc::<AtomicU64>::default();
        let counted = turns.clone();
        thread::spawn(move || drive(&asked, &asks, turn, &counted));
        thread::spawn(move || listen(listener, Arc::new(shared)));
        Memory { port, folder, turns }
    }

    /// How many times it has taken what had come.
    pub fn turns(&self) -> u64 {
        self.turns.load(Ordering::Relaxed)
    }

    pub fn client(&self) -> Client {
        Client::connect(self.port, PATIENCE).unwrap()
    }
}

impl Drop for Memory {
    fn drop(&mut self) {
        let _ = std::fs::remove_dir_all(&self.folder);
    }
}

/// Takes what has come, so many commands at most, waits, and answers all of it, in any order.
fn drive(events: &Receiver<Event>, asks: &Asks, (takes, most): (Duration, usize), turns: &AtomicU64) {
    let (mut map, mut random) = (Map::new(), Random::from_seed(1));
    loop {
        let asked = |event| if let Event::Ask(ask) = event { Some(ask) } else { None };
        let mut come = asks.take(most, usize::MAX, Instant::now());
        if come.is_empty() {
            let Ok(first) = events.recv() else { return };
            come.extend(asked(first));
        }
        come.extend(events.try_iter().filter_map(asked));
        thread::sleep(takes);
        turns.fetch_add(1, Ordering::Relaxed);
        while !come.is_empty() {
            let Ask { what, reply } = come.swap_remove(random.below(come.len() as u64) as usize);
            let is_given_up = matches!(what, What::Propose(_)) && !reply.begun().begin();
            reply.send(match what {
                _ if is_given_up => Outcome::Late,
                What::Propose(command) => Outcome::Done(execute(&mut map, &command)),
                What::Get(key) | What::Read(key) => Outcome::Value(map.get(&key).cloned()),
                What::Contents => {
                    let mut pairs: Vec<_> = map.iter().map(|(key, value)| (key.clone(), value.clone())).collect();
                    pairs.sort();
                    Outcome::Contents(pairs)
                }
                What::Over(now) => {
                    let is_over = |it: &(&Vec<u8>, &Vec<u8>)| deadline_in(it.1).is_some_and(|deadline| deadline <= now);
                    Outcome::Over(map.iter().filter(is_over).map(|(key, _)| key.clone()).collect())
                }
                _ => Outcome::Info(format!("replica:0\r\nkeys_kept:{}\r\n", map.len())),
            });
        }
    }
}
