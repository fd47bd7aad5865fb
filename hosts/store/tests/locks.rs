//! Locks under kills: clients take, renew and give back locks at three replicas while these are killed, and note what they were answered. Then
//! no two of them had a lock at one time, and tokens rise. `LOCKS_SECONDS` has it go on for longer than its few seconds.
mod common;
use common::Places;
use std::sync::Mutex;
use std::sync::atomic::{AtomicBool, AtomicUsize, Ordering};
use std::thread;
use std::time::{Duration, Instant};
use store::random::Random;
use testing::client::{Client, Reply};

const LOCKS: u64 = 4;
const CLIENTS: usize = 12;
const SECONDS: u64 = 12;
/// A kill at each replica in turn, after so long at least.
const PAUSE: Duration = Duration::from_millis(1_500);
const PATIENCE: Duration = Duration::from_secs(15);
/// So many have held a lock in the end, and each lock was held: where the machine is busy it takes longer,
const LEAST_HELD: usize = 20;
/// but no longer than this.
const MOST_TIME: Duration = Duration::from_secs(300);

/// That an owner has a lock: surely from when the reply said so, until it begins to give it back or its time may be
/// over.
#[derive(Clone, Copy, PartialEq, Eq, Debug)]
struct Held {
    lock: u64,
    token: i64,
    owner: usize,
    /// When it asked first.
    asked: Duration,
    from: Duration,
    until: Duration,
}

/// Two that had one lock at one time, or whose tokens don't rise as time goes on.
fn fault(held: &[Held]) -> Option<(Held, Held)> {
    let mut held = held.to_vec();
    // In the order in which they had it: who had it before, and for the longest of these.
    held.sort_by_key(|held| (held.lock, held.from));
    let mut longest: Option<Held> = None;
    for second in &held {
        match longest.filter(|first| first.lock == second.lock) {
            Some(first) if second.from < first.until => return Some((first, *second)),
            Some(first) if second.until <= first.until => {}
            _ => longest = Some(*second),
        }
    }
    // From the greatest token down: who of those with a greater one had it first.
    held.sort_by_key(|held| std::cmp::Reverse((held.lock, held.token)));
    let mut earliest: Option<Held> = None;
    for second in &held {
        match earliest.filter(|first| first.lock == second.lock) {
            Some(first) if first.token == second.token || first.from < second.asked => return Some((first, *second)),
            Some(first) if first.from <= second.from => {}
            _ => earliest = Some(*second),
        }
    }
    None
}

#[test]
fn faults_are_found() {
    let second = |lock, token, times: [u64; 3]| {
        let [asked, from, until] = times.map(Duration::from_secs);
        Held { lock, token, owner: token as usize, asked, from, until }
    };
    let first = second(1, 1, [0, 1, 3]);
    assert_eq!(fault(&[first, second(1, 2, [2, 3, 5]), second(2, 2, [2, 3, 5])]), None);
    assert!(fault(&[first, second(1, 2, [1, 2, 5])]).is_some());
    assert!(fault(&[second(1, 2, [1, 2, 5]), first]).is_some());
    assert!(fault(&[first, second(1, 1, [4, 5, 6])]).is_some());
    assert!(fault(&[second(1, 3, [0, 1, 2]), second(1, 2, [4, 5, 6])]).is_some());
    assert!(fault(&[second(1, 4, [0, 1, 2]), second(1, 4, [4, 5, 6]), second(1, 5, [7, 8, 9])]).is_some());
    let falls = [second(1, 3, [0, 1, 2]), second(1, 4, [3, 4, 5]), second(1, 2, [6, 7, 8]), second(2, 1, [0, 9, 10])];
    assert!(fault(&falls).is_some() && fault(&falls[..2]).is_none());
}

/// One client: at one replica until that is lost, then at another one.
struct Owner<'a> {
    number: usize,
    ports: &'a [u16],
    start: Instant,
    random: Random,
    client: Option<Client>,
    /// How long the last answer took: a lock is taken for longer than that.
    took: Duration,
}

impl Owner<'_> {
    /// Asks; None where the connection is lost.
    fn ask(&mut self, words: &[&str]) -> Option<Reply> {
        if self.client.is_none() {
            let port = self.ports[self.random.below(self.ports.len() as u64) as usize];
            self.client = Client::connect(port, PATIENCE).ok();
        }
        let words: Vec<_> = words.iter().map(|word| word.as_bytes()).collect();
        let start = Instant::now();
        let reply = self.client.as_mut()?.ask(&words).ok();
        self.took = start.elapsed();
        if reply.is_none() {
            self.client = None;
        }
        reply
    }

    fn wait(&mut self, most: u64) {
        thread::sleep(Duration::from_millis(self.random.below(most)));
    }

    /// Takes a lock, has it for a while, maybe renews it, and mostly gives it back: when it had it surely.
    fn once(&mut self, turn: usize) -> Option<Held> {
        let lock = self.random.below(LOCKS);
        let (key, owner) = (format!("lock-{lock}"), format!("{}-{turn}", self.number));
        let time = 200 + self.random.below(800) + 2 * self.took.min(PATIENCE).as_millis() as u64;
        let asked = self.start.elapsed();
        let reply = self.ask(&["EPAXOS", "LOCK", &key, &owner, &time.to_string()]);
        let Some(Reply::Integer(token)) = reply else {
            self.wait(50);
            return None;
        };
        let from = self.start.elapsed();
        let mut held =
            Held { lock, token, owner: self.number, asked, from, until: asked + Duration::from_millis(time) };
        self.wait(60);
        if self.random.below(3) == 0 {
            let asked = self.start.elapsed();
            match self.ask(&["EPAXOS", "RENEW", &key, &owner, &time.to_string()]) {
                // (answered after the time was over it would be of no use)
                Some(Reply::Integer(renewed)) => {
                    assert_eq!(renewed, token);
                    held.until = asked + Duration::from_millis(time);
                }
                Some(Reply::Bulk(None)) => held.until = held.until.min(asked),
                _ => {}
            }
            self.wait(60);
        }
        if self.random.below(8) != 0 {
            held.until = held.until.min(self.start.elapsed());
            self.ask(&["EPAXOS", "UNLOCK", &key, &owner]);
        } else {
            // It sleeps, and whoever comes next takes it over.
            held.until = held.until.min(self.start.elapsed() + Duration::from_millis(time));
        }
        Some(held).filter(|held| held.from < held.until)
    }
}

/// Ends the owners' work, also where the test fails.
struct Ends<'a>(&'a AtomicBool);

impl Drop for Ends<'_> {
    fn drop(&mut self) {
        self.0.store(true, Ordering::Relaxed);
    }
}

#[test]
fn no_two_have_a_lock() {
    let seconds = std::env::var("LOCKS_SECONDS").ok().and_then(|text| text.parse().ok()).unwrap_or(SECONDS);
    let time = Duration::from_secs(seconds);
    let places = Places::new("locks");
    let stores = [0, 1, 2].map(|replica| Mutex::new(Some(places.start(replica))));
    let ports = [0, 1, 2].map(|replica| places.port(replica));
    let (start, is_over, turns) = (Instant::now(), AtomicBool::new(false), AtomicUsize::new(0));
    // How often each lock was held.
    let counts = [const { AtomicUsize::new(0) }; LOCKS as usize];
    let is_enough = || {
        let counts = counts.each_ref().map(|count| count.load(Ordering::Relaxed));
        counts.iter().all(|count| *count > 0) && counts.iter().sum::<usize>() > LEAST_HELD
    };
    let mut kills = 0;
    let held: Vec<Held> = thread::scope(|scope| {
        let owners: Vec<_> = (0..CLIENTS)
            .map(|number| {
                let (ports, is_over, turns, counts) = (&ports, &is_over, &turns, &counts);
                scope.spawn(move || {
                    let random = Random::from_seed(0x9e37_79b9 * (number as u64 + 1));
                    let mut owner = Owner { number, ports, start, random, client: None, took: Duration::ZERO };
                    let mut all = Vec::new();
                    while !is_over.load(Ordering::Relaxed) {
                        let held = owner.once(turns.fetch_add(1, Ordering::Relaxed));
                        held.iter().for_each(|held| _ = counts[held.lock as usize].fetch_add(1, Ordering::Relaxed));
                        all.extend(held);
                    }
                    all
                })
            })
            .collect();
        let ends = Ends(&is_over);
        let mut random = Random::from_seed(7);
        while start.elapsed() < time || (!is_enough() && start.elapsed() < time.max(MOST_TIME)) {
            thread::sleep(PAUSE + Duration::from_millis(random.below(1_000)));
            let replica = random.below(3) as usize;
            // (a store that is let go is killed)
            *stores[replica].lock().unwrap() = None;
            thread::sleep(Duration::from_millis(random.below(800)));
            *stores[replica].lock().unwrap() = Some(places.start(replica));
            kills += 1;
        }
        drop(ends);
        owners.into_iter().flat_map(|owner| owner.join().unwrap()).collect()
    });
    println!("{} tries, {} holders, {kills} kills, {} s", turns.into_inner(), held.len(), start.elapsed().as_secs());
    assert_eq!(fault(&held), None);
    assert!(is_enough(), "{counts:?}");
}
