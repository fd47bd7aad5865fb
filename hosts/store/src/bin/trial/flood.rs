//! A play under floods: ever more clients at once send pipelines of SETs, and then some send one at a time beside them.
//! Who is asked for more than it can do is to do as much as before: each level has the same number of commands, and
//! judged is how fast they are done, what processor time they take, and how much longer the few wait.
use crate::cluster::Cluster;
use crate::distance::begun;
use crate::growing::processor_times;
use crate::options::Options;
use std::io::Write;
use std::net::TcpStream;
use std::sync::atomic::{AtomicBool, Ordering};
use std::thread;
use std::time::{Duration, Instant};
use store::random::Random;
use testing::client::{Client, Refusal, Reply};

/// How many clients there are at each level, and how many commands each sends at once.
const LEVELS: [(usize, usize); 9] =
    [(1, 1), (3, 3), (6, 16), (6, 50), (15, 50), (30, 50), (60, 50), (20, 500), (2_000, 1)];
/// Those with less in flight aren't judged: a client that waits for each reply can't be as fast.
const LEAST_JUDGED: usize = 300;
/// Each client sends at least so many times, and no more than for one part in so many of a level's commands.
const LEAST_ROUNDS: usize = 10;
const PARTS: usize = 60;
/// Those beside whom some clients send one at a time, and how many times as many commands they send as at a level.
const TIMES: usize = 5;
const BESIDE: [(usize, usize); 2] = [(60, 50), (4, 1_000)];
/// And so many of them beside so many that ask for long values and never read.
const GOOD: usize = 32;
const SLOW: [usize; 2] = [8, 64];
const LONG: usize = 60_000;
const GETS: usize = 1_000;
/// For how long that is measured; a slow one that was closed comes again.
const SLOWED: Duration = Duration::from_secs(10);
const KEYS: u64 = 1_000_000;
const LENGTH: usize = 100;
/// Longer than a store's patience.
const PATIENCE: Duration = Duration::from_secs(60);
/// Processor time of a command: at most so many times the least of all levels.
const MOST_TIMES: f64 = 6.0;
/// For so long one client of each store sends one command at a time, without others.
const ALONE: Duration = Duration::from_secs(2);

/// What clients were told.
#[derive(Default)]
struct Told {
    done: usize,
    undone: usize,
    doubtful: usize,
    waits: Vec<Duration>,
}

impl Told {
    fn add(&mut self, more: Told) {
        (self.done, self.undone) = (self.done + more.done, self.undone + more.undone);
        self.doubtful += more.doubtful;
        self.waits.extend(more.waits);
    }
}

/// Plays all levels: the faults that were found.
pub fn run(cluster: &Cluster, options: &Options) -> Result<Vec<String>, String> {
    (0..cluster.replicas).try_for_each(|replica| cluster.await_answer(replica))?;
    let (mut faults, mut rates, mut costs) = (Vec::new(), Vec::new(), Vec::new());
    // (what comes first is slower: the stores have no memory yet)
    flood(cluster, LEVELS[0], options.flood / 4);
    println!(
        "| clients, commands at once | done a second | µs of processor time each | recoveries | not done, in doubt |"
    );
    println!("|---|---|---|---|---|");
    for level in LEVELS {
        let (before, recovered, start) = (processor_times(cluster), recoveries(cluster)?, Instant::now());
        let told = flood(cluster, level, options.flood);
        let (time, recovered) = (start.elapsed(), recoveries(cluster)? - recovered);
        let processor = processor_times(cluster) - before;
        let done = told.done.max(1) as f64;
        rates.push(told.done as f64 / time.as_secs_f64());
        costs.push(processor.as_secs_f64() * 1e6 / done);
        let (rate, cost) = (rates[rates.len() - 1], costs[costs.len() - 1]);
        let (clients, at_once) = level;
        println!("| {clients}, {at_once} | {rate:.0} | {cost:.0} | {recovered} | {}, {} |", told.undone, told.doubtful);
        if told.doubtful > 0 {
            faults.push(format!("{} commands may still be done", told.doubtful));
        }
        if clients * at_once >= LEAST_JUDGED && recovered > (told.done / 1_000) as u64 {
            faults.push(format!("{recovered} recoveries were begun of replicas that were only busy"));
        }
    }
    let least = costs.iter().fold(f64::MAX, |least, cost| least.min(*cost));
    let mut best: f64 = 0.0;
    let levels = LEVELS.iter().zip(rates.iter().zip(&costs));
    for ((clients, at_once), (rate, cost)) in levels.filter(|(level, _)| level.0 * level.1 >= LEAST_JUDGED) {
        best = best.max(*rate);
        // (one command a system call isn't as fast as many)
        if *at_once > 1 && *rate < best * options.least_parts as f64 / 100.0 {
            faults.push(format!(
                "{clients} clients, {at_once} at once: {rate:.0} a second, where {best:.0} are possible"
            ));
        }
        if *cost > least * MOST_TIMES {
            faults.push(format!(
                "{clients} clients, {at_once} at once: a command took {cost:.0} µs, and {least:.0} will do"
            ));
        }
    }
    report_beside(cluster, options.flood);
    report_slow(cluster)?;
    Ok(faults)
}

/// Has so many commands be sent, so many at once by each of so many clients, spread over the stores.
fn flood(cluster: &Cluster, (clients, at_once): (usize, usize), commands: usize) -> Told {
    let mut all = Told::default();
    thread::scope(|scope| {
        let rounds = commands.div_ceil(clients * at_once).min(commands / PARTS).max(LEAST_ROUNDS);
        let client = |place: usize| {
            let port = cluster.client_ports[place % cluster.replicas];
            scope.spawn(move || send(port, place as u64, at_once, rounds))
        };
        let clients: Vec<_> = (0..clients).map(client).collect();
        clients.into_iter().for_each(|client| all.add(client.join().unwrap_or_default()));
    });
    all
}

/// A client: sends so many SETs at once, and waits for all replies, so many times.
fn send(port: u16, seed: u64, at_once: usize, rounds: usize) -> Told {
    let (mut told, mut random, value) = (Told::default(), Random::from_seed(seed), [b'v'; LENGTH]);
    let Ok(mut client) = Client::connect(port, PATIENCE) else {
        return Told { doubtful: at_once * rounds, ..told };
    };
    for _ in 0..rounds {
        let keys: Vec<String> = (0..at_once).map(|_| format!("key-{}", random.below(KEYS))).collect();
        let words: Vec<[&[u8]; 3]> = keys.iter().map(|key| [b"SET", key.as_bytes(), &value[..]]).collect();
        let lines: Vec<&[&[u8]]> = words.iter().map(|line| &line[..]).collect();
        let start = Instant::now();
        let sent = client.send(&lines);
        for _ in 0..at_once {
            match sent.as_ref().map_err(|_| ()).and_then(|()| client.read().map_err(|_| ())) {
                Ok(Reply::Simple(_)) => told.done += 1,
                Ok(Reply::Error(text)) if Refusal::of(&text) == Some(Refusal::Undone) => told.undone += 1,
                _ => told.doubtful += 1,
            }
        }
        told.waits.push(start.elapsed());
    }
    told
}

/// How long clients wait that send one command at a time, so many, spread over the stores, while something is done.
fn one_by_one(cluster: &Cluster, clients: usize, during: impl FnOnce()) -> Vec<Duration> {
    let is_over = AtomicBool::new(false);
    thread::scope(|scope| {
        let client = |place: usize| {
            let (port, is_over) = (cluster.client_ports[place % cluster.replicas], &is_over);
            scope.spawn(move || {
                let mut all = Told::default();
                while !is_over.load(Ordering::Relaxed) {
                    all.add(send(port, place as u64, 1, 20));
                }
                all.waits
            })
        };
        let clients: Vec<_> = (0..clients).map(client).collect();
        during();
        is_over.store(true, Ordering::Relaxed);
        let waits = clients.into_iter().map(|client| client.join().unwrap_or_default());
        let mut waits: Vec<Duration> = waits.flatten().collect();
        waits.sort_unstable();
        waits
    })
}

/// Prints how long a client of each store waits that sends one at a time, alone and beside floods.
fn report_beside(cluster: &Cluster, commands: usize) {
    let alone = one_by_one(cluster, cluster.replicas, || thread::sleep(ALONE));
    println!("one at a time: {}", waits(&alone));
    for (clients, at_once) in BESIDE {
        let flood = || _ = flood(cluster, (clients, at_once), TIMES * commands);
        let beside = one_by_one(cluster, cluster.replicas, flood);
        println!("beside {clients} clients that send {at_once} at once: {}", waits(&beside));
    }
}

/// Prints how long clients of the first store wait alone, and beside some that never read.
fn report_slow(cluster: &Cluster) -> Result<(), String> {
    let port = cluster.client_ports[0];
    let connect = || Client::connect(port, PATIENCE).map_err(|error| error.to_string());
    connect()?.ask(&[b"SET", b"long", &[b'v'; LONG]]).map_err(|error| error.to_string())?;
    let alone = one_by_one(cluster, GOOD, || thread::sleep(ALONE));
    println!("{GOOD} clients, one at a time each: {}", waits(&alone));
    for count in SLOW {
        let beside = one_by_one(cluster, GOOD, || never_read(port, count));
        println!("beside {count} that never read: {}", waits(&beside));
    }
    Ok(())
}

/// So many clients that ask for long values and never read; each that is closed comes again.
fn never_read(port: u16, count: usize) {
    let (start, gets) = (Instant::now(), b"GET long\r\n".repeat(GETS));
    let mut slow: Vec<Option<TcpStream>> = (0..count).map(|_| None).collect();
    while start.elapsed() < SLOWED {
        for place in &mut slow {
            let is_closed = |stream: &TcpStream| (&*stream).write(b"\r\n").is_err();
            if place.as_ref().is_none_or(is_closed) {
                let stream = TcpStream::connect(("127.0.0.1", port)).ok();
                *place = stream.filter(|stream| (&*stream).write_all(&gets).is_ok());
            }
        }
        thread::sleep(Duration::from_millis(100));
    }
}

fn waits(sorted: &[Duration]) -> String {
    let part = |share: usize| sorted.get(sorted.len().saturating_sub(1) * share / 100).copied().unwrap_or_default();
    let [half, most] = [50, 99].map(|share| part(share).as_secs_f64() * 1e3);
    format!("p50 {half:.1} ms, p99 {most:.1} ms of {}", sorted.len())
}

/// How many recoveries the stores have begun.
fn recoveries(cluster: &Cluster) -> Result<u64, String> {
    Ok(begun(cluster)?.iter().map(|begun| begun.recoveries).sum())
}
