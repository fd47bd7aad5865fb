//! A play in which the map grows: clients set new keys, and how long they wait is reported apart by whether a
//! generation changes meanwhile. In the end machines may be replaced over long links, which get the whole map.
use crate::cluster::Cluster;
use crate::options::Options;
use std::fmt::Write as _;
use std::sync::Mutex;
use std::sync::atomic::{AtomicBool, AtomicUsize, Ordering};
use std::thread;
use std::time::{Duration, Instant};
use testing::client::{Client, Refusal, Reply};
use testing::processes::{processor_time, written};

/// How long a value is.
const LENGTH: usize = 100;
/// So many commands that were answered make a slice, whose rate is printed; more, where there would be more slices than
/// so many.
const SLICE: usize = 2_000;
const SLICES: usize = 50;
/// Between two looks at what processor time the stores took.
const BETWEEN_TIMES: Duration = Duration::from_millis(50);
/// Between two looks at which generations the replicas have begun.
const LOOKS: Duration = Duration::from_millis(5);
/// A command belongs to a change of generation if it was under way within so long of it.
const NEAR: Duration = Duration::from_millis(500);
/// Longer than a store's patience.
const PATIENCE: Duration = Duration::from_secs(60);
/// So many keys are read at the end.
const READ: usize = 1_000;

/// A command: when it was asked and answered.
#[derive(Clone, Copy)]
struct Timed {
    from: Duration,
    to: Duration,
}

/// What clients have in common.
struct Play<'a> {
    cluster: &'a Cluster,
    start: Instant,
    wanted: usize,
    commands: Mutex<Vec<Timed>>,
    given: AtomicUsize,
    undone: AtomicUsize,
    doubtful: AtomicUsize,
    is_over: AtomicBool,
}

/// Sets so many keys by so many clients, and then replaces so many machines over links of this delay: the faults that were found.
pub fn run(cluster: &Cluster, options: &Options) -> Result<Vec<String>, String> {
    let (clients, wanted) = (options.clients, options.growing);
    (0..cluster.replicas).try_for_each(|replica| cluster.await_answer(replica))?;
    let play = Play {
        cluster,
        start: Instant::now(),
        wanted,
        commands: Mutex::default(),
        given: AtomicUsize::new(0),
        undone: AtomicUsize::new(0),
        doubtful: AtomicUsize::new(0),
        is_over: AtomicBool::new(false),
    };
    let (before, bytes) = (processor_times(cluster), written_bytes(cluster));
    let (changes, times) = thread::scope(|scope| {
        let looks = scope.spawn(|| play.look());
        let set = |place: usize| {
            let play = &play;
            scope.spawn(move || play.set_all(place % cluster.replicas))
        };
        let clients: Vec<_> = (0..clients).map(set).collect();
        clients.into_iter().for_each(|client| _ = client.join());
        play.is_over.store(true, Ordering::Relaxed);
        looks.join().unwrap_or_default()
    });
    let processor = processor_times(cluster) - before;
    let bytes = written_bytes(cluster) - bytes;
    let mut commands = play.commands.into_inner().map_err(|_| "a client has failed")?;
    commands.sort_unstable_by_key(|it| it.to);
    let (undone, doubtful) = (play.undone.into_inner(), play.doubtful.into_inner());
    println!(
        "{} keys of {LENGTH} bytes set by {clients} clients; {} changes of generation; refused as not done {undone}, in doubt {doubtful}",
        commands.len(),
        changes.len()
    );
    let slice = SLICE.max(wanted.div_ceil(SLICES));
    println!("commands a second, by slices of {slice}: {}", rates(&commands, slice));
    println!("processor time of all stores by these slices, µs a command: {}", shares(&commands, &times, slice));
    println!(
        "stretches without an answer, the longest of all and those at changes, ms: {}",
        stretches(&commands, &changes)
    );
    let near = |it: &&Timed| changes.iter().any(|change| it.from < *change + NEAR && it.to + NEAR > *change);
    println!("waits within {} ms of a change: {}", NEAR.as_millis(), figures(commands.iter().filter(near)));
    println!("others: {}", figures(commands.iter().filter(|it| !near(it))));
    println!("processor time of all stores: {:.0} µs a command", processor.as_secs_f64() * 1e6 / commands.len() as f64);
    let own = commands.len() * (key(0).len() + LENGTH);
    println!(
        "written to the disk by all stores: {} bytes a command, {:.1} times what the keys and values have at {} replicas",
        bytes / commands.len().max(1) as u64,
        bytes as f64 / (own * cluster.replicas) as f64,
        cluster.replicas
    );
    let mut faults = Vec::new();
    if doubtful > 0 {
        faults.push(format!("{doubtful} commands may still be done"));
    }
    if commands.len() < wanted {
        faults.push(format!("{} of {wanted} keys were set", commands.len()));
    }
    for replica in 0..cluster.replicas {
        faults.extend(lost(cluster, replica, wanted)?);
    }
    let memory = (0..cluster.replicas).map(|replica| cluster.sample(replica).store >> 20).max().unwrap_or(0);
    let started = cluster.time_to_start(0)?;
    println!("a store had {memory} MB at most at the end, and a start took {:.2} s", started.as_secs_f64());
    for count in 0..options.replaced {
        let replica = cluster.replicas - 1 - count % cluster.replicas;
        cluster.links.iter().flatten().flatten().for_each(|link| link.set_delay(options.delay));
        let start = Instant::now();
        cluster.replace(replica)?;
        cluster.await_answer(replica)?;
        let took = start.elapsed();
        println!("a machine {} ms away was in after {:.2} s", options.delay.as_millis(), took.as_secs_f64());
        cluster.links.iter().flatten().flatten().for_each(|link| link.set_delay(Duration::ZERO));
        faults.extend(lost(cluster, replica, wanted)?);
    }
    Ok(faults)
}

impl Play<'_> {
    /// Sets one key after the other at a replica, each until that is answered, while there are more.
    fn set_all(&self, replica: usize) {
        let (mut client, mut own) = (None, Vec::new());
        loop {
            let number = self.given.fetch_add(1, Ordering::Relaxed);
            if number >= self.wanted || self.start.elapsed() > 10 * PATIENCE {
                break;
            }
            let (key, value) = (key(number), value(number));
            loop {
                let from = self.start.elapsed();
                let mut asked =
                    client.take().or_else(|| Client::connect(self.cluster.client_ports[replica], PATIENCE).ok());
                let reply = asked.as_mut().map(|it| it.ask(&[b"SET", key.as_bytes(), &value]));
                // (after a failure the connection is of no use)
                client = asked.filter(|_| matches!(reply, Some(Ok(_))));
                match reply {
                    Some(Ok(Reply::Simple(_))) => break own.push(Timed { from, to: self.start.elapsed() }),
                    Some(Ok(Reply::Error(text))) if Refusal::of(&text) == Some(Refusal::Undone) => {
                        self.undone.fetch_add(1, Ordering::Relaxed);
                    }
                    _ => _ = self.doubtful.fetch_add(1, Ordering::Relaxed),
                }
                if self.start.elapsed() > 10 * PATIENCE {
                    break;
                }
                thread::sleep(Duration::from_millis(20));
            }
        }
        if let Ok(mut commands) = self.commands.lock() {
            commands.extend(own);
        }
    }

    /// When a majority had begun each later generation, and what processor time the stores had taken now and then.
    fn look(&self) -> (Vec<Duration>, Vec<(Duration, Duration)>) {
        let (mut changes, mut last) = (Vec::new(), self.begun());
        let mut times = vec![(self.start.elapsed(), processor_times(self.cluster))];
        while !self.is_over.load(Ordering::Relaxed) {
            thread::sleep(LOOKS);
            let now = self.start.elapsed();
            if times.last().is_none_or(|(at, _)| now > *at + BETWEEN_TIMES) {
                times.push((now, processor_times(self.cluster)));
            }
            let begun = self.begun();
            if begun > last {
                changes.push(self.start.elapsed());
                last = begun;
            }
        }
        times.push((self.start.elapsed(), processor_times(self.cluster)));
        (changes, times)
    }

    /// The generation that a majority has begun.
    fn begun(&self) -> u32 {
        let mut all: Vec<u32> = (0..self.cluster.replicas).map(|replica| self.cluster.begun(replica)).collect();
        all.sort_unstable();
        all[(all.len() - 1) / 2]
    }
}

fn key(number: usize) -> String {
    format!("key-{number:012}")
}

fn value(number: usize) -> Vec<u8> {
    format!("{number:0LENGTH$}").into_bytes()
}

/// The processor time that all stores took.
pub fn processor_times(cluster: &Cluster) -> Duration {
    (0..cluster.replicas).filter_map(|replica| cluster.group(replica)).map(processor_time).sum()
}

fn written_bytes(cluster: &Cluster) -> u64 {
    (0..cluster.replicas).filter_map(|replica| cluster.group(replica)).map(written).sum()
}

/// The processor time of a command in each slice, by what the stores had taken when.
fn shares(commands: &[Timed], times: &[(Duration, Duration)], slice: usize) -> String {
    let at = |moment: Duration| {
        let behind = times.partition_point(|(at, _)| *at < moment).min(times.len().saturating_sub(1));
        let (Some(before), Some(after)) = (times.get(behind.saturating_sub(1)), times.get(behind)) else { return 0.0 };
        let length = (after.0.saturating_sub(before.0)).as_secs_f64();
        let part = moment.saturating_sub(before.0).as_secs_f64() / length.max(1e-9);
        before.1.as_secs_f64() + (after.1.saturating_sub(before.1)).as_secs_f64() * part.min(1.0)
    };
    let mut begin = Duration::ZERO;
    let shares = commands.chunks(slice).map(|slice| {
        let end = slice.last().map_or(begin, |it| it.to);
        let share = (at(end) - at(begin)) * 1e6 / slice.len() as f64;
        begin = end;
        format!("{share:.0}")
    });
    shares.collect::<Vec<_>>().join(", ")
}

fn rates(commands: &[Timed], slice: usize) -> String {
    let mut begin = Duration::ZERO;
    let rates = commands.chunks(slice).map(|slice| {
        let end = slice.last().map_or(begin, |it| it.to);
        let rate = slice.len() as f64 / (end - begin).as_secs_f64();
        begin = end;
        format!("{rate:.0}")
    });
    rates.collect::<Vec<_>>().join(", ")
}

/// The longest time between two answers, and that around each change.
fn stretches(commands: &[Timed], changes: &[Duration]) -> String {
    let gaps = || commands.windows(2).map(|two| (two[0].to, two[1].to));
    let longest = gaps().map(|(from, to)| to - from).max().unwrap_or_default();
    let mut text = format!("{}", longest.as_millis());
    for change in changes {
        let near = gaps().filter(|(from, to)| *from < *change + NEAR && *to + NEAR > *change);
        let longest = near.map(|(from, to)| to - from).max().unwrap_or_default();
        let _ = write!(text, "{}{}", if text.contains(';') { ", " } else { "; " }, longest.as_millis());
    }
    text
}

fn figures<'a>(commands: impl Iterator<Item = &'a Timed>) -> String {
    let mut waits: Vec<Duration> = commands.map(|it| it.to - it.from).collect();
    waits.sort_unstable();
    let part = |share: usize| waits.get(waits.len().saturating_sub(1) * share / 100).copied().unwrap_or_default();
    let [median, most, longest] = [50, 99, 100].map(|share| part(share).as_secs_f64() * 1e3);
    format!("{median:.1} ms (median), {most:.0} ms (99 of 100), {longest:.0} ms (longest), of {}", waits.len())
}

/// A fault, where a replica lacks a key.
fn lost(cluster: &Cluster, replica: usize, wanted: usize) -> Result<Option<String>, String> {
    let mut client = Client::connect(cluster.client_ports[replica], PATIENCE).map_err(|error| error.to_string())?;
    let some = (0..wanted).step_by(wanted.div_ceil(READ));
    let mut lost = 0;
    for number in some {
        let reply = client.ask(&[b"GET", key(number).as_bytes()]).map_err(|error| error.to_string())?;
        lost += usize::from(reply != Reply::Bulk(Some(value(number))));
    }
    Ok((lost > 0).then(|| format!("replica {replica} lacks {lost} of the keys that were read")))
}
