//! What a cluster is asked, and how long it takes.
use crate::{Cluster, Connection, MEMBERS};
use std::fmt;
use std::ops::Range;
use std::sync::Barrier;
use std::sync::atomic::{AtomicBool, Ordering};
use std::thread;
use std::time::{Duration, Instant};

/// A command has at most so many keys.
const MOST_KEYS: usize = 1_000;

/// What clients ask for.
#[derive(Clone, Copy, PartialEq, Eq, Debug)]
pub enum Work {
    /// Each sets keys of its own.
    Set,
    /// Each gets the keys that were set.
    Get,
    /// Each sets such keys and gets others, in turn.
    Both,
    /// All set one key.
    SetOne,
    /// All get one key, which one more client sets all the while.
    GetOne,
    /// Each sets so many keys of its own in one transaction, where none of them is there.
    Together(usize),
    /// Each sends so many sets of keys of its own at once, and waits for all replies.
    Pipeline(usize),
}

impl Work {
    /// In the order in which they are measured.
    pub const ALL: [Work; 5] = [Work::Set, Work::Get, Work::Both, Work::SetOne, Work::GetOne];

    /// That of this word.
    pub fn read(word: &str) -> Result<Work, String> {
        match word {
            "set" => Ok(Work::Set),
            "get" => Ok(Work::Get),
            "both" => Ok(Work::Both),
            "set-one" => Ok(Work::SetOne),
            "get-one" => Ok(Work::GetOne),
            _ => Work::read_many(word)
                .ok_or(format!("--works: {word} is none of set, get, both, set-one, get-one, txn-N, pipeline-N")),
        }
    }

    /// That of many keys.
    fn read_many(word: &str) -> Option<Work> {
        let (name, count) = word.rsplit_once('-')?;
        let count = count.parse().ok().filter(|count| (1..=MOST_KEYS).contains(count))?;
        match name {
            "txn" => Some(Work::Together(count)),
            "pipeline" => Some(Work::Pipeline(count)),
            _ => None,
        }
    }
}

impl fmt::Display for Work {
    fn fmt(&self, f: &mut fmt::Formatter) -> fmt::Result {
        match self {
            Work::Set => f.write_str("set"),
            Work::Get => f.write_str("get"),
            Work::Both => f.write_str("set and get"),
            Work::SetOne => f.write_str("set of one key"),
            Work::GetOne => f.write_str("get of one key that is set"),
            Work::Together(count) => write!(f, "transaction of {count} keys"),
            Work::Pipeline(count) => write!(f, "{count} sets at once"),
        }
    }
}

/// What one work took, at one cluster.
#[derive(Default)]
pub struct Measured {
    /// How long each command waited.
    waits: Vec<Duration>,
    /// From the first question to the last answer.
    time: Duration,
    /// Of all its processes.
    pub processor: Duration,
    /// Of those of their threads that serve no client.
    pub threads: Duration,
    /// How many bytes they had written to the disk.
    pub written: u64,
    /// How many commands of the protocol they have proposed, and how many syncs they have made, where they report that.
    counts: [u64; 2],
    /// Commands a second in each turn, and the machine's load before it.
    pub rates: Vec<f64>,
    loads: Vec<f64>,
}

impl Measured {
    /// It has had one more turn.
    pub fn add(&mut self, more: Measured, load: f64) {
        self.rates.push(more.waits.len() as f64 / more.time.as_secs_f64());
        self.loads.push(load);
        self.waits.extend(more.waits);
        self.time += more.time;
    }

    /// They have counted this.
    pub fn count(&mut self, before: [u64; 2], after: [u64; 2]) {
        self.counts = [0, 1].map(|place| self.counts[place] + after[place] - before[place]);
    }

    /// A row's figures: waits, the rate, this in ratio to the first cluster's in the same turns, and the processor time
    /// and the bytes written for a command, instances and syncs, and the load.
    pub fn figures(&mut self, first: &[f64]) -> String {
        self.waits.sort_unstable();
        let part = |share: usize| self.waits[(self.waits.len() - 1) * share / 100].as_secs_f64() * 1e3;
        let [processor, threads] =
            [self.processor, self.threads].map(|time| time.as_secs_f64() * 1e6 / self.waits.len() as f64);
        let ratios = self.rates.iter().zip(first).map(|(rate, first)| rate / first).collect();
        let written = self.written / self.waits.len() as u64;
        let [instances, syncs] = self.counts.map(|count| count as f64 / self.waits.len() as f64);
        format!(
            "{:.2} ms | {:.2} ms | {} | {} | {processor:.0} µs | {threads:.0} µs | {written} | {instances:.2}, \
             {syncs:.2} | {}",
            part(50),
            part(99),
            spread(self.rates.clone(), 0),
            spread(ratios, 2),
            spread(self.loads.clone(), 0)
        )
    }
}

/// The median, and the least and the most, where there are several.
fn spread(mut all: Vec<f64>, digits: usize) -> String {
    all.sort_by(f64::total_cmp);
    let (half, last) = (all.len() / 2, all.len() - 1);
    let median = if all.len() % 2 == 0 { (all[half - 1] + all[half]) / 2.0 } else { all[half] };
    if last == 0 {
        return format!("{median:.digits$}");
    }
    format!("{median:.digits$} ({:.digits$} to {:.digits$})", all[0], all[last])
}

/// How many processes and threads of this machine wanted a processor in the last minute, on the average.
pub fn load() -> Result<f64, String> {
    let text = std::fs::read_to_string("/proc/loadavg").map_err(|error| format!("/proc/loadavg: {error}"))?;
    text.split(' ').next().and_then(|it| it.parse().ok()).ok_or("/proc/loadavg has no number".into())
}

/// Has a cluster do the commands of these numbers, by so many clients, with values of so many bytes.
pub fn measure(
    cluster: &dyn Cluster,
    work: Work,
    (clients, length): (usize, usize),
    numbers: Range<usize>,
) -> Result<Measured, String> {
    let (barrier, is_over, value) = (Barrier::new(clients), AtomicBool::new(false), vec![b'v'; length]);
    let done: Vec<(Instant, Instant, Vec<Duration>)> = thread::scope(|scope| {
        let setting = (work == Work::GetOne).then(|| scope.spawn(|| set_one(cluster, &value, &is_over)));
        let clients: Vec<thread::ScopedJoinHandle<_>> = (0..clients)
            .map(|client| {
                let (barrier, value) = (&barrier, &value[..]);
                let numbers = numbers.clone().skip(client).step_by(clients);
                let named = thread::Builder::new().name("client".into());
                named.spawn_scoped(scope, move || ask(cluster, (work, value), (client, numbers), barrier))
            })
            .collect::<Result<_, _>>()
            .map_err(|error| format!("no thread for a client: {error}"))?;
        let done = clients.into_iter().map(|client| client.join().map_err(|_| "a client has failed")?);
        let done = done.collect::<Result<_, String>>();
        is_over.store(true, Ordering::Relaxed);
        let set = setting.map_or(Ok(Ok(())), |setting| setting.join());
        set.map_err(|_| "a client has failed")?.and(done)
    })?;
    let start = done.iter().map(|(start, ..)| *start).min();
    let end = done.iter().map(|(_, end, _)| *end).max();
    let (Some(start), Some(end)) = (start, end) else { return Err("nothing was asked".into()) };
    let waits = done.into_iter().flat_map(|(.., waits)| waits).collect();
    Ok(Measured { waits, time: end - start, ..Measured::default() })
}

/// Sets the one key until it is over.
fn set_one(cluster: &dyn Cluster, value: &[u8], is_over: &AtomicBool) -> Result<(), String> {
    let mut connection = cluster.connect(0)?;
    while !is_over.load(Ordering::Relaxed) {
        connection.set(b"one", value)?;
    }
    Ok(())
}

/// One client's commands: when it began, when it ended, and each one's wait.
fn ask(
    cluster: &dyn Cluster,
    (work, value): (Work, &[u8]),
    (client, numbers): (usize, impl Iterator<Item = usize>),
    barrier: &Barrier,
) -> Result<(Instant, Instant, Vec<Duration>), String> {
    let connected = cluster.connect(client % MEMBERS);
    // (whoever has no connection mustn't keep the others waiting)
    barrier.wait();
    let mut connection = connected?;
    let mut waits = Vec::new();
    let begin = Instant::now();
    for number in numbers {
        let keys = keys(work, number);
        let start = Instant::now();
        ask_one(connection.as_mut(), work, number, &keys, value)?;
        waits.push(start.elapsed());
    }
    Ok((begin, Instant::now(), waits))
}

/// The keys of the command of this number.
fn keys(work: Work, number: usize) -> Vec<String> {
    match work {
        Work::SetOne | Work::GetOne => vec!["one".into()],
        Work::Together(count) => (0..count).map(|key| format!("txn-{count}-{number}-{key}")).collect(),
        Work::Pipeline(count) => (0..count).map(|key| format!("pipeline-{count}-{number}-{key}")).collect(),
        Work::Set | Work::Get | Work::Both => vec![format!("key-{number}")],
    }
}

/// One command, of which the reply is waited for.
fn ask_one(
    connection: &mut dyn Connection,
    work: Work,
    number: usize,
    keys: &[String],
    value: &[u8],
) -> Result<(), String> {
    let sets = match work {
        Work::Together(_) => return connection.set_together(keys, value),
        Work::Pipeline(_) => return connection.set_at_once(keys, value),
        Work::Set | Work::SetOne => true,
        Work::Both => number / 2 % 2 == 0,
        Work::Get | Work::GetOne => false,
    };
    if sets {
        return connection.set(keys[0].as_bytes(), value);
    }
    if connection.get(keys[0].as_bytes())? != value {
        return Err(format!("{} has another value", keys[0]));
    }
    Ok(())
}

#[cfg(test)]
mod tests {
    use super::*;

    #[test]
    fn medians_and_spreads() {
        assert_eq!(spread(vec![3.0, 1.0, 2.0], 0), "2 (1 to 3)");
        assert_eq!(spread(vec![4.0, 1.0, 2.0, 3.0], 2), "2.50 (1.00 to 4.00)");
        assert_eq!(spread(vec![7.0], 1), "7.0");
    }

    #[test]
    fn ratios_are_those_of_turns() {
        let turn = |millis| Measured {
            waits: vec![Duration::from_millis(millis)],
            time: Duration::from_millis(millis),
            ..Measured::default()
        };
        let mut measured = Measured::default();
        // 1,000, 500 and 250 commands a second, where the first cluster did 500 each time
        [1, 2, 4].into_iter().for_each(|millis| measured.add(turn(millis), 3.0));
        let figures = measured.figures(&[500.0, 500.0, 500.0]);
        assert!(figures.contains("| 500 (250 to 1000) | 1.00 (0.50 to 2.00) |"), "{figures}");
        assert!(figures.ends_with("| 3 (3 to 3)"), "{figures}");
    }
}
