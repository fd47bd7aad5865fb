//! The bench: three stores, three members of etcd and one Redis on this machine, asked in turns by the same number of clients.
mod etcd;
mod measure;
mod options;
mod redis;
mod running;
mod services;
mod stores;

use measure::Measured;
use options::{HELP, Options, read};
use std::process::ExitCode;
use std::thread;
use std::time::{Duration, Instant};
use testing::processes::{processor_time, threads_time, written};

/// How many members each cluster has.
const MEMBERS: usize = 3;
/// The threads of a store that serve its clients, and of the bench that ask.
const OF_CLIENTS: [&str; 3] = ["client", "clients", "lists"];
/// How long a connection waits for an answer.
const PATIENCE: Duration = Duration::from_secs(15);

/// A cluster that can be asked.
pub trait Cluster: Sync {
    fn name(&self) -> &'static str;
    /// A connection to one of its members.
    fn connect(&self, member: usize) -> Result<Box<dyn Connection>, String>;
    /// Its processes.
    fn processes(&self) -> Vec<u32>;
}

/// A connection of one client.
pub trait Connection {
    fn set(&mut self, key: &[u8], value: &[u8]) -> Result<(), String>;
    /// A read that sees all that was acknowledged before.
    fn get(&mut self, key: &[u8]) -> Result<Vec<u8>, String>;
    /// Sets all these keys in one transaction, where none of them is there.
    fn set_together(&mut self, keys: &[String], value: &[u8]) -> Result<(), String>;
    /// Sends sets of these keys at once, and waits for all replies.
    fn set_at_once(&mut self, keys: &[String], value: &[u8]) -> Result<(), String>;
    /// How many commands of the protocol its member has proposed, and how many syncs it has made, where it reports
    /// that.
    fn counts(&mut self) -> Option<[u64; 2]> {
        None
    }
}

fn main() -> ExitCode {
    let outcome = match read(std::env::args().skip(1)) {
        Ok(None) => {
            print!("{HELP}");
            return ExitCode::SUCCESS;
        }
        Ok(Some(options)) => run(&options),
        Err(what) => Err(what),
    };
    match outcome {
        Ok(()) => ExitCode::SUCCESS,
        Err(what) => {
            eprintln!("bench: {what}");
            ExitCode::from(2)
        }
    }
}

fn run(options: &Options) -> Result<(), String> {
    println!(
        "{} commands of each kind, in {} turns, values of {} bytes, in {}; medians over turns (the least to the most)",
        options.commands,
        options.turns,
        options.value,
        options.directory.display()
    );
    println!(
        "| clients | command | cluster | median | 99 of 100 | commands a second | of the first | \
         processor time a command | without its clients' threads | bytes written | instances and syncs a command | \
         load |"
    );
    println!("|---|---|---|---|---|---|---|---|---|---|---|---|");
    for clients in &options.clients {
        play(options, *clients)?;
    }
    Ok(())
}

/// All commands of so many clients, at each cluster in its turn; which one goes first changes.
fn play(options: &Options, clients: usize) -> Result<(), String> {
    let directory = options.directory.join(clients.to_string());
    let clusters = start(options, &directory)?;
    for work in options.works.iter().copied() {
        let mut measured: Vec<Measured> = clusters.iter().map(|_| Measured::default()).collect();
        for turn in 0..options.turns {
            let numbers = options.commands * turn / options.turns..options.commands * (turn + 1) / options.turns;
            for place in 0..clusters.len() {
                let place = (turn + place) % clusters.len();
                let cluster = &*clusters[place];
                let (before, written) = (processor_times(cluster), bytes_written(cluster));
                let (threads, counted) = (thread_times(cluster), counts(cluster)?);
                let load = measure::load()?;
                measured[place].add(measure::measure(cluster, work, (clients, options.value), numbers.clone())?, load);
                measured[place].threads += thread_times(cluster) - threads;
                measured[place].processor += processor_times(cluster) - before;
                measured[place].written += bytes_written(cluster) - written;
                if let (Some(before), Some(after)) = (counted, counts(cluster)?) {
                    measured[place].count(before, after);
                }
            }
        }
        let first = measured[0].rates.clone();
        for (cluster, it) in clusters.iter().zip(&mut measured) {
            println!("| {clients} | {work} | {} | {} |", cluster.name(), it.figures(&first));
        }
    }
    drop(clusters);
    std::fs::remove_dir_all(&directory).map_err(|error| error.to_string())
}

/// Fresh clusters, each of which takes commands.
fn start(options: &Options, directory: &std::path::Path) -> Result<Vec<Box<dyn Cluster>>, String> {
    let mut clusters: Vec<Box<dyn Cluster>> = Vec::new();
    for name in &options.clusters {
        let directory = directory.join(name);
        clusters.push(match name.as_str() {
            "store" => Box::new(stores::start(options, &directory, "store", &[])?),
            "apart" => Box::new(stores::start(options, &directory, "apart", &["--together", "1"])?),
            "service" => Box::new(services::start(&directory)?),
            "etcd" => Box::new(etcd::start(options, &directory)?),
            _ => Box::new(redis::start(options, &directory)?),
        });
    }
    clusters.iter().try_for_each(|cluster| ready(&**cluster))?;
    Ok(clusters)
}

fn processor_times(cluster: &dyn Cluster) -> Duration {
    cluster.processes().into_iter().map(processor_time).sum()
}

/// That of the threads that serve no client.
fn thread_times(cluster: &dyn Cluster) -> Duration {
    cluster.processes().into_iter().map(|process| threads_time(process, &OF_CLIENTS)).sum()
}

fn bytes_written(cluster: &dyn Cluster) -> u64 {
    cluster.processes().into_iter().map(written).sum()
}

/// What all members count, where they report it.
fn counts(cluster: &dyn Cluster) -> Result<Option<[u64; 2]>, String> {
    let mut all = [0; 2];
    for member in 0..MEMBERS {
        let Some([proposals, syncs]) = cluster.connect(member)?.counts() else { return Ok(None) };
        all = [all[0] + proposals, all[1] + syncs];
    }
    Ok(Some(all))
}

/// Waits until each member has taken a command.
fn ready(cluster: &dyn Cluster) -> Result<(), String> {
    let start = Instant::now();
    for member in 0..MEMBERS {
        loop {
            match cluster.connect(member).and_then(|mut connection| connection.set(b"ready", b"1")) {
                Ok(()) => break,
                Err(what) if start.elapsed() > Duration::from_secs(30) => return Err(what),
                Err(_) => thread::sleep(Duration::from_millis(100)),
            }
        }
    }
    Ok(())
}
