//! The trial: clients of a cluster of stores note what they were answered while replicas are killed, stopped and cut
//! off; then it is checked.
mod bank;
mod chain;
mod cluster;
mod distance;
mod flood;
mod growing;
mod links;
mod options;
mod pipelines;
mod samples;
mod smoke;
mod starved;
mod troubles;
mod verdict;
mod workers;

use cluster::Cluster;
use options::{HELP, Options, read};
use std::process::ExitCode;
use std::sync::atomic::{AtomicBool, AtomicU32, AtomicU64, Ordering};
use std::thread;
use std::time::Instant;
use store::linearizable::Action;
use troubles::Count;
use workers::{Note, Notes, Work};

fn main() -> ExitCode {
    let options = match read(std::env::args().skip(1)) {
        Ok(Some(options)) => options,
        Ok(None) => {
            print!("{HELP}");
            return ExitCode::SUCCESS;
        }
        Err(what) => {
            eprintln!("trial: {what}");
            return ExitCode::from(2);
        }
    };
    println!("{} replicas, seed {}, logs in {}", options.replicas, options.seed, options.directory.display());
    let mut faults = 0;
    for round in 1..=options.rounds {
        match play(&options, round) {
            Ok(found) => faults += found,
            Err(what) => {
                eprintln!("trial: {what}");
                return ExitCode::from(2);
            }
        }
        if faults > 0 {
            break;
        }
    }
    match options.plant {
        None if faults == 0 => println!("all is well"),
        None => println!("{faults} faults; the logs are kept"),
        Some(_) if faults == 0 => println!("the plant wasn't caught"),
        Some(_) => println!("the plant was caught"),
    }
    ExitCode::from(u8::from((faults == 0) == options.plant.is_some()))
}

/// Plays a round and judges it: how many faults were found.
fn play(options: &Options, round: usize) -> Result<usize, String> {
    let cluster = Cluster::start(options, round).map_err(|error| format!("the cluster can't be started: {error}"))?;
    if options.smoke {
        return judged(options, &cluster, smoke::run(&cluster));
    }
    if options.sites.count() > 0 {
        return judged(options, &cluster, distance::run(options, &cluster)?);
    }
    if options.starved {
        return judged(options, &cluster, starved::run(&cluster)?);
    }
    if options.bank {
        let seed = options.seed.wrapping_mul(1_000).wrapping_add(round as u64);
        let faults = bank::run(options, &cluster, seed)?;
        return judged(options, &cluster, faults);
    }
    if options.growing > 0 {
        return judged(options, &cluster, growing::run(&cluster, options)?);
    }
    if options.flood > 0 {
        return judged(options, &cluster, flood::run(&cluster, options)?);
    }
    let (mut notes, count) = work(options, round, &cluster);
    cluster.reach(options.least_changes);
    notes.faults.extend(cluster.stop());
    let ends = notes.all.iter().map(|it| it.operation.end).chain(notes.pairs.iter().map(|it| it.operation.end));
    let answered = ends.clone().flatten().count();
    println!(
        "round {round}: {answered} commands told, {} not, {} proposed again; {} generations; {} kills, {} machines replaced, {} cuts, {} pauses; {}",
        ends.count() - answered,
        verdict::count_lost(&cluster),
        cluster.newest(),
        count.kills,
        count.replaced,
        count.cuts,
        count.pauses,
        waits(&notes.all)
    );
    notes.faults.extend(verdict::judge(options, &cluster, &notes));
    Ok(report(&notes.faults))
}

/// Ends the cluster, and judges what it leaves, besides these faults: how many there are.
fn judged(options: &Options, cluster: &Cluster, mut faults: Vec<String>) -> Result<usize, String> {
    faults.extend(cluster.stop());
    faults.extend(verdict::judge(options, cluster, &Notes::default()));
    Ok(report(&faults))
}

/// Prints the faults: how many they are.
fn report(faults: &[String]) -> usize {
    for fault in faults {
        println!("fault: {fault}");
    }
    faults.len()
}

/// Clients and troubles, then the last reads: the notes, and how much went wrong.
fn work(options: &Options, round: usize, cluster: &Cluster) -> (Notes, Count) {
    let seed = options.seed.wrapping_mul(1_000).wrapping_add(round as u64);
    let start = Instant::now();
    let work = Work {
        cluster,
        start,
        is_over: AtomicBool::new(false),
        values: AtomicU32::new(0),
        pipelines: AtomicU32::new(0),
        answered: AtomicU64::new(0),
        is_life: options.life,
    };
    let mut notes = Notes::default();
    let count = thread::scope(|scope| {
        let clients: Vec<_> = (0..options.clients)
            .map(|client| {
                let (work, seed) = (&work, seed.wrapping_mul(97).wrapping_add(client as u64));
                scope.spawn(move || work.run(client % options.replicas, seed.wrapping_mul(0x9e37_79b9_7f4a_7c15)))
            })
            .collect();
        let sampled = scope.spawn(|| samples::write(&work, options.life));
        let count = troubles::run(options, cluster, seed.wrapping_mul(0x2545_f491_4f6c_dd1d));
        // (the clients go on alone for half as long at most)
        if count.is_ok() && !work.await_commands(options.commands as u64, options.time / 2) {
            notes.faults.push(format!("fewer than {} commands were told", options.commands));
        }
        work.is_over.store(true, Ordering::Relaxed);
        for client in clients {
            match client.join() {
                Ok(more) => notes.extend(more),
                Err(_) => notes.faults.push("a client of the trial has failed".into()),
            }
        }
        if !matches!(sampled.join(), Ok(Ok(()))) {
            notes.faults.push("the samples can't be written".into());
        }
        count
    });
    let count = count.unwrap_or_else(|what| {
        notes.faults.push(what);
        Count::default()
    });
    if options.life {
        match cluster.time_to_start(0) {
            Ok(time) => println!("a start at the end took {:.2} s", time.as_secs_f64()),
            Err(what) => notes.faults.push(what),
        }
    }
    for replica in 0..options.replicas {
        if cluster.is_running(replica) {
            notes.extend(work.read_all(replica));
        } else {
            notes.faults.push(format!("the store of replica {replica} has ended by itself"));
        }
    }
    (notes, count)
}

/// How long clients waited for replies: of commands, and of reads.
fn waits(notes: &[Note]) -> String {
    let is_read = |note: &&Note| matches!(note.operation.action, Action::Get(_));
    let (reads, others): (Vec<&Note>, Vec<&Note>) = notes.iter().partition(is_read);
    format!("waits of {}; of reads {}", waits_of(&others), waits_of(&reads))
}

fn waits_of(notes: &[&Note]) -> String {
    let operations = notes.iter().map(|note| note.operation);
    let mut waits: Vec<u64> = operations.filter_map(|operation| Some(operation.end? - operation.start)).collect();
    waits.sort_unstable();
    let Some(last) = waits.last() else { return "nothing was told".into() };
    let milliseconds = |nanoseconds: u64| nanoseconds as f64 / 1e6;
    let part = |share: usize| milliseconds(waits[(waits.len() - 1) * share / 100]);
    format!("{:.1} ms (median), {:.0} ms (99 of 100), {:.0} ms (longest)", part(50), part(99), milliseconds(*last))
}
