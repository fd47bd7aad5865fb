//! Simulated clusters, by seeds: `cargo run --release --example sim -- --help`.
#![forbid(unsafe_code)]

use epaxos::host::Plant;
use epaxos::sim::{Audit, Failure, Left, Mix, Plan, Seen, leave, run_audited, run_planted, shrunk};
use std::collections::BTreeMap;
use std::ffi::OsString;
use std::fs::{self, File};
use std::path::{Path, PathBuf};
use std::process::{Command, ExitCode, Output, Stdio};
use std::sync::atomic::{AtomicBool, AtomicU64, Ordering};
use std::sync::{Arc, mpsc};
use std::time::{Duration, Instant};
use std::{env, io, thread};

/// What `--help` prints.
const HELP: &str = "\
Simulated clusters, by seeds: each is a run of hosts whose machines, disks and network fail.

usage: sim [OPTION]..          (cargo run --release --example sim -- [OPTION]..)

  --seeds N          how many seeds to run (default 100)
  --first SEED       the first seed (default 1)
  --seed SEED        this seed alone
  --seconds S        runs seeds for S seconds
  --threads N        how many seeds run in parallel (default 1)
  --mix PUTS,DELS,NEWS,READS,GETS,PAIRS,MACHINE    what clients ask for, by weight
  --day ASKS         one day of five machines in five regions, with ASKS client requests
  --lies             disks lie, against which nothing is promised: counts what notices it
  --audit EPAXOS     has this program audit what each run leaves
  --plant NAME,..    plants each of these faults, or `all`, and prints the seed that finds it (needs --features plants)
  --folder FOLDER    where a failed run is left; without it a folder among temporary files
  --show EPAXOS      has this program make bundles and pages of a failed run, and explain them; without it the commands
                     for that are printed

The first run that fails is shrunk and shown, and the status is 1. A planted fault is, where it is the only one; then
the status is 1 if it isn't found.
";

/// With this many runs machines come back with older copies of their disks, and some of these have to be noticed.
const MANY: u64 = 200;

/// What is asked for.
struct Options {
    first: u64,
    seeds: Option<u64>,
    time: Option<Duration>,
    plant: Option<String>,
    threads: usize,
    audit: Option<String>,
    show: Option<String>,
    folder: Option<PathBuf>,
    lies: bool,
    day: Option<u32>,
    mix: Mix,
}

fn options() -> Result<Options, String> {
    let (time, plant, audit, day, mix) = (None, None, None, None, Mix::default());
    let (show, folder, lies) = (None, None, false);
    let mut options = Options { first: 1, seeds: None, time, plant, threads: 1, audit, show, folder, lies, day, mix };
    let mut words = env::args().skip(1);
    while let Some(word) = words.next() {
        if word == "--lies" {
            options.lies = true;
            continue;
        }
        let value = words.next().ok_or_else(|| format!("{word} takes a value"))?;
        let number = || value.parse::<u64>().map_err(|_| format!("{word} takes a number"));
        match word.as_str() {
            "--seeds" => options.seeds = Some(number()?),
            "--first" => options.first = number()?,
            "--seed" => (options.first, options.seeds) = (number()?, Some(1)),
            "--seconds" => options.time = Some(Duration::from_secs(number()?)),
            "--plant" => options.plant = Some(value),
            "--audit" => options.audit = Some(value),
            "--show" => options.show = Some(value),
            "--folder" => options.folder = Some(value.into()),
            "--day" => options.day = Some(number()?.clamp(1, 100_000_000) as u32),
            "--mix" => options.mix = mix_of(&value).ok_or("--mix takes seven numbers, not all 0")?,
            "--threads" => options.threads = number()?.clamp(1, 64) as usize,
            _ => return Err(format!("unknown option {word}")),
        }
    }
    Ok(options)
}

/// Seven numbers, of which one is above 0.
fn mix_of(value: &str) -> Option<Mix> {
    let all: Vec<u32> = value.split(',').map(|it| it.parse().ok().filter(|it| *it <= 1_000)).collect::<Option<_>>()?;
    let [puts, dels, news, reads, gets, pairs, machine] = all[..] else { return None };
    (all.iter().sum::<u32>() > 0).then_some(Mix { puts, dels, news, reads, gets, pairs, machine })
}

/// The faults of these names.
fn plants_of(names: &str) -> Result<Vec<Plant>, String> {
    let of = |name: &str| Plant::read(name).ok_or_else(|| format!("no fault is named {name}"));
    if names == "all" { Ok(Plant::ALL.into()) } else { names.split(',').map(of).collect() }
}

/// Runs the plan of a seed.
fn run_seed(options: &Options, seed: u64, plant: Option<Plant>) -> (Seen, Option<Failure>) {
    match &options.audit {
        Some(program) => {
            let scratch = env::temp_dir().join(format!("epaxos-sim-{}-{seed}", std::process::id()));
            run_audited(&plan_of(options, seed), plant, &Audit { program: program.into(), scratch })
        }
        _ => run_planted(&plan_of(options, seed), plant),
    }
}

fn plan_of(options: &Options, seed: u64) -> Plan {
    let plan = options.day.map_or_else(|| Plan::of_seed(seed), |asks| Plan::day(seed, asks));
    let plan = Plan { mix: options.mix, ..plan };
    if options.lies { plan.lying() } else { plan }
}

/// Runs seeds until one fails or time is up: how many, what was seen, and the least that failed. What runs on when time
/// is up is broken off, and named.
fn seeds(options: &Arc<Options>, plant: Option<Plant>) -> (u64, Seen, Option<u64>) {
    let (next, is_over) = (Arc::new(AtomicU64::new(options.first)), Arc::new(AtomicBool::new(false)));
    let (sender, receiver) = mpsc::channel();
    let last =
        options.first.saturating_add(options.seeds.unwrap_or(if options.time.is_some() { u64::MAX } else { 100 }));
    for _ in 0..options.threads {
        let (options, next, is_over, sender) = (options.clone(), next.clone(), is_over.clone(), sender.clone());
        thread::spawn(move || {
            while !is_over.load(Ordering::Relaxed) {
                let seed = next.fetch_add(1, Ordering::Relaxed);
                // (nobody listens any more once it is over)
                if seed >= last || sender.send((seed, None)).is_err() {
                    break;
                }
                let _ = sender.send((seed, Some(run_seed(&options, seed, plant))));
            }
        });
    }
    drop(sender);
    let (begun, mut count, mut all, mut running) = (Instant::now(), 0, Seen::default(), BTreeMap::new());
    let mut failed = None;
    loop {
        let left = options.time.map_or(Duration::MAX, |time| time.saturating_sub(begun.elapsed()));
        if left.is_zero() {
            break;
        }
        match receiver.recv_timeout(left) {
            Ok((seed, None)) => _ = running.insert(seed, Instant::now()),
            Ok((seed, Some((seen, failure)))) => {
                count += 1;
                all += seen;
                running.remove(&seed);
                if let Some(failure) = failure {
                    // (of those that other threads have begun, one below it may fail too)
                    is_over.store(true, Ordering::Relaxed);
                    if plant.is_none() {
                        println!("seed {seed} fails: {failure}");
                    }
                    failed = Some(failed.map_or(seed, |it: u64| it.min(seed)));
                }
            }
            Err(_) => break,
        }
    }
    is_over.store(true, Ordering::Relaxed);
    running.iter().for_each(|(seed, since)| {
        println!("seed {seed} broken off after {:.1} s", since.elapsed().as_secs_f64());
    });
    (count, all, failed)
}

/// Shows the run of a seed, shrunk.
fn show(options: &Options, seed: u64, plant: Option<Plant>) {
    let least = shrunk(&plan_of(options, seed), plant);
    match run_planted(&least, plant).1 {
        Some(failure) => println!("shrunk: {failure}"),
        None => println!("not shrunk: it is the audit alone that finds it"),
    }
    println!("{least}");
    let more = plant.map_or(String::new(), |plant| format!(" --plant {plant}"));
    println!("again: cargo run --release --example sim -- --seed {seed}{more}");
    let place = || env::temp_dir().join(format!("epaxos-sim-left-{}-{seed}", std::process::id()));
    let folder = options.folder.clone().unwrap_or_else(place);
    if let Err(error) = show_left(options, &folder, || leave(&least, plant, &folder)) {
        println!("{}: {error}", folder.display());
    }
}

/// Shows what is left of a run in a folder, by the program `epaxos` or by the words for it.
fn show_left(options: &Options, folder: &Path, leave: impl FnOnce() -> io::Result<Vec<Left>>) -> io::Result<()> {
    if folder.exists() {
        return Err(io::ErrorKind::AlreadyExists.into());
    }
    let left = leave()?;
    println!("{} has what it leaves: a folder for each replica, and what was asked and told", folder.display());
    let Some(program) = &options.show else {
        if let Some(left) = left.last() {
            let bundle = folder.join(format!("{}.bundle", left.generation));
            let (words, bundle) = (left.collecting(folder), bundle.display());
            let words: Vec<_> = words.iter().map(|it| it.display().to_string()).collect();
            println!("    epaxos {} > {bundle}", words.join(" "));
            ["explain", "show"].iter().for_each(|part| println!("    epaxos {part} < {bundle}"));
            println!("    epaxos draw < {bundle} > {}", folder.join(format!("{}.html", left.generation)).display());
        }
        return Ok(());
    };
    for it in &left {
        let generation = it.generation;
        let file = |kind: &str| folder.join(format!("{generation}.{kind}"));
        let collected = said(program, &it.collecting(folder), None)?;
        if !collected.status.success() {
            println!("generation {generation} makes no bundle: {}", first_line(&collected.stderr));
            continue;
        }
        fs::write(file("bundle"), collected.stdout)?;
        for (part, kind) in [("explain", "explained"), ("show", "shown"), ("draw", "html")] {
            let said = said(program, &[part.into()], Some(&file("bundle")))?;
            fs::write(file(kind), if said.stdout.is_empty() { said.stderr } else { said.stdout })?;
        }
        println!("generation {generation}: {}", first_line(&fs::read(file("explained"))?));
        println!("    {}; in full: .explained, .shown; the page: .html", file("bundle").display());
    }
    Ok(())
}

/// What a program says.
fn said(program: &str, words: &[OsString], input: Option<&Path>) -> io::Result<Output> {
    let input = input.map_or(Ok(Stdio::null()), |from| File::open(from).map(Stdio::from))?;
    Command::new(program).args(words).stdin(input).output()
}

fn first_line(text: &[u8]) -> String {
    String::from_utf8_lossy(text).lines().next().unwrap_or_default().into()
}

fn main() -> ExitCode {
    if env::args().skip(1).any(|word| word == "--help" || word == "-h") {
        print!("{HELP}");
        return ExitCode::SUCCESS;
    }
    let options = match options() {
        Ok(options) => Arc::new(options),
        Err(why) => {
            eprintln!("sim: {why}");
            return ExitCode::from(2);
        }
    };
    let plants = match options.plant.as_deref().map_or(Ok(Vec::new()), plants_of) {
        Ok(plants) => plants,
        Err(why) => {
            eprintln!("sim: {why}");
            return ExitCode::from(2);
        }
    };
    if !plants.is_empty() && !cfg!(feature = "plants") {
        eprintln!("sim: faults are planted with --features plants");
        return ExitCode::from(2);
    }
    let mut is_well = true;
    for plant in &plants {
        let (count, _, failed) = seeds(&options, Some(*plant));
        match failed {
            Some(seed) => {
                let why = run_seed(&options, seed, Some(*plant)).1;
                println!("{plant}: found at seed {seed}: {}", why.map_or("nothing".into(), |it| it.to_string()));
            }
            None => println!("{plant}: not found in {count} seeds"),
        }
        is_well &= failed.is_some();
        if plants.len() == 1 {
            failed.into_iter().for_each(|seed| show(&options, seed, Some(*plant)));
        }
    }
    if !plants.is_empty() {
        return if is_well { ExitCode::SUCCESS } else { ExitCode::FAILURE };
    }
    let begun = Instant::now();
    let (count, seen, failed) = seeds(&options, None);
    println!(
        "{count} seeds from {}: {} questions, {} answered, {} given up, {} commands executed, {} together, in {} \
         generations",
        options.first, seen.asks, seen.told, seen.given_up, seen.commands, seen.together, seen.generations
    );
    println!(
        "{} crashes, {} slow ends, {} machines replaced, {} resizes, {} of {} older copies noticed, {} generations \
         audited, {} frames; {:.0} s simulated in {:.1} s",
        seen.crashes,
        seen.ended,
        seen.replaced,
        seen.resized,
        seen.older,
        seen.copies,
        seen.audited,
        seen.frames,
        seen.time.as_secs_f64(),
        begun.elapsed().as_secs_f64()
    );
    if options.lies {
        println!(
            "{} disks lied, and lost what they had said was there: {} noticed by hosts, {} by nobody; of the runs {} \
             refused by the audit, {} found by anything else",
            seen.lies, seen.lies_noticed, seen.lies_unseen, seen.lies_refused, seen.lies_found
        );
    }
    println!("digest {:016x}", seen.digest);
    if count >= MANY && seen.older == 0 {
        println!("no host has noticed that its disk is an older copy");
        return ExitCode::FAILURE;
    }
    match failed {
        None => ExitCode::SUCCESS,
        Some(seed) if options.day.is_some() => {
            println!("the day of seed {seed} isn't right");
            ExitCode::FAILURE
        }
        Some(seed) => {
            show(&options, seed, None);
            ExitCode::FAILURE
        }
    }
}
