//! What a change of generation takes in the core:
//! cargo run --release --example change -- KEYS COMMANDS [REPEATS [spread]]
//!
//! Three replicas in this process, whose map has so many keys of 16 bytes with values of 100, do so many commands, each
//! of one key: all of them new, or spread over twice the keys. Others' commands are executed now and then, as a store
//! does it. Then one proposes a seal, and each goes on in the next generation; and all that once more. (.ci/growth.py
//! counts what the library does meanwhile.) Printed is the
//! processor time of each step that takes some; and in the end, by the clock, how long `succeed` took, and a command
//! with all that comes of it.

use epaxos::{Call, Checkpoint, Cluster, Command, Replica, Setup, Succession};
use std::collections::VecDeque;
use std::error::Error;
use std::fs;
use std::thread::{self, JoinHandle};
use std::time::{Duration, Instant};
use store::life::sum::sum_of;

type Res<T> = Result<T, Box<dyn Error>>;

/// So many commands are under way at each replica,
const OPEN: u32 = 10;
/// and after so many rounds of them others' commands are executed.
const BETWEEN_EXECUTIONS: u32 = 80;
/// What takes less isn't printed.
const LEAST: Duration = Duration::from_millis(1);

fn key(number: usize) -> Vec<u8> {
    format!("key-{number:012}").into_bytes()
}

fn value(number: usize) -> Vec<u8> {
    format!("{number:0100}").into_bytes()
}

/// The opening of generation 2, whose map has every second key (docs/FORMATS.md, section 12).
fn opening(keys: usize) -> Vec<u8> {
    let mut bytes = b"EPOP\x03\x03\0\0\0\x02".to_vec();
    bytes.extend(1u64.to_be_bytes());
    // (a seal, of no value)
    bytes.extend([1, 0, 0, 0, 0]);
    bytes.extend((keys as u32).to_be_bytes());
    for number in 0..keys {
        let (key, value) = (key(2 * number), value(number));
        bytes.push(key.len() as u8);
        bytes.extend((value.len() as u32).to_be_bytes());
        bytes.extend([key, value].concat());
    }
    bytes.extend(0u32.to_be_bytes());
    let digest = sum_of(&bytes);
    bytes.extend(digest);
    bytes
}

fn processor() -> Duration {
    let text = fs::read_to_string("/proc/thread-self/schedstat").unwrap_or_default();
    Duration::from_nanos(text.split(' ').next().and_then(|word| word.parse().ok()).unwrap_or(0))
}

fn timed<T>(what: &str, run: impl FnOnce() -> T) -> T {
    let before = processor();
    let it = run();
    let spent = processor() - before;
    if spent >= LEAST {
        println!("{what}: {:.1} ms", spent.as_secs_f64() * 1e3);
    }
    it
}

/// Hands on frames until there are none.
fn settle(replicas: &mut [Replica], is_timed: bool) -> Res<()> {
    let mut frames: VecDeque<(u8, Vec<u8>)> = VecDeque::new();
    loop {
        for replica in replicas.iter_mut() {
            let step = |replica: &mut Replica| -> Res<Vec<(u8, Vec<u8>)>> {
                replica.advance()?;
                let output = replica.ready()?.assume_synced()?;
                Ok(output.frames().map(|frame| (frame.to, frame.bytes.to_vec())).collect())
            };
            frames.extend(if is_timed { timed("advance", || step(replica))? } else { step(replica)? });
        }
        if frames.is_empty() {
            return Ok(());
        }
        while let Some((to, bytes)) = frames.pop_front() {
            let replica = &mut replicas[usize::from(to)];
            let handled = if is_timed {
                timed(&format!("a frame of kind {}, {} bytes", bytes[3], bytes.len()), || replica.handle(&bytes))
            } else {
                replica.handle(&bytes)
            };
            handled?;
        }
    }
}

fn main() -> Res<()> {
    let words: Vec<String> = std::env::args().skip(1).collect();
    let [keys, commands, more @ ..] = &words[..] else {
        return Err("usage: change KEYS COMMANDS [REPEATS [spread]]".into());
    };
    let (keys, commands): (usize, u32) = (keys.parse()?, commands.parse()?);
    let (repeats, is_spread) = (more.first().map_or(Ok(1), |word| word.parse::<u32>())?, more.len() > 1);
    let opening = opening(keys);
    let begin = |me: u8| -> Res<Replica> {
        let setup = Setup { opening: Some(&opening), ..Setup::new(Cluster::Three, me) };
        let mut replica = setup.begin()?;
        drop(replica.ready()?.assume_synced()?);
        Ok(replica)
    };
    let mut replicas = (0..3).map(begin).collect::<Res<Vec<_>>>()?;
    let (mut number, mut request) = (0, 0);
    let (mut stops, mut rates, mut letting_go) = (Vec::new(), Vec::new(), Vec::new());
    for generation in 3..3 + repeats {
        let (begun, spent) = (Instant::now(), processor());
        for round in 1..=commands.div_ceil(3 * OPEN) {
            for replica in replicas.iter_mut() {
                for client in 1..=OPEN {
                    (number, request) = (number + 1, request + 1);
                    // (a prime number of places farther)
                    let place = if is_spread { number * 7919 % (2 * keys.max(1)) } else { 2 * keys + number };
                    let put = Command::Put { key: &key(place), value: &value(number) };
                    replica.propose(Call::new(client, request), put)?;
                }
            }
            settle(&mut replicas, false)?;
            if round % BETWEEN_EXECUTIONS == 0 {
                replicas.iter_mut().try_for_each(Replica::execute_all)?;
            }
        }
        println!("generation {generation}, behind {commands} commands");
        let took = |whole: Duration| whole.as_secs_f64() * 1e6 / f64::from(commands);
        rates.push((took(processor() - spent), took(begun.elapsed())));
        request += 1;
        timed("a seal proposed", || replicas[0].propose(Call::new(OPEN + 1, request), Command::Seal { value: b"" }))?;
        settle(&mut replicas, true)?;
        let mut left = Vec::new();
        for (me, replica) in (0..).zip(replicas.iter_mut()) {
            timed("the rest executed", || replica.execute_all())?;
            drop(replica.ready()?.assume_synced()?);
            let reference = replica.reference(Cluster::Three, [0; 32])?;
            let (begun, spent) = (Instant::now(), processor());
            let checkpoint = timed("the map handed on", || replica.succeed(&Succession::new(reference, me)))?;
            let stop = (processor() - spent, begun.elapsed());
            if generation == 3 || stop.0 > LEAST {
                println!("by the clock: {:.1} ms", stop.1.as_secs_f64() * 1e3);
            }
            stops.push(stop);
            left.push(checkpoint);
            drop(replica.ready()?.assume_synced()?);
        }
        letting_go.push(thread::spawn(move || left.iter_mut().for_each(Checkpoint::let_go)));
    }
    letting_go.into_iter().try_for_each(JoinHandle::join).map_err(|_| "a thread has failed")?;
    let ms = |took: Duration| took.as_secs_f64() * 1e3;
    let spread = |mut took: Vec<f64>| {
        took.sort_by(f64::total_cmp);
        format!("median {:.1}, worst {:.1}", took[took.len() / 2], took[took.len() - 1])
    };
    let of = |which: fn(&(Duration, Duration)) -> Duration| spread(stops.iter().map(|it| ms(which(it))).collect());
    println!("succeed, ms of the processor: {}; by the clock: {}", of(|it| it.0), of(|it| it.1));
    let (processor, clock) = rates.into_iter().unzip();
    println!(
        "a command at three replicas, us of the processor: {}; by the clock: {}",
        spread(processor),
        spread(clock)
    );
    Ok(())
}
