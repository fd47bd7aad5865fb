//! What a put by three hosts costs: cargo run --release --example hosts -- [OPEN [ROUNDS]]
//!
//! The hosts take turns in one thread, with queues for links and with disks in memory, each of which has done what it
//! was given before its host's next turn. OPEN puts (30) of 100 bytes, each of a key of its own, are under way at all
//! together. Each of ROUNDS rounds (5) is a cluster of its own, which does 20,000 puts after 2,000 that aren't counted.
#![forbid(unsafe_code)]

use epaxos::host::{Host, Settings, Turn};
use epaxos::service::{Disk, MemoryDisk};
use epaxos::{Cluster, OwnedCommand};
use std::error::Error;
use std::fs;
use std::time::{Duration, Instant};

const PUTS: u64 = 20_000;
const UNCOUNTED: u64 = 2_000;
const VALUE: usize = 100;

/// Three hosts, and what is on its way to each.
struct Three {
    hosts: Vec<Host>,
    disks: Vec<MemoryDisk>,
    coming: Vec<Vec<(u8, Vec<u8>)>>,
    asked: u64,
    answered: u64,
}

impl Three {
    fn begin(now: Instant) -> Result<Three, Box<dyn Error>> {
        let disks: Vec<MemoryDisk> = (0..3).map(|_| MemoryDisk::default()).collect();
        let begin = |(me, disk): (u8, &MemoryDisk)| {
            let settings = Settings { seed: me.into(), ..Settings::new(Cluster::Three, me) };
            Host::begin(&settings, disk, now)
        };
        let mut hosts = (0..).zip(&disks).map(begin).collect::<Result<Vec<Host>, _>>()?;
        for (me, host) in hosts.iter_mut().enumerate() {
            (0..3).filter(|peer| *peer != me as u8).for_each(|peer| host.link_opened(peer, now));
        }
        Ok(Three { hosts, disks, coming: vec![Vec::new(); 3], asked: 0, answered: 0 })
    }

    /// One host's turn, where one is due, with what has come for it.
    fn turn(&mut self, me: usize) -> Result<(), Box<dyn Error>> {
        let (host, now) = (&mut self.hosts[me], Instant::now());
        if self.coming[me].is_empty() && now < host.due() {
            return Ok(());
        }
        for (from, bytes) in std::mem::take(&mut self.coming[me]) {
            host.receive(from, bytes, now)?;
        }
        let Turn { frames, writes, replies, work, .. } = host.turn(now)?;
        if let Some(writes) = writes {
            self.disks[me].carry_out(&writes.acts)?;
            host.synced(writes.number, Instant::now())?;
        }
        // (openings are asked for by nobody here)
        drop(work);
        frames.into_iter().for_each(|(to, bytes)| self.coming[usize::from(to)].push((me as u8, bytes)));
        self.answered += replies.len() as u64;
        Ok(())
    }

    /// Keeps so many puts under way until so many are answered.
    fn go_on(&mut self, open: u64, until: u64) -> Result<(), Box<dyn Error>> {
        while self.answered < until {
            while self.asked < (self.answered + open).min(until) {
                let (host, key) = (&mut self.hosts[self.asked as usize % 3], format!("key-{}", self.asked));
                let put = OwnedCommand::Put { key: key.into(), value: vec![b'v'; VALUE] };
                host.call(self.asked, put, Instant::now());
                self.asked += 1;
            }
            (0..3).try_for_each(|me| self.turn(me))?;
        }
        Ok(())
    }
}

/// How long this thread, which there is one of, was on a processor.
fn processor_time() -> Result<Duration, Box<dyn Error>> {
    let text = fs::read_to_string("/proc/self/schedstat")?;
    Ok(Duration::from_nanos(text.split_whitespace().next().ok_or("no time is told")?.parse()?))
}

/// A round: what a put took of the processor.
fn round(open: u64) -> Result<Duration, Box<dyn Error>> {
    let mut three = Three::begin(Instant::now())?;
    three.go_on(open, UNCOUNTED)?;
    let before = processor_time()?;
    three.go_on(open, UNCOUNTED + PUTS)?;
    Ok((processor_time()? - before) / PUTS as u32)
}

fn main() -> Result<(), Box<dyn Error>> {
    let numbers: Vec<u64> = std::env::args().skip(1).map(|it| it.parse()).collect::<Result<_, _>>()?;
    let number = |at: usize, otherwise| numbers.get(at).copied().unwrap_or(otherwise).max(1);
    let (open, rounds) = (number(0, 30), number(1, 5));
    let mut all = (0..rounds).map(|_| round(open)).collect::<Result<Vec<_>, _>>()?;
    all.sort_unstable();
    let micros = |it: Duration| it.as_secs_f64() * 1e6;
    println!(
        "{:.1} us of processor time a put, at least {:.1}, {open} at once",
        micros(all[all.len() / 2]),
        micros(all[0])
    );
    Ok(())
}
