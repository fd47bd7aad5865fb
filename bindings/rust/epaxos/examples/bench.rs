//! How many puts a second three replicas in one process do, a thread each, with channels for a network and no disk. All that a replica has for a peer, or for its
//! clients, at a time goes in one message.
//!
//!     cargo run --release --example bench -- [OPEN [ROUNDS [VALUE]]]
//!
//! OPEN puts are under way at once, at all replicas together (30), of 100 keys and values of VALUE bytes (8). Each of ROUNDS rounds (5) is a cluster of its own, which
//! does 1,900 puts a replica, and in the end each replica executes all that it knows of; making it isn't timed.
#![forbid(unsafe_code)]

use epaxos::{Call, Cluster, Command, Fault, Replica};
use std::error::Error;
use std::sync::mpsc::{Receiver, Sender, channel};
use std::thread;
use std::time::{Duration, Instant};

const PUTS: u32 = 1_900;
const KEYS: u32 = 100;
/// So much is taken before one `ready`.
const BATCH: usize = 256;

/// Frames for one replica, one behind the other, and where each ends.
#[derive(Default)]
struct Frames {
    bytes: Vec<u8>,
    ends: Vec<usize>,
}

impl Frames {
    fn push(&mut self, frame: &[u8]) {
        self.bytes.extend(frame);
        self.ends.push(self.bytes.len());
    }

    fn iter(&self) -> impl Iterator<Item = &[u8]> {
        let begins = std::iter::once(0).chain(self.ends.iter().copied());
        begins.zip(&self.ends).map(|(begin, &end)| &self.bytes[begin..end])
    }
}

enum Message {
    Frames(Frames),
    Put { call: Call, key: String, value: Vec<u8> },
    End,
}

/// A client's request was answered.
struct Done {
    client: u32,
    stamp: u64,
}

/// Takes what comes, and hands on what there is to send and to answer.
fn run(
    mut replica: Replica,
    inbox: &Receiver<Message>,
    peers: &[Sender<Message>],
    clients: &Sender<Vec<Done>>,
) -> Result<(), Fault> {
    while let Ok(first) = inbox.recv() {
        for message in std::iter::once(first).chain(inbox.try_iter().take(BATCH)) {
            match message {
                Message::Frames(frames) => frames.iter().try_for_each(|frame| replica.handle(frame))?,
                Message::Put { call, key, value } => {
                    replica.propose(call, Command::Put { key: key.as_bytes(), value: &value })?;
                }
                Message::End => return replica.execute_all(),
            }
        }
        replica.advance()?;
        let output = replica.ready()?.assume_synced()?;
        let mut frames: [Frames; 3] = Default::default();
        for frame in output.frames() {
            frames[usize::from(frame.to)].push(frame.bytes);
        }
        for (peer, frames) in peers.iter().zip(frames) {
            if !frames.ends.is_empty() {
                let _ = peer.send(Message::Frames(frames));
            }
        }
        let done: Vec<Done> = output.receipts().map(|it| Done { client: it.client, stamp: it.stamp }).collect();
        if !done.is_empty() {
            let _ = clients.send(done);
        }
    }
    Ok(())
}

/// Keeps so many puts under way at a replica, each a client's, until all are done.
fn drive(
    me: u32,
    open: u32,
    value: usize,
    at: &Sender<Message>,
    done: &Receiver<Vec<Done>>,
) -> Result<(), Box<dyn Error + Send + Sync>> {
    let mut requests = 0;
    let mut next = |client: u32, seen: u64| {
        requests += 1;
        let call = Call { client, request: requests, seen };
        at.send(Message::Put { call, key: format!("k{}", (requests + me) % KEYS), value: vec![0; value] })
    };
    for index in 0..open {
        next(1 + me + 3 * index, 0)?;
    }
    let mut answered = 0;
    while answered < PUTS {
        for Done { client, stamp } in done.recv()? {
            answered += 1;
            if answered + open <= PUTS {
                next(client, stamp)?;
            }
        }
    }
    Ok(())
}

/// A round: how long its puts took.
fn round(open: u32, value: usize) -> Result<Duration, Box<dyn Error + Send + Sync>> {
    let (senders, inboxes): (Vec<_>, Vec<_>) = (0..3).map(|_| channel::<Message>()).unzip();
    let (mut replicas, mut clients) = (Vec::new(), Vec::new());
    for (me, inbox) in (0..).zip(inboxes) {
        let (peers, (answers, done)) = (senders.clone(), channel());
        let mut replica = Replica::new(Cluster::Three, me)?;
        replica.ready()?.assume_synced()?;
        replicas.push(thread::spawn(move || run(replica, &inbox, &peers, &answers)));
        clients.push(done);
    }
    let begun = Instant::now();
    let drivers: Vec<_> = (0..)
        .zip(senders.clone().into_iter().zip(clients))
        .map(|(me, (at, done))| thread::spawn(move || drive(me, (open / 3).clamp(1, PUTS), value, &at, &done)))
        .collect();
    for driver in drivers {
        driver.join().expect("a driver panicked")?;
    }
    for at in &senders {
        at.send(Message::End)?;
    }
    for replica in replicas {
        replica.join().expect("a replica panicked")?;
    }
    Ok(begun.elapsed())
}

fn main() -> Result<(), Box<dyn Error>> {
    let numbers: Vec<u32> = std::env::args().skip(1).map(|it| it.parse()).collect::<Result<_, _>>()?;
    let number = |at: usize, otherwise| numbers.get(at).copied().unwrap_or(otherwise);
    let (open, rounds, value) = (number(0, 30), number(1, 5), number(2, 8));
    let mut took = Duration::ZERO;
    for _ in 0..rounds {
        took += round(open, value as usize).map_err(|error| error.to_string())?;
    }
    let puts = f64::from(3 * PUTS * rounds);
    println!(
        "{:.0} puts a second, {:.2} us each, {open} at once",
        puts / took.as_secs_f64(),
        took.as_secs_f64() * 1e6 / puts
    );
    Ok(())
}
