//! A cluster of three replicas in one process: a thread each, channels for a network, and a file each for a log.
//!
//!     cargo run --example three -- FOLDER
//!
//! Begins the replicas in the folder, or goes on with those that are there. Each of three clients puts 100 values, at a replica of its own; the keys are the
//! same ones for all. Each tenth value it reads at the next replica, by a read that writes nothing. Then the maps are
//! compared. What is left can be audited: each replica has a folder, as `epaxos collect` reads it.
#![forbid(unsafe_code)]

use epaxos::{Call, Cluster, Command, Instance, LogFile, OwnedReading, Patience, Replica, Setup, Waits};
use std::error::Error;
use std::fs::{self, File};
use std::io::Write;
use std::path::{Path, PathBuf};
use std::sync::mpsc::{Receiver, Sender, channel};
use std::thread;
use std::time::{Duration, Instant};

const CLUSTER: Cluster = Cluster::Three;
const PUTS: u32 = 100;
const KEYS: u32 = 5;
/// Between two looks for what is late.
const LOOK: Duration = Duration::from_millis(20);

/// What a replica's thread is sent.
enum Message {
    Frame(Vec<u8>),
    /// A client puts a value at a key, and waits for the stamp of its receipt.
    Put {
        call: Call,
        key: String,
        value: String,
        done: Sender<u64>,
    },
    /// What interferes with a read of this key?
    Look {
        key: String,
        found: Sender<Vec<Instance>>,
    },
    /// A client reads, for whom this was found.
    Read(Read),
    /// What does the map have at these keys?
    Map {
        keys: Vec<String>,
        values: Sender<Vec<Option<Vec<u8>>>>,
    },
    End,
}

/// A read that writes nothing.
struct Read {
    key: String,
    found: Vec<Instance>,
    value: Sender<Option<Vec<u8>>>,
}

/// A replica with all that its thread has.
struct Host {
    replica: Replica,
    file: LogFile,
    /// The receipts of what clients were answered, for an audit.
    receipts: File,
    peers: Vec<Sender<Message>>,
    patience: Patience,
    begun: Instant,
    /// The clients that wait, by their numbers.
    waiting: Vec<(u32, Sender<u64>)>,
    /// The looks and the reads that wait.
    looks: Vec<(String, Sender<Vec<Instance>>)>,
    reads: Vec<Read>,
}

impl Host {
    /// Begins a replica in its folder, or goes on with the one that is there.
    fn open(
        folder: &Path,
        me: u8,
        is_first: bool,
        peers: Vec<Sender<Message>>,
    ) -> Result<Host, Box<dyn Error + Send + Sync>> {
        let path = folder.join("1/log");
        let (file, replica) = if is_first {
            fs::create_dir_all(folder.join("1"))?;
            fs::write(folder.join("1/opening"), CLUSTER.first_opening())?;
            // (a power loss must not take the log with its folders)
            for above in folder.ancestors().take(2) {
                File::open(above)?.sync_all()?;
            }
            (LogFile::begin(&path)?, Setup::new(CLUSTER, me).begin()?)
        } else {
            // (where the log isn't there any more this is refused: a replica that has forgotten must not come back)
            let (file, log) = LogFile::open(&path)?;
            (file, Setup::new(CLUSTER, me).open(&log)?)
        };
        let receipts = File::options().append(true).create(true).open(folder.join("receipts"))?;
        let patience = Patience::new(CLUSTER, me, Waits::MICROSECONDS, u64::from(me))?;
        let (waiting, looks, reads) = (Vec::new(), Vec::new(), Vec::new());
        Ok(Host { replica, file, receipts, peers, patience, begun: Instant::now(), waiting, looks, reads })
    }

    /// Takes what comes until it is to end.
    fn run(mut self, inbox: &Receiver<Message>) -> Result<(), Box<dyn Error + Send + Sync>> {
        self.settle()?;
        // What was sent before this start may be lost, and of a Commit that is lost nothing may be open: all is sent once more.
        for frame in self.replica.report(0, 0)?.frames() {
            let _ = self.peers[usize::from(frame.to)].send(Message::Frame(frame.bytes.to_vec()));
        }
        loop {
            let first = inbox.recv_timeout(LOOK).ok();
            for message in first.into_iter().chain(inbox.try_iter()) {
                match message {
                    Message::Frame(frame) => _ = self.replica.handle(&frame),
                    Message::Put { call, key, value, done } => {
                        self.replica.propose(call, Command::Put { key: key.as_bytes(), value: value.as_bytes() })?;
                        self.waiting.push((call.client, done));
                    }
                    Message::Look { key, found } => self.looks.push((key, found)),
                    Message::Read(read) => self.reads.push(read),
                    Message::Map { keys, values } => {
                        self.replica.execute_all()?;
                        self.settle()?;
                        let mut found = Vec::new();
                        for key in keys {
                            found.push(self.replica.get(key.as_bytes())?.map(<[u8]>::to_vec));
                        }
                        let _ = values.send(found);
                    }
                    Message::End => return Ok(()),
                }
            }
            // (a read waits for what others have proposed, too)
            if self.reads.is_empty() {
                self.replica.advance()?
            } else {
                self.replica.execute_all()?
            }
            self.settle()?;
        }
    }

    /// The log first; then frames, and clients; then what is late.
    fn settle(&mut self) -> Result<(), Box<dyn Error + Send + Sync>> {
        let output = self.replica.ready_with_open(64)?.commit(&mut self.file)?;
        for frame in output.frames() {
            let _ = self.peers[usize::from(frame.to)].send(Message::Frame(frame.bytes.to_vec()));
        }
        for receipt in output.receipts() {
            self.receipts.write_all(receipt.bytes)?;
            if let Some(at) = self.waiting.iter().position(|(client, _)| *client == receipt.client) {
                let (_, done) = self.waiting.swap_remove(at);
                let _ = done.send(receipt.stamp);
            }
        }
        let now = self.begun.elapsed().as_micros() as u64;
        let open: Vec<_> = output.open().collect();
        self.answer_readers()?;
        let late = self.patience.turn(now, &open, &[])?;
        for event in &late {
            let _refused = self.replica.take(event);
        }
        Ok(())
    }

    /// Answers looks and reads, once all that was taken is on the disk. A read whose instances aren't all executed waits.
    fn answer_readers(&mut self) -> Result<(), Box<dyn Error + Send + Sync>> {
        for (key, found) in self.looks.drain(..) {
            let _ = found.send(self.replica.interfering(&[key.as_bytes()])?.concat());
        }
        let reads: Vec<_> = self.reads.iter().map(|it| (it.key.as_bytes(), &it.found[..])).collect();
        let readings = self.replica.read(&reads)?;
        for (read, reading) in std::mem::take(&mut self.reads).into_iter().zip(readings) {
            match reading {
                OwnedReading::Waits(_) => self.reads.push(read),
                OwnedReading::Present(value) => _ = read.value.send(Some(value)),
                OwnedReading::Absent | OwnedReading::Closed => _ = read.value.send(None),
            }
        }
        Ok(())
    }
}

/// A client of replica `me`: puts values one after the other, and hands on the stamps of its receipts.
fn client(number: u32, me: usize, replicas: &[Sender<Message>]) -> Result<(), Box<dyn Error + Send + Sync>> {
    let mut seen = 0;
    for request in 1..=PUTS {
        // (where the replica ends without an answer nobody has `done` any more, and the wait ends)
        let (done, stamps) = channel();
        let (key, value) = (format!("key {}", request % KEYS), format!("{number}.{request}"));
        let put =
            Message::Put { call: Call { client: number, request, seen }, key: key.clone(), value: value.clone(), done };
        replicas[me].send(put)?;
        seen = stamps.recv()?;
        // What was put is read anywhere, or what another client put since.
        if request % 10 == 0 {
            let read = String::from_utf8(read(key, &replicas[(me + 1) % 3], &replicas[(me + 2) % 3])?)?;
            if read != value && read.starts_with(&format!("{number}.")) {
                return Err(format!("read {read} behind {value}").into());
            }
        }
    }
    Ok(())
}

/// Reads the key at a replica: this one and another one, so F + 1, report what interferes with the read.
fn read(
    key: String,
    reader: &Sender<Message>,
    other: &Sender<Message>,
) -> Result<Vec<u8>, Box<dyn Error + Send + Sync>> {
    let (found, looks) = channel();
    for replica in [reader, other] {
        replica.send(Message::Look { key: key.clone(), found: found.clone() })?;
    }
    drop(found);
    let mut found = [looks.recv()?, looks.recv()?].concat();
    found.sort();
    found.dedup();
    let (value, values) = channel();
    reader.send(Message::Read(Read { key, found, value }))?;
    values.recv()?.ok_or_else(|| "a key that was put has no value".into())
}

/// How often the cluster was started in the folder before.
fn starts(folder: &Path) -> Result<u32, Box<dyn Error>> {
    let path = folder.join("starts");
    let starts = if path.exists() { fs::read_to_string(&path)?.trim().parse()? } else { 0 };
    fs::write(&path, (starts + 1).to_string())?;
    File::open(&path)?.sync_all()?;
    Ok(starts)
}

fn main() -> Result<(), Box<dyn Error>> {
    let folder = PathBuf::from(std::env::args_os().nth(1).ok_or("usage: three FOLDER")?);
    run(&folder)?;
    let path = |me: u8| folder.join(me.to_string()).display().to_string();
    let folders = [0, 1, 2].map(path).join(" ");
    let receipts = [0, 1, 2].map(|me| format!("--receipts {}/receipts", path(me))).join(" ");
    println!("an audit of it, by `epaxos` of the repository's top:");
    println!("epaxos collect --generation 1 {folders} {receipts} | epaxos audit");
    Ok(())
}

/// Starts the cluster in the folder, and ends it when all is done.
pub fn run(folder: &Path) -> Result<(), Box<dyn Error>> {
    fs::create_dir_all(folder)?;
    let starts = starts(folder)?;
    // A client's number and its request's name one command, over all starts: each start has numbers of its own.
    let first = 3 * starts + 1;
    let (senders, inboxes): (Vec<_>, Vec<_>) = (0..3).map(|_| channel::<Message>()).unzip();
    let begun = Instant::now();
    let mut replicas = Vec::new();
    for (me, inbox) in (0..).zip(inboxes) {
        let opened = Host::open(&folder.join(me.to_string()), me, starts == 0, senders.clone());
        let host = opened.map_err(|error| error.to_string())?;
        replicas.push(thread::spawn(move || host.run(&inbox)));
    }
    let clients = (first..).zip(0..3).map(|(number, me)| {
        let replicas = senders.clone();
        thread::spawn(move || client(number, me, &replicas))
    });
    let clients: Vec<_> = clients.collect();
    for client in clients {
        client.join().expect("a client panicked").map_err(|error| error.to_string())?;
    }
    println!("{} puts in {:.1?}", 3 * PUTS, begun.elapsed());

    // The last commits may still be on their way to the others.
    let keys: Vec<String> = (0..KEYS).map(|it| format!("key {it}")).collect();
    let deadline = Instant::now() + Duration::from_secs(60);
    loop {
        let (values, maps) = channel();
        for at in &senders {
            at.send(Message::Map { keys: keys.clone(), values: values.clone() })?;
        }
        drop(values);
        let maps: Vec<_> = maps.iter().take(3).collect();
        if maps.len() < 3 {
            return Err("a replica has ended".into());
        }
        if maps[0] == maps[1] && maps[1] == maps[2] && maps[0].iter().all(Option::is_some) {
            for (key, value) in keys.iter().zip(&maps[0]) {
                println!("{key}: {}", String::from_utf8_lossy(value.as_deref().unwrap_or_default()));
            }
            println!("three replicas agree");
            break;
        }
        if Instant::now() > deadline {
            return Err("the maps differ".into());
        }
        thread::sleep(LOOK);
    }
    for at in &senders {
        at.send(Message::End)?;
    }
    for replica in replicas {
        replica.join().expect("a replica panicked").map_err(|error| error.to_string())?;
    }
    Ok(())
}
