//! A start of a host, by the words of `epaxos node --dir`, which .ci/folders.py compares it with: it prints in which
//! generation the replica is then, or why there is none. What a generation opens with is written before it ends, as a
//! node writes it at once.
use epaxos::Cluster;
use epaxos::host::{FolderFault, Host, HostFault, Settings, StartFault, Work};
use epaxos::service::{Disk, Folder};
use std::fs;
use std::path::PathBuf;
use std::process::ExitCode;
use std::time::{Duration, Instant};

/// How a start goes about the folder.
enum Begin {
    Again,
    New,
    Take(PathBuf),
}

/// Why there is no generation.
enum Fault {
    Start(StartFault),
    Host(HostFault),
}

impl Fault {
    /// Its line, and the status that it ends with.
    fn line_and_status(&self) -> (String, u8) {
        match self {
            Fault::Start(fault @ StartFault::Folder(folder)) => {
                (fault.to_string(), if folder.is_lasting() { 2 } else { 4 })
            }
            Fault::Start(fault) => (fault.to_string(), 4),
            Fault::Host(fault) => (fault.to_string(), 4),
        }
    }
}

fn main() -> ExitCode {
    let Some((settings, folder, begin)) = read(std::env::args().skip(1)) else {
        eprintln!("usage: folder node --replicas N --replica R --dir FOLDER [--new | --take FILE]");
        return ExitCode::from(1);
    };
    match start(&settings, &folder, &begin) {
        Ok(generation) => {
            println!("{generation}");
            ExitCode::SUCCESS
        }
        Err(fault) => {
            let (line, status) = fault.line_and_status();
            eprintln!("{line}");
            ExitCode::from(status)
        }
    }
}

/// The generation in which the replica is, once all is written that can be.
fn start(settings: &Settings, folder: &PathBuf, begin: &Begin) -> Result<u32, Fault> {
    let disk = |error| Fault::Start(StartFault::Disk(error));
    let mut now = Instant::now();
    // (a store's folder is there)
    fs::metadata(folder).map_err(disk)?;
    let mut folder = Folder::open(folder).map_err(disk)?;
    let host = match begin {
        Begin::Again => Host::open(settings, &folder, now),
        Begin::New => Host::begin(settings, &folder, now),
        Begin::Take(path) => {
            let taken = fs::read(path).map_err(disk)?;
            Host::take(settings, &folder, &taken, now)
        }
    };
    let mut host = host.map_err(Fault::Start)?;
    let (generation, replicas) = (host.generation(), host.members().len() as u8);
    if replicas != settings.cluster.replicas() {
        return Err(Fault::Start(match begin {
            Begin::Take(_) => FolderFault::OtherCluster(replicas).into(),
            _ => FolderFault::OtherSize(generation, replicas).into(),
        }));
    }
    // (a seal that was executed is left once nobody is waited for)
    for _ in 0..10 {
        let turn = host.turn(now).map_err(Fault::Host)?;
        if let Some(writes) = turn.writes {
            folder.carry_out(&writes.acts).map_err(disk)?;
            host.synced(writes.number, now).map_err(Fault::Host)?;
        }
        for work in turn.work {
            match work {
                Work::LetGo { generation, mut checkpoint } => {
                    checkpoint.let_go();
                    host.let_go(generation, checkpoint, now);
                }
                Work::Write { generation, checkpoint, .. } => {
                    let (digest, bytes) = folder.write_opening(generation, checkpoint).map_err(disk)?;
                    host.opening_written(generation, &digest, bytes, now);
                }
                _ => {}
            }
        }
        now += Duration::from_millis(200);
    }
    Ok(host.generation())
}

fn read(mut words: impl Iterator<Item = String>) -> Option<(Settings, PathBuf, Begin)> {
    let (mut replicas, mut replica, mut folder, mut begin) = (0, 0, PathBuf::new(), Begin::Again);
    words.next().filter(|word| word == "node")?;
    while let Some(word) = words.next() {
        match word.as_str() {
            "--replicas" => replicas = words.next()?.parse().ok()?,
            "--replica" => replica = words.next()?.parse().ok()?,
            "--dir" => folder = words.next()?.into(),
            "--new" => begin = Begin::New,
            "--take" => begin = Begin::Take(words.next()?.into()),
            _ => return None,
        }
    }
    let settings =
        Settings { checkpoint: 0, kept: u32::MAX, ..Settings::new(Cluster::try_from(replicas).ok()?, replica) };
    Some((settings, folder, begin))
}
