//! Three replicas that go through generations without a stop, each with a folder of its own: cargo run --example generations -- FOLDER
//!
//! Begins them in the folder, or goes on with those that are there, through three generations: in each, clients put values at all three, until a seal is executed.
//! The next generation begins in memory, and on the disk by a reference; the file that it opens with is written later, by another thread, and then what is older
//! is dropped. At the end each replica is started again from its folder, and has the map that it had.
//!
//! A folder has, for generation G, `G/opening` or `G/reference`, `G/whole` where the first is what the second stood for, `G/log`, and `G/left` once a later one is
//! begun.

use epaxos::{Call, Checkpoint, Cluster, Command, LogFile, Output, Reference, Replica, Setup, Succession, Sum};
use std::collections::BTreeMap;
use std::error::Error;
use std::fs::{self, File};
use std::io::Write;
use std::path::{Path, PathBuf};
use std::{env, thread};

const GENERATIONS: u32 = 3;
const PUTS: u32 = 20;
const KEYS: u32 = 5;
const CLUSTER: Cluster = Cluster::Three;

type Res<T> = Result<T, Box<dyn Error>>;
type Map = BTreeMap<Vec<u8>, Vec<u8>>;
type Frames = Vec<(u8, Vec<u8>)>;

fn sync_folder(path: &Path) -> Res<()> {
    Ok(File::open(path)?.sync_all()?)
}

/// What was written and synced beside the place comes into it, at once.
fn renamed(path: &Path) -> Res<()> {
    fs::rename(path.with_extension("new"), path)?;
    sync_folder(path.parent().ok_or("no folder")?)
}

/// Writes a file whole, or not at all.
fn written(path: &Path, bytes: &[u8]) -> Res<()> {
    let mut file = File::create(path.with_extension("new"))?;
    file.write_all(bytes)?;
    file.sync_all()?;
    renamed(path)
}

/// A replica's folder.
#[derive(Clone)]
struct Folder(PathBuf);

impl Folder {
    fn path(&self, generation: u32, name: &str) -> PathBuf {
        self.0.join(generation.to_string()).join(name)
    }

    /// The generations that have a folder.
    fn generations(&self) -> Res<Vec<u32>> {
        let names = fs::read_dir(&self.0)?.map(|it| Ok(it?.file_name().to_string_lossy().parse::<u32>()?));
        names.collect()
    }

    fn read(&self, generation: u32, name: &str) -> Res<Option<Vec<u8>>> {
        let path = self.path(generation, name);
        if path.exists() { Ok(Some(fs::read(path)?)) } else { Ok(None) }
    }

    fn reference(&self, generation: u32) -> Res<Option<Reference>> {
        let Some(bytes) = self.read(generation, "reference")? else { return Ok(None) };
        Ok(Some(Reference::read(&bytes).ok_or("a reference is damaged")?))
    }

    /// Whether the generation can be begun by its opening: what a reference stood for counts once the binding says so.
    fn is_whole(&self, generation: u32) -> Res<bool> {
        let Some(opening) = self.read(generation, "opening")? else { return Ok(false) };
        let Some(reference) = self.reference(generation)? else { return Ok(true) };
        let digest = opening.last_chunk().ok_or("an opening is cut")?;
        Ok(self.read(generation, "whole")? == Some(reference.binding(digest)))
    }

    /// The log of a generation, as far as it counts; None where it isn't begun yet.
    fn log(&self, generation: u32, newest: u32) -> Res<Option<Vec<u8>>> {
        let log = self.read(generation, "log")?;
        if generation == newest {
            // (it can't have been begun where the generation before is here, and isn't left)
            let is_before = self.path(generation - 1, "").exists() && self.read(generation - 1, "left")?.is_none();
            if log.is_none() && !is_before {
                return Err(
                    format!("the log of generation {generation} is lost: the replica must not come back").into()
                );
            }
            return Ok(log);
        }
        let reference = self.reference(generation + 1)?.ok_or("a reference is gone")?;
        let log = log.and_then(|log| Some(log.get(..usize::try_from(reference.length()).ok()?)?.to_vec()));
        match log.filter(|log| reference.is_to(log)) {
            Some(log) => Ok(Some(log)),
            None => {
                let next = generation + 1;
                Err(format!("the log of generation {generation} isn't the one that generation {next} opens with")
                    .into())
            }
        }
    }

    /// The replica of the newest generation, by the opening of the last whole one and the logs since.
    fn start(&self, me: u8) -> Res<(u32, Replica)> {
        let mut here = self.generations()?;
        here.retain(|it| self.path(*it, "opening").exists() || self.path(*it, "reference").exists());
        let newest = here.into_iter().max().ok_or("no generation")?;
        let mut first = newest;
        while !self.is_whole(first)? {
            first = first.checked_sub(1).filter(|it| *it > 0).ok_or("no whole generation")?;
        }
        let opening = self.read(first, "opening")?;
        let reference = self.reference(first)?;
        let setup = Setup { opening: opening.as_deref(), reference, ..Setup::new(CLUSTER, me) };
        let mut replica = match self.log(first, newest)? {
            Some(log) => setup.open(&log)?,
            None => setup.begin()?,
        };
        for generation in first + 1..=newest {
            let _output = replica.ready()?.assume_synced()?;
            let reference = self.reference(generation)?.ok_or("a reference is gone")?;
            let log = self.log(generation, newest)?;
            drop(replica.succeed(&Succession { log: log.as_deref(), ..Succession::new(reference, me) })?);
        }
        Ok((newest, replica))
    }

    /// Writes the file that a generation has opened with; then what is older may go.
    fn keep(&self, generation: u32, checkpoint: Checkpoint, reference: &Reference) -> Res<()> {
        let path = self.path(generation, "opening");
        let mut file = File::create(path.with_extension("new"))?;
        let digest = checkpoint.write(&mut file)?;
        file.sync_all()?;
        renamed(&path)?;
        written(&self.path(generation, "whole"), &reference.binding(&digest))?;
        for older in self.generations()?.into_iter().filter(|it| *it < generation) {
            // (the mark last: without it this would be a generation in which the replica may act)
            for name in ["opening", "reference", "whole", "log", "left"] {
                let path = self.path(older, name);
                if path.exists() {
                    fs::remove_file(path)?;
                }
            }
            fs::remove_dir_all(self.path(older, ""))?;
        }
        Ok(())
    }
}

/// A replica with its folder.
struct Host {
    me: u8,
    folder: Folder,
    generation: u32,
    replica: Replica,
    log: LogFile,
    /// That of the log.
    sum: Sum,
}

impl Host {
    fn open(path: &Path, me: u8) -> Res<Host> {
        let folder = Folder(path.join(me.to_string()));
        if !folder.0.exists() {
            // (at the first start alone: a replica whose folder is lost must not come back)
            let made = folder.0.with_extension("new");
            if made.exists() {
                fs::remove_dir_all(&made)?;
            }
            fs::create_dir_all(made.join("1"))?;
            written(&made.join("1/opening"), CLUSTER.first_opening())?;
            let (log, sum, replica) = begun(&made.join("1/log"), Setup::new(CLUSTER, me).begin()?, None)?;
            renamed(&folder.0)?;
            return Ok(Host { me, folder, generation: 1, replica, log, sum });
        }
        let (generation, replica) = folder.start(me)?;
        let (log, sum, replica) = begun(&folder.path(generation, "log"), replica, Some((&folder, generation)))?;
        Ok(Host { me, folder, generation, replica, log, sum })
    }

    /// The log first, and only then what there is to report.
    fn turn(&mut self) -> Res<Output<'_>> {
        let ready = self.replica.ready()?;
        self.sum.add(ready.log());
        Ok(ready.commit(&mut self.log)?)
    }

    /// Goes on in the next generation. Nothing is copied, and no file of the map is written.
    fn next(mut self) -> Res<(Host, Checkpoint, Reference)> {
        let reference = self.replica.reference(CLUSTER, self.sum.digest())?;
        let generation = reference.generation();
        fs::create_dir_all(self.folder.path(generation, ""))?;
        sync_folder(&self.folder.0)?;
        written(&self.folder.path(generation, "reference"), &reference.bytes())?;
        let checkpoint = self.replica.succeed(&Succession::new(reference, self.me))?;
        let path = self.folder.path(generation, "log");
        let (log, sum, replica) = begun(&path, self.replica, Some((&self.folder, generation)))?;
        Ok((Host { generation, replica, log, sum, ..self }, checkpoint, reference))
    }

    fn up_to(mut self, generation: u32) -> Res<Host> {
        while self.generation < generation {
            self = self.next()?.0;
        }
        Ok(self)
    }
}

/// The log comes first: the bytes that it begins with, or all of it anew; then the marks, since the replica must not act in earlier generations any more.
fn begun(path: &Path, mut replica: Replica, marks: Option<(&Folder, u32)>) -> Res<(LogFile, Sum, Replica)> {
    let mut log = if path.exists() { LogFile::open(path)?.0 } else { LogFile::begin(path)? };
    let mut sum = Sum::new();
    let ready = replica.ready()?;
    sum.add(ready.log());
    let writing = ready.begin()?;
    let kept = writing.write(&mut log)?;
    if let Some((folder, generation)) = marks {
        for older in folder.generations()?.into_iter().filter(|it| *it < generation) {
            written(&folder.path(older, "left"), generation.to_string().as_bytes())?;
        }
    }
    let _output = replica.written(kept)?;
    Ok((log, sum, replica))
}

/// Hands over frames until there are none. Returns whether the generation is sealed.
fn settle(hosts: &mut [Host], stamps: &mut BTreeMap<(u32, u32), u64>) -> Res<bool> {
    loop {
        let (mut frames, mut is_sealed) = (Frames::new(), true);
        for host in hosts.iter_mut() {
            host.replica.execute_all()?;
            let output = host.turn()?;
            frames.extend(output.frames().map(|it| (it.to, it.bytes.to_vec())));
            stamps.extend(output.receipts().map(|it| ((it.client, it.request), it.stamp)));
            is_sealed &= output.is_sealed();
        }
        if frames.is_empty() {
            return Ok(is_sealed);
        }
        for (to, frame) in frames {
            hosts[usize::from(to)].replica.handle(&frame)?;
        }
    }
}

/// Clients put values at all three, and one seals the generation. A client's number and its request's name one command over all generations.
fn play(hosts: &mut [Host]) -> Res<()> {
    let (mut stamps, generation) = (BTreeMap::new(), hosts[0].generation);
    // (what was sent before a start may be lost)
    let mut again = Frames::new();
    for host in hosts.iter_mut() {
        again.extend(host.replica.report(0, 0)?.frames().map(|it| (it.to, it.bytes.to_vec())));
    }
    for (to, frame) in again {
        hosts[usize::from(to)].replica.handle(&frame)?;
    }
    settle(hosts, &mut stamps)?;
    for request in 1..=PUTS {
        for host in hosts.iter_mut() {
            let client = 3 * generation + u32::from(host.me);
            let seen = stamps.get(&(client, request - 1)).copied().unwrap_or(0);
            let (key, value) = ((request % KEYS).to_string(), format!("{client}.{request}"));
            let put = Command::Put { key: key.as_bytes(), value: value.as_bytes() };
            host.replica.propose(Call { client, request, seen }, put)?;
        }
        settle(hosts, &mut stamps)?;
    }
    hosts[0].replica.propose(Call::new(1, generation), Command::Seal { value: b"next" })?;
    let is_sealed = settle(hosts, &mut stamps)?;
    if is_sealed && stamps.len() as u32 == 3 * PUTS + 1 { Ok(()) } else { Err("something wasn't told".into()) }
}

fn map(replica: &mut Replica) -> Res<Map> {
    Ok(replica.contents()?.map(|(key, value)| (key.to_vec(), value.to_vec())).collect())
}

fn main() -> Res<()> {
    let path = PathBuf::from(env::args().nth(1).ok_or("usage: generations FOLDER")?);
    fs::create_dir_all(&path)?;
    let mut hosts = (0..3).map(|me| Host::open(&path, me)).collect::<Res<Vec<_>>>()?;
    // (a change may have been broken off; each has executed the seal before any goes on)
    let newest = hosts.iter().map(|it| it.generation).max().unwrap_or(1);
    hosts = hosts.into_iter().map(|it| it.up_to(newest)).collect::<Res<Vec<_>>>()?;
    let mut maps = Vec::new();
    for _ in 0..GENERATIONS {
        play(&mut hosts)?;
        let mut later = Vec::new();
        for mut host in hosts {
            let file = host.replica.next_opening(CLUSTER)?;
            let (host, checkpoint, reference) = host.next()?;
            // the first one writes its files at once, in another thread; the second one those of even generations; the third one none
            if host.me == 0 || (host.me == 1 && host.generation % 2 == 0) {
                let (folder, generation) = (host.folder.clone(), host.generation);
                let keeping = move || folder.keep(generation, checkpoint, &reference).map_err(|it| it.to_string());
                thread::spawn(keeping).join().map_err(|_| "a thread ended")??;
                if host.folder.read(generation, "opening")? != Some(file) {
                    return Err("the pieces aren't the file that `close` gives".into());
                }
            }
            later.push(host);
        }
        hosts = later;
        maps = hosts.iter_mut().map(|host| map(&mut host.replica)).collect::<Res<Vec<_>>>()?;
        if maps.iter().any(|it| *it != maps[0] || it.len() as u32 != KEYS) {
            return Err("the maps differ".into());
        }
        println!("generation {}: {}", hosts[0].generation, maps[0][&b"0"[..]].escape_ascii());
    }
    for (host, map_before) in hosts.into_iter().zip(maps) {
        let (me, generation) = (host.me, host.generation);
        drop(host);
        let mut again = Host::open(&path, me)?;
        if again.generation != generation || map(&mut again.replica)? != map_before {
            return Err("a start has another map".into());
        }
    }
    println!("three replicas agree, and each start does");
    Ok(())
}
