//! The stores of a round: starting, killing, stopping them.
use crate::chain::{Chain, newest_with};
use crate::links::Link;
use crate::options::{Options, Plant};
use std::fs::{self, File, OpenOptions};
use std::io;
use std::os::unix::process::CommandExt;
use std::path::{Path, PathBuf};
use std::process::{Child, Command, ExitStatus, Stdio};
use std::sync::atomic::{AtomicBool, Ordering};
use std::sync::{Arc, Mutex};
use std::thread;
use std::time::{Duration, Instant};
use store::ops::admin;
use testing::client::{Client, Reply};
use testing::ports::Ports;
use testing::processes;

/// A log's header, and what stands around the bytes of an entry: two lengths, what was on the disk, and a checksum.
const LOG_HEADER: usize = 43;
const RECORD_FRAME: usize = 24;
/// So many are cut off, where records are.
const LAST_RECORDS: usize = 4;

/// What stands in each seal, and in nothing else.
const SEAL: &[u8] = b"members 1\n";
/// How many generations that were left a store keeps where no option says otherwise.
const KEPT: u32 = 2;
/// What a store logs that comes in the place of a lost machine.
const COMES_IN: &str = "names this machine";
/// So many machines may come for a while.
const MORE: usize = 2;
/// For so long others are asked to let it in, or for another size, or for more generations.
const ASKING: Duration = Duration::from_secs(300);
/// A process that was asked to end, or killed, has ended by then: the machine may be busy.
const ENDING: Duration = Duration::from_secs(60);
/// And whatever else is waited for has come.
const PATIENCE: Duration = Duration::from_secs(120);

/// What a replica takes at a moment, in bytes.
#[derive(Clone, Copy, Default)]
pub struct Sample {
    pub generation: u32,
    pub store: u64,
    pub disk: u64,
}

/// The replicas of one round, and the links between them.
pub struct Cluster {
    options: Options,
    directory: PathBuf,
    /// How many the round begins with, and ends with: those that clients ask, and that are killed.
    pub replicas: usize,
    pub client_ports: Vec<u16>,
    peer_ports: Vec<u16>,
    _ports: Ports,
    /// From each replica to each other one.
    pub links: Vec<Vec<Option<Arc<Link>>>>,
    running: Vec<Mutex<Option<Child>>>,
    /// Which machines came in the place of lost ones.
    joined: Vec<AtomicBool>,
    /// The folders of lost machines, with their replicas' numbers: the cluster never sees them again.
    lost: Mutex<Vec<(usize, PathBuf)>>,
}

impl Cluster {
    /// Starts a cluster with empty logs in a folder of the round.
    pub fn start(options: &Options, round: usize) -> io::Result<Cluster> {
        let replicas = options.replicas;
        // (two more may come for a while)
        let all = replicas + MORE;
        let ports = Ports::take()?;
        let client_ports: Vec<u16> = (0..all).map(|replica| ports.port(replica)).collect();
        let peer_ports: Vec<u16> = (all..2 * all).map(|place| ports.port(place)).collect();
        let links = make_links(&peer_ports[..replicas], &ports, 2 * all)?;
        let directory = options.directory.join(format!("round-{round}"));
        fs::create_dir_all(&directory)?;
        let cluster = Cluster {
            options: options.clone(),
            directory,
            replicas,
            client_ports,
            peer_ports,
            _ports: ports,
            links,
            running: (0..all).map(|_| Mutex::new(None)).collect(),
            joined: (0..all).map(|_| AtomicBool::new(false)).collect(),
            lost: Mutex::default(),
        };
        (0..replicas).try_for_each(|replica| cluster.launch(replica))?;
        Ok(cluster)
    }

    fn folder(&self, replica: usize) -> PathBuf {
        self.directory.join(replica.to_string())
    }

    /// The numbers of all replicas that there ever were.
    pub fn machines(&self) -> std::ops::Range<usize> {
        0..self.replicas + MORE
    }

    /// The folder of the round.
    pub fn directory(&self) -> &Path {
        &self.directory
    }

    /// All folders that machines of this number ever had.
    pub fn folders(&self, replica: usize) -> Vec<PathBuf> {
        let lost = self.lost.lock().unwrap();
        let of_it = lost.iter().filter(|(of, _)| *of == replica).map(|(_, folder)| folder.clone());
        of_it.chain([self.folder(replica)]).collect()
    }

    /// What all machines have left, for this program.
    pub fn chain<'a>(&'a self, program: &'a Path) -> Chain<'a> {
        let folders = self.machines().map(|replica| self.folders(replica)).collect();
        Chain { program, scratch: self.directory(), folders, newest: self.newest() }
    }

    /// The newest generation that was opened anywhere.
    pub fn newest(&self) -> u32 {
        let all = self.machines().flat_map(|replica| self.folders(replica));
        all.filter_map(|folder| newest(&folder)).max().unwrap_or(0)
    }

    /// The newest generation that a replica has begun.
    pub fn begun(&self, replica: usize) -> u32 {
        newest_with_log(&self.folder(replica)).unwrap_or(0)
    }

    /// The log of a replica in its newest generation.
    pub fn log(&self, replica: usize) -> PathBuf {
        let folder = self.folder(replica);
        let generation = newest_with_log(&folder).unwrap_or(1);
        folder.join(format!("generations/{generation}/log"))
    }

    fn errors_file(&self, replica: usize) -> PathBuf {
        self.directory.join(format!("told-{replica}"))
    }

    /// As this replica knows its peers: itself at its own port, the others through the links, and those that come for a while directly.
    fn peers(&self, replica: usize) -> String {
        let port = |to: usize| match self.links.get(replica).and_then(|links| links.get(to)) {
            Some(Some(link)) => link.port(),
            _ => self.peer_ports[to],
        };
        let count = if replica < self.replicas { self.replicas } else { self.replicas + MORE };
        (0..count).map(|to| format!("127.0.0.1:{}", port(to))).collect::<Vec<_>>().join(",")
    }

    /// Starts a replica.
    pub fn launch(&self, replica: usize) -> io::Result<()> {
        let errors = OpenOptions::new().append(true).create(true).open(self.errors_file(replica))?;
        let mut command = Command::new(&self.options.store);
        command.args(["--replica", &replica.to_string(), "--peers", &self.peers(replica)]);
        command.args(["--listen", &self.client_ports[replica].to_string(), "--patience", "10"]);
        command.arg("--dir").arg(self.folder(replica));
        for (flag, number) in
            [("--seal-numbers", self.options.numbers), ("--seal-dependencies", self.options.dependencies)]
        {
            if number > 0 {
                command.args([flag, &number.to_string()]);
            }
        }
        if let Some(checkpoint) = self.options.checkpoint {
            command.args(["--checkpoint", &checkpoint.to_string()]);
        }
        if self.options.starved {
            // (a change of generation takes such a store long, and isn't what is tried)
            command.args(["--seal-log", "1000000000"]);
        }
        if self.options.growing + self.options.flood == 0 || self.options.audit {
            // All that there ever was is audited.
            command.args(["--keep", "1000000"]);
        }
        if self.joined[replica].load(Ordering::SeqCst) {
            command.arg("--join");
        } else if newest_with_log(&self.folder(replica)).is_none() {
            command.arg("--new");
        }
        match self.options.plant {
            Some(Plant::Early) => _ = command.args(["--plant", "early"]),
            Some(Plant::Changed) => _ = command.args(["--plant", "changed"]),
            // A store without this wouldn't start over a log that lacks what clients were answered.
            Some(Plant::Again) => _ = command.args(["--plant", "again"]),
            Some(Plant::Lacking) => _ = command.args(["--plant", "lacking"]),
            Some(Plant::Fewer) => _ = command.args(["--plant", "fewer"]),
            Some(Plant::Before) => _ = command.args(["--plant", "before"]),
            Some(Plant::After) => _ = command.args(["--plant", "after"]),
            Some(Plant::Partly) => _ = command.args(["--plant", "partly"]),
            Some(Plant::Foreign) => _ = command.args(["--plant", "foreign"]),
            Some(Plant::Passes) => _ = command.args(["--plant", "passes"]),
            Some(Plant::Emptied | Plant::Unsynced | Plant::Unsealed | Plant::Older) => {
                _ = command.args(["--plant", "forgetful"]);
            }
            None => {}
        }
        let child = command.stdin(Stdio::null()).stderr(errors).process_group(0).spawn()?;
        *self.running[replica].lock().unwrap() = Some(child);
        Ok(())
    }

    /// Kills a replica, as a crash would.
    pub fn kill(&self, replica: usize) -> Result<(), String> {
        let Some(mut child) = self.running[replica].lock().unwrap().take() else { return Ok(()) };
        let process = child.id().to_string();
        signal("KILL", &process);
        signal("CONT", &process);
        match end_within(&mut child, ENDING).map(|status| status.code()) {
            Some(None | Some(1)) => Ok(()),
            Some(Some(code)) => Err(format!("the store of replica {replica} has ended with status {code}")),
            None => Err(format!("the store of replica {replica} hasn't ended though it was killed")),
        }
    }

    /// Loses a machine for good, and has another one come in its place, with an empty folder.
    pub fn replace(&self, replica: usize) -> Result<(), String> {
        let fault = |error: io::Error| format!("a machine can't be replaced: {error}");
        self.kill(replica)?;
        let folder = self.folder(replica);
        let lost = self.directory.join(format!("{replica}-lost-{}", self.lost.lock().unwrap().len()));
        wait_for(|| is_free(&folder).then_some(())).ok_or(format!("the store of replica {replica} doesn't end"))?;
        fs::rename(&folder, &lost).map_err(fault)?;
        self.lost.lock().unwrap().push((replica, lost));
        self.joined[replica].store(true, Ordering::SeqCst);
        let before = fs::read_to_string(self.errors_file(replica)).map_err(fault)?.len();
        self.launch(replica).map_err(fault)?;
        let said = || self.said(replica, before);
        let identity = self.identity(replica, before)?;
        let others: Vec<usize> = (0..self.replicas).filter(|other| *other != replica).collect();
        let words = ["EPAXOS".to_string(), "REPLACE".to_string(), replica.to_string(), identity];
        let words: Vec<&[u8]> = words.iter().map(|word| word.as_bytes()).collect();
        let start = Instant::now();
        for count in 0.. {
            let operator = self.operator(others[count % others.len()], Duration::from_secs(5));
            let answer = operator.and_then(|mut client| client.ask(&words));
            if matches!(answer, Ok(Reply::Bulk(_) | Reply::Simple(_)))
                || said().is_some_and(|text| text.contains(COMES_IN))
            {
                break;
            }
            if start.elapsed() > ASKING {
                return Err(format!("no generation names the new machine of replica {replica}: {answer:?}"));
            }
            thread::sleep(Duration::from_millis(200));
        }
        wait_for(|| said()?.contains(COMES_IN).then_some(()))
            .ok_or(format!("the new machine of replica {replica} doesn't come in: {:?}", said()))
    }

    /// A connection for what operators ask.
    fn operator(&self, replica: usize, patience: Duration) -> io::Result<Client> {
        Client::connect_at(&self.folder(replica).join(admin::NAME), patience)
    }

    /// Keeps a copy of a replica's folder, where there is none; else has it come back.
    pub fn turn_back(&self, replica: usize) -> Result<(), String> {
        let (folder, older) = (self.folder(replica), self.directory.join(format!("{replica}-older")));
        wait_for(|| is_free(&folder).then_some(())).ok_or(format!("the store of replica {replica} doesn't end"))?;
        let (from, to) = if older.exists() { (&older, &folder) } else { (&folder, &older) };
        let _ = fs::remove_dir_all(to);
        let copied = Command::new("cp").arg("-r").args([from, to]).status().map_err(|error| error.to_string())?;
        if copied.success() { Ok(()) } else { Err(format!("{} can't be copied", from.display())) }
    }

    /// What a store has logged behind so many bytes.
    fn said(&self, replica: usize, before: usize) -> Option<String> {
        Some(fs::read_to_string(self.errors_file(replica)).ok()?.get(before..)?.to_string())
    }

    /// Who a machine is that waits to be let in.
    fn identity(&self, replica: usize, before: usize) -> Result<String, String> {
        let line = format!("EPAXOS REPLACE {replica} ");
        let word = || Some(self.said(replica, before)?.split_once(&line)?.1.get(..32)?.to_string());
        wait_for(word).ok_or(format!("the new machine of replica {replica} doesn't tell who it is"))
    }

    /// Two more machines take part for a while, and none of them any more then.
    pub fn resize(&self, wait: Duration) -> Result<(), String> {
        let fault = |error: io::Error| format!("a machine can't be started: {error}");
        let more = self.replicas..self.replicas + MORE;
        let mut words = format!("EPAXOS RESIZE {}", self.replicas + MORE);
        for replica in more.clone() {
            self.joined[replica].store(true, Ordering::SeqCst);
            self.launch(replica).map_err(fault)?;
            let (identity, port) = (self.identity(replica, 0)?, self.peer_ports[replica]);
            words += &format!(" {replica} {identity} 127.0.0.1:{port}");
        }
        let is_in = || more.clone().all(|replica| self.said(replica, 0).is_some_and(|text| text.contains(COMES_IN)));
        self.ask_until(&words, is_in)?;
        thread::sleep(wait);
        let has_left = || more.clone().all(|replica| !self.is_running(replica));
        self.ask_until(&format!("EPAXOS RESIZE {}", self.replicas), has_left)?;
        for replica in more {
            let child = self.running[replica].lock().unwrap().take();
            let status = child.and_then(|mut child| child.wait().ok()).and_then(|status| status.code());
            if status != Some(3) {
                return Err(format!("replica {replica}, which takes part no more, ended with {status:?}"));
            }
        }
        Ok(())
    }

    /// Asks one replica after the other until it is so.
    fn ask_until(&self, line: &str, is_so: impl Fn() -> bool) -> Result<(), String> {
        let words: Vec<&[u8]> = line.split(' ').map(str::as_bytes).collect();
        let mut answer = String::new();
        let begun = Instant::now();
        for count in 0.. {
            if begun.elapsed() > ASKING {
                break;
            }
            let operator = self.operator(count % self.replicas, Duration::from_secs(5));
            let asked = operator.and_then(|mut client| client.ask(&words));
            answer = format!("{asked:?}");
            let start = Instant::now();
            // (where it was begun it takes a while)
            let patience = Duration::from_secs(if matches!(asked, Ok(Reply::Bulk(_))) { 20 } else { 2 });
            while start.elapsed() < patience {
                if is_so() {
                    return Ok(());
                }
                thread::sleep(Duration::from_millis(20));
            }
        }
        Err(format!("{line} isn't done: {answer}"))
    }

    /// Has the stores go on to later generations, until there were so many changes. (Where the machine is busy clients may not have got so far.)
    pub fn reach(&self, changes: u32) {
        let start = Instant::now();
        for count in 0.. {
            if self.newest() > changes || start.elapsed() > ASKING {
                return;
            }
            let operator = self.operator(count % self.replicas, Duration::from_secs(5));
            let _ = operator.and_then(|mut client| client.ask(&[b"EPAXOS", b"SEAL"]));
            thread::sleep(Duration::from_millis(100));
        }
    }

    /// Asks a replica to end its generation, without waiting.
    pub fn seal(&self, replica: usize) {
        let operator = self.operator(replica, Duration::from_secs(2));
        thread::spawn(move || operator.and_then(|mut client| client.ask(&[b"EPAXOS", b"SEAL"])));
    }

    /// Cuts the last records off the log of a replica that was killed.
    pub fn forget_last(&self, replica: usize) -> io::Result<()> {
        let log = self.log(replica);
        let bytes = fs::read(&log)?;
        match records(&bytes).iter().rev().nth(LAST_RECORDS - 1) {
            Some(start) => cut(&log, *start),
            None => Ok(()),
        }
    }

    /// Has all replicas, none of which runs, lose the newest generation that all have begun, and the seal before it.
    pub fn forget_seal(&self) -> io::Result<()> {
        let folders: Vec<_> = (0..self.replicas).map(|replica| self.folder(replica)).collect();
        let all_begun = folders.iter().filter_map(|folder| newest_with_log(folder)).min().unwrap_or(1);
        for folder in folders.iter().filter(|_| all_begun > 1) {
            let _ = wait_for(|| is_free(folder).then_some(()));
            let of = |generation: u32| folder.join(format!("generations/{generation}"));
            let newest = newest(folder).unwrap_or(all_begun);
            let mut begun = (all_begun..=newest).map(of).filter(|path| path.exists());
            begun.try_for_each(fs::remove_dir_all)?;
            (1..all_begun).for_each(|generation| _ = fs::remove_file(of(generation).join("left")));
            let log = of(all_begun - 1).join("log");
            // (one that lagged has none)
            let Ok(bytes) = fs::read(&log) else { continue };
            let starts = records(&bytes);
            let ends = starts.iter().skip(1).copied().chain([bytes.len()]);
            let has_seal = |record: &[u8]| record.windows(SEAL.len()).any(|part| part == SEAL);
            let first = starts.iter().copied().zip(ends).find(|(start, end)| has_seal(&bytes[*start..*end]));
            first.map_or(Ok(()), |(start, _)| cut(&log, start))?;
        }
        Ok(())
    }

    /// What a replica takes now: its generation, the bytes of memory of its store, and those of its folder's last files.
    pub fn sample(&self, replica: usize) -> Sample {
        let folder = self.folder(replica);
        let store = self.running[replica].lock().unwrap().as_ref().map(Child::id);
        let generation = newest(&folder).unwrap_or(0);
        // (a store that doesn't keep all for the audit has these)
        let kept = (generation.saturating_sub(KEPT)..=generation)
            .flat_map(|it| [folder.join(format!("generations/{it}")), folder.join(format!("receipts/{it}"))]);
        let disk = [folder.clone()].into_iter().chain(kept).map(|path| bytes_of(&path)).sum();
        Sample { generation, store: store.map_or(0, processes::memory), disk }
    }

    /// How long a replica takes from its start to its first answer.
    pub fn time_to_start(&self, replica: usize) -> Result<Duration, String> {
        self.kill(replica)?;
        let folder = self.folder(replica);
        wait_for(|| is_free(&folder).then_some(())).ok_or(format!("the store of replica {replica} doesn't end"))?;
        let start = Instant::now();
        self.launch(replica).map_err(|error| error.to_string())?;
        let port = self.client_ports[replica];
        let is_pong = || {
            let mut client = Client::connect(port, Duration::from_secs(5)).ok()?;
            matches!(client.ask(&[b"PING"]), Ok(Reply::Simple(_))).then_some(())
        };
        wait_for(is_pong).map(|()| start.elapsed()).ok_or(format!("replica {replica} doesn't come back"))
    }

    /// Stops or continues both processes of a replica.
    pub fn pause(&self, replica: usize, is_paused: bool) {
        if let Some(child) = &*self.running[replica].lock().unwrap() {
            signal(if is_paused { "STOP" } else { "CONT" }, &format!("-{}", child.id()));
        }
    }

    /// The group of processes that a replica runs in.
    pub fn group(&self, replica: usize) -> Option<u32> {
        self.running[replica].lock().unwrap().as_ref().map(Child::id)
    }

    /// Waits until a replica has done a command, or its store has ended.
    pub fn await_answer(&self, replica: usize) -> Result<(), String> {
        let set = || {
            let mut client = Client::connect(self.client_ports[replica], PATIENCE).ok()?;
            matches!(client.ask(&[b"SET", b"ready", b"1"]), Ok(Reply::Simple(_))).then_some(())
        };
        let is_over = || set().or_else(|| (!self.is_running(replica)).then_some(()));
        let is_done = wait_for(is_over).is_some() && self.is_running(replica);
        is_done.then_some(()).ok_or(format!("replica {replica} doesn't answer: {:?}", self.said(replica, 0)))
    }

    /// How many bytes the logs of all its generations have.
    pub fn log_bytes(&self, replica: usize) -> u64 {
        let generations = fs::read_dir(self.folder(replica).join("generations")).into_iter().flatten().flatten();
        generations.map(|generation| bytes_of(&generation.path().join("log"))).sum()
    }

    pub fn is_running(&self, replica: usize) -> bool {
        match &mut *self.running[replica].lock().unwrap() {
            Some(child) => matches!(child.try_wait(), Ok(None)),
            None => false,
        }
    }

    /// Cuts or mends both directions between a replica and another one.
    pub fn set_cut(&self, one: usize, other: usize, is_cut: bool) {
        for link in [&self.links[one][other], &self.links[other][one]].into_iter().flatten() {
            if is_cut { link.cut() } else { link.mend() }
        }
    }

    /// Ends all by SIGTERM, and waits until the nodes have let go of their logs: what went wrong with that.
    pub fn stop(&self) -> Vec<String> {
        (0..self.replicas).filter_map(|replica| self.stop_one(replica).err()).collect()
    }

    fn stop_one(&self, replica: usize) -> Result<(), String> {
        let Some(mut child) = self.running[replica].lock().unwrap().take() else { return Ok(()) };
        signal("TERM", &child.id().to_string());
        let status = end_within(&mut child, ENDING);
        let folder = self.folder(replica);
        wait_for(|| is_free(&folder).then_some(())).ok_or(format!("the store of replica {replica} doesn't end"))?;
        match status.ok_or(format!("replica {replica} doesn't end"))?.code() {
            Some(0) => Ok(()),
            code => Err(format!("replica {replica} ended with {code:?} where it was told to")),
        }
    }
}

impl Drop for Cluster {
    fn drop(&mut self) {
        for replica in self.machines() {
            self.pause(replica, false);
            let _ = self.kill(replica);
        }
    }
}

/// Where each record of a log begins.
fn records(log: &[u8]) -> Vec<usize> {
    let mut starts = Vec::new();
    let mut rest = log.get(LOG_HEADER..).unwrap_or_default();
    while let Some(length) = rest.first_chunk::<4>() {
        starts.push(log.len() - rest.len());
        rest = rest.get(RECORD_FRAME + u32::from_be_bytes(*length) as usize..).unwrap_or_default();
    }
    starts
}

/// Has a file lose what stands from this place on.
fn cut(path: &Path, length: usize) -> io::Result<()> {
    OpenOptions::new().write(true).open(path)?.set_len(length as u64)
}

/// How many bytes a file has, or the files of a folder.
fn bytes_of(path: &Path) -> u64 {
    let files = fs::read_dir(path).into_iter().flatten().flatten().filter_map(|entry| entry.metadata().ok());
    let own = fs::metadata(path).ok();
    files.chain(own).filter(|found| found.is_file()).map(|found| found.len()).sum()
}

/// The newest generation that a store's folder has.
fn newest(folder: &Path) -> Option<u32> {
    newest_with(folder, &["opening", "reference"])
}

/// The newest one in which it may have promised something.
fn newest_with_log(folder: &Path) -> Option<u32> {
    newest_with(folder, &["log"])
}

/// Whether no store has the folder.
fn is_free(folder: &Path) -> bool {
    File::open(folder.join("node-errors")).is_ok_and(|file| file.try_lock().is_ok())
}

/// What this finds, once it finds something.
fn wait_for<T>(find: impl Fn() -> Option<T>) -> Option<T> {
    let start = Instant::now();
    while start.elapsed() < PATIENCE {
        if let Some(found) = find() {
            return Some(found);
        }
        thread::sleep(Duration::from_millis(20));
    }
    None
}

/// The links listen at the ports from this place on.
fn make_links(peer_ports: &[u16], ports: &Ports, first: usize) -> io::Result<Vec<Vec<Option<Arc<Link>>>>> {
    let mut places = first..;
    let mut links = Vec::new();
    for from in 0..peer_ports.len() {
        let mut row = Vec::new();
        for (to, port) in peer_ports.iter().enumerate() {
            let place = if from == to { None } else { places.next() };
            row.push(place.map(|place| Link::start(ports.listen(place)?, *port)).transpose()?);
        }
        links.push(row);
    }
    Ok(links)
}

/// Sends a signal to a process, or to a group of processes (with a minus sign).
fn signal(name: &str, target: &str) {
    let _ = Command::new("sh").args(["-c", &format!("kill -s {name} -- {target}")]).stderr(Stdio::null()).status();
}

fn end_within(child: &mut Child, patience: Duration) -> Option<ExitStatus> {
    let start = Instant::now();
    while start.elapsed() < patience {
        if let Ok(Some(status)) = child.try_wait() {
            return Some(status);
        }
        thread::sleep(Duration::from_millis(5));
    }
    None
}
