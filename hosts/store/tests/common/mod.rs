//! Stores that a test starts.
#![allow(dead_code)] // (each test uses a part)
pub mod memory;

use std::fs;
use std::path::PathBuf;
use std::process::{Child, Command, Stdio};
use std::sync::{Mutex, MutexGuard};
use std::thread;
use std::time::{Duration, Instant};
use store::ops::admin;
use testing::client::{Client, Reply};
use testing::ports::Ports;

/// How long a test waits, and a store has a client wait: other work may leave them little of the processors.
const PATIENCE: Duration = Duration::from_secs(300);
/// How long a store is started again that finds a port taken.
const PORT_PATIENCE: Duration = Duration::from_secs(300);
const STORE_PATIENCE: &str = "60";
/// What a store logs once it takes clients.
pub const SERVES: &str = ", clients at ";

/// The proved program, which .ci/store.py names, and by which logs are judged.
pub fn real_node() -> Option<PathBuf> {
    let node = std::env::var_os("EPAXOS").map(PathBuf::from);
    if node.is_none() {
        eprintln!("not tried: the variable EPAXOS doesn't name the program");
    }
    node
}

/// Three replicas, and four that may come later: a folder, and the ports at which they listen for each other and for clients. The folder is
/// removed when the test is over.
pub struct Places {
    pub folder: PathBuf,
    ports: Ports,
}

/// So many replicas there may be.
const MOST: usize = 7;

impl Places {
    pub fn new(name: &str) -> Places {
        let folder = std::env::temp_dir().join(format!("store-{name}-{}", std::process::id()));
        fs::create_dir_all(&folder).unwrap();
        Places { folder, ports: Ports::take().unwrap() }
    }

    /// Where a replica listens for the others.
    pub fn peer(&self, replica: usize) -> String {
        format!("127.0.0.1:{}", self.ports.port(MOST + replica))
    }

    /// The words that start a replica of three.
    pub fn command(&self, replica: usize) -> Command {
        self.command_of(replica, 3)
    }

    /// Those that start a replica of so many.
    pub fn command_of(&self, replica: usize, count: usize) -> Command {
        let mut command = Command::new(env!("CARGO_BIN_EXE_store"));
        let peers: Vec<_> = (0..count).map(|replica| self.peer(replica)).collect();
        command.args(["--replica", &replica.to_string(), "--peers", &peers.join(",")]);
        command.args(["--listen", &self.port(replica).to_string(), "--patience", STORE_PATIENCE]);
        let directory = self.folder.join(replica.to_string());
        if !directory.join("generations").exists() {
            command.arg("--new");
        }
        command.arg("--dir").arg(directory);
        command
    }

    /// Where a replica takes clients.
    pub fn port(&self, replica: usize) -> u16 {
        self.ports.port(replica)
    }

    /// Starts a replica, and waits until it takes clients.
    pub fn start(&self, replica: usize) -> Store {
        self.start_with(replica, &[])
    }

    /// The same, with more words.
    pub fn start_with(&self, replica: usize, words: &[&str]) -> Store {
        let store = self.launch(self.command(replica).args(words), replica);
        store.await_logged(SERVES);
        store
    }

    /// Starts a replica by these words, and waits for the first that it logs, or for its end. Where it finds a port
    /// taken it is started again: a process that was killed just now may have had a child that hasn't run its program
    /// yet.
    pub fn launch(&self, command: &mut Command, replica: usize) -> Store {
        let log_path = self.folder.join(format!("told-{replica}"));
        let start = Instant::now();
        loop {
            let errors = fs::File::create(&log_path).unwrap();
            let child = Mutex::new(command.stdin(Stdio::null()).stderr(errors).spawn().unwrap());
            let admin = self.directory(replica).join(admin::NAME);
            let store = Store { child, log_path: log_path.clone(), port: self.port(replica), admin };
            wait("its first word", || !store.logged().is_empty() || store.has_ended());
            let is_taken = store.logged().contains("can't listen at 127.0.0.1:");
            if !is_taken {
                return store;
            }
            assert!(start.elapsed() < PORT_PATIENCE, "a port is taken: {}", store.logged());
        }
    }

    /// The folder of a replica.
    pub fn directory(&self, replica: usize) -> PathBuf {
        self.folder.join(replica.to_string())
    }
}

impl Drop for Places {
    fn drop(&mut self) {
        let _ = fs::remove_dir_all(&self.folder);
    }
}

/// A running store. It is killed when it is let go.
pub struct Store {
    child: Mutex<Child>,
    log_path: PathBuf,
    port: u16,
    admin: PathBuf,
}

impl Store {
    /// Has it end by a signal, and waits: its status.
    pub fn end(&mut self, signal: &str) -> Option<i32> {
        self.signal(signal);
        self.status()
    }

    /// Its status, once it has ended by itself.
    pub fn status(&mut self) -> Option<i32> {
        let start = Instant::now();
        loop {
            if let Some(status) = self.child().try_wait().unwrap() {
                return status.code();
            }
            assert!(start.elapsed() < PATIENCE, "its end is waited for too long; it has logged: {}", self.logged());
            thread::sleep(Duration::from_millis(10));
        }
    }

    fn child(&self) -> MutexGuard<'_, Child> {
        self.child.lock().unwrap()
    }

    fn has_ended(&self) -> bool {
        self.child().try_wait().unwrap().is_some()
    }

    /// Waits until it has logged this. Of one that has ended nothing more comes.
    pub fn await_logged(&self, words: &str) {
        wait(words, || {
            let has_ended = self.has_ended();
            let logged = self.logged();
            assert!(!has_ended || logged.contains(words), "the store has ended: {logged}");
            logged.contains(words)
        });
    }

    /// Sends it a signal.
    pub fn signal(&self, signal: &str) {
        let process = self.child().id().to_string();
        assert!(Command::new("kill").args(["-s", signal, &process]).status().unwrap().success());
    }

    /// What it has logged, to standard error.
    pub fn logged(&self) -> String {
        fs::read_to_string(&self.log_path).unwrap()
    }

    pub fn client(&self) -> Client {
        Client::connect(self.port, PATIENCE).unwrap()
    }

    /// Asks on a new connection.
    pub fn ask(&self, line: &str) -> Reply {
        ask(&mut self.client(), line)
    }

    /// A connection to the admin socket.
    pub fn operator(&self) -> Client {
        Client::connect_at(&self.admin, PATIENCE).unwrap()
    }

    /// Asks at the admin socket, on a new connection.
    pub fn operate(&self, line: &str) -> Reply {
        ask(&mut self.operator(), line)
    }

    /// A line of INFO, as the core reports it.
    pub fn info(&self, name: &str) -> String {
        field(&info(&mut self.client()), name).to_string()
    }

    /// The local read of a key.
    pub fn local(&self, key: &str) -> Reply {
        let mut client = self.client();
        ask(&mut client, "READONLY");
        ask(&mut client, &format!("GET {key}"))
    }
}

impl Drop for Store {
    fn drop(&mut self) {
        let _ = self.child().kill();
        let _ = self.child().wait();
    }
}

/// Asks these words.
pub fn ask(client: &mut Client, line: &str) -> Reply {
    let words: Vec<&[u8]> = line.split(' ').map(str::as_bytes).collect();
    client.ask(&words).unwrap()
}

/// What INFO says, once the core is quick enough to report it: other work may leave it little of the processors.
pub fn info(client: &mut Client) -> String {
    let start = Instant::now();
    loop {
        let Reply::Bulk(Some(text)) = ask(client, "INFO") else { panic!("no INFO") };
        let text = String::from_utf8(text).unwrap();
        if !text.starts_with("core_is_slow:") {
            return text;
        }
        assert!(start.elapsed() < PATIENCE, "{text}");
    }
}

/// What INFO says under this name.
pub fn field<'a>(text: &'a str, name: &str) -> &'a str {
    let value = text.lines().find_map(|line| line.strip_prefix(name)?.strip_prefix(':'));
    value.unwrap_or_else(|| panic!("no {name} in {text}"))
}

pub fn wait(what: &str, is_so: impl Fn() -> bool) {
    let start = Instant::now();
    while !is_so() {
        assert!(start.elapsed() < PATIENCE, "{what} is waited for too long");
        thread::sleep(Duration::from_millis(10));
    }
}
