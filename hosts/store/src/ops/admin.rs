//! The admin socket: commands that change the cluster are taken here and not at the clients' port, so that whoever may write data can't end it.
use crate::client::clients::about_server;
use crate::client::command_fault::CommandFault;
use crate::client::commands::{Asked, Hello, understand};
use crate::client::password::Password;
use crate::client::replies::Due;
use crate::client::resp::{Input, Reply, Version, read_command};
use crate::core::ask::{Ask, What};
use crate::core::event::Event;
use crate::core::outcome::Outcome;
use crate::core::reply_sender::ReplySender;
use crate::ops::manage_fault::ManageFault;
use crate::ops::wishes::Manage;
use crate::peer::peers::{Membership, who_is_at};
use crate::timed::read_some;
use std::fmt;
use std::fs;
use std::io::{self, Read, Write};
use std::net::{TcpListener, TcpStream};
use std::os::unix::fs::{FileTypeExt, PermissionsExt};
use std::os::unix::net::{UnixListener, UnixStream};
use std::path::{Path, PathBuf};
use std::sync::Arc;
use std::sync::atomic::{AtomicUsize, Ordering};
use std::sync::mpsc::{SyncSender, channel};
use std::thread;
use std::time::Duration;

/// The socket's name in the folder.
pub const NAME: &str = "admin.sock";
/// At most so many connections.
const MOST: usize = 32;
/// Who says no password for so long, where one is wanted, is closed, and who asks nothing for so long.
const GREETING_PATIENCE: Duration = Duration::from_secs(5);
const SILENCE: Duration = Duration::from_secs(3_600);
/// For an operator who doesn't take a reply.
const WRITE_PATIENCE: Duration = Duration::from_secs(10);
/// A command has at most so many bytes.
const LONGEST: usize = 16 << 10;
/// How long who said a wrong password waits.
const WRONG: Duration = Duration::from_millis(200);

/// Where operators ask.
#[derive(Clone, PartialEq, Eq, Debug)]
pub enum Admin {
    /// A Unix socket, at this path.
    Socket(PathBuf),
    /// TCP, at this address.
    Address(String),
}

impl fmt::Display for Admin {
    fn fmt(&self, f: &mut fmt::Formatter) -> fmt::Result {
        match self {
            Admin::Socket(path) => {
                let path = std::path::absolute(path).unwrap_or_else(|_| path.clone());
                write!(f, "the admin socket {0} (redis-cli -s {0})", path.display())
            }
            Admin::Address(address) => write!(f, "the admin port {address}"),
        }
    }
}

/// A place that is listened at.
pub enum Listener {
    Socket(UnixListener),
    Address(TcpListener),
}

impl Admin {
    /// Listens there. A socket is its owner's alone; one that nobody listens at any more is replaced.
    pub fn bind(&self) -> io::Result<Listener> {
        match self {
            Admin::Address(address) => TcpListener::bind(address).map(Listener::Address),
            Admin::Socket(path) => bind_socket(path).map(Listener::Socket),
        }
    }

    /// Nobody listens there any more.
    pub fn remove(&self) {
        if let Admin::Socket(path) = self {
            let _ = fs::remove_file(path);
        }
    }
}

fn bind_socket(path: &Path) -> io::Result<UnixListener> {
    if let Ok(about) = fs::symlink_metadata(path) {
        if !about.file_type().is_socket() {
            return Err(io::Error::new(io::ErrorKind::AlreadyExists, "something that is no socket has this name"));
        }
        if UnixStream::connect(path).is_ok() {
            return Err(io::ErrorKind::AddrInUse.into());
        }
    }
    // (it is made in a folder that nobody else can enter, as it has its rights only once it is there)
    let mut folder = path.as_os_str().to_os_string();
    folder.push(".new");
    let (folder, made) = (PathBuf::from(&folder), PathBuf::from(folder).join("s"));
    let _ = fs::remove_file(&made);
    let _ = fs::remove_dir(&folder);
    fs::create_dir(&folder)?;
    fs::set_permissions(&folder, fs::Permissions::from_mode(0o700))?;
    let listener = UnixListener::bind(&made)?;
    fs::set_permissions(&made, fs::Permissions::from_mode(0o600))?;
    fs::rename(&made, path)?;
    fs::remove_dir(&folder)?;
    Ok(listener)
}

/// What all connections of operators share.
pub struct Operators {
    pub events: SyncSender<Event>,
    pub patience: Duration,
    pub password: Option<Password>,
    pub due: Arc<Due>,
    pub membership: Arc<Membership>,
    count: AtomicUsize,
}

impl Operators {
    pub fn new(
        events: SyncSender<Event>,
        patience: Duration,
        password: Option<Password>,
        due: Arc<Due>,
        membership: Arc<Membership>,
    ) -> Operators {
        Operators { events, patience, password, due, membership, count: AtomicUsize::new(0) }
    }
}

/// A connection, by which way it ever came.
trait Stream: Read + Write + Send {
    fn set_patience(&self, reading: Duration, writing: Duration) -> io::Result<()>;
}

impl Stream for UnixStream {
    fn set_patience(&self, reading: Duration, writing: Duration) -> io::Result<()> {
        self.set_read_timeout(Some(reading))?;
        self.set_write_timeout(Some(writing))
    }
}

impl Stream for TcpStream {
    fn set_patience(&self, reading: Duration, writing: Duration) -> io::Result<()> {
        self.set_read_timeout(Some(reading))?;
        self.set_write_timeout(Some(writing))
    }
}

/// Takes connections, each in a thread.
pub fn listen(listener: &Listener, operators: &Arc<Operators>) {
    loop {
        let stream: io::Result<Box<dyn Stream>> = match listener {
            Listener::Socket(listener) => listener.accept().map(|(stream, _)| Box::new(stream) as Box<dyn Stream>),
            Listener::Address(listener) => listener.accept().map(|(stream, _)| Box::new(stream) as Box<dyn Stream>),
        };
        let Ok(stream) = stream else {
            thread::sleep(Duration::from_millis(20));
            continue;
        };
        let operators = operators.clone();
        let serve = move || {
            if operators.count.fetch_add(1, Ordering::Relaxed) < MOST {
                let session = Session { operators: &operators, version: Version::Two, is_known: false };
                let _ = session.serve(stream);
            }
            operators.count.fetch_sub(1, Ordering::Relaxed);
        };
        // (where there is no thread for it, it is closed)
        let _ = thread::Builder::new().name("operator".into()).spawn(serve);
    }
}

/// What an operator's commands leave for those that follow.
struct Session<'a> {
    operators: &'a Operators,
    version: Version,
    /// Whether the password was said, or none is wanted.
    is_known: bool,
}

impl Session<'_> {
    /// Answers commands, one after the other, until no more come.
    fn serve(mut self, mut stream: Box<dyn Stream>) -> io::Result<()> {
        self.is_known = self.operators.password.is_none();
        let (mut bytes, mut chunk) = (Vec::new(), vec![0; LONGEST]);
        loop {
            match read_command(&bytes) {
                Input::Command(words, length) => {
                    bytes.drain(..length);
                    if words.is_empty() {
                        continue;
                    }
                    let _due = self.operators.due.begin();
                    let (reply, goes_on) = self.answer(words);
                    let mut out = Vec::new();
                    reply.write(&mut out, self.version)?;
                    stream.write_all(&out)?;
                    if !goes_on || self.operators.due.is_over() {
                        return Ok(());
                    }
                }
                Input::Partial if bytes.len() >= LONGEST => return Ok(()),
                Input::Partial => {
                    let patience = if self.is_known { SILENCE } else { GREETING_PATIENCE };
                    stream.set_patience(patience, WRITE_PATIENCE)?;
                    match read_some(&mut *stream, &mut chunk)? {
                        0 => return Ok(()),
                        length => bytes.extend(&chunk[..length]),
                    }
                }
                Input::Fault(fault) => {
                    let mut out = Vec::new();
                    Reply::Error(CommandFault::Malformed(fault)).write(&mut out, self.version)?;
                    return stream.write_all(&out);
                }
            }
        }
    }

    /// The reply to a command, and whether the connection goes on.
    fn answer(&mut self, words: Vec<Vec<u8>>) -> (Reply, bool) {
        let asked = understand(words);
        let reply = match asked {
            Asked::Quit => return (Reply::Simple("OK"), false),
            Asked::Http => return (Reply::Error(CommandFault::Http), false),
            Asked::Auth(words) => self.know(|password| password.is_in(&words)).map(|()| Reply::Simple("OK")),
            Asked::Hello(hello) => self.greet(hello),
            _ if !self.is_known => Err(CommandFault::NotKnown),
            Asked::Manage(manage) => self.manage(manage),
            Asked::Info => self.ask(What::Info),
            Asked::Ping(text) => Ok(text.map_or(Reply::Simple("PONG"), Reply::Bulk)),
            Asked::Answered(reply) => Ok(reply),
            _ => Err(CommandFault::ForClients),
        };
        (reply.unwrap_or_else(Reply::Error), true)
    }

    /// Whether the password was said: from now on the connection is known.
    fn know(&mut self, is_said: impl FnOnce(&Password) -> bool) -> Result<(), CommandFault> {
        let password = self.operators.password.as_ref().ok_or(CommandFault::NoPassword)?;
        if is_said(password) {
            self.is_known = true;
            return Ok(());
        }
        thread::sleep(WRONG);
        Err(CommandFault::WrongPassword)
    }

    fn greet(&mut self, hello: Hello) -> Result<Reply, CommandFault> {
        if let Some((user, secret)) = &hello.auth {
            self.know(|password| password.is_said(user, secret))?;
        }
        if !self.is_known {
            return Err(CommandFault::NotKnown);
        }
        self.version = hello.version.unwrap_or(self.version);
        Ok(about_server(self.version, 0))
    }

    fn manage(&self, manage: Manage) -> Result<Reply, CommandFault> {
        let fault = fault_of_addresses(&manage, &self.operators.membership);
        self.ask(What::Manage(manage, fault))
    }

    /// Asks the driver, and waits for its answer.
    fn ask(&self, what: What) -> Result<Reply, CommandFault> {
        let (sender, receiver) = channel();
        let reply = ReplySender::new(move |it| _ = sender.send(it));
        let _ = self.operators.events.send(Event::Ask(Ask { what, reply }));
        match receiver.recv_timeout(self.operators.patience) {
            Ok(Outcome::Info(text) | Outcome::Managed(Ok(text))) => Ok(Reply::Bulk(text.into_bytes())),
            Ok(Outcome::Managed(Err(fault))) => Err(CommandFault::Managing(fault)),
            Ok(outcome) => Err(CommandFault::of(outcome)),
            Err(_) => Err(CommandFault::Unanswered),
        }
    }
}

/// What is wrong with an address that is named: each new machine has to be at its own.
fn fault_of_addresses(manage: &Manage, membership: &Membership) -> Option<ManageFault> {
    if membership.waits() {
        return None;
    }
    let named: Vec<_> = match manage {
        Manage::Replace { replica, identity, address: Some(address), .. } => vec![(*replica, *identity, address)],
        Manage::Resize { new, .. } => new.iter().map(|(replica, it, address)| (*replica, *it, address)).collect(),
        _ => Vec::new(),
    };
    named.into_iter().find_map(|(replica, identity, address)| match who_is_at(membership, replica, address) {
        Ok(found) if found == identity => None,
        Ok(found) => Some(ManageFault::OtherMachine(replica, address.clone(), found)),
        Err(fault) => Some(ManageFault::NotReached(replica, address.clone(), fault)),
    })
}
