//! The command line.
use crate::core::plants::Plant;
use crate::generation::Limits;
use crate::ops::admin::{self, Admin};
use crate::ops::options_fault::OptionsFault;
use epaxos::{MOST_COMMANDS, MOST_TOLD};
use std::fmt::Display;
use std::path::PathBuf;
use std::str::FromStr;
use std::time::Duration;

const TEXT: &str = "\
store: one replica of a replicated store, for clients of the Redis protocol

    store --replica R --peers HOST:PORT,HOST:PORT,HOST:PORT --dir DIR [--new] [--listen HOST:PORT] [--peer-key FILE]
          [--patience S]
    store recover --help   recovery after the loss of a majority

    --replica R            which replica this is, from 0
    --peers A,B,C          where each replica listens for the others, in order, this one too: 3, 5 or 7 of them
    --dir DIR              the folder of this replica: its log, its receipts; created where it isn't there
    --new                  begins the replica: for the first start of its folder, and for no other
    --listen HOST:PORT     the address on which clients connect; default 127.0.0.1:7000; a port alone is one of 127.0.0.1
    --peer-key FILE        the key that all replicas share: whoever hasn't it is no peer. 16 to 4096 bytes that nobody can guess, in a
                           file that only its owner reads (head -c 32 /dev/urandom | base64 > FILE; chmod 600 FILE)
    --insecure             without a key the peers' port is one of this machine alone; with this it may be any, open to whoever comes
    --auth FILE            the password that clients say first (AUTH), 16 to 4096 bytes in a file that only its owner reads
    --admin PATH           the admin socket, which alone takes commands that change the cluster (EPAXOS SEAL, REPLACE, RESIZE): a Unix socket of
                           mode 0600; default DIR/{ADMIN} (redis-cli -s DIR/{ADMIN} EPAXOS MEMBERS)
    --admin HOST:PORT      the same over TCP; needs --admin-auth; a port alone is one of 127.0.0.1
    --admin-auth FILE      the password for the admin socket, as --auth has one for clients
    --memory BYTES         memory limit for unfinished requests of all clients; default {MEMORY}
    --most-map BYTES       the map may have so many: key, value and 5 for each key; what might make it longer is refused (OOM), in the last sixteenth
                           maybe earlier; reads and deletes go on. The same at all replicas. Default: no bound
    --together N           what clients write to so many keys at most goes by one command of the protocol, if it waits together: 1 to 16;
                           default {TOGETHER}
    --metrics HOST:PORT    where Prometheus reads /metrics; a port alone is one of 127.0.0.1; default: nowhere
    --patience S           after so many seconds a client is told TRYAGAIN; default 10. What was proposed may still be done
    --join                 in the place of --new: for a machine that comes in the place of a lost one; it tells its identity and waits
                           until a generation begins that names it (EPAXOS REPLACE, at another replica's admin socket)
    --seal-numbers N       a generation ends once a replica has proposed so many commands in it: 10 to 8,900; default {NUMBERS}
    --seal-dependencies N  or once one of its commands depends on so many others: 10 to 62,999; default {DEPENDENCIES}
    --seal-log BYTES       or once its log is so long; default {LOG}
    --checkpoint BYTES     the whole map is written once the logs since that was done last are so long, and as long as what was written; until then a
                           start goes by these logs; default {CHECKPOINT}
    --keep N               number of finished generations to keep in the folder, for an audit, from 1; default {KEPT}
    --help                 this text
    --version              the version

Example, one of three on this machine (start the others with 1 and 2 in the places of 0):
    store --replica 0 --peers 127.0.0.1:7100,127.0.0.1:7101,127.0.0.1:7102 --listen 7000 --dir /tmp/store/0 --new

It runs until it is killed; SIGTERM is the way. Status 1: it can't start, or goes on no more. 2: the command line. 3: no start with these words
and this folder can go on; standard error says why.
";

/// When a generation ends, where no option says otherwise. (What a change takes grows with what the generation changed;
/// and while an opening is being written it may be three times as long.)
pub const LIMITS: Limits = Limits { numbers: MOST_COMMANDS / 3, dependencies: 600, log: 16 << 20 };
const KEPT: usize = 2;
/// What clients write to so many keys goes together, where no option says otherwise.
pub const TOGETHER: usize = MOST_TOLD;
/// An opening is written once the logs since the last one have so many bytes, where no option says otherwise.
pub const CHECKPOINT: u64 = 64 << 20;
const MEMORY: usize = 512 << 20;

/// The text that `--help` prints.
pub fn help() -> String {
    let numbers = [("{NUMBERS}", LIMITS.numbers.into()), ("{DEPENDENCIES}", LIMITS.dependencies.into())];
    let others =
        [("{LOG}", LIMITS.log), ("{CHECKPOINT}", CHECKPOINT), ("{KEPT}", KEPT as u64), ("{MEMORY}", MEMORY as u64)];
    let all = numbers.into_iter().chain(others).chain([("{TOGETHER}", TOGETHER as u64)]);
    let text = TEXT.replace("{ADMIN}", admin::NAME);
    all.fold(text, |text, (word, number): (&str, u64)| text.replace(word, &number.to_string()))
}

/// How a folder is gone about.
#[derive(Clone, Copy, PartialEq, Eq, Debug)]
pub enum Start {
    /// It has a replica.
    Again,
    /// A replica is begun with its cluster.
    New,
    /// A machine comes in the place of a lost one.
    Join,
}

/// How the store was started.
#[derive(Clone, PartialEq, Eq, Debug)]
pub struct Options {
    pub replica: u8,
    pub peers: Vec<String>,
    pub directory: PathBuf,
    pub start: Start,
    pub listen: String,
    pub peer_key: Option<PathBuf>,
    /// Whether the peers' port may be open to others without a key.
    pub is_insecure: bool,
    pub auth: Option<PathBuf>,
    /// Where operators ask, and the password that they say first.
    pub admin: Admin,
    pub admin_auth: Option<PathBuf>,
    pub memory: usize,
    /// How many bytes the map may have.
    pub most_map: Option<u64>,
    /// So many keys that clients write are written by one command at most.
    pub together: usize,
    pub metrics: Option<String>,
    pub patience: Duration,
    pub limits: Limits,
    /// How many bytes the logs have since an opening was written when the next one is.
    pub checkpoint: u64,
    /// How many generations that were left stay in the folder.
    pub kept: usize,
    pub plant: Option<Plant>,
}

/// What the words ask for.
#[derive(Debug, PartialEq, Eq)]
pub enum Words {
    Help,
    Version,
    Run(Box<Options>),
}

/// Reads the words after the program's name.
pub fn read(words: impl IntoIterator<Item = String>) -> Result<Words, OptionsFault> {
    let mut words = words.into_iter();
    let (mut replica, mut peers, mut directory) = (None, None, None);
    let mut listen = "127.0.0.1:7000".to_string();
    let mut patience = Duration::from_secs(10);
    let mut plant = None;
    let (mut is_insecure, mut peer_key) = (false, None);
    let (mut auth, mut memory, mut metrics, mut most_map) = (None, MEMORY, None, None);
    let mut together = TOGETHER;
    let (mut admin, mut admin_auth) = (None, None);
    let mut start = Start::Again;
    let (mut limits, mut checkpoint, mut kept) = (LIMITS, CHECKPOINT, KEPT);
    while let Some(word) = words.next() {
        match word.as_str() {
            "--help" | "-h" => return Ok(Words::Help),
            "--version" | "-V" => return Ok(Words::Version),
            _ => {}
        }
        let begins = match word.as_str() {
            "--new" => Some(Start::New),
            "--join" => Some(Start::Join),
            _ => None,
        };
        if let Some(begins) = begins {
            if start != Start::Again {
                return Err(OptionsFault::TwoStarts);
            }
            start = begins;
            continue;
        }
        if word == "--insecure" {
            is_insecure = true;
            continue;
        }
        let mut value = || words.next().ok_or_else(|| OptionsFault::NoValue(word.clone()));
        match word.as_str() {
            "--replica" => replica = Some(value()?),
            "--peers" => peers = Some(value()?),
            "--dir" => directory = Some(PathBuf::from(value()?)),
            "--listen" => listen = with_host(value()?),
            "--peer-key" => peer_key = Some(PathBuf::from(value()?)),
            "--auth" => auth = Some(PathBuf::from(value()?)),
            "--admin" => admin = Some(read_admin(value()?)),
            "--admin-auth" => admin_auth = Some(PathBuf::from(value()?)),
            "--memory" => memory = number(&word, &value()?, 1 << 20, usize::MAX)?,
            "--together" => together = number(&word, &value()?, 1, MOST_TOLD)?,
            "--most-map" => most_map = Some(number(&word, &value()?, 1 << 10, i64::MAX as u64)?),
            "--metrics" => metrics = Some(with_host(value()?)),
            // (of earlier versions: the core is in the store now)
            "--node" => _ = value()?,
            "--patience" => patience = Duration::from_secs_f64(number(&word, &value()?, 0.1, 3600.0)?),
            "--seal-numbers" => limits.numbers = number(&word, &value()?, 10, 8_900)?,
            "--seal-dependencies" => limits.dependencies = number(&word, &value()?, 10, 62_999)?,
            "--seal-log" => limits.log = number(&word, &value()?, 1 << 10, u64::MAX)?,
            "--checkpoint" => checkpoint = number(&word, &value()?, 0, u64::MAX)?,
            "--keep" => kept = number(&word, &value()?, 1, usize::MAX)?,
            "--plant" if cfg!(feature = "plants") => {
                let name = value()?;
                plant = Some(Plant::read(&name).ok_or(OptionsFault::Plant(name))?);
            }
            _ => return Err(OptionsFault::Unknown(word)),
        }
    }
    let peers = read_peers(&peers.ok_or(OptionsFault::Missing("--peers"))?)?;
    let replica = number("--replica", &replica.ok_or(OptionsFault::Missing("--replica"))?, 0, peers.len() as u8 - 1)?;
    let directory = directory.ok_or(OptionsFault::Missing("--dir"))?;
    let admin = admin.unwrap_or_else(|| Admin::Socket(directory.join(admin::NAME)));
    if let (Admin::Address(address), None) = (&admin, &admin_auth) {
        return Err(OptionsFault::OpenAdmin(address.clone()));
    }
    Ok(Words::Run(Box::new(Options {
        replica,
        peers,
        directory,
        start,
        listen,
        peer_key,
        is_insecure,
        auth,
        admin,
        admin_auth,
        memory,
        most_map,
        together,
        metrics,
        patience,
        limits,
        checkpoint,
        kept,
        plant,
    })))
}

/// HOST:PORT or a port is TCP; all else is a path.
fn read_admin(word: String) -> Admin {
    let port = word.rsplit_once(':').map_or(&*word, |(_, port)| port);
    let is_address = !word.contains('/') && port.parse::<u16>().is_ok();
    if is_address { Admin::Address(with_host(word)) } else { Admin::Socket(word.into()) }
}

fn with_host(address: String) -> String {
    if address.contains(':') { address } else { format!("127.0.0.1:{address}") }
}

/// A number from `least` to `most`.
fn number<T: FromStr + PartialOrd + Display>(flag: &str, word: &str, least: T, most: T) -> Result<T, OptionsFault> {
    let number = word.parse().ok().filter(|number| (&least..=&most).contains(&number));
    number.ok_or_else(|| OptionsFault::out_of_range(flag, word, least, most))
}

fn read_peers(word: &str) -> Result<Vec<String>, OptionsFault> {
    let peers: Vec<String> = word.split(',').map(str::to_string).collect();
    if ![3, 5, 7].contains(&peers.len()) {
        return Err(OptionsFault::Replicas(peers.len()));
    }
    for (place, peer) in peers.iter().enumerate() {
        let has_port =
            peer.rsplit_once(':').is_some_and(|(host, port)| !host.is_empty() && port.parse::<u16>().is_ok());
        if !has_port {
            return Err(OptionsFault::NotAnAddress(peer.clone()));
        }
        if peers[..place].contains(peer) {
            return Err(OptionsFault::Twice(peer.clone()));
        }
    }
    Ok(peers)
}

#[cfg(test)]
mod tests {
    use super::*;

    fn words(line: &str) -> Result<Words, OptionsFault> {
        read(line.split_whitespace().map(str::to_string))
    }

    #[test]
    fn a_whole_line() {
        let line = "--replica 1 --peers a:1,b:2,c:3 --dir d --listen 7001 --node ./epaxos --patience 0.5";
        let Ok(Words::Run(options)) = words(line) else { panic!() };
        assert_eq!(options.replica, 1);
        assert_eq!(options.peers, ["a:1", "b:2", "c:3"]);
        assert_eq!(options.listen, "127.0.0.1:7001");
        assert_eq!(options.patience, Duration::from_millis(500));
        assert!(options.start == Start::Again && !options.is_insecure && options.peer_key.is_none());
        let Ok(Words::Run(options)) = words(&format!("--new --peer-key k --insecure {line}")) else { panic!() };
        assert!(options.start == Start::New && options.is_insecure);
        let Ok(Words::Run(it)) = words(&format!("{line} --join --seal-numbers 20 --keep 9")) else { panic!() };
        assert_eq!((it.start, it.limits.numbers, it.kept), (Start::Join, 20, 9));
        let Ok(Words::Run(it)) = words(&format!("{line} --auth a --memory 2000000 --metrics 9000")) else { panic!() };
        assert_eq!((it.auth, it.memory, it.metrics), (Some("a".into()), 2_000_000, Some("127.0.0.1:9000".into())));
        assert_eq!(options.peer_key, Some(PathBuf::from("k")));
        let Ok(Words::Run(it)) = words(&format!("{line} --checkpoint 1000")) else { panic!() };
        assert_eq!((it.checkpoint, options.checkpoint), (1_000, CHECKPOINT));
        let Ok(Words::Run(it)) = words(&format!("{line} --most-map 10000000")) else { panic!() };
        assert_eq!((it.most_map, options.most_map), (Some(10_000_000), None));
        let Ok(Words::Run(options)) = words("--replica 0 --peers a:1,b:2,c:3 --dir d") else { panic!() };
        assert_eq!(options.listen, "127.0.0.1:7000");
        assert_eq!(words("--replica 9 --help"), Ok(Words::Help));
        for (line, admin, password) in [
            ("", Admin::Socket("d/admin.sock".into()), None),
            ("--admin /run/store/s", Admin::Socket("/run/store/s".into()), None),
            ("--admin s --admin-auth f", Admin::Socket("s".into()), Some("f")),
            ("--admin 7200 --admin-auth f", Admin::Address("127.0.0.1:7200".into()), Some("f")),
            ("--admin 0.0.0.0:7200 --admin-auth f", Admin::Address("0.0.0.0:7200".into()), Some("f")),
        ] {
            let Ok(Words::Run(it)) = words(&format!("--replica 0 --peers a:1,b:2,c:3 --dir d {line}")) else {
                panic!()
            };
            assert_eq!((it.admin, it.admin_auth), (admin, password.map(PathBuf::from)), "{line}");
        }
    }

    #[test]
    fn what_is_refused() {
        let all = "--replica 0 --peers a:1,b:2,c:3 --dir d";
        for (line, fault) in [
            ("", OptionsFault::Missing("--peers")),
            ("--replica 0 --dir d", OptionsFault::Missing("--peers")),
            ("--peers a:1,b:2,c:3 --dir d", OptionsFault::Missing("--replica")),
            ("--replica 0 --peers a:1,b:2,c:3", OptionsFault::Missing("--dir")),
            ("--replica 3 --peers a:1,b:2,c:3 --dir d", OptionsFault::out_of_range("--replica", "3", 0, 2)),
            ("--replica 0 --peers a:1,b:2 --dir d", OptionsFault::Replicas(2)),
            ("--replica 0 --peers a:1,b:2,c --dir d", OptionsFault::NotAnAddress("c".into())),
            ("--replica 0 --peers a:1,b:2,b:2 --dir d", OptionsFault::Twice("b:2".into())),
            (&format!("{all} --patience 0"), OptionsFault::out_of_range("--patience", "0", 0.1, 3_600)),
            (&format!("{all} --patience NaN"), OptionsFault::out_of_range("--patience", "NaN", 0.1, 3_600)),
            (&format!("{all} --other x"), OptionsFault::Unknown("--other".into())),
            ("--replica 0 --peers a:1,b:2,c:3 --dir", OptionsFault::NoValue("--dir".into())),
            (&format!("{all} --new --join"), OptionsFault::TwoStarts),
            (&format!("{all} --seal-numbers 8901"), OptionsFault::out_of_range("--seal-numbers", "8901", 10, 8_900)),
            (&format!("{all} --admin 7200"), OptionsFault::OpenAdmin("127.0.0.1:7200".into())),
            (&format!("{all} --admin 0.0.0.0:7200"), OptionsFault::OpenAdmin("0.0.0.0:7200".into())),
            (&format!("{all} --most-map 9"), OptionsFault::out_of_range("--most-map", "9", 1 << 10, i64::MAX)),
            (&format!("{all} --keep 0"), OptionsFault::out_of_range("--keep", "0", 1, usize::MAX)),
        ] {
            assert_eq!(words(line), Err(fault), "{line}");
        }
    }
}
