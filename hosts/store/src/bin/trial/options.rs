//! The command line of the trial.
use crate::distance::{self, Sites, Trouble};
use std::path::PathBuf;
use std::time::Duration;

pub const HELP: &str = "\
trial: a cluster of stores on this machine, clients, kills and cuts; then what the clients were told is checked

    trial --node PATH [--short | --long | --bank | --smoke | --starved | --growing N | --flood N]
          [--replicas N] [--seconds S] [--kills K] [--rounds R] [--clients C] [--audit]
          [--sites A,B,.. [--shares P,..] [--reads P] [--trouble kill|pause|far,..] [--at A] [--most P] [--times N]]
          [--plant early|emptied|unsynced|unsealed|older|lacking|again|changed|fewer|before|after|partly|foreign|passes]
          [--store PATH] [--dir DIR] [--seed S]

    --node PATH      the program `epaxos`, which judges what is left
    --short          60 seconds, 6 kills, one machine replaced, two changes of generation or more: the default
    --long           10 rounds of 60 seconds with 10 kills each and two machines replaced, every round with fresh folders
    --life           20 minutes and 1,000,000 commands or more, 32 clients without pauses, 100 kills, two machines replaced, two more for a
                     third of the time; samples.csv has what the stores take, second by second
    --resize         two more machines take part for a third of the time
    --bank           money goes between accounts, by transactions of all kinds, with kills and cuts as in a round; at each read of all accounts
                     their sum has to be what it was, and each client's transfers that were told have to be done once
    --smoke          no kills: `redis-cli` and `redis-benchmark`, where they are, are told what they should be
    --sites A,B,..   a replica in each of these regions (CA, VA, EU, OR, JP), over links as long as between them, and clients (4,
                     unless --clients says otherwise) who wait at each; judged is how long they wait, against what the round
                     trips to the fast quorums allow, and that each command takes the fast path
    --shares P,..    with --sites: one play each with so many of 100 commands on one key; default 0
    --reads P        with --sites: so many of 100 commands only read
    --trouble T,..   with --sites: a replica is killed, or stopped for 10 s, or 200 ms farther from all for 10 s
    --most P         with --sites: half of a site's commands may take P parts of 100 of what the round trips allow; default 115
    --at A           with --sites: whose replica that is; default: the second
    --times N        with --sites: the links take N times as long; what a busy machine adds counts for less then
    --starved        no kills: the stores have a processor for a fifth of the time and get long values; all have to be told, and logs to stay short
    --growing N      no kills: clients (32 unless --clients says otherwise) set N new keys of 100 bytes; told is how long they wait while a generation
                     changes, and otherwise. None may be told that its command may still be done, and all keys have to be there. The stores end
                     generations as they do where nothing is said, unless --seal-numbers or --seal-dependencies says otherwise. With --replaced M
                     behind it, M machines are replaced in the end
    --flood N        no kills: up to 2,000 clients send up to 500 commands at once, N in all at each of some levels.
                     Told is how fast that goes, what processor time it takes, and how long a client waits that sends
                     one at a time, alone, beside floods, and beside clients that never read; judged is that no level
                     is much slower than those with less in flight
    --least P        with --flood: a level has to reach P parts of 100 of the best rate before it; default 80
    --delay MS       with --growing: those machines are so far from the others
    --replicas N     3, the default, or 5 or 7
    --seconds S, --kills K, --replaced M, --rounds R, --clients C, --commands N    other numbers
    --seal-numbers N, --seal-dependencies N    when stores end a generation; default 300 and 200
    --checkpoint BYTES    how long logs get before stores write the whole map; default: as they do where nothing is said
    --changes N      so many changes of generation there have to be; default 2. Where there are fewer in the end, the stores are asked for more
    --audit          also has `epaxos collect` and `epaxos audit` judge the logs and receipts of each round: its generations as one chain
    --plant early    the stores answer a SET before its receipt has come
    --plant emptied  a replica is started with an emptied log
    --plant unsynced a replica that was killed has lost its last entries, as by a store that answers before its sync
    --plant unsealed all replicas have lost the newest seal, and what came behind it, as if it had been told before it was on the disk
    --plant lacking  an opening that a store takes from a peer lacks a key
    --plant older    a replica comes back with an older copy of its folder, and isn't kept from speaking
    --plant again    stores take some commands that were done for ones behind a seal, so that they are done twice
    --plant changed  some receipts, and what clients are told by them, have another reply than the core's
    --plant fewer    reads ask one replica fewer than they have to
    --plant before   reads tell what the key had before others were asked
    --plant after    reads that were asked later are served by what was found for earlier ones
    --plant partly   reads don't wait for the last instance that was found
    --plant foreign  replicas tell what interferes in another generation, and reads go by it
    --plant passes   a read passes what its own connection has asked of the key before
                     (plants want stores built with the feature `plants`; the trial succeeds where one is caught)
    --store PATH     the program `store`; default: beside this one
    --dir DIR        a folder for logs; default: a new one under the system's folder for temporary files
    --seed S         for the choices that are random

Status 0: all is well, or the plant was caught. 1: it isn't. 2: the command line, or a program can't be run.
";

#[derive(Clone, Copy, PartialEq, Eq, Debug)]
pub enum Plant {
    Early,
    Emptied,
    Unsynced,
    Unsealed,
    Older,
    Lacking,
    Again,
    Changed,
    Fewer,
    Before,
    After,
    Partly,
    Foreign,
    Passes,
}

#[derive(Clone, Debug)]
pub struct Options {
    pub node: PathBuf,
    /// Whether the core runs in the stores.
    pub store: PathBuf,
    pub directory: PathBuf,
    pub replicas: usize,
    pub time: Duration,
    pub kills: usize,
    /// How many machines are lost for good, and replaced.
    pub replaced: usize,
    /// When stores end a generation; 0: as they do where nothing is said.
    pub numbers: usize,
    pub dependencies: usize,
    /// How long logs get before stores write the whole map, where it is said.
    pub checkpoint: Option<usize>,
    /// So many changes of generation there have to be.
    pub least_changes: u32,
    pub rounds: usize,
    pub clients: usize,
    /// So many commands have to be answered at least; where they aren't, clients go on for half as long.
    pub commands: usize,
    /// Whether clients don't pause, and go on to other keys.
    pub life: bool,
    /// Whether two more machines take part for a while.
    pub resize: bool,
    pub bank: bool,
    pub smoke: bool,
    pub starved: bool,
    /// So many keys are set by clients.
    pub growing: usize,
    /// So many keys are set at each level of a flood, and which part of the best rate each has to reach.
    pub flood: usize,
    pub least_parts: u32,
    /// How far machines are that are replaced then.
    pub delay: Duration,
    /// Over distance: the regions, the shares of one key, what happens, and to which replica. None: on this machine.
    pub sites: Sites,
    pub shares: Vec<u64>,
    pub reads: u64,
    pub troubles: Vec<Trouble>,
    pub troubled: usize,
    pub most_parts: u32,
    pub audit: bool,
    pub plant: Option<Plant>,
    pub seed: u64,
}

impl Options {
    fn play(&mut self, seconds: u64, kills: usize, replaced: usize, rounds: usize) {
        self.time = Duration::from_secs(seconds);
        (self.kills, self.replaced, self.rounds) = (kills, replaced, rounds);
    }
}

/// Reads the words after the program's name. None: help is asked for.
pub fn read(words: impl IntoIterator<Item = String>) -> Result<Option<Options>, String> {
    let (mut options, mut at, mut times) = (defaults()?, None, 1);
    let mut words = words.into_iter();
    while let Some(word) = words.next() {
        let mut value = || words.next().ok_or(format!("{word} wants a value"));
        match word.as_str() {
            "--help" | "-h" => return Ok(None),
            "--short" => options.play(60, 6, 1, 1),
            "--life" => {
                options.play(1_200, 100, 2, 1);
                (options.life, options.resize, options.clients, options.commands) = (true, true, 32, 1_000_000);
                (options.numbers, options.dependencies) = (1_500, 600);
            }
            "--resize" => options.resize = true,
            "--clients" => options.clients = number(&value()?)?,
            "--commands" => options.commands = number(&value()?)?,
            "--long" => options.play(60, 10, 2, 10),
            "--node" => options.node = PathBuf::from(value()?),
            "--store" => options.store = PathBuf::from(value()?),
            "--dir" => options.directory = PathBuf::from(value()?),
            "--replicas" => options.replicas = number(&value()?)?,
            "--seconds" => options.time = Duration::from_secs(number(&value()?)? as u64),
            "--replaced" => options.replaced = number(&value()?)?,
            "--seal-numbers" => options.numbers = number(&value()?)?,
            "--seal-dependencies" => options.dependencies = number(&value()?)?,
            "--checkpoint" => options.checkpoint = Some(number(&value()?)?),
            "--changes" => options.least_changes = number(&value()?)? as u32,
            "--kills" => options.kills = number(&value()?)?,
            "--rounds" => options.rounds = number(&value()?)?,
            "--seed" => options.seed = number(&value()?)? as u64,
            "--bank" => options.bank = true,
            "--smoke" => options.smoke = true,
            "--starved" => options.starved = true,
            "--growing" => {
                (options.growing, options.clients, options.least_changes) = (number(&value()?)?, 32, 0);
                (options.numbers, options.dependencies, options.replaced) = (0, 0, 0);
            }
            "--flood" => {
                (options.flood, options.least_changes) = (number(&value()?)?, 0);
                (options.numbers, options.dependencies, options.replaced) = (0, 0, 0);
            }
            "--least" => options.least_parts = number(&value()?)? as u32,
            "--delay" => options.delay = Duration::from_millis(number(&value()?)? as u64),
            "--audit" => options.audit = true,
            "--sites" => options.sites = Sites::read(&value()?)?,
            "--shares" => options.shares = list(&value()?, |it| number(it).map(|it| it as u64))?,
            "--trouble" => options.troubles = list(&value()?, Trouble::read)?,
            "--reads" => options.reads = number(&value()?)? as u64,
            "--most" => options.most_parts = number(&value()?)? as u32,
            "--at" => at = Some(value()?),
            "--times" => times = number(&value()?)? as u64,
            "--plant" => options.plant = Some(read_plant(&value()?)?),
            _ => return Err(format!("unknown word {word}; --help tells the words")),
        }
    }
    if options.sites.count() > 0 {
        (options.replicas, options.least_changes) = (options.sites.count(), 0);
        // (a seal interferes with all commands)
        (options.numbers, options.dependencies) = (8_900, 62_999);
        options.troubled = at.map_or(Ok(1), |name| options.sites.replica(&name))?;
        options.sites.times = times;
        options.clients = if options.clients > 0 { options.clients } else { distance::CLIENTS };
    }
    if options.clients == 0 {
        options.clients = 2 * options.replicas;
    }
    if options.node.as_os_str().is_empty() {
        return Err("--node is missing".into());
    }
    if options.plant == Some(Plant::Older) {
        // (in a later generation an older copy has promised nothing)
        (options.numbers, options.dependencies, options.replaced) = (8_900, 62_999, 0);
    }
    if options.smoke || options.starved || options.plant.is_some() {
        options.least_changes = 0;
    }
    if ![3, 5, 7].contains(&options.replicas) {
        return Err("--replicas: 3, 5 or 7".into());
    }
    Ok(Some(options))
}

fn defaults() -> Result<Options, String> {
    let program = std::env::current_exe().map_err(|error| format!("where this program is can't be told: {error}"))?;
    let directory = std::env::temp_dir().join(format!("trial-{}", std::process::id()));
    let seed = store::random::Random::new().below(1 << 32);
    Ok(Options {
        node: PathBuf::new(),
        store: program.with_file_name("store"),
        directory,
        replicas: 3,
        time: Duration::from_secs(60),
        kills: 6,
        replaced: 1,
        numbers: 300,
        dependencies: 200,
        checkpoint: None,
        least_changes: 2,
        rounds: 1,
        clients: 0,
        commands: 0,
        life: false,
        resize: false,
        bank: false,
        smoke: false,
        starved: false,
        growing: 0,
        flood: 0,
        least_parts: 80,
        delay: Duration::ZERO,
        sites: Sites::default(),
        shares: vec![0],
        reads: 0,
        troubles: Vec::new(),
        troubled: 0,
        most_parts: 115,
        audit: false,
        plant: None,
        seed,
    })
}

fn number(word: &str) -> Result<usize, String> {
    word.parse().map_err(|_| format!("{word} is no number"))
}

fn list<T>(words: &str, read: impl Fn(&str) -> Result<T, String>) -> Result<Vec<T>, String> {
    words.split(',').map(read).collect()
}

fn read_plant(word: &str) -> Result<Plant, String> {
    match word {
        "early" => Ok(Plant::Early),
        "emptied" => Ok(Plant::Emptied),
        "unsynced" => Ok(Plant::Unsynced),
        "unsealed" => Ok(Plant::Unsealed),
        "older" => Ok(Plant::Older),
        "lacking" => Ok(Plant::Lacking),
        "again" => Ok(Plant::Again),
        "changed" => Ok(Plant::Changed),
        "fewer" => Ok(Plant::Fewer),
        "before" => Ok(Plant::Before),
        "after" => Ok(Plant::After),
        "partly" => Ok(Plant::Partly),
        "foreign" => Ok(Plant::Foreign),
        "passes" => Ok(Plant::Passes),
        _ => Err(format!("--plant {word}: there is none of this name (--help lists them)")),
    }
}
