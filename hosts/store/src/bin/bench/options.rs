//! The command line of the bench.
use crate::measure::Work;
use std::path::PathBuf;

pub const HELP: &str = "\
bench: three stores, three members of etcd and one Redis, on this machine, asked in turns by the same number of clients

    bench [--store PATH] [--etcd PATH] [--redis PATH] [--clusters A,B,..] [--clients A,B,..]
          [--works A,B,..] [--commands N] [--turns T] [--value BYTES] [--dir DIR]

    --store PATH     the program `store`; default: beside this one
    --etcd PATH      the program `etcd`; default: the one on the PATH
    --redis PATH     the program `redis-server`; likewise
    --clusters A,B   which are asked, the first one being what the others are compared with; default etcd,store,redis. In `apart` stores
                     propose each command by itself (--together 1); `service` is three services of the crate `epaxos`
                     in the bench's process, over TCP and folders, called without a protocol: it sets and gets
    --clients A,B    how many clients ask at the same time, fresh clusters for each; default 1,8,32
    --works A,B      what is asked: set, get, both (half of each), set-one (all set one key), get-one (all get one key,
                     which one more client sets); default: all of these. txn-N: a command sets N new keys in one
                     transaction, where none of them is there (MSETNX, etcd's Txn); pipeline-N: a command is N sets
                     that are sent at once. N: 1 to 1000
    --commands N     of each kind, by each cluster; default 100000
    --turns T        in so many turns, between which the others have theirs; default 10
    --value BYTES    how long values are; default 100
    --dir DIR        a folder for logs, on the disk that is measured; default: one under the system's for temporary files

All write what they answer to the disk first. Rates, their ratios to those of the first cluster in the same turns, and
the machine's load before a turn, with the bench's own part, are medians over turns, with the least and the most. Status 0: the table is printed. 2: the command line, or a program can't be run.
";

#[derive(Clone, Debug)]
pub struct Options {
    pub store: PathBuf,
    pub etcd: PathBuf,
    pub redis: PathBuf,
    pub clusters: Vec<String>,
    pub clients: Vec<usize>,
    pub works: Vec<Work>,
    pub commands: usize,
    pub turns: usize,
    /// How many bytes a value has.
    pub value: usize,
    pub directory: PathBuf,
}

/// Reads the words after the program's name. None: help is asked for.
pub fn read(words: impl IntoIterator<Item = String>) -> Result<Option<Options>, String> {
    let program = std::env::current_exe().map_err(|error| format!("where this program is can't be told: {error}"))?;
    let mut options = Options {
        store: program.with_file_name("store"),
        etcd: PathBuf::from("etcd"),
        redis: PathBuf::from("redis-server"),
        clusters: ["etcd", "store", "redis"].map(str::to_string).into(),
        clients: vec![1, 8, 32],
        works: Work::ALL.to_vec(),
        commands: 100_000,
        turns: 10,
        value: 100,
        directory: std::env::temp_dir().join(format!("bench-{}", std::process::id())),
    };
    let mut words = words.into_iter();
    while let Some(word) = words.next() {
        let mut value = || words.next().ok_or(format!("{word} wants a value"));
        match word.as_str() {
            "--help" | "-h" => return Ok(None),
            "--store" => options.store = PathBuf::from(value()?),
            "--etcd" => options.etcd = PathBuf::from(value()?),
            "--redis" => options.redis = PathBuf::from(value()?),
            "--clusters" => options.clusters = value()?.split(',').map(str::to_string).collect(),
            "--clients" => options.clients = value()?.split(',').map(number).collect::<Result<_, _>>()?,
            "--works" => options.works = value()?.split(',').map(Work::read).collect::<Result<_, _>>()?,
            "--commands" => options.commands = number(&value()?)?,
            "--turns" => options.turns = number(&value()?)?,
            "--value" => options.value = number(&value()?)?,
            "--dir" => options.directory = PathBuf::from(value()?),
            _ => return Err(format!("unknown word {word}; --help tells the words")),
        }
    }
    if let Some(odd) =
        options.clusters.iter().find(|name| !["store", "apart", "service", "etcd", "redis"].contains(&name.as_str()))
    {
        return Err(format!("--clusters: {odd} is none of store, apart, service, etcd, redis"));
    }
    if options.clients.iter().any(|clients| *clients > options.commands / options.turns) {
        return Err("--commands: in each turn at least as many as clients".into());
    }
    Ok(Some(options))
}

/// A number from 1 to 10,000,000.
fn number(word: &str) -> Result<usize, String> {
    let number = word.parse().ok().filter(|number| (1..=10_000_000).contains(number));
    number.ok_or(format!("{word} isn't a number from 1 to 10000000"))
}
