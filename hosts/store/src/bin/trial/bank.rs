//! A bank: money goes from account to account while replicas are killed, stopped and cut off. No sum changes, and each
//! transfer that was answered is done once.
//!
//! Each client counts its transfers in a key of its own, which each of them raises: so one whose reply was lost is
//! known to be done or not once the next one is answered.
use crate::cluster::Cluster;
use crate::options::Options;
use crate::troubles;
use std::sync::atomic::{AtomicBool, Ordering};
use std::thread;
use std::time::{Duration, Instant};
use store::random::Random;
use testing::client::{Client, Refusal, Reply};

/// With a client's own counter these are as many keys as one command reports.
const ACCOUNTS: u64 = 15;
const BEGINNING: i64 = 1_000;
/// Longer than a store's patience.
const PATIENCE: Duration = Duration::from_secs(15);
/// In the end a replica that answers nothing for so long is at fault.
const AT_THE_END: Duration = Duration::from_secs(180);

/// What came of the clients of a bank.
#[derive(Default)]
struct Books {
    transfers: u64,
    /// Those that may be done.
    doubtful: u64,
    /// Those that others were before, or that watched keys kept from being done.
    undone: u64,
    reads: u64,
    faults: Vec<String>,
    /// Of each client, how many transfers are known to be done, and how many more may be.
    counts: Vec<(String, i64, i64)>,
}

/// What a client asked for was not answered.
enum Stop {
    Undone,
    Doubtful,
    Fault(String),
}

/// A client of the bank.
struct Teller<'a> {
    cluster: &'a Cluster,
    random: Random,
    counter: String,
    replica: usize,
    connection: Option<Client>,
    /// How many of its transfers are done, and how many may be besides.
    done: i64,
    open: i64,
    books: Books,
}

fn account(number: u64) -> String {
    format!("account-{number}")
}

fn number(reply: &Reply) -> Result<i64, Stop> {
    let parsed = match reply {
        Reply::Integer(number) => Some(*number),
        Reply::Bulk(Some(text)) => std::str::from_utf8(text).ok().and_then(|text| text.parse().ok()),
        Reply::Bulk(None) => Some(0),
        _ => None,
    };
    parsed.ok_or_else(|| Stop::Fault(format!("no number: {reply:?}")))
}

/// What an error in the place of a reply means.
fn stop(reply: &Reply) -> Option<Stop> {
    let Reply::Error(text) = reply else { return None };
    Some(match Refusal::of(text) {
        Some(Refusal::Undone) => Stop::Undone,
        Some(Refusal::Doubtful) => Stop::Doubtful,
        None => Stop::Fault(format!("an error that doesn't fit: {text}")),
    })
}

impl Teller<'_> {
    fn run(mut self, is_over: &AtomicBool) -> Books {
        while !is_over.load(Ordering::Relaxed) {
            let result = match self.random.below(5) {
                0 | 1 => self.read(),
                2 => self.transfer_by_txn(),
                3 => self.transfer_by_exec(),
                _ => self.transfer_by_watch(),
            };
            match result {
                Ok(()) => {}
                Err(Stop::Undone) => self.books.undone += 1,
                Err(Stop::Doubtful) => self.connection = None,
                Err(Stop::Fault(fault)) => {
                    self.books.faults.push(fault);
                    self.connection = None;
                }
            }
            if self.connection.is_none() {
                self.replica = self.random.below(self.cluster.replicas as u64) as usize;
                thread::sleep(Duration::from_millis(5));
            }
        }
        self.books.counts.push((self.counter, self.done, self.open));
        self.books
    }

    /// Sends lines at once: the last one's reply.
    fn ask(&mut self, lines: &[String]) -> Result<Reply, Stop> {
        if self.connection.is_none() {
            let connected = Client::connect(self.cluster.client_ports[self.replica], PATIENCE);
            self.connection = Some(connected.map_err(|_| Stop::Undone)?);
        }
        let Some(client) = &mut self.connection else { return Err(Stop::Undone) };
        let words: Vec<Vec<&[u8]>> = lines.iter().map(|line| line.split(' ').map(str::as_bytes).collect()).collect();
        let sent = client.send(&words.iter().map(Vec::as_slice).collect::<Vec<_>>());
        let mut replies = (0..lines.len()).map(|_| client.read()).collect::<Result<Vec<_>, _>>();
        if sent.is_err() || replies.is_err() {
            self.connection = None;
            return Err(Stop::Doubtful);
        }
        let last = replies.as_mut().ok().and_then(Vec::pop).unwrap_or(Reply::Bulk(None));
        match stop(&last) {
            None => Ok(last),
            Some(stop) => {
                self.connection = None;
                Err(stop)
            }
        }
    }

    /// A transfer, which may be done where there is no reply.
    fn transfer(&mut self, lines: &[String]) -> Result<Reply, Stop> {
        let reply = self.ask(lines);
        if let Err(Stop::Doubtful) = reply {
            self.open += 1;
            self.books.doubtful += 1;
        }
        reply
    }

    /// So many of its transfers are done, as the reply says. Those that may have been done and weren't never are.
    fn count(&mut self, reported: i64) -> Result<(), Stop> {
        let (least, most) = (self.done, self.done + self.open);
        if !(least..=most).contains(&reported) {
            return Err(Stop::Fault(format!("{} has {reported} transfers, and not {least} to {most}", self.counter)));
        }
        if reported > least {
            (self.done, self.open) = (reported, 0);
        }
        Ok(())
    }

    /// One more is done than the last reply said.
    fn one_more(&mut self, reported: i64) -> Result<(), Stop> {
        self.books.transfers += 1;
        self.open += 1;
        if reported == self.done {
            return Err(Stop::Fault(format!("{} has {reported} transfers, as before one more", self.counter)));
        }
        self.count(reported)
    }

    /// Two accounts.
    fn two(&mut self) -> (String, String) {
        let from = self.random.below(ACCOUNTS);
        let to = (from + 1 + self.random.below(ACCOUNTS - 1)) % ACCOUNTS;
        (account(from), account(to))
    }

    /// What all accounts have, and its own counter, at one moment.
    fn read(&mut self) -> Result<(), Stop> {
        let names: Vec<String> = (0..ACCOUNTS).map(account).chain([self.counter.clone()]).collect();
        let values = if self.random.below(2) == 0 {
            let line = names.iter().fold("EPAXOS TXN".to_string(), |line, name| format!("{line} GET {name}"));
            let Reply::Array(parts) = self.ask(&[line])? else { return Err(Stop::Fault("no array".into())) };
            let [Reply::Integer(1), Reply::Array(values)] = parts.as_slice() else {
                return Err(Stop::Fault(format!("an answer that doesn't fit: {parts:?}")));
            };
            values.clone()
        } else {
            let gets = names.iter().map(|name| format!("GET {name}"));
            let lines: Vec<String> = ["MULTI".to_string()].into_iter().chain(gets).chain(["EXEC".into()]).collect();
            let Reply::Array(values) = self.ask(&lines)? else { return Err(Stop::Fault("no array".into())) };
            values
        };
        let values = values.iter().map(number).collect::<Result<Vec<_>, _>>()?;
        self.books.reads += 1;
        let (own, accounts) = values.split_last().ok_or(Stop::Fault("no values".into()))?;
        let sum: i64 = accounts.iter().sum();
        if sum != ACCOUNTS as i64 * BEGINNING {
            return Err(Stop::Fault(format!("all accounts have {sum}: {accounts:?}")));
        }
        self.count(*own)
    }

    /// By a comparison of what both accounts had when they were read.
    fn transfer_by_txn(&mut self) -> Result<(), Stop> {
        let ((from, to), counter) = (self.two(), self.counter.clone());
        let mut reply = self.ask(&[format!("MGET {from} {to} {counter}")])?;
        for _ in 0..5 {
            let Reply::Array(values) = &reply else { return Err(Stop::Fault(format!("no array: {reply:?}"))) };
            let values = values.iter().map(number).collect::<Result<Vec<_>, _>>()?;
            let [has, other, count] = values[..] else { return Err(Stop::Fault(format!("{values:?}"))) };
            self.count(count)?;
            let more = 1 + self.random.below(9) as i64;
            let (new, new_other) = (has - more, other + more);
            let owned = if count == 0 { format!("IFABSENT {counter}") } else { format!("IF {counter} {count}") };
            let line = format!(
                "EPAXOS TXN IF {from} {has} IF {to} {other} {owned} \
                 SET {from} {new} SET {to} {new_other} SET {counter} {} GET {from} GET {to} GET {counter}",
                count + 1
            );
            match self.transfer(&[line])? {
                Reply::Array(parts) => match parts.as_slice() {
                    [Reply::Integer(1), Reply::Array(_)] => return self.one_more(count + 1),
                    [Reply::Integer(0), now] => reply = now.clone(),
                    _ => return Err(Stop::Fault(format!("an answer that doesn't fit: {parts:?}"))),
                },
                other => return Err(Stop::Fault(format!("an answer that doesn't fit: {other:?}"))),
            }
            self.books.undone += 1;
        }
        Ok(())
    }

    fn transfer_by_exec(&mut self) -> Result<(), Stop> {
        let ((from, to), more) = (self.two(), 1 + self.random.below(9));
        let lines = [
            "MULTI".into(),
            format!("DECRBY {from} {more}"),
            format!("INCRBY {to} {more}"),
            format!("INCR {}", self.counter),
            "EXEC".into(),
        ];
        let reply = self.transfer(&lines)?;
        self.executed(&reply)
    }

    fn transfer_by_watch(&mut self) -> Result<(), Stop> {
        let ((from, to), more) = (self.two(), 1 + self.random.below(9) as i64);
        self.ask(&[format!("WATCH {from} {to}")])?;
        let reply = self.ask(&[format!("MGET {from} {to}")])?;
        let Reply::Array(values) = &reply else { return Err(Stop::Fault(format!("no array: {reply:?}"))) };
        let values = values.iter().map(number).collect::<Result<Vec<_>, _>>()?;
        let lines = [
            "MULTI".into(),
            format!("SET {from} {}", values[0] - more),
            format!("SET {to} {}", values[1] + more),
            format!("INCR {}", self.counter),
            "EXEC".into(),
        ];
        match self.transfer(&lines)? {
            Reply::Bulk(None) => Err(Stop::Undone),
            reply => self.executed(&reply),
        }
    }

    /// The reply to EXEC, whose last command was that on the client's counter.
    fn executed(&mut self, reply: &Reply) -> Result<(), Stop> {
        match reply {
            Reply::Array(replies) if replies.len() == 3 => {
                let count = number(&replies[2])?;
                self.one_more(count)
            }
            other => Err(Stop::Fault(format!("an answer that doesn't fit: {other:?}"))),
        }
    }
}

/// Asks a replica until it answers, for so long at most.
fn patiently(cluster: &Cluster, replica: usize, line: &str) -> Result<Reply, String> {
    let start = Instant::now();
    while start.elapsed() < AT_THE_END {
        let result = Client::connect(cluster.client_ports[replica], PATIENCE)
            .and_then(|mut client| client.ask(&line.split(' ').map(str::as_bytes).collect::<Vec<_>>()));
        match result {
            Ok(Reply::Error(_)) | Err(_) => thread::sleep(Duration::from_millis(100)),
            Ok(reply) => return Ok(reply),
        }
    }
    Err(format!("replica {replica} doesn't answer"))
}

/// The faults that were found.
pub fn run(options: &Options, cluster: &Cluster, seed: u64) -> Result<Vec<String>, String> {
    let all = (0..ACCOUNTS).map(|it| format!(" {} {BEGINNING}", account(it))).collect::<String>();
    patiently(cluster, 0, &format!("MSET{all}"))?;
    let is_over = AtomicBool::new(false);
    let (books, count) = thread::scope(|scope| {
        let tellers: Vec<_> = (0..options.clients)
            .map(|client| {
                let seed = seed.wrapping_mul(89).wrapping_add(client as u64).wrapping_mul(0x9e37_79b9_7f4a_7c15);
                let teller = Teller {
                    cluster,
                    random: Random::from_seed(seed),
                    counter: format!("transfers-{client}"),
                    replica: client % cluster.replicas,
                    connection: None,
                    done: 0,
                    open: 0,
                    books: Books::default(),
                };
                let is_over = &is_over;
                scope.spawn(move || teller.run(is_over))
            })
            .collect();
        let count = troubles::run(options, cluster, seed.wrapping_mul(0x2545_f491_4f6c_dd1d));
        is_over.store(true, Ordering::Relaxed);
        let mut books = Books::default();
        for teller in tellers {
            match teller.join() {
                Ok(more) => {
                    books.transfers += more.transfers;
                    books.doubtful += more.doubtful;
                    books.undone += more.undone;
                    books.reads += more.reads;
                    books.faults.extend(more.faults);
                    books.counts.extend(more.counts);
                }
                Err(_) => books.faults.push("a client of the bank has failed".into()),
            }
        }
        (books, count)
    });
    let Books { transfers, doubtful, undone, reads, mut faults, counts } = books;
    let count = count?;
    // (what is asked in the end is of the newest generation)
    cluster.reach(options.least_changes);
    for replica in 0..cluster.replicas {
        faults.extend(closing(cluster, replica, &counts)?);
    }
    if transfers == 0 || reads == 0 {
        faults.push(format!("{transfers} transfers and {reads} reads were told"));
    }
    println!(
        "{transfers} transfers told, {doubtful} doubtful, {undone} not done; all accounts read {reads} times; \
         {} generations; {} kills, {} machines replaced, {} cuts, {} pauses",
        cluster.newest(),
        count.kills,
        count.replaced,
        count.cuts,
        count.pauses
    );
    Ok(faults)
}

/// What a replica answers in the end.
fn closing(cluster: &Cluster, replica: usize, counts: &[(String, i64, i64)]) -> Result<Vec<String>, String> {
    let mut faults = Vec::new();
    let line = (0..ACCOUNTS).fold("EPAXOS TXN".to_string(), |line, it| format!("{line} GET {}", account(it)));
    let reply = patiently(cluster, replica, &line)?;
    let sum = match &reply {
        Reply::Array(parts) => match parts.as_slice() {
            [_, Reply::Array(values)] => values.iter().map(|it| number(it).unwrap_or(0)).sum(),
            _ => 0,
        },
        _ => 0,
    };
    if sum != ACCOUNTS as i64 * BEGINNING {
        faults.push(format!("in the end all accounts have {sum} at replica {replica}: {reply:?}"));
    }
    for (counter, done, open) in counts {
        let reply = patiently(cluster, replica, &format!("GET {counter}"))?;
        match number(&reply) {
            Ok(count) if (*done..=done + open).contains(&count) => {}
            _ => faults.push(format!("in the end {counter} has {reply:?}, and not {done} to {}", done + open)),
        }
    }
    Ok(faults)
}
