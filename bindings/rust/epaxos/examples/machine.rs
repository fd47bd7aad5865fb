//! A machine of one's own that is replicated: accounts, and transfers between them.
//!
//!     cargo run --example machine
//!     cargo run --release --example machine -- 100
//!
//! The core puts opaque commands in one order by their keys, which here are the accounts that they touch, and knows
//! nothing of what they do. Each replica has a machine, which does the commands in the order in which its replica
//! executes them. All replicas are in one thread here, and their logs are in memory: `three.rs` has files. With a
//! number, so many simulated clusters of hosts have the machine, through crashes, generations and lost disks.
#![forbid(unsafe_code)]

use epaxos::host::{Machine, Ordered};
use epaxos::sim::{Plan, Seen, Workload, run_machine, shrunk_machine};
use epaxos::{Answer, Call, Cluster, Command, Executed, Instance, OwnedCommand, Replica};
use std::collections::{BTreeMap, VecDeque};
use std::error::Error;
use std::io::{self, ErrorKind};

/// What a command does: so much goes from its first key to its second one, if that is there; without a second key it is
/// paid in.
fn body(amount: u64) -> [u8; 8] {
    amount.to_be_bytes()
}

/// The machine: a function of its state and the command, without clock, chance, or anything that one replica has and
/// another hasn't.
#[derive(Default, PartialEq, Eq, Debug)]
struct Bank {
    accounts: BTreeMap<Vec<u8>, u64>,
    /// What each instance was answered, so that the replica that proposed it can answer its client.
    replies: BTreeMap<Instance, bool>,
}

impl Bank {
    /// Does what was executed, if it is a command of this machine that was done.
    fn execute(&mut self, executed: &Executed) {
        let (Some(Command::Opaque { first, second, body, .. }), Answer::Ordered) = (executed.command, executed.answer)
        else {
            return;
        };
        let is_done = self.pay((first, second), body);
        self.replies.insert(executed.instance, is_done);
    }

    /// Whether it was done.
    fn pay(&mut self, (first, second): (&[u8], Option<&[u8]>), body: &[u8]) -> bool {
        let amount = body.try_into().map_or(0, u64::from_be_bytes);
        match second {
            None => {
                *self.accounts.entry(first.to_vec()).or_default() += amount;
                true
            }
            Some(to) => self.transfer(first, to, amount),
        }
    }

    fn transfer(&mut self, from: &[u8], to: &[u8], amount: u64) -> bool {
        let left = self.accounts.get(from).and_then(|has| has.checked_sub(amount));
        if let Some(left) = left {
            self.accounts.insert(from.to_vec(), left);
            *self.accounts.entry(to.to_vec()).or_default() += amount;
        }
        left.is_some()
    }
}

/// The same for a host, which answers its clients itself: the reply is what the account has, to who only looks, and
/// else whether it was done.
impl Machine for Bank {
    fn apply(&mut self, ordered: &Ordered) -> Vec<u8> {
        if ordered.is_reading {
            return body(self.accounts.get(ordered.first).copied().unwrap_or_default()).into();
        }
        vec![self.pay((ordered.first, ordered.second), ordered.body).into()]
    }

    fn snapshot(&self) -> Vec<u8> {
        let account = |(name, has): (&Vec<u8>, &u64)| [&[name.len() as u8], &name[..], &body(*has)].concat();
        self.accounts.iter().flat_map(account).collect()
    }

    fn restore(&mut self, mut snapshot: &[u8]) -> io::Result<()> {
        let mut take = |length: usize| snapshot.split_off(..length).ok_or(ErrorKind::InvalidData);
        self.accounts.clear();
        while let Ok([length]) = take(1) {
            let name = take(usize::from(*length))?.to_vec();
            let has = take(8)?.try_into().map(u64::from_be_bytes).map_err(io::Error::other)?;
            self.accounts.insert(name, has);
        }
        Ok(())
    }
}

/// What simulated clients ask for, and what the replies say that each account has.
#[derive(Clone, Default)]
struct Trial(BTreeMap<Vec<u8>, u64>);

impl Workload for Trial {
    fn machine(&self) -> Box<dyn Machine> {
        Box::<Bank>::default()
    }

    fn command(&mut self, below: &mut dyn FnMut(u64) -> u64) -> OwnedCommand {
        let mut name = || [&b"anna"[..], b"ben", b"carl", b"dora"][below(4) as usize].to_vec();
        let (first, other) = (name(), name());
        let (kind, amount) = (below(4), body(1 + below(50)).into());
        let second = Some(other).filter(|other| kind > 1 && *other != first);
        let (is_reading, body) = if kind == 0 { (true, Vec::new()) } else { (false, amount) };
        OwnedCommand::Opaque { is_reading, first, second, body }
    }

    fn check(&mut self, asked: &Ordered, reply: &[u8]) -> Result<(), String> {
        let has = self.0.get(asked.first).copied().unwrap_or_default();
        if asked.is_reading {
            return if reply == body(has) { Ok(()) } else { Err(format!("it has {has}")) };
        }
        let amount = asked.body.try_into().map_or(0, u64::from_be_bytes);
        let is_paid = asked.second.is_none() || amount <= has;
        if reply != [u8::from(is_paid)] {
            return Err(format!("it has {has}, of which {amount} is taken"));
        }
        match asked.second.filter(|_| is_paid) {
            Some(to) => {
                self.0.insert(asked.first.to_vec(), has - amount);
                *self.0.entry(to.to_vec()).or_default() += amount;
            }
            None if is_paid => _ = self.0.insert(asked.first.to_vec(), has + amount),
            None => {}
        }
        Ok(())
    }
}

/// Simulated clusters have the machine.
fn simulate(seeds: u64) -> Result<(), Box<dyn Error>> {
    let mut all = Seen::default();
    for seed in 1..=seeds {
        let (seen, failure) = run_machine(&Plan::of_seed(seed), &Trial::default());
        if let Some(failure) = failure {
            println!("{}", shrunk_machine(&Plan::of_seed(seed), &Trial::default()));
            return Err(format!("seed {seed}: {failure}").into());
        }
        all += seen;
    }
    let Seen { commands, generations, crashes, replaced, .. } = all;
    println!("{seeds} seeds: {commands} commands, {generations} generations, {crashes} crashes, {replaced} replaced");
    Ok(())
}

fn main() -> Result<(), Box<dyn Error>> {
    if let Some(seeds) = std::env::args().nth(1) {
        return simulate(seeds.parse()?);
    }
    let mut replicas: Vec<Replica> = (0..3).map(|me| Replica::new(Cluster::Three, me)).collect::<Result<_, _>>()?;
    let mut logs: [Vec<u8>; 3] = Default::default();
    for (replica, log) in replicas.iter_mut().zip(&mut logs) {
        replica.ready()?.commit(log)?;
    }
    let mut banks: Vec<Bank> = (0..3).map(|_| Bank::default()).collect();
    // At three replicas side by side, so that commands cross: anna and ben have 100, and pay each other and carl.
    let commands: [&[(&str, Option<&str>, u64)]; 3] = [
        &[("anna", None, 100), ("anna", Some("ben"), 30), ("anna", Some("carl"), 60)],
        &[("ben", None, 100), ("ben", Some("anna"), 80), ("ben", Some("carl"), 60)],
        &[("carl", Some("anna"), 10), ("carl", Some("ben"), 200)],
    ];
    for ((client, replica), commands) in (1..).zip(&mut replicas).zip(commands) {
        for (request, (first, second, amount)) in (1..).zip(commands) {
            let (body, second) = (body(*amount), second.map(str::as_bytes));
            let command = Command::Opaque { is_reading: false, first: first.as_bytes(), second, body: &body };
            replica.propose(Call::new(client, request), command)?;
        }
    }
    let mut frames: VecDeque<(u8, Vec<u8>)> = VecDeque::new();
    let mut is_over = false;
    while !is_over {
        for (to, frame) in frames.drain(..) {
            replicas[usize::from(to)].handle(&frame)?;
        }
        for ((replica, log), bank) in replicas.iter_mut().zip(&mut logs).zip(&mut banks) {
            replica.execute_all()?;
            let output = replica.ready()?.commit(log)?;
            frames.extend(output.frames().map(|frame| (frame.to, frame.bytes.to_vec())));
            output.executed().for_each(|executed| bank.execute(&executed));
            for receipt in output.receipts() {
                let is_done = bank.replies[&receipt.instance];
                println!(
                    "client {} request {}: {}",
                    receipt.client,
                    receipt.request,
                    if is_done { "done" } else { "too little is there" }
                );
            }
        }
        is_over = frames.is_empty();
    }
    for (name, has) in &banks[0].accounts {
        println!("{} has {has}", String::from_utf8_lossy(name));
    }
    assert_eq!(banks[0].accounts.values().sum::<u64>(), 200);
    assert!(banks[0] == banks[1] && banks[1] == banks[2], "the machines differ");
    println!("three machines agree");
    Ok(())
}
