//! Accounts that are keys, and transfers between them, each of which is done whole or not at all.
//!
//!     cargo run --example accounts
//!
//! A transfer is a command over both accounts. It requires that they have what its client was answered last, and
//! reports what they have: so one that comes behind another is undone, and its client asks again with what is there
//! now. All three replicas are in one thread here, and their logs are in memory: `three.rs` has files.
#![forbid(unsafe_code)]

use epaxos::{Call, Cluster, Command, OwnedAnswer, Replica};
use std::collections::{BTreeMap, VecDeque};
use std::error::Error;

const ACCOUNTS: [&str; 3] = ["anna", "ben", "carl"];
const FIRST: u64 = 100;
const TIMES: u32 = 5;
const AMOUNT: u64 = 7;

/// A client, which transfers from one account to another.
struct Client {
    call: Call,
    from: &'static str,
    to: &'static str,
    /// What both have, as the last answer said, by their names in rising order.
    has: BTreeMap<&'static str, u64>,
    is_waiting: bool,
    done: u32,
    undone: u32,
}

impl Client {
    fn new(client: u32, from: &'static str, to: &'static str) -> Client {
        let (call, has) = (Call::new(client, 0), BTreeMap::from([(from, FIRST), (to, FIRST)]));
        Client { call, from, to, has, is_waiting: false, done: 0, undone: 0 }
    }

    /// What both have after the transfer. None where too little is there.
    fn after(&self) -> Option<BTreeMap<&'static str, u64>> {
        let left = self.has[self.from].checked_sub(AMOUNT)?;
        Some(BTreeMap::from([(self.from, left), (self.to, self.has[self.to] + AMOUNT)]))
    }

    fn ask(&mut self, replica: &mut Replica) -> Result<(), Box<dyn Error>> {
        let after = self.after().ok_or("too little is there")?;
        let text = |map: &BTreeMap<&'static str, u64>| map.values().map(u64::to_string).collect::<Vec<_>>();
        let (had, gets) = (text(&self.has), text(&after));
        let mut transfer = Command::tx();
        for ((account, had), gets) in after.keys().zip(&had).zip(&gets) {
            let account = account.as_bytes();
            transfer = transfer.require(account, had.as_bytes()).tell(account).put(account, gets.as_bytes());
        }
        self.call.request += 1;
        replica.propose(self.call, transfer.build()?.lent())?;
        self.is_waiting = true;
        Ok(())
    }

    fn hear(&mut self, answer: &OwnedAnswer, stamp: u64) -> Result<(), Box<dyn Error>> {
        self.call.seen = self.call.seen.max(stamp);
        self.is_waiting = false;
        match answer {
            OwnedAnswer::Done(_) => {
                self.done += 1;
                self.has = self.after().ok_or("too little was there")?;
            }
            OwnedAnswer::Undone(values) => {
                self.undone += 1;
                for (has, value) in self.has.values_mut().zip(values.iter()) {
                    *has = amount(value)?;
                }
            }
            // (lost, where somebody else has ended its instance: it is asked for again)
            _ => {}
        }
        Ok(())
    }
}

/// What a key has.
fn amount(value: Option<&[u8]>) -> Result<u64, Box<dyn Error>> {
    Ok(str::from_utf8(value.ok_or("an account is missing")?)?.parse()?)
}

/// Answers: whose each is, and its stamp.
type Answers = Vec<(u32, OwnedAnswer, u64)>;

/// Three replicas, and what is on its way between them.
struct Three {
    replicas: Vec<Replica>,
    logs: [Vec<u8>; 3],
    frames: VecDeque<(u8, Vec<u8>)>,
}

impl Three {
    fn new() -> Result<Three, Box<dyn Error>> {
        let replicas = (0..3).map(|me| Replica::new(Cluster::Three, me)).collect::<Result<_, _>>()?;
        let mut three = Three { replicas, logs: Default::default(), frames: VecDeque::new() };
        three.turn()?;
        Ok(three)
    }

    /// Hands over what is on its way, and returns what clients are answered.
    fn turn(&mut self) -> Result<Answers, Box<dyn Error>> {
        let mut answers = Vec::new();
        for (to, frame) in self.frames.drain(..) {
            self.replicas[usize::from(to)].handle(&frame)?;
        }
        for (replica, log) in self.replicas.iter_mut().zip(&mut self.logs) {
            // (nothing is taken before the log that a replica begins with is on the disk)
            if !log.is_empty() {
                replica.advance()?;
            }
            let output = replica.ready()?.commit(log)?;
            self.frames.extend(output.frames().map(|frame| (frame.to, frame.bytes.to_vec())));
            answers.extend(output.receipts().map(|it| (it.client, it.answer.to_owned(), it.stamp)));
        }
        Ok(answers)
    }

    /// Proposes a command at a replica, and waits for its answer.
    fn ask(&mut self, me: usize, client: u32, command: Command) -> Result<OwnedAnswer, Box<dyn Error>> {
        self.replicas[me].propose(Call::new(client, 1), command)?;
        loop {
            if let Some((_, answer, _)) = self.turn()?.pop() {
                return Ok(answer);
            }
        }
    }
}

fn main() -> Result<(), Box<dyn Error>> {
    let mut three = Three::new()?;
    let first = FIRST.to_string();
    let mut open = Command::tx();
    for account in ACCOUNTS.map(str::as_bytes) {
        open = open.require_absent(account).put(account, first.as_bytes());
    }
    let opened = three.ask(0, 4, open.build()?.lent())?;
    assert!(opened.is_done(), "there are accounts already");

    let mut clients = [Client::new(1, "anna", "ben"), Client::new(2, "ben", "carl"), Client::new(3, "carl", "anna")];
    while clients.iter().any(|it| it.done < TIMES) {
        for (client, replica) in clients.iter_mut().zip(&mut three.replicas) {
            if !client.is_waiting && client.done < TIMES {
                client.ask(replica)?;
            }
        }
        for (client, answer, stamp) in three.turn()? {
            clients[client as usize - 1].hear(&answer, stamp)?;
        }
    }
    for Client { from, to, done, undone, .. } in &clients {
        println!("{from} to {to}: {done} done, {undone} undone and asked again");
    }

    // All accounts at one moment, at any replica.
    let all = ACCOUNTS.iter().fold(Command::tx(), |tx, account| tx.tell(account.as_bytes())).build()?;
    let OwnedAnswer::Done(values) = three.ask(1, 5, all.lent())? else { return Err("it requires nothing".into()) };
    let mut sum = 0;
    for (account, value) in ACCOUNTS.iter().zip(values.iter()) {
        println!("{account} has {}", amount(value)?);
        sum += amount(value)?;
    }
    assert_eq!(sum, 3 * FIRST, "money is made or lost");
    Ok(())
}
