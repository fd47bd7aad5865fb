//! A lock by compare-and-set: three owners, at a replica each, take it in turn, and it is never in two hands.
//!
//!     cargo run --example lock
//!
//! A lock is a key, and its value is its owner's token. Who compares absent with a token takes it, and who compares its own token with absent gives it
//! back. All three replicas are in one thread here, and their logs are in memory: `three.rs` has files.
#![forbid(unsafe_code)]

use epaxos::{Answer, Call, Cluster, Command, Replica};
use std::collections::VecDeque;
use std::error::Error;

const TIMES: u32 = 5;

/// An owner: what it has asked last, and what it was answered.
struct Owner {
    call: Call,
    token: String,
    has_it: bool,
    is_waiting: bool,
    times: u32,
}

impl Owner {
    /// Asks for the lock, or for its end, at its replica.
    fn ask(&mut self, replica: &mut Replica) -> Result<(), epaxos::Fault> {
        self.call.request += 1;
        let token = Some(self.token.as_bytes());
        let (expected, new) = if self.has_it { (token, None) } else { (None, token) };
        replica.propose(self.call, Command::Cas { key: b"lock", expected, new })?;
        self.is_waiting = true;
        Ok(())
    }

    /// What the key had shows whether it was done. Where the answer says that another owner has the lock, or that the
    /// command was lost, it asks again.
    fn hear(&mut self, answer: Answer, stamp: u64) {
        self.call.seen = self.call.seen.max(stamp);
        self.is_waiting = false;
        match answer {
            Answer::Absent if !self.has_it => self.has_it = true,
            Answer::Present(token) if token == self.token.as_bytes() => {
                // (its own token: it was taken by a request whose answer was lost, or it is given back)
                self.times += u32::from(self.has_it);
                self.has_it = !self.has_it;
            }
            _ => {}
        }
    }
}

fn main() -> Result<(), Box<dyn Error>> {
    let mut replicas: Vec<Replica> = (0..3).map(|me| Replica::new(Cluster::Three, me)).collect::<Result<_, _>>()?;
    let mut logs: [Vec<u8>; 3] = Default::default();
    for (replica, log) in replicas.iter_mut().zip(&mut logs) {
        replica.ready()?.commit(log)?;
    }
    let mut owners: Vec<Owner> = (1..=3)
        .map(|client| Owner {
            call: Call::new(client, 0),
            token: format!("owner {client}"),
            has_it: false,
            is_waiting: false,
            times: 0,
        })
        .collect();
    let mut frames: VecDeque<(u8, Vec<u8>)> = VecDeque::new();
    while owners.iter().any(|owner| owner.times < TIMES || owner.has_it) {
        for (owner, replica) in owners.iter_mut().zip(&mut replicas) {
            if !owner.is_waiting && (owner.has_it || owner.times < TIMES) {
                owner.ask(replica)?;
            }
        }
        for (to, frame) in frames.drain(..) {
            replicas[usize::from(to)].handle(&frame)?;
        }
        for (replica, log) in replicas.iter_mut().zip(&mut logs) {
            replica.advance()?;
            // (a program that is to survive a crash has a `LogFile`)
            let output = replica.ready()?.commit(log)?;
            frames.extend(output.frames().map(|frame| (frame.to, frame.bytes.to_vec())));
            for receipt in output.receipts() {
                let owner = &mut owners[receipt.client as usize - 1];
                let had_it = owner.has_it;
                owner.hear(receipt.answer, receipt.stamp);
                if owner.has_it != had_it {
                    println!("{} {}", owner.token, if had_it { "gives it back" } else { "has the lock" });
                }
            }
            // What an answer says of a lock is old by the time it comes; but nobody has it before the one who had it
            // has given it back.
            assert!(owners.iter().filter(|owner| owner.has_it).count() <= 1, "the lock is in two hands");
        }
    }
    Ok(())
}
