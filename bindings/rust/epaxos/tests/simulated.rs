//! State machines of one's own under the simulator: a right one passes, and each wrong one is found.
#![cfg(not(feature = "plants"))]
#![forbid(unsafe_code)]

use epaxos::host::{Machine, Ordered};
use epaxos::sim::{Failure, Plan, Workload, run_machine, shrunk_machine};
use epaxos::{Cluster, OwnedCommand};
use std::collections::BTreeMap;
use std::io;

/// What is wrong with a machine.
#[derive(Clone, Copy, Default, PartialEq, Eq, Debug)]
enum Wrong {
    #[default]
    Nothing,
    /// A start forgets how often each list was written, by which it replies.
    Forgets,
    /// The same, and it replies nothing of it: its state alone is another one.
    ForgetsInSilence,
    /// It replies by what belongs to no key of the command.
    Mixes,
    /// Who looks leaves a mark.
    Marks,
    /// It replies wrongly, everywhere the same.
    Lies,
}

/// Lists of numbers by name, one byte each. A command appends one, and its reply is the list.
#[derive(Default)]
struct Lists {
    lists: BTreeMap<u8, Vec<u8>>,
    counts: BTreeMap<u8, u8>,
    wrong: Wrong,
}

impl Machine for Lists {
    fn apply(&mut self, ordered: &Ordered) -> Vec<u8> {
        let name = ordered.first[0];
        let list = self.lists.entry(name).or_default();
        if !ordered.is_reading {
            list.extend(ordered.body);
            *self.counts.entry(name).or_default() += 1;
        } else if self.wrong == Wrong::Marks {
            list.push(0);
        }
        let mut reply = list.clone();
        match self.wrong {
            Wrong::Forgets => reply.extend(self.counts.get(&name)),
            Wrong::Mixes => reply.push(self.lists.values().map(|list| list.len() as u8).sum()),
            Wrong::Lies if reply.len() > 40 => _ = reply.pop(),
            _ => {}
        }
        reply
    }

    fn snapshot(&self) -> Vec<u8> {
        let list = |(name, list): (&u8, &Vec<u8>)| {
            let count = self.counts.get(name).filter(|_| self.wrong == Wrong::ForgetsInSilence).copied();
            [&[*name, list.len() as u8, count.unwrap_or_default()], &list[..]].concat()
        };
        // (what was only looked at isn't there)
        self.lists.iter().filter(|(_, list)| !list.is_empty()).flat_map(list).collect()
    }

    fn restore(&mut self, mut snapshot: &[u8]) -> io::Result<()> {
        *self = Lists { wrong: self.wrong, ..Lists::default() };
        while let [name, length, count, rest @ ..] = snapshot {
            let (list, rest) = rest.split_at_checked((*length).into()).ok_or(io::ErrorKind::InvalidData)?;
            self.lists.insert(*name, list.to_vec());
            if self.wrong == Wrong::Nothing {
                self.counts.insert(*name, *count);
            }
            snapshot = rest;
        }
        Ok(())
    }
}

#[derive(Clone, Default)]
struct Trial {
    wrong: Wrong,
    lists: BTreeMap<u8, Vec<u8>>,
    next: u8,
}

impl Workload for Trial {
    fn machine(&self) -> Box<dyn Machine> {
        Box::new(Lists { wrong: self.wrong, ..Lists::default() })
    }

    fn command(&mut self, below: &mut dyn FnMut(u64) -> u64) -> OwnedCommand {
        self.next = self.next.wrapping_add(1);
        let (is_reading, first) = (below(3) == 0, vec![below(4) as u8]);
        OwnedCommand::Opaque {
            is_reading,
            first,
            second: None,
            body: if is_reading { vec![] } else { vec![self.next] },
        }
    }

    fn check(&mut self, asked: &Ordered, reply: &[u8]) -> Result<(), String> {
        let list = self.lists.entry(asked.first[0]).or_default();
        list.extend(asked.body);
        let is_well = reply.starts_with(list);
        if is_well { Ok(()) } else { Err(format!("{reply:?}, where {list:?} is appended")) }
    }
}

/// Short runs, whose lists stay below what a byte can say.
fn plan(seed: u64) -> Plan {
    let plan = Plan::of_seed(seed);
    Plan { asks: plan.asks.min(200), ..plan }
}

/// The first seed of so many that finds it, and what it finds.
fn found(wrong: Wrong, seeds: u64) -> Option<(u64, Failure)> {
    let trial = Trial { wrong, ..Trial::default() };
    (1..=seeds).find_map(|seed| Some((seed, run_machine(&plan(seed), &trial).1?)))
}

#[test]
fn a_right_machine_passes() {
    assert_eq!(found(Wrong::Nothing, 15), None);
    let (seen, _) = run_machine(&plan(3), &Trial::default());
    assert_eq!(run_machine(&plan(3), &Trial::default()).0, seen);
}

#[test]
fn wrong_machines_are_found() {
    let is_machine = |failure: &Failure| matches!(failure, Failure::Machine(_));
    for wrong in [Wrong::Forgets, Wrong::ForgetsInSilence, Wrong::Mixes, Wrong::Marks] {
        let (seed, failure) = found(wrong, 25).unwrap_or_else(|| panic!("{wrong:?} isn't found"));
        println!("{wrong:?}: seed {seed}: {failure}");
        assert!(is_machine(&failure), "{wrong:?}: {failure}");
    }
    let (seed, failure) = found(Wrong::Lies, 25).unwrap();
    println!("Lies: seed {seed}: {failure}");
    assert!(matches!(failure, Failure::Reply(_)), "{failure}");
}

/// What is forgotten is found where something starts again, and so little is left of the run.
#[test]
fn what_fails_is_shrunk() {
    let trial = Trial { wrong: Wrong::Forgets, ..Trial::default() };
    let (seed, _) = found(Wrong::Forgets, 25).unwrap();
    let (least, whole) = (shrunk_machine(&plan(seed), &trial), plan(seed));
    assert!(least.asks < whole.asks && least.troubles.len() <= 2, "{least}");
    assert!(matches!(run_machine(&least, &trial).1, Some(Failure::Machine(_))));
    // Where nothing starts again and no opening is taken it isn't seen.
    let calm = (1..).map(plan).find(|plan| plan.is_calm() && plan.cluster == Cluster::Three).unwrap();
    assert_eq!(run_machine(&calm, &trial).1, None);
}
