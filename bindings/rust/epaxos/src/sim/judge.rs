//! What a run is judged by.
use super::failure::Failure;
use super::pair::Pair;
use crate::host::Done;
use crate::parts::linearizable::{self, Action, Operation, Verdict};
use crate::{Fields, Instance, OwnedAnswer, OwnedCommand, Receipt};
use std::collections::{BTreeMap, HashMap};

/// What a client has asked for.
#[derive(Clone, Copy, PartialEq, Eq, Debug)]
pub(super) enum Kind {
    Put,
    Del,
    New,
    /// A read that writes nothing.
    Read,
    /// A read that is a command.
    Get,
    /// Both of two keys by one command: each key's part is one of the others.
    Pair(Pair),
    /// The machine writes a register, or reads it.
    Write,
    Look,
    /// What is asked of a machine of one's own, which isn't judged here.
    Own,
}

impl Kind {
    /// Whether it is the machine that does it, whose registers aren't the map's.
    fn is_of_machine(self) -> bool {
        matches!(self, Kind::Write | Kind::Look)
    }

    /// Whether it only reads.
    fn is_reading(self) -> bool {
        matches!(self, Kind::Read | Kind::Get | Kind::Look)
    }
}

/// What was asked, and what was answered.
#[derive(Clone, Debug)]
pub(super) struct Asked {
    pub(super) key: u32,
    pub(super) kind: Kind,
    /// The value that is put, which no other one is.
    pub(super) value: u32,
    pub(super) start: u64,
    pub(super) end: Option<u64>,
    /// What the key had before, as far as it was answered.
    pub(super) before: Option<Option<u32>>,
    /// Whether it isn't done, and never will be.
    pub(super) is_refused: bool,
    pub(super) is_answered: bool,
    /// The machine that was asked, and at which start.
    pub(super) at: (u8, u32),
    /// What was asked of another key by the same command.
    pub(super) with: Option<usize>,
}

impl Asked {
    /// The key's bytes.
    pub(super) fn key_bytes(&self) -> Vec<u8> {
        format!("key {}", self.key).into_bytes()
    }
}

/// The bits of a client's number that aren't the start's, nor the replica's: of those that propose seals none is there.
const CLIENTS: u32 = 0x1ff8;

/// What was executed in one instance.
type Executed = (Option<OwnedCommand>, OwnedAnswer);

/// All that is known of a run.
#[derive(Default)]
pub(super) struct Judge {
    pub(super) asked: Vec<Asked>,
    executed: BTreeMap<(u32, Instance), Executed>,
    /// The writes of each key, in a generation, in their order.
    orders: BTreeMap<(u32, Vec<u8>), Vec<Instance>>,
    /// How far each start of each machine is in them.
    places: BTreeMap<(u8, u32), BTreeMap<(u32, Vec<u8>), usize>>,
    /// The stamp of the last receipt of each client of the protocol, at each start of each machine.
    stamps: BTreeMap<((u8, u32), u32), u64>,
    /// Where each value was put.
    puts: HashMap<Vec<u8>, (u32, Instance)>,
    /// No machine begins with an earlier generation than this one.
    least: u32,
    /// How many were executed that are forgotten.
    past: u64,
    /// Whether a value may be put by several commands.
    pub(super) may_repeat: bool,
}

impl Judge {
    /// A host has executed this, at this start of its machine.
    pub(super) fn execute(&mut self, at: (u8, u32), done: Done) -> Result<(), Failure> {
        let Done { generation, instance, command, answer } = done;
        let place = (generation, instance);
        let written = command.as_ref().filter(|_| answer.is_done()).map(written).unwrap_or_default();
        for value in written.iter().filter(|_| !self.may_repeat).filter_map(|(_, value)| value.as_ref()) {
            match self.puts.get(value) {
                Some(other) if *other != place => {
                    let (before, one) = other;
                    let text = value.escape_ascii();
                    return Err(Failure::DoneTwice(format!(
                        "{text} at {one} of {before} and {instance} of {generation}"
                    )));
                }
                Some(_) => {}
                None => _ = self.puts.insert(value.clone(), place),
            }
        }
        let executed = (command, answer);
        if let Some(before) = self.executed.get(&place) {
            if *before != executed {
                return Err(Failure::Apart(format!("{instance} of generation {generation}: {before:?}, {executed:?}")));
            }
        } else {
            self.executed.insert(place, executed);
        }
        for (key, _) in written {
            let order = self.orders.entry((generation, key.clone())).or_default();
            let place = self.places.entry(at).or_default().entry((generation, key)).or_default();
            match order.get(*place) {
                None => order.push(instance),
                Some(other) if *other == instance => {}
                Some(other) => {
                    return Err(Failure::Apart(format!(
                        "{other} and {instance} of generation {generation} in another order"
                    )));
                }
            }
            *place += 1;
        }
        Ok(())
    }

    /// A start of a machine has handed out these receipts. A client's next request has seen the one before.
    pub(super) fn hear_receipts(&mut self, at: (u8, u32), receipts: &[u8]) -> Result<(), Failure> {
        let mut fields = Fields::new(receipts);
        // (a seal is nobody's)
        while let Some(Receipt { client, request, seen, stamp, answer, .. }) = Receipt::read(&mut fields) {
            let is_seal = client & CLIENTS == 0;
            let last = self.stamps.insert((at, client), stamp).filter(|_| !is_seal).unwrap_or_default();
            if seen < last {
                let what =
                    format!("request {request} of {client}, answered {answer:?}, has seen {seen}, and not {last}");
                return Err(Failure::Unseen(what));
            }
        }
        Ok(())
    }

    /// What clients of each key were answered.
    pub(super) fn check(&self) -> Result<(), Failure> {
        let mut of_keys: BTreeMap<(bool, u32), Vec<Operation>> = BTreeMap::new();
        for asked in self.asked.iter().filter(|asked| !asked.is_refused && asked.kind != Kind::Own) {
            of_keys.entry((asked.kind.is_of_machine(), asked.key)).or_default().push(operation(asked));
        }
        for ((is_of_machine, key), all) in of_keys {
            if linearizable::check(&all) == Verdict::NotLinearizable {
                let what = if is_of_machine { "register" } else { "key" };
                return Err(Failure::NotLinearizable(format!("{what} {key} ({} operations)", all.len())));
            }
        }
        Ok(())
    }

    /// What was asked and answered, a line each.
    pub(super) fn lines(&self) -> String {
        let value = |value: Option<u32>| value.map_or("nothing".into(), |it| it.to_string());
        let line = |(token, asked): (usize, &Asked)| {
            let Asked { key, kind, value: new, start, end, before, is_refused, at: (machine, _), .. } = asked;
            let outcome = match (end, before) {
                (Some(end), Some(before)) => format!("told at {end} that it had {}", value(*before)),
                (Some(end), None) => format!("told at {end} that it is done"),
                _ if *is_refused => "refused".into(),
                _ => "not told".into(),
            };
            format!("{token} asked machine {machine} at {start} for {kind:?} of key {key} with {new}: {outcome}\n")
        };
        self.asked.iter().enumerate().map(line).collect()
    }

    /// No machine begins with an earlier generation than this one any more.
    pub(super) fn forget(&mut self, least: u32) {
        if std::mem::replace(&mut self.least, least) == least {
            return;
        }
        let kept = self.executed.split_off(&(least, Instance { replica: 0, number: 0 }));
        self.past += self.executed.len() as u64;
        self.executed = kept;
        self.orders = self.orders.split_off(&(least, Vec::new()));
        self.places.values_mut().for_each(|places| *places = places.split_off(&(least, Vec::new())));
    }

    /// How many commands were executed somewhere.
    pub(super) fn count(&self) -> u64 {
        self.past + self.executed.len() as u64
    }
}

fn operation(asked: &Asked) -> Operation {
    let Asked { kind, value, start, end, before, .. } = *asked;
    let action = match kind {
        Kind::Put | Kind::Pair(_) | Kind::Write => Action::Exchange(value, before),
        Kind::Del => Action::Del(before.map(|before| before.is_some())),
        Kind::New => Action::New(value, before.map(|before| before.is_none())),
        Kind::Read | Kind::Get | Kind::Look | Kind::Own => Action::Get(before.unwrap_or_default()),
    };
    // (a read that wasn't answered shows nothing)
    let end = end.filter(|_| before.is_some() || !kind.is_reading());
    Operation { action, start, end, pipeline: None }
}

/// What a command that was done has written: each key, and what it got.
fn written(command: &OwnedCommand) -> Vec<(Vec<u8>, Option<Vec<u8>>)> {
    match command {
        OwnedCommand::Put { key, value } => vec![(key.clone(), Some(value.clone()))],
        OwnedCommand::Del { key } => vec![(key.clone(), None)],
        OwnedCommand::Cas { key, new, .. } => vec![(key.clone(), new.clone())],
        OwnedCommand::Opaque { is_reading: false, first, second, body } => {
            let second = second.iter().map(|key| (key.clone(), None));
            [(first.clone(), Some(body.clone()))].into_iter().chain(second).collect()
        }
        OwnedCommand::Tx(tx) => {
            let of = |(key, value): (&[u8], Option<&[u8]>)| (key.to_vec(), value.map(<[u8]>::to_vec));
            tx.items().filter_map(|item| Some((item.key, item.written?))).map(of).collect()
        }
        _ => Vec::new(),
    }
}
