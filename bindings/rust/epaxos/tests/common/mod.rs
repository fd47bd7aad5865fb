//! Clusters in one thread, whose frames are lost, repeated and overtaken, and whose replicas stop at any moment.
#![allow(dead_code)]

use epaxos::{
    Answer, Call, Cluster, Command, Executed, Instance, OwnedCommand, OwnedTx, Patience, Replica, Setup, Waits,
};
use std::collections::BTreeMap;
use std::path::{Path, PathBuf};
use std::{env, fs, process};

/// The program `epaxos`, which collects and audits.
pub fn program() -> PathBuf {
    let here = Path::new(env!("CARGO_MANIFEST_DIR")).join("../../../epaxos");
    env::var_os("EPAXOS").map_or(here, PathBuf::from)
}

/// What an audit says of the replicas whose folders these are, in generation 1: of their logs, and of the receipts in the file `receipts` of each.
pub fn audited(folders: &[PathBuf]) -> String {
    let run = |words: &[&Path], input: process::Stdio| {
        process::Command::new(program()).args(words).stdin(input).output().expect("the program starts")
    };
    let receipts: Vec<PathBuf> = folders.iter().map(|it| it.join("receipts")).collect();
    let mut words = vec![Path::new("collect"), Path::new("--generation"), Path::new("1")];
    words.extend(folders.iter().map(PathBuf::as_path));
    words.extend(receipts.iter().flat_map(|it| [Path::new("--receipts"), it]));
    let collected = run(&words, process::Stdio::null());
    assert!(collected.status.success(), "{}", String::from_utf8_lossy(&collected.stderr));
    let bundle = folders[0].with_file_name("1.bundle");
    fs::write(&bundle, &collected.stdout).expect("a bundle can be written");
    let audited = run(&[Path::new("audit")], fs::File::open(&bundle).expect("it can be read").into());
    format!("{}{}", String::from_utf8_lossy(&audited.stdout), String::from_utf8_lossy(&audited.stderr))
}

/// Numbers that look random, by a seed.
pub struct Random(pub u64);

impl Random {
    /// One below `end`.
    pub fn below(&mut self, end: u64) -> u64 {
        self.0 = self.0.wrapping_add(0x9e37_79b9_7f4a_7c15);
        let mut mixed = self.0;
        mixed = (mixed ^ (mixed >> 30)).wrapping_mul(0xbf58_476d_1ce4_e5b9);
        mixed = (mixed ^ (mixed >> 27)).wrapping_mul(0x94d0_49bb_1331_11eb);
        (mixed ^ (mixed >> 31)) % end
    }
}

/// A command that owns its bytes.
#[derive(Clone, PartialEq, Eq, Debug)]
pub enum Owned {
    Get(Vec<u8>),
    Put(Vec<u8>, Vec<u8>),
    Del(Vec<u8>),
    Swap(Vec<u8>, Vec<u8>),
    Cas(Vec<u8>, Option<Vec<u8>>, Option<Vec<u8>>),
    Opaque(bool, Vec<u8>, Option<Vec<u8>>, Vec<u8>),
    Seal(Vec<u8>),
    Tx(OwnedTx),
}

impl From<OwnedCommand> for Owned {
    fn from(command: OwnedCommand) -> Owned {
        Owned::of(command.lent())
    }
}

impl Owned {
    pub fn of(command: Command) -> Owned {
        match command {
            Command::Get { key } => Owned::Get(key.into()),
            Command::Put { key, value } => Owned::Put(key.into(), value.into()),
            Command::Del { key } => Owned::Del(key.into()),
            Command::Swap { first, second } => Owned::Swap(first.into(), second.into()),
            Command::Cas { key, expected, new } => {
                Owned::Cas(key.into(), expected.map(Into::into), new.map(Into::into))
            }
            Command::Opaque { is_reading, first, second, body } => {
                Owned::Opaque(is_reading, first.into(), second.map(Into::into), body.into())
            }
            Command::Seal { value } => Owned::Seal(value.into()),
            Command::Tx(tx) => Owned::Tx(tx.to_owned()),
        }
    }

    pub fn lent(&self) -> Command<'_> {
        match self {
            Owned::Get(key) => Command::Get { key },
            Owned::Put(key, value) => Command::Put { key, value },
            Owned::Del(key) => Command::Del { key },
            Owned::Swap(first, second) => Command::Swap { first, second },
            Owned::Cas(key, expected, new) => Command::Cas { key, expected: expected.as_deref(), new: new.as_deref() },
            Owned::Opaque(is_reading, first, second, body) => {
                Command::Opaque { is_reading: *is_reading, first, second: second.as_deref(), body }
            }
            Owned::Seal(value) => Command::Seal { value },
            Owned::Tx(tx) => Command::Tx(tx.lent()),
        }
    }

    pub fn keys(&self) -> Vec<&[u8]> {
        match self {
            Owned::Get(key) | Owned::Put(key, _) | Owned::Del(key) | Owned::Cas(key, ..) => vec![key],
            Owned::Opaque(_, key, other, _) => [&key[..]].into_iter().chain(other.as_deref()).collect(),
            Owned::Swap(first, second) => vec![first, second],
            Owned::Seal(_) | Owned::Tx(_) => Vec::new(),
        }
    }
}

/// An answer that owns its bytes.
#[derive(Clone, PartialEq, Eq, Debug)]
pub enum Reply {
    Absent,
    Present(Vec<u8>),
    Lost,
    Closed,
    Ordered,
    Done(Vec<Option<Vec<u8>>>),
    Undone(Vec<Option<Vec<u8>>>),
}

fn owned<'a>(values: impl Iterator<Item = Option<&'a [u8]>>) -> Vec<Option<Vec<u8>>> {
    values.map(|it| it.map(Into::into)).collect()
}

impl Reply {
    pub fn of(answer: Answer) -> Reply {
        match answer {
            Answer::Absent => Reply::Absent,
            Answer::Present(value) => Reply::Present(value.into()),
            Answer::Lost => Reply::Lost,
            Answer::Closed => Reply::Closed,
            Answer::Ordered => Reply::Ordered,
            Answer::Done(values) => Reply::Done(owned(values.iter())),
            Answer::Undone(values) => Reply::Undone(owned(values.iter())),
        }
    }
}

/// A plain map: what it replies, by the words of docs/PROTOCOL.md, section 2.
#[derive(Clone, Default, PartialEq, Eq, Debug)]
pub struct Plain {
    pub map: BTreeMap<Vec<u8>, Vec<u8>>,
    pub is_closed: bool,
}

impl Plain {
    fn has(&self, key: &[u8]) -> Reply {
        self.map.get(key).map_or(Reply::Absent, |value| Reply::Present(value.clone()))
    }

    fn at(&self, key: &[u8]) -> Option<&[u8]> {
        self.map.get(key).map(|it| &it[..])
    }

    fn apply_tx(&mut self, tx: &OwnedTx) -> Reply {
        let values = owned(tx.told().map(|key| self.at(key)));
        if tx.items().any(|it| it.required.is_some_and(|value| self.at(it.key) != value)) {
            return Reply::Undone(values);
        }
        for item in tx.items() {
            if let Some(value) = item.written {
                self.set(item.key, value.map(Into::into));
            }
        }
        Reply::Done(values)
    }

    fn set(&mut self, key: &[u8], value: Option<Vec<u8>>) {
        match value {
            Some(value) => _ = self.map.insert(key.into(), value),
            None => _ = self.map.remove(key),
        }
    }

    pub fn apply(&mut self, command: Option<&Owned>) -> Reply {
        let Some(command) = command else { return Reply::Lost };
        if self.is_closed {
            return Reply::Closed;
        }
        let had = command.keys().first().map_or(Reply::Absent, |key| self.has(key));
        match command {
            Owned::Get(_) => {}
            Owned::Put(key, value) => self.set(key, Some(value.clone())),
            Owned::Del(key) => self.set(key, None),
            Owned::Swap(first, second) => {
                let (one, other) = (self.map.get(first).cloned(), self.map.get(second).cloned());
                self.set(first, other);
                self.set(second, one);
            }
            Owned::Cas(key, expected, new) => {
                if self.map.get(key) == expected.as_ref() {
                    self.set(key, new.clone());
                }
            }
            Owned::Opaque(..) => return Reply::Ordered,
            Owned::Seal(_) => self.is_closed = true,
            Owned::Tx(tx) => return self.apply_tx(tx),
        }
        had
    }
}

/// What a replica executed.
#[derive(Clone, PartialEq, Eq, Debug)]
pub struct Did {
    pub instance: Instance,
    pub command: Option<Owned>,
    pub reply: Reply,
}

/// What a client was answered.
#[derive(Clone, PartialEq, Eq, Debug)]
pub struct Answered {
    pub client: u32,
    pub request: u32,
    pub instance: Instance,
    pub reply: Reply,
    pub stamp: u64,
}

/// A replica with its disk, which holds what was synced.
pub struct Seat {
    pub me: u8,
    pub replica: Option<Replica>,
    pub log: Vec<u8>,
    pub did: Vec<Did>,
    pub answered: Vec<Answered>,
    /// The receipts, as an audit takes them.
    pub receipts: Vec<u8>,
    pub entries: u32,
    /// Whether something was open when it was settled last.
    pub is_open: bool,
    pub patience: Patience,
}

/// A cluster of one generation.
pub struct World<'a> {
    pub cluster: Cluster,
    pub opening: Option<&'a [u8]>,
    pub seats: Vec<Seat>,
    pub frames: Vec<(u8, Vec<u8>)>,
    pub random: Random,
    pub now: u64,
}

impl<'a> World<'a> {
    pub fn new(cluster: Cluster, opening: Option<&'a [u8]>, seed: u64) -> World<'a> {
        let seats = (0..cluster.replicas()).map(|me| {
            let setup = Setup { opening, ..Setup::new(cluster, me) };
            Seat {
                me,
                replica: Some(setup.begin().unwrap()),
                log: Vec::new(),
                did: Vec::new(),
                answered: Vec::new(),
                receipts: Vec::new(),
                entries: 0,
                is_open: false,
                patience: Patience::new(
                    cluster,
                    me,
                    Waits { granularity: 10, initial: 30, told: 30, longest: 400 },
                    seed + u64::from(me),
                )
                .unwrap(),
            }
        });
        let seats = seats.collect();
        let mut world = World { cluster, opening, seats, frames: Vec::new(), random: Random(seed), now: 0 };
        (0..world.seats.len()).for_each(|me| world.settle(me));
        world
    }

    pub fn replica(&mut self, me: usize) -> &mut Replica {
        self.seats[me].replica.as_mut().unwrap()
    }

    pub fn propose(&mut self, me: usize, client: u32, request: u32, command: &Owned) {
        let seen =
            self.seats.iter().flat_map(|seat| &seat.answered).filter(|it| it.client == client).map(|it| it.stamp);
        let seen = seen.max().unwrap_or(0);
        self.replica(me).propose(Call { client, request, seen }, command.lent()).unwrap();
    }

    /// Puts what a replica has on its disk, and hears what it reports.
    pub fn settle(&mut self, me: usize) {
        let seat = &mut self.seats[me];
        let Some(replica) = &mut seat.replica else { return };
        let output = replica.ready_with_open(64).unwrap().commit(&mut seat.log).unwrap();
        seat.entries = output.entries();
        self.frames.extend(output.frames().map(|frame| (frame.to, frame.bytes.to_vec())));
        seat.did.extend(output.executed().map(|it: Executed| Did {
            instance: it.instance,
            command: it.command.map(Owned::of),
            reply: Reply::of(it.answer),
        }));
        for receipt in output.receipts() {
            assert_eq!(receipt.replica, seat.me);
            seat.receipts.extend(receipt.bytes);
            seat.answered.push(Answered {
                client: receipt.client,
                request: receipt.request,
                instance: receipt.instance,
                reply: Reply::of(receipt.answer),
                stamp: receipt.stamp,
            });
        }
        seat.is_open = output.open().next().is_some();
        let open: Vec<_> = output.open().collect();
        let late = seat.patience.turn(self.now, &open, &[]).unwrap();
        for event in late {
            let _refused = replica.take(&event);
        }
    }

    /// Stops a replica. What it hasn't synced is gone.
    pub fn stop(&mut self, me: usize) {
        self.seats[me].replica = None;
    }

    /// Starts it again, with a part of what it would have written next behind its log.
    pub fn start(&mut self, me: usize, torn: &[u8]) {
        let seat = &mut self.seats[me];
        let log = [&seat.log[..], torn].concat();
        let setup = Setup { opening: self.opening, told: Some(seat.entries), ..Setup::new(self.cluster, seat.me) };
        let replica = setup.open(&log).unwrap();
        assert_eq!(replica.cut(), torn.len() as u64);
        seat.replica = Some(replica);
        self.settle(me);
    }

    /// A frame that is under way arrives, is lost, or arrives and stays under way.
    pub fn deliver(&mut self, is_lossy: bool) {
        if self.frames.is_empty() {
            return;
        }
        let at = self.random.below(self.frames.len() as u64) as usize;
        let what = if is_lossy { self.random.below(10) } else { 9 };
        let (to, frame) = if what == 0 { self.frames[at].clone() } else { self.frames.swap_remove(at) };
        if what == 1 {
            return;
        }
        if let Some(replica) = &mut self.seats[usize::from(to)].replica {
            replica.handle(&frame).unwrap();
        }
    }

    /// Delivers all, and executes all, until nothing is open anywhere.
    pub fn finish(&mut self) {
        for _ in 0..10_000 {
            while !self.frames.is_empty() {
                self.deliver(false);
            }
            self.now += 20;
            for me in 0..self.seats.len() {
                self.replica(me).execute_all().unwrap();
                self.settle(me);
            }
            if self.frames.is_empty() && self.seats.iter().all(|seat| !seat.is_open) {
                return;
            }
        }
        panic!("something stays open");
    }

    /// Each replica has done the same, in an order in which a plain map replies the same; returns that map.
    pub fn check(&mut self) -> Plain {
        let mut maps = Vec::new();
        for seat in &self.seats {
            let mut plain = Plain::default();
            for did in &seat.did {
                assert_eq!(plain.apply(did.command.as_ref()), did.reply, "{did:?} at {}", seat.me);
            }
            maps.push(plain);
        }
        let sorted = |seat: &Seat| {
            let mut did: Vec<_> = seat.did.clone();
            did.sort_by_key(|it| it.instance);
            did
        };
        for (seat, plain) in self.seats.iter().zip(&maps) {
            assert_eq!(sorted(seat), sorted(&self.seats[0]));
            assert_eq!(*plain, maps[0]);
            for answer in &seat.answered {
                assert!(seat.did.iter().any(|it| it.instance == answer.instance && it.reply == answer.reply));
            }
        }
        for me in 0..self.seats.len() {
            for (key, value) in &maps[0].map {
                assert_eq!(self.replica(me).get(key).unwrap(), Some(&value[..]));
            }
        }
        maps.swap_remove(0)
    }
}
