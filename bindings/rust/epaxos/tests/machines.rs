//! Services with a state machine of their own: it goes through generations, starts, and machines that are replaced.
#![cfg(not(feature = "plants"))]
#![forbid(unsafe_code)]

#[path = "common/calls.rs"]
mod calls;
#[path = "common/ports.rs"]
mod ports;

use calls::{PATIENCE, outcome_of, wait_for};
use epaxos::host::{Act, Host, Machine, Name, Ordered, Settings, StartFault, Stored};
use epaxos::service::{CallFault, Disk, Folder, LocalNetwork, MemoryDisk, Service, Start, SystemClock, TcpLink};
use epaxos::{Checkpoint, Cluster, OwnedAnswer, OwnedCommand};
use ports::Ports;
use std::collections::BTreeMap;
use std::sync::{Arc, Mutex};
use std::time::{Duration, Instant};
use std::{fs, io, thread};

/// Accounts, with what a test sees of them.
#[derive(Clone, Default)]
struct Bank(Arc<Mutex<BTreeMap<String, u64>>>);

impl Bank {
    fn has(&self, name: &str) -> u64 {
        self.0.lock().unwrap().get(name).copied().unwrap_or_default()
    }

    fn total(&self) -> u64 {
        self.0.lock().unwrap().values().sum()
    }
}

impl Machine for Bank {
    /// Pays in, or out of the first account into the second one, where the first one has what the command says: so it
    /// may be asked again. What the first one had.
    fn apply(&mut self, ordered: &Ordered) -> Vec<u8> {
        let name = |key: &[u8]| String::from_utf8(key.to_vec()).unwrap();
        let mut all = self.0.lock().unwrap();
        let had = all.get(&name(ordered.first)).copied().unwrap_or_default();
        if let Some((amount, expected)) = ordered.body.split_first_chunk::<8>()
            && expected == had.to_be_bytes()
        {
            let amount = u64::from_be_bytes(*amount);
            match ordered.second {
                None => *all.entry(name(ordered.first)).or_default() += amount,
                Some(to) => {
                    *all.entry(name(ordered.first)).or_default() -= amount;
                    *all.entry(name(to)).or_default() += amount;
                }
            }
        }
        had.to_be_bytes().into()
    }

    /// A state of some size, so that it is handed in several pieces.
    fn snapshot(&self) -> Vec<u8> {
        let line = |(name, has): (&String, &u64)| format!("{name} {has}\n");
        let mut out: Vec<u8> = self.0.lock().unwrap().iter().map(line).collect::<String>().into_bytes();
        out.extend([b'\n'; 150_000]);
        out
    }

    fn restore(&mut self, snapshot: &[u8]) -> io::Result<()> {
        let text = std::str::from_utf8(snapshot).map_err(io::Error::other)?;
        let account = |line: &str| Some((line.split(' ').next()?.to_string(), line.split(' ').nth(1)?.parse().ok()?));
        let lines: Option<BTreeMap<_, _>> = text.lines().filter(|line| !line.is_empty()).map(account).collect();
        *self.0.lock().unwrap() = lines.ok_or(io::ErrorKind::InvalidData)?;
        Ok(())
    }
}

fn pay(first: &str, second: Option<&str>, (amount, expected): (u64, u64)) -> OwnedCommand {
    let body = [amount.to_be_bytes(), expected.to_be_bytes()].concat();
    OwnedCommand::Opaque { is_reading: false, first: first.into(), second: second.map(Into::into), body }
}

fn look(first: &str) -> OwnedCommand {
    OwnedCommand::Opaque { is_reading: true, first: first.into(), second: None, body: Vec::new() }
}

fn number(reply: &[u8]) -> u64 {
    u64::from_be_bytes(reply.try_into().unwrap())
}

/// Asks until it is answered.
fn apply(service: &Service, command: &OwnedCommand) -> u64 {
    let begun = Instant::now();
    loop {
        match service.apply(command.clone()) {
            Ok(reply) => return number(&reply),
            Err(CallFault::Ended) => panic!("it has ended"),
            Err(_) if begun.elapsed() < PATIENCE => thread::sleep(Duration::from_millis(10)),
            Err(fault) => panic!("{fault}"),
        }
    }
}

/// What the accounts are to have.
#[derive(Default)]
struct Ledger(BTreeMap<String, u64>);

impl Ledger {
    fn has(&self, name: &str) -> u64 {
        self.0.get(name).copied().unwrap_or_default()
    }

    fn pay(&mut self, service: &Service, (first, second): (&str, Option<&str>), amount: u64) {
        let (before, mut after) = (self.has(first), self.has(first) + amount);
        if let Some(second) = second {
            after = before - amount;
            *self.0.entry(second.into()).or_default() += amount;
        }
        self.0.insert(first.into(), after);
        // (it may have been done already, where there was no answer)
        let had = apply(service, &pay(first, second, (amount, before)));
        assert!(had == before || had == after, "{had} of {before}");
    }
}

fn short(me: u8) -> Settings {
    Settings { seed: me.into(), numbers: 20, checkpoint: 1, ..Settings::new(Cluster::Three, me) }
}

#[test]
fn what_it_replies_is_returned() {
    let three = Service::local_with(Cluster::Three, Bank::default).unwrap();
    let apply = |me: usize, command: &OwnedCommand| outcome_of(|| three[me].apply(command.clone()));
    let replied = |me, command: &OwnedCommand| number(&apply(me, command).unwrap());
    assert_eq!(replied(0, &pay("ann", None, (5, 0))), 0);
    assert_eq!(replied(1, &pay("ann", Some("ben"), (2, 5))), 5);
    assert_eq!(replied(2, &look("ann")), 3);
    // The map is there beside it.
    let put = OwnedCommand::Put { key: b"ann".into(), value: b"x".into() };
    assert_eq!(outcome_of(|| three[2].call(put.clone())), Ok(OwnedAnswer::Absent));
    assert_eq!(replied(2, &look("ben")), 2);
    assert_eq!(outcome_of(|| three[0].call(look("ann"))), Ok(OwnedAnswer::Ordered));
    assert_eq!(apply(0, &OwnedCommand::Get { key: b"ann".into() }), Err(CallFault::DoneUnseen));
    let without = Service::local(Cluster::Three).unwrap();
    assert_eq!(outcome_of(|| without[0].apply(look("ann"))), Err(CallFault::DoneUnseen));
    assert_eq!(outcome_of(|| without[0].call(look("ann"))), Ok(OwnedAnswer::Ordered));
}

/// A disk that is full after so many acts, in the middle of what it was given; pieces of openings are acts too.
#[derive(Clone)]
struct Full {
    disk: MemoryDisk,
    left: Arc<Mutex<u32>>,
}

impl Full {
    fn take(&self) -> io::Result<()> {
        let mut left = self.left.lock().unwrap();
        *left = left.checked_sub(1).ok_or(io::ErrorKind::StorageFull)?;
        Ok(())
    }
}

impl Stored for Full {
    fn generations(&self) -> io::Result<Vec<u32>> {
        self.disk.generations()
    }

    fn read(&self, generation: u32, name: Name) -> io::Result<Option<Vec<u8>>> {
        self.disk.read(generation, name)
    }
}

impl Disk for Full {
    fn carry_out(&mut self, acts: &[Act]) -> io::Result<()> {
        for act in acts {
            self.take()?;
            self.disk.carry_out(std::slice::from_ref(act))?;
        }
        Ok(())
    }

    fn write_opening(&mut self, generation: u32, checkpoint: Checkpoint) -> io::Result<([u8; 32], u64)> {
        self.take()?;
        self.disk.write_opening(generation, checkpoint)
    }

    fn read_opening(&mut self, generation: u32, offset: u64, length: u64) -> io::Result<(u64, Vec<u8>)> {
        self.disk.read_opening(generation, offset, length)
    }
}

/// One replica ends after one act more each time, through changes of generation and openings that are taken, and always
/// comes back to where the others are.
#[test]
fn it_comes_back_from_each_moment() {
    let network = LocalNetwork::new(Cluster::Three);
    let banks = [Bank::default(), Bank::default()];
    let two: Vec<Service> = (0..2)
        .map(|me| {
            let ends = (MemoryDisk::default(), network.link(me));
            Service::with_machine(&short(me), Start::New, ends, SystemClock, banks[usize::from(me)].clone()).unwrap()
        })
        .collect();
    let (disk, left) = (MemoryDisk::default(), Arc::new(Mutex::new(0)));
    let (mut how, mut ledger) = (Start::New, Ledger::default());
    for round in 0..21 {
        // (each state of the machine is begun with what is wrong, and given what is right)
        let bank = Bank::default();
        let full = Full { disk: disk.clone(), left: left.clone() };
        *left.lock().unwrap() = if round % 10 == 0 { u32::MAX } else { round };
        let third = Service::with_machine(&short(2), how, (full, network.link(2)), SystemClock, bank.clone()).unwrap();
        (0..15).for_each(|number| ledger.pay(&two[number % 2], ("ann", None), 1));
        if round % 10 == 0 {
            how = Start::Again;
            assert_eq!(apply(&third, &look("ann")), ledger.has("ann"));
            assert_eq!(bank.has("ann"), ledger.has("ann"));
        }
        drop(third);
    }
    wait_for(|| banks.iter().all(|bank| bank.has("ann") == ledger.has("ann")));
}

#[test]
fn a_folder_without_it_is_refused() {
    let now = Instant::now();
    let begin = |disk: &mut MemoryDisk, machine: Option<Bank>| {
        let mut host = match machine {
            None => Host::begin(&short(0), disk, now).unwrap(),
            Some(it) => Host::with_machine(&short(0), Start::New, disk, Box::new(it), now).unwrap(),
        };
        disk.carry_out(&host.turn(now).unwrap().writes.unwrap().acts).unwrap();
    };
    let again = |disk: &MemoryDisk| Host::with_machine(&short(0), Start::Again, disk, Box::<Bank>::default(), now);
    let (mut with, mut without) = (MemoryDisk::default(), MemoryDisk::default());
    let bank = Bank::default();
    bank.0.lock().unwrap().insert("ann".into(), 7);
    begin(&mut with, Some(bank));
    begin(&mut without, None);
    // It has what it began with, whatever the program gives it.
    let host = again(&with).unwrap();
    assert!(host.machine().unwrap().snapshot().starts_with(b"ann 7\n"));
    assert!(matches!(Host::open(&short(0), &with, now), Err(StartFault::Machine(1))));
    assert!(matches!(again(&without), Err(StartFault::Machine(1))));
    let file = with.read(1, Name::Machine).unwrap().unwrap();
    let put = |bytes| Act::Put { generation: 1, name: Name::Machine, bytes };
    with.carry_out(&[put([&file[..], b"x"].concat())]).unwrap();
    assert!(matches!(again(&with), Err(StartFault::Damaged(1, _))));
}

#[test]
fn a_machine_is_replaced_over_tcp() {
    let top = std::env::temp_dir().join(format!("epaxos-machines-{}", std::process::id()));
    let ports = Ports::take().unwrap();
    let addresses: Vec<String> = (0..3).map(|place| ports.address(place)).collect();
    let start = |me: u8, start, bank: &Bank| {
        let folder = Folder::open(top.join(me.to_string())).unwrap();
        let ends = (folder, TcpLink::new(me, &addresses).unwrap());
        Service::with_machine(&short(me), start, ends, SystemClock, bank.clone()).unwrap()
    };
    let banks: Vec<Bank> = (0..3).map(|_| Bank::default()).collect();
    let mut three: Vec<Service> = (0..3).map(|me| start(me, Start::New, &banks[usize::from(me)])).collect();
    let mut ledger = Ledger::default();
    for (place, name) in ["ann", "ben", "carl"].into_iter().cycle().take(60).enumerate() {
        ledger.pay(&three[place % 3], (name, None), 10);
        ledger.pay(&three[(place + 1) % 3], (name, Some("dora")), 3);
    }
    assert_eq!(apply(&three[0], &look("dora")), 180);
    // (a generation isn't sealed while the file that it opened with is being written)
    let begun = Instant::now();
    while three[0].status().unwrap().generation <= 2 {
        assert!(begun.elapsed() < PATIENCE, "the generation isn't sealed");
        ledger.pay(&three[0], ("ann", None), 0);
    }
    // One is killed, and starts again with another program's state; then its disk is lost.
    three.pop().unwrap().stop().unwrap();
    ledger.pay(&three[0], ("ann", Some("ben")), 1);
    let again = Bank::default();
    three.push(start(2, Start::Again, &again));
    assert_eq!(apply(&three[2], &look("ann")), 139);
    assert_eq!(apply(&three[2], &look("ben")), 141);
    three.pop().unwrap().stop().unwrap();
    fs::remove_dir_all(top.join("2")).unwrap();
    let new = Bank::default();
    three.push(start(2, Start::Join, &new));
    assert_eq!(apply(&three[2], &look("dora")), 180);
    wait_for(|| [&banks[0], &banks[1], &new].iter().all(|bank| bank.total() == 600));
    assert!(fs::read(top.join("2").join(three[2].status().unwrap().generation.to_string()).join("log")).is_ok());
    three.into_iter().for_each(|it| it.stop().unwrap());
    fs::remove_dir_all(&top).unwrap();
}
