//! What hosts start by, over disks in memory that tests change.
#![cfg(not(feature = "plants"))]

#[path = "common/net.rs"]
mod net;

use epaxos::host::{Act, Begun, FolderFault, Host, Name, Observer, Refusal, Settings, StartFault, Stored, Told, Wish};
use epaxos::parts::opening::made;
use epaxos::service::{Disk, MemoryDisk};
use epaxos::{Cluster, Command, Executed, OwnedAnswer, OwnedCommand, Reference};
use net::Net;
use std::collections::BTreeMap;
use std::sync::{Arc, Mutex};
use std::time::Instant;

type Map = BTreeMap<Vec<u8>, Vec<u8>>;

fn settings(checkpoint: u64) -> Settings {
    Settings { checkpoint, kept: u32::MAX, ..Settings::new(Cluster::Three, 0) }
}

fn put(key: &str, value: &str) -> OwnedCommand {
    OwnedCommand::Put { key: key.into(), value: value.into() }
}

/// Three hosts that have come to generation 4, in each of which a key was put; whether their openings are written.
fn four(writes: bool) -> Net {
    let mut net = Net { writes, ..Net::begin(&settings(if writes { 0 } else { u64::MAX })) };
    for generation in 1..=4 {
        assert_eq!(net.ask(put(&format!("key-{generation}"), "value")), Told::Done(OwnedAnswer::Absent));
        if generation < 4 {
            net.hosts[0].wish(net.calls + 1, Wish::Seal, net.now);
            assert_eq!(net.outcome(), Told::Changed(generation + 1));
        }
    }
    (0..200).for_each(|_| assert!(net.turn().is_empty()));
    assert!(net.hosts.iter().all(|host| host.generation() == 4));
    net
}

/// Another disk that has the same files.
fn copy(disk: &MemoryDisk) -> MemoryDisk {
    const NAMES: [Name; 6] = [Name::Opening, Name::Reference, Name::Whole, Name::Log, Name::Left, Name::Starts];
    let mut copy = MemoryDisk::default();
    for generation in std::iter::once(0).chain(disk.generations().unwrap()) {
        for name in NAMES {
            let bytes = disk.read(generation, name).unwrap();
            let put = bytes.map(|bytes| Act::Put { generation, name, bytes });
            copy.carry_out(put.as_slice()).unwrap();
        }
    }
    copy
}

/// The same without some of its files.
fn without(disk: &MemoryDisk, gone: impl Fn(u32, Name) -> bool) -> MemoryDisk {
    let mut copy = MemoryDisk::default();
    for generation in std::iter::once(0).chain(disk.generations().unwrap()) {
        for name in [Name::Opening, Name::Reference, Name::Whole, Name::Log, Name::Left, Name::Starts] {
            let bytes = disk.read(generation, name).unwrap().filter(|_| !gone(generation, name));
            let put = bytes.map(|bytes| Act::Put { generation, name, bytes });
            copy.carry_out(put.as_slice()).unwrap();
        }
    }
    copy
}

/// Starts a host, and puts on its disk what it begins with: the host, or why there is none.
fn start(disk: &mut MemoryDisk, now: Instant) -> Result<Host, String> {
    let mut host = Host::open(&settings(u64::MAX), disk, now).map_err(|fault| fault.to_string())?;
    let writes = host.turn(now).unwrap().writes.unwrap();
    disk.carry_out(&writes.acts).unwrap();
    host.synced(writes.number, now).unwrap();
    Ok(host)
}

fn contents(host: &mut Host) -> Map {
    host.contents().unwrap().into_iter().collect()
}

/// A log that isn't the one which the next generation names is refused by name.
#[test]
fn another_log_is_refused() {
    let net = four(false);
    let start_of = |generation: u32, change: &dyn Fn(&mut Vec<u8>)| {
        let mut disk = copy(&net.disks[0]);
        let mut bytes = disk.read(generation, Name::Log).unwrap().unwrap();
        change(&mut bytes);
        disk.carry_out(&[Act::Put { generation, name: Name::Log, bytes }]).unwrap();
        start(&mut disk, net.now).map(|host| host.generation())
    };
    assert_eq!(start_of(3, &|_| ()), Ok(4));
    for generation in 1..4 {
        let other = format!(
            "folder refused: the log of generation {generation} isn't the one that generation {} opens with",
            generation + 1
        );
        let length = net.disks[0].read(generation, Name::Log).unwrap().unwrap().len();
        for at in (0..length).step_by(length / 7) {
            assert_eq!(start_of(generation, &|bytes| bytes[at] ^= 0x10), Err(other.clone()), "byte {at}");
        }
        let short = format!(
            "folder refused: the log of generation {generation} is gone or cut short, and what it leaves opens \
             generation {}",
            generation + 1
        );
        assert_eq!(start_of(generation, &|bytes| _ = bytes.pop()), Err(short));
        let swapped = net.disks[1].read(generation, Name::Log).unwrap().unwrap();
        assert!(start_of(generation, &|bytes| *bytes = swapped.clone()).is_err());
    }
    // The log of the generation itself names what it rests on.
    let of_another = "the log of another replica, cluster or generation".to_string();
    assert_eq!(start_of(4, &|bytes| bytes[20] ^= 1), Err(of_another));
}

/// What a crash leaves at each moment of a change, and of a checkpoint.
#[test]
fn what_a_crash_leaves_is_gone_on_with() {
    let net = four(false);
    let goes_on = |disk: &MemoryDisk, gone: &dyn Fn(u32, Name) -> bool| {
        let mut disk = without(disk, gone);
        start(&mut disk, net.now).map(|mut host| (host.generation(), contents(&mut host).len()))
    };
    let unmarked = |generation, name| (generation, name) == (3, Name::Left);
    assert_eq!(goes_on(&net.disks[0], &unmarked), Ok((4, 4)));
    assert_eq!(goes_on(&net.disks[0], &|it, name| unmarked(it, name) || (it, name) == (4, Name::Log)), Ok((4, 3)));
    assert_eq!(goes_on(&net.disks[0], &|it, name| unmarked(it, name) || it == 4), Ok((3, 3)));
    // (a log whose reference was lost is none)
    let unnamed = |it, name| unmarked(it, name) || (it, name) == (4, Name::Reference);
    assert_eq!(goes_on(&net.disks[0], &unnamed), Ok((3, 3)));
    let no_log = "folder refused: generation 4 has no log; take the opening of a later generation";
    assert_eq!(goes_on(&net.disks[0], &|it, name| (it, name) == (4, Name::Log)), Err(no_log.into()));
    // Once an opening is whole what is older isn't needed; before it is, it is none.
    let written = four(true);
    assert!(written.disks[0].read(4, Name::Whole).unwrap().is_some());
    for last in 1..=3 {
        assert_eq!(goes_on(&written.disks[0], &|it, _| (1..=last).contains(&it)), Ok((4, 4)));
    }
    let broken = "folder refused: what generation 3 opens with is gone, and a later one rests on it; take the opening \
                  of a later one";
    assert_eq!(
        goes_on(&written.disks[0], &|it, name| (1..=3).contains(&it) || name == Name::Whole),
        Err(broken.into())
    );
}

/// A folder of openings alone, as `epaxos node` makes it, is gone on with.
#[test]
fn a_folder_of_openings_is_gone_on_with() {
    let net = four(true);
    let mut disk = without(&net.disks[0], |_, name| matches!(name, Name::Reference | Name::Whole));
    // (what the generation opens with stands in its log's header, behind magic, version, size, replica and generation)
    let opening = disk.read(4, Name::Opening).unwrap().unwrap();
    let mut bytes = disk.read(4, Name::Log).unwrap().unwrap();
    let named = Reference::read(&net.disks[0].read(4, Name::Reference).unwrap().unwrap()).unwrap();
    assert_eq!(bytes[11..43], named.bytes()[50..82]);
    bytes[11..43].copy_from_slice(opening.last_chunk::<32>().unwrap());
    disk.carry_out(&[Act::Put { generation: 4, name: Name::Log, bytes }]).unwrap();
    let mut host = start(&mut disk, net.now).unwrap();
    assert_eq!((host.generation(), contents(&mut host).len()), (4, 4));
}

/// An opening that a recovery made is gone on with once, and again after a crash.
#[test]
fn an_opening_is_taken() {
    let net = four(false);
    let opening = made((3, 1_000_004, 99), b"", &[0, 0, 0, 1, 1, 0, 0, 0, 1, b'x', b'1']).unwrap();
    let take = |disk: &MemoryDisk, opening: &[u8]| Host::take(&settings(u64::MAX), disk, opening, net.now);
    let refused = |disk: &MemoryDisk, opening: &[u8]| take(disk, opening).err().map(|fault| fault.to_string());
    let mut disk = copy(&net.disks[0]);
    let cut = "opening refused: damaged: no digest of the bytes before it at byte";
    assert!(refused(&disk, &opening[..opening.len() - 1]).is_some_and(|text| text.starts_with(cut)));
    let mut host = take(&disk, &opening).unwrap();
    // (nothing is on the disk yet)
    assert_eq!(start(&mut disk, net.now).unwrap().generation(), 4);
    let writes = host.turn(net.now).unwrap().writes.unwrap();
    disk.carry_out(&writes.acts).unwrap();
    host.synced(writes.number, net.now).unwrap();
    let one: Map = [(b"x".to_vec(), b"1".to_vec())].into();
    assert_eq!((host.generation(), contents(&mut host)), (1_000_004, one.clone()));
    assert_eq!(disk.read(4, Name::Left).unwrap(), Some(b"1000004".into()));
    let mut again = take(&disk, &opening).unwrap();
    let writes = again.turn(net.now).unwrap().writes.unwrap();
    again.synced(writes.number, net.now).unwrap();
    assert_eq!((again.generation(), contents(&mut again)), (1_000_004, one));
    let other = made((3, 1_000_004, 98), b"", &[0; 4]).unwrap();
    let expected = "opening refused: generation 1000004 has another one here";
    assert_eq!(refused(&disk, &other), Some(expected.into()));
    let earlier = made((3, 5, 98), b"", &[0; 4]).unwrap();
    assert!(refused(&disk, &earlier).is_some_and(|text| text.contains("it is of an earlier generation")));
    let fault = Host::take(&Settings { me: 3, cluster: Cluster::Five, ..settings(0) }, &disk, &other, net.now);
    assert!(matches!(fault, Err(StartFault::Folder(FolderFault::Open(_) | FolderFault::BadOpening(..)))));
}

/// Keeps what an observer learns.
#[derive(Clone, Default)]
struct Kept(Arc<Mutex<Map>>);

impl Observer for Kept {
    fn begin(&mut self, map: &mut dyn Iterator<Item = (&[u8], &[u8])>) {
        *self.0.lock().unwrap() = map.map(|(key, value)| (key.to_vec(), value.to_vec())).collect();
    }

    fn note(&mut self, executed: &Executed) {
        if let Some(Command::Put { key, value }) = executed.command {
            self.0.lock().unwrap().insert(key.to_vec(), value.to_vec());
        }
    }
}

/// Whatever a host begins by, who observes it knows the map.
#[test]
fn who_observes_knows_the_map() {
    for writes in [false, true] {
        let mut net = four(writes);
        let kept = Kept::default();
        let disk = net.disks[2].clone();
        let settings = Settings { me: 2, ..settings(u64::MAX) };
        net.hosts[2] = Host::open(&settings, &disk, net.now).unwrap();
        net.hosts[2].observe(Box::new(kept.clone()));
        (0..2).for_each(|peer| net.hosts[2].link_opened(peer, net.now));
        let is_same = |net: &mut Net| contents(&mut net.hosts[2]) == *kept.0.lock().unwrap();
        (0..400).for_each(|_| assert!(net.turn().is_empty()));
        assert!(is_same(&mut net) && kept.0.lock().unwrap().len() == 4);
        assert_eq!(net.ask(put("key-5", "value")), Told::Done(OwnedAnswer::Absent));
        // It misses two generations, and takes an opening.
        net.away = vec![2];
        for generation in [5, 6] {
            assert_eq!(net.ask(put(&format!("away-{generation}"), "value")), Told::Done(OwnedAnswer::Absent));
            net.hosts[0].wish(net.calls + 1, Wish::Seal, net.now);
            assert_eq!(net.outcome(), Told::Changed(generation));
        }
        net.away.clear();
        (0..4_000).for_each(|_| assert!(net.turn().is_empty()));
        assert_eq!((net.hosts[2].generation(), net.hosts[2].status().taken), (6, 1));
        assert!(is_same(&mut net) && kept.0.lock().unwrap().len() == 7);
    }
}

/// Another thread knows whether a call was proposed by the time when it gives it up.
#[test]
fn who_gives_up_knows_whether_it_was_proposed() {
    let mut net = Net::begin(&settings(u64::MAX));
    assert_eq!(net.ask(put("x", "1")), Told::Done(OwnedAnswer::Absent));
    let call = |net: &mut Net, begun: &Arc<Begun>| {
        net.hosts[0].call_with(net.calls + 1, put("x", "2"), begun.clone(), net.now);
    };
    let begun = Arc::<Begun>::default();
    call(&mut net, &begun);
    assert!(begun.give_up());
    assert_eq!(net.outcome(), Told::Refused(Refusal::GivenUp));
    let begun = Arc::<Begun>::default();
    call(&mut net, &begun);
    assert!(net.turn().is_empty() && !begun.give_up());
    assert_eq!(net.outcome(), Told::Done(OwnedAnswer::Present(b"1".into())));
    let begun = Arc::<Begun>::default();
    call(&mut net, &begun);
    assert_eq!(net.outcome(), Told::Done(OwnedAnswer::Present(b"2".into())));
    assert!(!begun.give_up());
}
