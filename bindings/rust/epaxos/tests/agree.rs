//! Replicas agree, whatever is lost, and whoever stops.
#![forbid(unsafe_code)]

mod common;

use common::{Owned, Plain, Random, Reply, World, audited};
use epaxos::{Cluster, Command, LONGEST_TX, LONGEST_VALUE, MOST_KEYS, MOST_TOLD};
use std::fs;
use std::path::{Path, PathBuf};

const SEEDS: u64 = 4;
const COMMANDS: u32 = 60;

fn key(random: &mut Random) -> Vec<u8> {
    vec![b'a' + random.below(4) as u8]
}

fn value(random: &mut Random) -> Vec<u8> {
    let length = [0, 1, 7, 300][random.below(4) as usize];
    (0..length).map(|_| random.below(256) as u8).collect()
}

/// A command over some of the keys, which may say of each what it must have, ask for it, and write it.
fn drawn_tx(random: &mut Random) -> Owned {
    let said: Vec<_> = (0..4).map(|_| (random.below(3), random.below(2), random.below(5), value(random))).collect();
    let mut tx = Command::tx();
    for ((required, asked, written, value), key) in said.iter().zip([b"a", b"b", b"c", b"d"]) {
        tx = match required {
            0 => tx.require_absent(key),
            1 if value.len() < 2 => tx.require(key, value),
            _ => tx,
        };
        tx = if *asked == 0 { tx.tell(key) } else { tx };
        tx = match written {
            0 => tx.del(key),
            1 => tx.put(key, value),
            _ => tx,
        };
    }
    tx.build().map_or_else(|_| Owned::Get(b"a".to_vec()), Owned::from)
}

fn drawn(random: &mut Random) -> Owned {
    let (first, second) = (key(random), key(random));
    let other = (first != second).then_some(second);
    match (random.below(10), other) {
        (0, _) => Owned::Get(first),
        (1, _) => Owned::Del(first),
        (2, Some(second)) => Owned::Swap(first, second),
        (3, _) => Owned::Cas(first, None, Some(value(random))),
        (4, _) => Owned::Cas(first, Some(Vec::new()), None),
        (5, second) => Owned::Opaque(random.below(2) == 0, first, second, value(random)),
        (6..8, _) => drawn_tx(random),
        _ => Owned::Put(first, value(random)),
    }
}

/// Plays so many commands, with losses and stops.
fn play(world: &mut World) {
    let mut request = 0;
    while request < COMMANDS {
        world.now += 1;
        let me = world.random.below(world.seats.len() as u64) as usize;
        match world.random.below(12) {
            0..3 if world.seats[me].replica.is_some() => {
                request += 1;
                let command = drawn(&mut world.random);
                world.propose(me, me as u32 + 1, request, &command);
            }
            3 if world.seats.iter().all(|it| it.replica.is_some()) => world.stop(me),
            4 if world.seats[me].replica.is_none() => {
                let torn: Vec<u8> = (0..world.random.below(40)).map(|it| it as u8).collect();
                world.start(me, &torn);
            }
            5..8 => {
                if let Some(replica) = &mut world.seats[me].replica {
                    replica.advance().unwrap();
                }
                world.settle(me);
            }
            _ => world.deliver(true),
        }
    }
    for me in 0..world.seats.len() {
        if world.seats[me].replica.is_none() {
            world.start(me, &[]);
        }
        world.settle(me);
    }
    world.finish();
}

/// An audit accepts the logs of generation 1 with the receipts.
fn audit(world: &World, folder: &Path) {
    let mut folders: Vec<PathBuf> = Vec::new();
    for seat in &world.seats {
        let store = folder.join(seat.me.to_string());
        fs::create_dir_all(store.join("1")).unwrap();
        fs::write(store.join("1/opening"), world.cluster.first_opening()).unwrap();
        fs::write(store.join("1/log"), &seat.log).unwrap();
        fs::write(store.join("receipts"), &seat.receipts).unwrap();
        folders.push(store);
    }
    let report = audited(&folders);
    assert!(report.starts_with("verdict accepted\n"), "{report}");
    let receipts: usize = world.seats.iter().map(|it| it.answered.len()).sum();
    assert!(report.contains(&format!("\nreceipts {receipts}\n")), "{report}");
}

#[test]
fn replicas_agree_and_the_audit_accepts() {
    let folder = std::env::temp_dir().join(format!("epaxos-agree-{}", std::process::id()));
    for seed in 0..SEEDS {
        let mut world = World::new(Cluster::Three, None, seed);
        play(&mut world);
        world.check();
        audit(&world, &folder.join(seed.to_string()));
    }
    fs::remove_dir_all(folder).unwrap();
}

/// The same events give the same logs and the same answers, byte for byte.
#[test]
fn the_same_is_done_again() {
    let done = [(), ()].map(|()| {
        let mut world = World::new(Cluster::Three, None, 21);
        play(&mut world);
        let seats = world.seats.into_iter();
        seats.map(|it| (it.log, it.receipts, it.did, it.entries)).collect::<Vec<_>>()
    });
    assert!(done[0] == done[1]);
}

#[test]
fn more_replicas_agree() {
    let folder = std::env::temp_dir().join(format!("epaxos-more-{}", std::process::id()));
    for (cluster, seed) in [(Cluster::Five, 5), (Cluster::Seven, 7)] {
        let mut world = World::new(cluster, None, seed);
        play(&mut world);
        world.check();
        audit(&world, &folder.join(seed.to_string()));
    }
    fs::remove_dir_all(folder).unwrap();
}

/// A Commit that is lost leaves nothing open at a replica that has heard nothing else of its instance. It comes by a report.
#[test]
fn a_lost_commit_comes_by_a_report() {
    let mut world = World::new(Cluster::Three, None, 13);
    world.propose(0, 1, 1, &Owned::Put(b"x".to_vec(), b"1".to_vec()));
    world.settle(0);
    while !world.frames.is_empty() {
        world.frames.retain(|(to, _)| *to != 2);
        world.deliver(false);
        (0..2).for_each(|me| world.settle(me));
    }
    world.settle(2);
    assert!(world.seats.iter().all(|seat| !seat.is_open));
    world.replica(2).execute_all().unwrap();
    world.settle(2);
    assert_eq!(world.replica(2).get(b"x").unwrap(), None);
    let again = world.replica(0).report(0, 0).unwrap();
    let again: Vec<_> = again.frames().filter(|it| it.to == 2).map(|it| it.bytes.to_vec()).collect();
    // (what comes twice does no harm)
    for frame in again.iter().chain(&again) {
        world.replica(2).handle(frame).unwrap();
    }
    world.replica(2).execute_all().unwrap();
    world.settle(2);
    assert_eq!(world.replica(2).get(b"x").unwrap(), Some(&b"1"[..]));
}

/// Commands over as many keys as can be named, with as many bytes as can be, and one whose answer has as much as can
/// be.
#[test]
fn commands_as_large_as_can_be() {
    let value = vec![7; LONGEST_VALUE];
    let keys: Vec<[u8; 2]> = (0..MOST_KEYS as u16).map(u16::to_be_bytes).collect();
    let all = keys.iter().fold(Command::tx(), |tx, key| tx.require_absent(key).put(key, b"1"));
    // (a count, and two items of a key of 2 bytes, with 2 before it and 4 behind)
    let rest = LONGEST_TX - 2 - 2 * 8 - LONGEST_VALUE;
    let long = Command::tx().put(&keys[0], &value).put(&keys[1], &value[..rest]);
    let first: Vec<_> = keys[..MOST_TOLD].iter().map(|key| Command::Put { key, value: &value }.to_owned()).collect();
    let asking = keys[..MOST_TOLD].iter().fold(Command::tx(), |tx, key| tx.tell(key));
    let again = keys.iter().fold(Command::tx(), |tx, key| tx.require_absent(key).del(key));
    let commands = [vec![all.build().unwrap(), long.build().unwrap()], first, vec![asking.build().unwrap()]].concat();
    let mut world = World::new(Cluster::Three, None, 31);
    for (request, command) in (1..).zip(commands.iter().chain([&again.clone().build().unwrap()])) {
        world.propose(0, 1, request, &Owned::from(command.clone()));
        world.settle(0);
        world.finish();
    }
    assert_eq!(world.check().map.len(), MOST_KEYS);
    let replies: Vec<_> = world.seats[0].answered.iter().map(|it| &it.reply).collect();
    assert_eq!(replies[..2], [&Reply::Done(vec![]); 2]);
    assert_eq!(replies[2 + MOST_TOLD..], [&Reply::Done(vec![Some(value.clone()); 16]), &Reply::Undone(vec![])]);
}

#[test]
fn a_generation_is_closed_and_the_next_one_opened() {
    let mut world = World::new(Cluster::Three, None, 11);
    world.propose(0, 1, 1, &Owned::Put(b"x".to_vec(), b"1".to_vec()));
    world.settle(0);
    world.finish();
    world.propose(1, 2, 1, &Owned::Seal(b"next".to_vec()));
    world.settle(1);
    world.finish();
    world.propose(2, 3, 1, &Owned::Put(b"x".to_vec(), b"2".to_vec()));
    world.settle(2);
    world.finish();
    let plain = world.check();
    assert!(plain.is_closed);
    assert_eq!(world.seats[2].answered.last().unwrap().reply, Reply::Closed);
    // Who comes back from such a log serves the generation until it is asked to close it.
    for (me, torn) in [(1, &b""[..]), (2, b"torn")] {
        let log = world.seats[me].log.clone();
        world.stop(me);
        world.start(me, torn);
        assert_eq!(world.seats[me].log, log);
        world.settle(me);
    }
    world.propose(1, 2, 2, &Owned::Put(b"x".to_vec(), b"3".to_vec()));
    world.settle(1);
    world.finish();
    assert_eq!(world.seats[1].answered.last().unwrap().reply, Reply::Closed);
    for me in 0..3 {
        assert!(world.replica(me).state().unwrap().is_sealed);
    }
    let openings: Vec<Vec<u8>> = (0..3)
        .map(|me| world.seats[me].replica.take().unwrap().close(Cluster::Five).map_err(|it| it.1).unwrap())
        .collect();
    next(&openings[1], &plain);
}

/// Any of the openings begins the next generation, of another number of replicas.
fn next(opening: &[u8], plain: &Plain) {
    let mut world = World::new(Cluster::Five, Some(opening), 12);
    for me in 0..5 {
        world.settle(me);
        assert_eq!(world.replica(me).state().unwrap().generation, 2);
        assert_eq!(world.replica(me).get(b"x").unwrap(), plain.map.get(&b"x"[..]).map(|it| &it[..]));
    }
    world.propose(4, 9, 1, &Owned::Get(b"x".to_vec()));
    world.settle(4);
    world.stop(3);
    world.start(3, b"torn");
    world.finish();
    assert_eq!(world.seats[4].answered[0].reply, Reply::Present(b"1".to_vec()));
}
