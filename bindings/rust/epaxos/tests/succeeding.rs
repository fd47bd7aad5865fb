//! Replicas go on in the next generation in memory, and come back by references.
#![forbid(unsafe_code)]

mod common;

use common::{Owned, Plain, World};
use epaxos::{Checkpoint, Cluster, Fault, OpenFault, Reference, Replica, Setup, SucceedFault, Succession, Sum};
use std::collections::BTreeMap;

const GENERATIONS: u32 = 3;
const PUTS: u32 = 25;

/// What a replica's disk has of a generation.
struct Kept {
    log: Vec<u8>,
    /// The reference that it was begun by, and the file that this stood for.
    reference: Option<Reference>,
    opening: Vec<u8>,
}

/// The same generation of one replica, once the next one is begun: how it goes on.
struct Gone {
    reference: Reference,
    checkpoint: Checkpoint,
    /// The file that `next_opening` returns.
    opening: Vec<u8>,
}

/// Puts, and a seal.
fn play(world: &mut World, generation: u32) {
    for request in 1..=PUTS {
        let me = (request % 3) as usize;
        let key = format!("{}", request % 7 + generation).into_bytes();
        world.propose(me, me as u32 + 1, request + 1_000 * generation, &Owned::Put(key, vec![request as u8; 300]));
        world.settle(me);
        world.deliver(false);
    }
    world.finish();
    world.propose(0, 9, generation, &Owned::Seal(b"next".to_vec()));
    world.settle(0);
    world.finish();
}

/// Each goes on in the next generation.
fn succeed(world: &mut World, generation: u32) -> Vec<Gone> {
    let gone = world.seats.iter_mut().map(|seat| {
        let replica = seat.replica.as_mut().unwrap();
        let opening = replica.next_opening(Cluster::Three).unwrap();
        let reference = replica.reference(Cluster::Three, Sum::of(&seat.log)).unwrap();
        assert_eq!((reference.generation(), reference.length()), (generation + 1, seat.log.len() as u64));
        let checkpoint = replica.succeed(&Succession::new(reference, seat.me)).unwrap();
        (seat.log, seat.did, seat.answered, seat.entries) = (Vec::new(), Vec::new(), Vec::new(), 0);
        Gone { reference, checkpoint, opening }
    });
    let gone = gone.collect();
    world.frames.clear();
    for me in 0..3 {
        world.settle(me);
        assert_eq!(world.seats[me].log.len(), 43);
        assert_eq!(world.replica(me).state().unwrap().generation, generation + 1);
    }
    gone
}

/// What a replica's map has.
fn map(replica: &mut Replica) -> BTreeMap<Vec<u8>, Vec<u8>> {
    replica.contents().unwrap().map(|(key, value)| (key.to_vec(), value.to_vec())).collect()
}

/// Opens the log of a whole generation, as far as it counts.
fn whole(kept: &Kept, me: u8, log: &[u8]) -> Replica {
    let (opening, reference) = (Some(&kept.opening[..]), kept.reference);
    let setup = Setup { opening, reference, ..Setup::new(Cluster::Three, me) };
    setup.open(log).unwrap()
}

/// The replica of the last of these generations, by the first one's opening and the logs from there on.
fn start(generations: &[Kept], me: u8) -> Replica {
    let mut replica = whole(&generations[0], me, &generations[0].log);
    for next in &generations[1..] {
        let reference = next.reference.unwrap();
        replica.ready().unwrap().assume_synced().unwrap();
        let succession = Succession { log: Some(&next.log), ..Succession::new(reference, me) };
        drop(replica.succeed(&succession).unwrap());
    }
    replica
}

#[test]
fn generations_begin_in_memory() {
    let mut world = World::new(Cluster::Three, None, 3);
    let mut disks: Vec<Vec<Kept>> = (0..3).map(|_| Vec::new()).collect();
    let mut begun: Vec<(Option<Reference>, Vec<u8>)> =
        (0..3).map(|_| (None, Cluster::Three.first_opening().to_vec())).collect();
    let mut plain = Plain::default();
    for generation in 1..=GENERATIONS {
        play(&mut world, generation);
        for did in &world.seats[0].did {
            plain.apply(did.command.as_ref());
        }
        plain.is_closed = false;
        let logs: Vec<_> = world.seats.iter().map(|it| it.log.clone()).collect();
        let gone = succeed(&mut world, generation);
        for (me, (gone, log)) in gone.into_iter().zip(logs).enumerate() {
            assert!(gone.reference.is_to(&log));
            let (reference, opening) = std::mem::replace(&mut begun[me], (Some(gone.reference), gone.opening.clone()));
            disks[me].push(Kept { log, reference, opening });
            assert_eq!(map(world.replica(me)), plain.map);
            // the pieces are the file that `close` gives, and any thread may take them
            let reference = gone.reference;
            let (file, binding) = std::thread::spawn(move || {
                let mut file = Vec::new();
                let digest = gone.checkpoint.write(&mut file).unwrap();
                (file, reference.binding(&digest))
            })
            .join()
            .unwrap();
            assert_eq!(file, gone.opening);
            assert_eq!(binding[5..37], reference.digest());
            assert_eq!(binding[37..], file[file.len() - 32..]);
            assert_eq!(world.seats[me].log[11..], reference.digest());
        }
        // (what the file says of executed instances is each replica's own)
    }
    // the last one has a log too
    play(&mut world, GENERATIONS + 1);
    for (me, seat) in world.seats.iter_mut().enumerate() {
        let (reference, opening) = begun[me].clone();
        disks[me].push(Kept { log: seat.log.clone(), reference, opening });
        let replica = seat.replica.as_mut().unwrap();
        let (state, held) = (replica.state().unwrap(), map(replica));
        let closing = replica.next_opening(Cluster::Three).unwrap();
        // from each generation on it comes back the same: the first by its full file, a later one by what a reference stood for
        for first in 0..disks[me].len() {
            let mut back = start(&disks[me][first..], me as u8);
            assert_eq!(back.ready().unwrap().log(), seat.log);
            back.ready().unwrap().assume_synced().unwrap();
            assert_eq!((back.state().unwrap(), map(&mut back)), (state, held.clone()));
            assert_eq!(back.next_opening(Cluster::Three).unwrap(), closing);
        }
    }
    torn(&disks[1], &world.seats[1].log);
}

fn go_on(reference: Reference, log: &[u8]) -> Succession<'_> {
    Succession { log: Some(log), ..Succession::new(reference, 1) }
}

/// What a crash leaves behind the last record of the newest log is cut off; another log is refused by name, and none of another generation is taken.
fn torn(disk: &[Kept], log: &[u8]) {
    let (last, before) = disk.split_last().unwrap();
    let closed = before.last().unwrap();
    let again = || {
        let mut replica = whole(closed, 1, &closed.log);
        replica.ready().unwrap().assume_synced().unwrap();
        replica
    };
    let reference = last.reference.unwrap();
    let mut replica = again();
    replica.succeed(&go_on(reference, &[log, b"torn"].concat())).unwrap();
    assert_eq!(replica.cut(), 4);
    assert_eq!(replica.ready().unwrap().log(), log);

    let mut turned = log.to_vec();
    turned[60] ^= 1;
    let mut replica = again();
    assert!(
        matches!(replica.succeed(&go_on(reference, &turned)), Err(SucceedFault::Log(OpenFault::BadLog(why))) if why.contains(" at byte 43"))
    );
    // (it is gone)
    assert_eq!(replica.execute_all(), Err(Fault::NoReplica));
    assert_eq!(replica.succeed(&go_on(reference, log)).unwrap_err(), SucceedFault::NoReplica);
    assert_eq!(again().succeed(&go_on(reference, &closed.log)).unwrap_err(), SucceedFault::Log(OpenFault::OtherLog));
    let mut other = log.to_vec();
    other[11] ^= 1;
    assert_eq!(again().succeed(&go_on(reference, &other)).unwrap_err(), SucceedFault::Log(OpenFault::OtherLog));

    // what is seen before leaves the replica as it was
    let mut replica = again();
    assert_eq!(replica.succeed(&go_on(reference, b"")).unwrap_err(), SucceedFault::Log(OpenFault::NoLog));
    let ahead = Succession { told: Some(1 << 20), ..go_on(reference, log) };
    assert!(matches!(replica.succeed(&ahead), Err(SucceedFault::Log(OpenFault::Forgotten { .. }))));
    replica.succeed(&go_on(reference, log)).unwrap();
}

#[test]
fn refusals_leave_the_replica_as_it_was() {
    let mut world = World::new(Cluster::Three, None, 5);
    let sum = Sum::of(&world.seats[0].log);
    let next = |world: &mut World, sum| world.replica(0).reference(Cluster::Three, sum).unwrap();
    let reference = next(&mut world, sum);
    let refused = |world: &mut World, succession: &Succession| world.replica(0).succeed(succession).unwrap_err();

    assert_eq!(refused(&mut world, &Succession::new(reference, 0)), SucceedFault::NotSealed);
    assert_eq!(refused(&mut world, &Succession::new(reference, 3)), SucceedFault::OutOfRange);
    for (generation, length) in [(3, 43), (2, 44)] {
        let other = Reference::new(Cluster::Three, generation, length, sum).unwrap();
        assert_eq!(refused(&mut world, &Succession::new(other, 0)), SucceedFault::OtherReference);
    }
    // what isn't on the disk: taken, lent, and being written by another thread
    world.propose(0, 1, 1, &Owned::Put(b"x".to_vec(), b"1".to_vec()));
    assert_eq!(refused(&mut world, &Succession::new(reference, 0)), SucceedFault::Unsynced);
    let lent = world.replica(0).ready().unwrap().log().to_vec();
    assert_eq!(refused(&mut world, &Succession::new(reference, 0)), SucceedFault::Unsynced);
    let writing = world.replica(0).ready().unwrap().begin().unwrap();
    assert_eq!(refused(&mut world, &Succession::new(reference, 0)), SucceedFault::Unsynced);
    assert_eq!(writing.ready().log(), lent);
    let mut log = std::mem::take(&mut world.seats[0].log);
    let written = writing.write(&mut log).unwrap();
    let output = world.replica(0).written(written).unwrap();
    let frames: Vec<_> = output.frames().map(|it| (it.to, it.bytes.to_vec())).collect();
    world.frames.extend(frames);
    world.seats[0].log = log;

    // all is there, and goes on
    world.finish();
    world.propose(0, 1, 2, &Owned::Seal(b"next".to_vec()));
    world.settle(0);
    world.finish();
    assert_eq!(world.replica(0).get(b"x").unwrap(), Some(&b"1"[..]));
    let sum = Sum::of(&world.seats[0].log);
    let reference = next(&mut world, sum);
    let succeeded = world.replica(0).succeed(&Succession::new(reference, 0));
    let mut pieces = succeeded.unwrap();
    let file: Vec<u8> = pieces.by_ref().flat_map(|it| it.unwrap()).collect();
    assert!(pieces.next().is_none() && pieces.piece(1).unwrap().is_none());
    assert_eq!(Sum::of(&file[..file.len() - 32]), file[file.len() - 32..]);
    // nothing is taken before its log is begun, and an opening that isn't what the reference stood for begins none
    assert_eq!(world.replica(0).execute_all(), Err(Fault::Unsynced));
    let opening = Some(Cluster::Three.first_opening());
    for opening in [opening, None] {
        let setup = Setup { opening, reference: Some(reference), ..Setup::new(Cluster::Three, 0) };
        assert!(matches!(setup.begin(), Err(OpenFault::BadOpening(_))));
    }
    let setup = Setup { opening: Some(&file), ..Setup::new(Cluster::Three, 0) };
    let log = Setup { reference: Some(reference), ..setup.clone() }.begin().unwrap().ready().unwrap().log().to_vec();
    assert_eq!(log[11..], reference.digest());
    assert_eq!(setup.open(&log).unwrap_err(), OpenFault::OtherLog);
    assert!(Setup { reference: Some(reference), ..setup }.open(&log).is_ok());
}

/// Pieces are short, but for one field that isn't, and the last is the digest alone.
#[test]
fn pieces_are_short() {
    let mut world = World::new(Cluster::Three, None, 7);
    play(&mut world, 1);
    let mut gone = succeed(&mut world, 1);
    for (gone, most) in gone.iter_mut().zip([1, 400, 1_000]) {
        let mut file = Vec::new();
        let mut last = 0;
        while let Some(piece) = gone.checkpoint.piece(most).unwrap() {
            assert!(!piece.is_empty() && piece.len() <= most.max(400), "{} of {most}", piece.len());
            file.extend(piece);
            last = piece.len();
        }
        assert_eq!((&file, last), (&gone.opening, 32));
    }
}
