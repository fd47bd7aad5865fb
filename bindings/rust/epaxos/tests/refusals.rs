//! What is refused, and what is left of it: nothing.
#![forbid(unsafe_code)]

mod common;

use common::{Owned, World};
use epaxos::{Call, Cluster, Command, Event, Fault, Instance, Log, LogFile, OpenFault, Replica, Setup};
use std::fs;
use std::io::ErrorKind;

const PUT: Command = Command::Put { key: b"x", value: b"1" };
const OWN: Instance = Instance { replica: 0, number: 1 };

/// A replica whose log is begun.
fn begun() -> Replica {
    let mut replica = Replica::new(Cluster::Three, 0).unwrap();
    let ready = replica.ready().unwrap();
    assert_eq!((ready.log().len(), ready.is_anew()), (43, true));
    ready.assume_synced().unwrap();
    replica
}

#[test]
fn events_are_refused() {
    let mut replica = begun();
    let none = Instance { replica: 3, number: 1 };
    for (event, fault) in [
        (Event::Propose { call: Call::new(0, 1), command: PUT }, Fault::OutOfRange),
        (Event::Propose { call: Call::new(1, 0), command: PUT }, Fault::OutOfRange),
        (Event::Propose { call: Call { seen: 1 << 41, ..Call::new(1, 1) }, command: PUT }, Fault::StampFull),
        (Event::Propose { call: Call::new(1, 1), command: Command::Get { key: b"" } }, Fault::OutOfRange),
        (
            Event::Propose { call: Call::new(1, 1), command: Command::Swap { first: b"x", second: b"x" } },
            Fault::OutOfRange,
        ),
        (Event::ProposeSparing { call: Call::new(1, 1), command: PUT, spared: 0 }, Fault::OutOfRange),
        (Event::ProposeSparing { call: Call::new(1, 1), command: PUT, spared: 3 }, Fault::OutOfRange),
        (Event::ProposeSparing { call: Call::new(1, 1), command: PUT, spared: 255 }, Fault::OutOfRange),
        (Event::Handle(b""), Fault::BadFrame),
        (Event::Handle(b"garbage"), Fault::BadFrame),
        (Event::Handle(&[0; 400_001]), Fault::BadFrame),
        (Event::GiveUp(OWN), Fault::NotLeading),
        (Event::GiveUp(none), Fault::OutOfRange),
        (Event::Recover(none), Fault::OutOfRange),
        (Event::Recover(Instance { replica: 0, number: 0 }), Fault::OutOfRange),
        (Event::Recover(Instance { replica: 0, number: 9_001 }), Fault::OutOfRange),
        (Event::Execute(OWN), Fault::NotCommitted(OWN)),
    ] {
        assert_eq!(replica.take(&event), Err(fault), "{event:?}");
    }
    // nothing is left of them
    assert_eq!(replica.ready().unwrap().log(), b"");
    replica.propose(Call::new(1, 1), PUT).unwrap();
    assert_eq!(replica.give_up(OWN), Err(Fault::TooFewAnswers));
    let output = replica.ready().unwrap().assume_synced().unwrap();
    assert_eq!((output.entries(), output.proposed().next().unwrap().instance), (1, OWN));
}

#[test]
fn frames_of_others_are_refused() {
    let mut world = World::new(Cluster::Three, None, 1);
    world.propose(0, 1, 1, &Owned::Put(b"x".to_vec(), b"1".to_vec()));
    world.settle(0);
    let (to, frame) = world.frames[0].clone();
    assert_eq!(to, 1);
    assert_eq!(world.replica(2).handle(&frame), Err(Fault::NotMine));
    let mut other = frame.clone();
    other[43] += 1; // the generation
    assert_eq!(world.replica(1).handle(&other), Err(Fault::BadFrame));
    assert_eq!(world.replica(1).handle(&frame[..frame.len() - 1]), Err(Fault::BadFrame));
    world.finish();
    assert_eq!(world.replica(1).recover(OWN), Err(Fault::AlreadyCommitted));
}

#[test]
fn many_events_have_an_outcome_each() {
    let mut replica = begun();
    let put = |request| Event::Propose { call: Call::new(1, request), command: PUT };
    let events: Vec<_> = (0..200).map(|it| if it % 3 == 0 { Event::Handle(b"no") } else { put(it) }).collect();
    for (at, outcome) in replica.take_all(&events).into_iter().enumerate() {
        assert_eq!(outcome, if at % 3 == 0 { Err(Fault::BadFrame) } else { Ok(()) });
    }
    let output = replica.ready().unwrap().assume_synced().unwrap();
    assert_eq!(output.entries(), 133);
    let requests: Vec<_> = output.proposed().map(|it| it.request).collect();
    assert_eq!(requests, (0..200).filter(|it| it % 3 > 0).collect::<Vec<_>>());
}

#[test]
fn nothing_is_taken_while_something_is_lent() {
    let mut replica = begun();
    replica.propose(Call::new(1, 1), PUT).unwrap();
    assert_eq!(replica.get(b"x"), Err(Fault::Unsynced));
    assert_eq!(replica.state(), Err(Fault::Unsynced));
    let first = replica.ready().unwrap().log().to_vec();
    assert_eq!(replica.propose(Call::new(1, 2), PUT), Err(Fault::Unsynced));
    assert_eq!(replica.advance(), Err(Fault::Unsynced));
    let put = Event::Propose { call: Call::new(1, 2), command: PUT };
    assert_eq!(replica.take_all(&[put]), [Err(Fault::Unsynced)]);
    let ready = replica.ready().unwrap();
    assert_eq!(ready.log(), first);
    let output = ready.assume_synced().unwrap();
    assert_eq!((output.entries(), output.frames().count()), (1, 1));
    // then there is nothing to write, and nothing is lent
    assert_eq!(replica.ready().unwrap().log(), b"");
    replica.propose(Call::new(1, 2), PUT).unwrap();
    assert!(!replica.ready().unwrap().is_anew());

    // behind a start it is the log
    let mut replica = Replica::new(Cluster::Three, 0).unwrap();
    assert_eq!(replica.propose(Call::new(1, 1), PUT), Err(Fault::Unsynced));
}

#[test]
fn logs_are_refused() {
    let mut replica = Replica::new(Cluster::Three, 0).unwrap();
    let header = replica.ready().unwrap().log().to_vec();
    replica.ready().unwrap().assume_synced().unwrap();
    replica.propose(Call::new(1, 1), PUT).unwrap();
    replica.propose(Call::new(1, 2), PUT).unwrap();
    let ready = replica.ready().unwrap();
    let first = [&header[..], ready.log()].concat();
    ready.assume_synced().unwrap();
    replica.propose(Call::new(1, 3), PUT).unwrap();
    let log = [&first[..], replica.ready().unwrap().log()].concat();

    assert_eq!(Setup::new(Cluster::Three, 0).open(b"").unwrap_err(), OpenFault::NoLog);
    assert_eq!(Setup::new(Cluster::Three, 3).open(&log).unwrap_err(), OpenFault::OutOfRange);
    assert_eq!(Setup::new(Cluster::Three, 1).open(&log).unwrap_err(), OpenFault::OtherLog);
    assert!(matches!(Setup::new(Cluster::Three, 0).open(&log[..42]).unwrap_err(), OpenFault::BadLog(_)));
    // a later record says that this one was on the disk
    let mut turned = log.clone();
    turned[first.len() - 1] ^= 1;
    assert!(matches!(Setup::new(Cluster::Three, 0).open(&turned).unwrap_err(), OpenFault::BadLog(_)));
    let bad = Setup { opening: Some(b"no opening"), ..Setup::new(Cluster::Three, 0) };
    assert!(matches!(bad.begin().unwrap_err(), OpenFault::BadOpening(_)));

    // an older log, of which more was reported than it has
    let setup_of = |reported| Setup { told: Some(reported), ..Setup::new(Cluster::Three, 0) };
    assert_eq!(setup_of(3).open(&first).unwrap_err(), OpenFault::Forgotten { entries: 2, told: 3 });
    assert_eq!(setup_of(1).begin().unwrap_err(), OpenFault::Forgotten { entries: 0, told: 1 });
    assert!(setup_of(2).open(&first).is_ok() && setup_of(0).begin().is_ok());
}

/// A log's header has the digest of what its generation opened with: the first one opens with the same, handed in or not.
#[test]
fn the_first_opening_is_what_generation_1_opens_with() {
    for cluster in [Cluster::Three, Cluster::Five, Cluster::Seven] {
        let setup = Setup::new(cluster, 2);
        let header = setup.begin().unwrap().ready().unwrap().log().to_vec();
        let given = Setup { opening: Some(cluster.first_opening()), ..setup };
        assert_eq!(given.begin().unwrap().ready().unwrap().log(), header);
        assert_eq!(header[11..], cluster.first_opening()[27..]);
    }
}

/// Each beginning of a log is that of a replica which stopped there.
#[test]
fn a_log_is_cut_anywhere() {
    let mut world = World::new(Cluster::Three, None, 3);
    for request in 1..=2 {
        world.propose(0, 1, request, &Owned::Put(b"x".to_vec(), b"1".to_vec()));
        world.settle(0);
        world.finish();
    }
    let log = &world.seats[0].log;
    let mut before = 0;
    for end in (43..=log.len()).step_by(17).chain([log.len()]) {
        let setup = Setup { told: Some(0), ..Setup::new(Cluster::Three, 0) };
        let mut replica = setup.open(&log[..end]).unwrap();
        let cut = replica.cut() as usize;
        let ready = replica.ready().unwrap();
        assert!(ready.is_anew());
        assert_eq!(ready.log(), &log[..end - cut]);
        let output = ready.assume_synced().unwrap();
        assert!(output.entries() >= before);
        before = output.entries();
        for (executed, did) in output.executed().zip(&world.seats[0].did) {
            assert_eq!((executed.instance, executed.command.map(Owned::of)), (did.instance, did.command.clone()));
        }
    }
    assert_eq!(before, world.seats[0].entries);
}

fn check_refusal(refusal: &std::io::Error, kind: ErrorKind, why: &str) {
    assert_eq!((refusal.kind(), refusal.to_string()), (kind, why.to_string()));
}

#[test]
fn a_log_is_begun_once() {
    let folder = std::env::temp_dir().join(format!("epaxos-once-{}", std::process::id()));
    let path = folder.join("zero.log");
    let name = path.display();
    let begin = |kind, why: &str| check_refusal(&LogFile::begin(&path).unwrap_err(), kind, why);
    let open = |kind, why: &str| check_refusal(&LogFile::open(&path).unwrap_err(), kind, why);
    let none = format!("{name} has no folder: make it first");
    begin(ErrorKind::NotFound, &none);
    open(ErrorKind::NotFound, &none);
    fs::create_dir_all(&folder).unwrap();
    let missing = format!(
        "{name} is not there: LogFile::begin begins it, at a replica's first start alone; at a later one its disk is lost, or isn't mounted"
    );
    open(ErrorKind::NotFound, &missing);
    let mut file = LogFile::begin(&path).unwrap();
    let held = format!("{name} is in use: another program has it, or another LogFile of this one; end that first");
    begin(ErrorKind::WouldBlock, &held);
    open(ErrorKind::WouldBlock, &held);
    // (nothing was reported yet)
    drop(file);
    open(ErrorKind::NotFound, &missing);
    file = LogFile::begin(&path).unwrap();
    let mut replica = Replica::new(Cluster::Three, 0).unwrap();
    file.keep(&replica.ready().unwrap()).unwrap();
    replica.ready().unwrap().assume_synced().unwrap();
    replica.propose(Call::new(1, 1), PUT).unwrap();
    file.keep(&replica.ready().unwrap()).unwrap();
    // what is to be appended is for a log that is there
    drop(file);
    fs::rename(&path, folder.join("one.log")).unwrap();
    assert!(LogFile::begin(&path).unwrap().keep(&replica.ready().unwrap()).is_err());
    fs::rename(folder.join("one.log"), &path).unwrap();
    begin(ErrorKind::AlreadyExists, &format!("{name} is there already: LogFile::open goes on with it"));
    let (file, log) = LogFile::open(&path).unwrap();
    assert!(log.len() > 43);
    drop(file);
    // one that was emptied is no new one
    fs::write(&path, b"").unwrap();
    let empty = format!(
        "{name} is empty. If a replica had its log there, that is lost, and it must not come back under its number in its generation; if none had, remove the file and begin"
    );
    begin(ErrorKind::AlreadyExists, &empty);
    open(ErrorKind::InvalidData, &empty);
    fs::remove_dir_all(folder).unwrap();
}
