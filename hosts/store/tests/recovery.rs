//! Recovery after the loss of a majority: `store recover`, over the folders that are left.
mod common;
use common::{Places, SERVES, Store, wait};
use std::process::{Command, Output};
use testing::client::Reply;

fn set(stores: &[&Store], numbers: std::ops::Range<usize>) {
    for number in numbers {
        let line = format!("SET key-{number} value-{number}");
        wait("a majority", || stores[number % stores.len()].ask(&line) == Reply::Simple("OK".into()));
    }
}

fn has_all(store: &Store, numbers: std::ops::Range<usize>) {
    for number in numbers {
        let value = Reply::Bulk(Some(format!("value-{number}").into_bytes()));
        wait("a local read", || store.local(&format!("key-{number}")) == value);
    }
}

/// Starts a machine that waits to be this replica of so many, at the places of another one: it, and the words that let it in.
fn join(places: &Places, (replica, count): (usize, usize), at: usize) -> (Store, String) {
    let peers: Vec<_> = (0..count).map(|it| places.peer(if it == replica { at } else { it })).collect();
    let mut command = Command::new(env!("CARGO_BIN_EXE_store"));
    command.args(["--replica", &replica.to_string(), "--peers", &peers.join(","), "--join"]);
    command.args(["--listen", &places.port(at).to_string()]).arg("--dir").arg(places.directory(at));
    let store = places.launch(&mut command, at);
    let wish = format!("EPAXOS REPLACE {replica} ");
    store.await_logged(&wish);
    let identity = store.logged().split_once(&wish).unwrap().1[..32].to_string();
    (store, format!("{replica} {identity} {}", places.peer(at)))
}

/// Asks until it is done: who waits may not have greeted this replica yet.
fn operate(store: &Store, line: &str) {
    wait(line, || matches!(store.operate(line), Reply::Bulk(Some(_))));
}

/// Has `store recover` look at these replicas' folders: its status, and what it prints.
fn recover(places: &Places, words: &[&str], replicas: &[usize]) -> (i32, String) {
    let mut command = Command::new(env!("CARGO_BIN_EXE_store"));
    command.arg("recover").args(words);
    command.args(replicas.iter().map(|replica| places.directory(*replica)));
    let Output { status, stdout, stderr } = command.output().unwrap();
    (status.code().unwrap(), String::from_utf8([stdout, stderr].concat()).unwrap())
}

/// The same where it is done, and prints all of these.
fn recovered(places: &Places, words: &[&str], replicas: &[usize], parts: &[&str]) {
    let (status, printed) = recover(places, words, replicas);
    assert!(status == 0 && parts.iter().all(|part| printed.contains(part)), "{status} {printed}");
}

/// The same where it isn't done, and nothing is changed.
fn refused(places: &Places, words: &[&str], replicas: &[usize], part: &str) {
    let (status, printed) = recover(places, words, replicas);
    assert!(status == 3 && printed.contains("nothing was changed: ") && printed.contains(part), "{status} {printed}");
}

fn has_opening(places: &Places, replica: usize) -> bool {
    places.directory(replica).join("opening.take").exists()
}

/// A store's folder is copied while it runs, and the copy is started at another address.
#[test]
fn a_copy_that_runs_elsewhere_ends_and_all_goes_on() {
    let places = Places::new("twice");
    let stores = [0, 1, 2].map(|replica| places.start(replica));
    set(&stores.each_ref(), 0..30);
    assert!(Command::new("cp").arg("-r").args([places.directory(2), places.directory(3)]).status().unwrap().success());
    let peers = [0, 1, 3].map(|place| places.peer(place)).join(",");
    let mut command = Command::new(env!("CARGO_BIN_EXE_store"));
    command.args(["--replica", "2", "--peers", &peers, "--listen", &places.port(3).to_string()]);
    let mut copy = places.launch(command.arg("--dir").arg(places.directory(3)), 3);
    assert_eq!(copy.status(), Some(5), "{}", copy.logged());
    assert!(copy.logged().contains("which runs too and was started earlier"), "{}", copy.logged());
    stores[2].await_logged("which was started later, and is to end");
    set(&stores.each_ref(), 30..60);
    stores.iter().for_each(|store| has_all(store, 0..60));
    // (a store that is started again is no second one)
    let [zero, one, two] = stores;
    drop(two);
    let two = places.start(2);
    set(&[&zero, &one, &two], 60..90);
    has_all(&two, 0..90);
}

#[test]
fn four_new_machines_are_lost() {
    let places = Places::new("grown");
    let stores = [0, 1, 2].map(|replica| places.start(replica));
    set(&stores.each_ref(), 0..30);
    let new = [3, 4, 5, 6].map(|replica| join(&places, (replica, 7), replica));
    let named: Vec<&str> = new.iter().map(|(_, named)| named.as_str()).collect();
    operate(&stores[0], &format!("EPAXOS RESIZE 7 {}", named.join(" ")));
    for (store, _) in &new {
        store.await_logged("of 7 in generation 2");
    }
    drop(new);
    for store in &stores {
        store.await_logged("of 7 in generation 2");
        wait("their loss", || (3..7).all(|peer| store.info(&format!("peer_{peer}")) == "lost"));
    }
    // Nothing can be done, not even undo it.
    assert!(matches!(stores[0].ask("SET x 1"), Reply::Error(_)));
    assert!(matches!(stores[0].operate("EPAXOS RESIZE 3"), Reply::Error(_)));
    let mut stores = stores.map(Some);
    for store in &mut stores {
        assert_eq!(store.take().unwrap().end("TERM"), Some(0));
    }
    // Too few of them are refused, and so many that they can just be started.
    refused(&places, &["--write"], &[0], "1 is no majority of 3");
    refused(&places, &["--write"], &[0, 1, 2, 3, 4, 5, 6], "a majority: just start these stores");
    recovered(
        &places,
        &[],
        &[0, 1, 2],
        &["generation 2 has lost its majority: 3 of its 7 replicas are here", "then add --write"],
    );
    assert!((0..3).all(|replica| !has_opening(&places, replica)));
    let parts = [
        "generation 1 has a majority here: everything that was acknowledged up to its end is kept",
        "no log here has a committed command of generation 2",
        "WARNING: replica 3 of generation 2, ",
        "3 replicas, of which 0, 1, 2 are here, and 30 keys",
    ];
    recovered(&places, &["--write"], &[0, 1, 2], &parts);
    assert!((0..3).all(|replica| has_opening(&places, replica)));
    refused(&places, &["--write"], &[0, 1, 2], "from an earlier recovery");
    // They go on, by the words that they had.
    let stores = [0, 1, 2].map(|replica| places.start(replica));
    for store in &stores {
        assert!(store.logged().contains("of 3 in generation 1"), "{}", store.logged());
        has_all(store, 0..30);
    }
    set(&stores.each_ref(), 30..60);
    // (and the next generation follows on that one)
    operate(&stores[1], "EPAXOS SEAL");
    stores.iter().for_each(|store| has_all(store, 0..60));
    // One of the four that comes back all the same does nothing by itself.
    let three = places.launch(places.command_of(3, 7).args(["--patience", "5"]), 3);
    three.await_logged(SERVES);
    assert!(matches!(three.ask("SET x 1"), Reply::Error(_)));
    set(&stores.each_ref(), 60..70);
}

#[test]
fn two_replicas_were_thrown_out() {
    let places = Places::new("thrown-out");
    let [mut zero, one, two] = [0, 1, 2].map(|replica| places.start(replica));
    set(&[&zero, &one, &two], 0..20);
    let (new, named) = join(&places, (2, 3), 4);
    operate(&zero, &format!("EPAXOS REPLACE {named} FORCE"));
    drop((two, new));
    set(&[&zero, &one], 20..40);
    let (new, named) = join(&places, (1, 3), 5);
    operate(&zero, &format!("EPAXOS REPLACE {named} FORCE"));
    drop((one, new));
    wait("the loss", || ["peer_1", "peer_2"].iter().all(|peer| zero.info(peer) == "lost"));
    assert!(matches!(zero.ask("SET x 1"), Reply::Error(_)));
    // (a store that runs keeps its folder)
    let (status, printed) = recover(&places, &["--write"], &[0, 1, 2]);
    assert!(status == 1 && printed.contains("is in use"), "{status} {printed}");
    assert_eq!(zero.end("TERM"), Some(0));
    let parts = ["has a majority here: everything that was acknowledged up to its end is kept", "and 40 keys"];
    recovered(&places, &["--write"], &[0, 1, 2], &parts);
    let stores = [0, 1, 2].map(|replica| places.start(replica));
    stores.iter().for_each(|store| has_all(store, 0..40));
    set(&stores.each_ref(), 40..60);
}

#[test]
fn what_may_be_lost_is_accepted_first() {
    let places = Places::new("lost");
    let start = |replica: usize| {
        let store = places.launch(&mut places.command_of(replica, 5), replica);
        store.await_logged(SERVES);
        store
    };
    let stores = [0, 1, 2, 3, 4].map(start);
    set(&stores.each_ref(), 0..30);
    has_all(&stores[2], 0..30);
    drop(stores);
    // Three of the five are lost for good.
    refused(&places, &["--write"], &[0, 2], "--accept-loss");
    let parts = ["WARNING: machines that aren't here took part in generation 1", "and 30 keys"];
    recovered(&places, &["--write", "--accept-loss"], &[0, 2], &parts);
    let stores = [0, 2].map(start);
    stores.iter().for_each(|store| has_all(store, 0..30));
    set(&stores.each_ref(), 30..40);
    // One of the three that comes back isn't let in; a new machine is.
    let one = places.launch(&mut places.command_of(1, 5), 1);
    one.await_logged("must not come back");
    assert!(matches!(one.ask("SET x 1"), Reply::Error(_)));
    drop(one);
    let (new, named) = join(&places, (1, 3), 5);
    operate(&stores[0], &format!("EPAXOS REPLACE {named}"));
    new.await_logged(SERVES);
    has_all(&new, 0..40);
}

#[test]
fn two_of_three_are_lost() {
    let places = Places::new("last");
    let [mut last, one, other] = [0, 1, 2].map(|replica| places.start(replica));
    set(&[&last, &one, &other], 0..120);
    set_more(&last);
    has_all(&last, 0..120);
    drop((one, other));
    let others = Places::new("copied");
    let new = [0, 1, 2].map(|replica| others.start(replica));
    let mut copy = Command::new("python3");
    copy.arg(concat!(env!("CARGO_MANIFEST_DIR"), "/examples/copy_keys.py"));
    copy.args([&places, &others].map(|it| format!("127.0.0.1:{}", it.port(0))));
    let Output { status, stdout, stderr } = copy.output().unwrap();
    assert!(status.success() && stdout == b"121 keys are copied\n", "{}", String::from_utf8_lossy(&stderr));
    has_all(&new[1], 0..120);
    let Reply::Integer(left) = new[2].ask("PTTL late") else { panic!() };
    assert!((1..=500_000).contains(&left));
    assert_eq!(new[0].ask("TYPE lock"), Reply::Simple("none".into()));
    last.end("TERM");
    refused(&places, &["--accept-loss"], &[0], "too few folders: 1 is no majority of 3");
}

/// A key with a deadline, and a lock.
fn set_more(store: &Store) {
    assert_eq!(store.ask("SET late 1 EX 500"), Reply::Simple("OK".into()));
    assert!(matches!(store.ask("EPAXOS LOCK lock me 60000"), Reply::Integer(1)));
}
