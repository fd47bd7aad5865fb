//! Stores around the proved program that go from generation to generation.
mod common;
use common::{Places, SERVES, Store, ask, wait};
use std::cell::Cell;
use std::fs;
use std::path::Path;
use std::process::Command;
use std::time::Duration;
use testing::client::{Client, Reply};

/// A generation ends after so few commands.
const SHORT: [&str; 2] = ["--seal-numbers", "20"];

fn value(number: usize) -> Reply {
    Reply::Bulk(Some(format!("value-{number}").into_bytes()))
}

/// Sets keys of these numbers, each at one store after the other.
fn set(stores: &[&Store], numbers: std::ops::Range<usize>) {
    for number in numbers {
        let line = format!("SET key-{number} value-{number}");
        // (where a peer is lost for a while it is asked again: the value is the same)
        wait("a majority", || stores[number % stores.len()].ask(&line) == Reply::Simple("OK".into()));
    }
}

fn generation(store: &Store) -> usize {
    store.info("generation").parse().unwrap()
}

/// Asks until it is done: a peer may be lost for a while, or not have greeted this replica yet.
fn operate(store: &Store, line: &str) {
    wait(line, || matches!(store.operate(line), Reply::Bulk(Some(text)) if text.starts_with(b"generation ")));
}

/// The store has all these keys, and is asked without the others.
fn has_all(store: &Store, numbers: std::ops::Range<usize>) {
    for number in numbers {
        let key = format!("key-{number}");
        wait("a local read", || store.local(&key) == value(number));
    }
}

fn copy(from: &Path, to: &Path) {
    let is_well = Command::new("cp").arg("-r").arg(from).arg(to).status().unwrap().success();
    assert!(is_well);
}

#[test]
fn generations_follow_one_another() {
    let places = Places::new("generations");
    let start = || [0, 1, 2].map(|replica| places.start_with(replica, &SHORT));
    let stores = start();
    set(&stores.each_ref(), 0..200);
    // (after a change that cost much the next one is put off)
    wait("generations", || {
        set(&stores.each_ref(), 0..30);
        generation(&stores[0]) >= 3
    });
    for store in &stores {
        wait("the newest generation", || generation(store) >= 3);
        has_all(store, 0..200);
    }
    operate(&stores[1], "EPAXOS SEAL");
    let mut stores = stores.map(Some);
    for store in stores.iter_mut() {
        assert_eq!(store.take().unwrap().end("TERM"), Some(0));
    }
    let stores = start();
    stores.iter().for_each(|store| has_all(store, 0..200));
}

#[test]
fn who_lags_comes_along() {
    let places = Places::new("lags");
    let stores = [0, 1, 2].map(|replica| places.start_with(replica, &SHORT));
    set(&stores.each_ref(), 0..10);
    let [zero, one, two] = stores;
    drop(two);
    for place in 0..3 {
        set(&[&zero, &one], 10 + 50 * place..60 + 50 * place);
        operate(&zero, "EPAXOS SEAL");
    }
    assert!(generation(&zero) >= 4);
    let two = places.start_with(2, &SHORT);
    // (by an opening that a peer hands it, or seal by seal, whichever is quicker)
    wait("the present generation", || generation(&two) >= 4);
    has_all(&two, 0..160);
    set(&[&two], 160..170);
    has_all(&zero, 0..170);
}

/// Cores in the stores go on in memory; checkpoints are written now and then, and what is older goes.
#[test]
fn generations_follow_one_another_in_memory() {
    let places = Places::new("in-memory");
    let start =
        |replica: usize| places.start_with(replica, &["--seal-numbers", "20", "--checkpoint", "60000", "--keep", "1"]);
    let [zero, one, two] = [0, 1, 2].map(start);
    let count = Cell::new(0);
    let set_more = |stores: &[&Store]| {
        set(stores, count.get()..count.get() + 20);
        count.set(count.get() + 20);
    };
    let set_until = |stores: &[&Store], least: usize| {
        wait("generations", || {
            set_more(stores);
            generation(stores[0]) >= least
        });
    };
    set_until(&[&zero, &one, &two], 3);
    // One of them is killed, and gets what the others have.
    drop(two);
    let least = generation(&zero) + 2;
    set_until(&[&zero, &one], least);
    let two = start(2);
    has_all(&two, 0..count.get());
    let is_there = |replica: usize, name: &str| places.directory(replica).join("generations").join(name).exists();
    wait("a checkpoint", || {
        set_more(&[&zero, &one, &two]);
        !is_there(0, "1") && !is_there(1, "1")
    });
    let newest = generation(&zero);
    assert!((2..=newest).any(|it| is_there(0, &format!("{it}/whole"))));
    // All are killed, and start by the last checkpoint and the logs since.
    drop([zero, one, two]);
    let [zero, one, two] = [0, 1, 2].map(start);
    for store in [&zero, &one, &two] {
        has_all(store, 0..count.get());
    }
    set_more(&[&zero, &one, &two]);
}

/// Where the logs are long and the map is short, the opening is written in their place.
#[test]
fn who_lags_is_handed_a_short_map_whole() {
    let places = Places::new("short-map");
    let start = |replica: usize| places.start_with(replica, &[]);
    let [zero, one, two] = [0, 1, 2].map(start);
    drop(two);
    for _ in 0..60 {
        let line = format!("SET long {}", "x".repeat(60_000));
        wait("a majority", || zero.ask(&line) == Reply::Simple("OK".into()));
    }
    for place in 0..2 {
        set(&[&zero, &one], 5 * place..5 * place + 5);
        operate(&zero, "EPAXOS SEAL");
    }
    drop((zero, one));
    let [_zero, _one, two] = [0, 1, 2].map(start);
    two.await_logged("is taken from a peer");
    has_all(&two, 0..10);
    // (where the machine is slow a generation may have ended by itself)
    let whole = |it: usize| places.directory(it % 2).join(format!("generations/{}/whole", it / 2));
    assert!((2 * 2..=2 * generation(&two) + 1).any(|it| whole(it).exists()));
}

/// Starts a machine that is to be let in by these words, and waits until it has logged its identity.
fn join(places: &Places, words: Command, replica: usize) -> (Store, String) {
    let mut command = Command::new(env!("CARGO_BIN_EXE_store"));
    // (an empty folder gets `--new` there)
    command.args(words.get_args().filter(|word| *word != "--new")).arg("--join");
    let store = places.launch(&mut command, replica);
    let wish = format!("EPAXOS REPLACE {replica} ");
    store.await_logged(&wish);
    let identity = store.logged().split_once(&wish).unwrap().1[..32].to_string();
    (store, identity)
}

/// Waits until a store knows that a machine waits.
fn meets(store: &Store, replica: usize, identity: &str) {
    let line = format!("{replica} {identity} waits to be let in");
    let is_met =
        |reply: Reply| matches!(reply, Reply::Bulk(Some(text)) if String::from_utf8_lossy(&text).contains(&line));
    wait("the new machine", || is_met(store.operate("EPAXOS MEMBERS")));
}

/// Who lags by several generations, and a machine that is new, get the logs since the last whole opening, and none is written for them.
#[test]
fn who_lags_is_handed_logs() {
    let places = Places::new("handed-logs");
    let start = |replica: usize| places.start_with(replica, &SHORT);
    let [zero, one, two] = [0, 1, 2].map(start);
    set(&[&zero, &one, &two], 0..10);
    drop(two);
    for place in 0..3 {
        set(&[&zero, &one], 10 + 50 * place..60 + 50 * place);
        operate(&zero, "EPAXOS SEAL");
    }
    drop((zero, one));
    let [zero, one, two] = [0, 1, 2].map(start);
    two.await_logged("is taken from a peer");
    has_all(&two, 0..160);
    set(&[&two], 160..170);
    // Now its machine is lost.
    drop(two);
    wait("its folder", || fs::rename(places.directory(2), places.folder.join("lost")).is_ok());
    let (two, identity) = join(&places, places.command_of(2, 3), 2);
    meets(&one, 2, &identity);
    operate(&one, &format!("EPAXOS REPLACE 2 {identity}"));
    two.await_logged(SERVES);
    has_all(&two, 0..170);
    set(&[&zero, &one, &two], 170..180);
    for replica in [0, 1] {
        let newest = generation(&zero).max(generation(&one));
        // (one that lags itself takes an opening, for which no reference stands)
        let whole = |generation: usize| places.directory(replica).join(format!("generations/{generation}/whole"));
        assert!(newest >= 5 && (2..=newest).all(|it| !whole(it).exists()));
    }
    assert!(!places.directory(2).join("opening.logs").exists());
}

#[test]
fn three_become_five_and_three_again() {
    let places = Places::new("resized");
    let stores = [0, 1, 2].map(|replica| places.start_with(replica, &SHORT));
    set(&stores.each_ref(), 0..50);
    let (mut three, of_three) = join(&places, places.command_of(3, 5), 3);
    let (mut four, of_four) = join(&places, places.command_of(4, 5), 4);
    // One of the three is down, and learns of it later.
    let [zero, one, two] = stores;
    drop(two);
    meets(&zero, 3, &of_three);
    meets(&zero, 4, &of_four);
    let (at_three, at_four) = (places.peer(3), places.peer(4));
    let line = format!("EPAXOS RESIZE 5 3 {of_three} {at_three} 4 {of_four} {at_four}");
    operate(&zero, &line);
    for store in [&three, &four] {
        store.await_logged(SERVES);
    }
    let two = places.start_with(2, &SHORT);
    for store in [&zero, &one, &two] {
        store.await_logged("of 5 in generation");
    }
    // Asked again, as by somebody who has lost the answer, it is so.
    let again = zero.operate(&line);
    assert!(matches!(&again, Reply::Bulk(Some(text)) if text.ends_with(b", of 5 replicas")), "{again:?}");
    let all = [&zero, &one, &two, &three, &four];
    all.iter().for_each(|store| has_all(store, 0..50));
    set(&all, 50..100);
    // A machine comes in the place of a lost one, and its words know of three.
    drop(one);
    wait("its folder", || fs::rename(places.directory(1), places.folder.join("lost")).is_ok());
    let (one, identity) = join(&places, places.command(1), 1);
    meets(&zero, 1, &identity);
    operate(&zero, &format!("EPAXOS REPLACE 1 {identity}"));
    one.await_logged("of 5 in generation");
    has_all(&one, 0..100);
    // It stays so, whatever `--peers` of the first ones says.
    drop(zero);
    set(&[&one, &two, &three, &four], 100..120);
    let zero = places.start_with(0, &SHORT);
    assert!(zero.logged().contains("of 5 in generation"));
    has_all(&zero, 0..120);
    assert!(matches!(zero.operate("EPAXOS RESIZE 3"), Reply::Bulk(Some(_))));
    for store in [&mut three, &mut four] {
        assert_eq!(store.status(), Some(3));
        assert!(store.logged().contains("takes part no more"));
    }
    for store in [&zero, &one, &two] {
        let place_of = |size: usize| store.logged().rfind(&format!("of {size} in generation"));
        wait("the others", || place_of(3) > place_of(5));
        has_all(store, 0..120);
    }
    let again = zero.operate("EPAXOS RESIZE 3");
    assert!(matches!(&again, Reply::Bulk(Some(text)) if text.ends_with(b", of 3 replicas")), "{again:?}");
    set(&[&zero, &one, &two], 120..150);
}

/// A store that has executed the seal by which it leaves, and was ended before it left.
#[test]
fn who_leaves_and_is_started_again_serves_on() {
    assert!((0..10).any(|_| has_left_and_serves_on()));
}

/// Whether it has executed the seal; else it has learnt that it leaves by what the others did since.
fn has_left_and_serves_on() -> bool {
    let places = Places::new("leaves");
    let stores = [0, 1, 2, 3, 4].map(|replica| places.launch(&mut places.command_of(replica, 5), replica));
    stores.iter().for_each(|store| store.await_logged(SERVES));
    set(&stores.each_ref(), 0..10);
    // (it is asked at one that leaves, which may serve for long yet)
    let reply = stores[4].operate("EPAXOS RESIZE 3");
    if !matches!(&reply, Reply::Bulk(Some(text)) if text.ends_with(b"generation 2, of 3 replicas")) {
        return false;
    }
    let [zero, one, two, three, mut four] = stores;
    assert_eq!(four.status(), Some(3));
    [zero, one, two, three].into_iter().for_each(drop);
    let start = || places.launch(&mut places.command_of(4, 5), 4);
    assert_eq!(start().status(), Some(3));
    // (as it was before it began the next generation)
    fs::remove_file(places.directory(4).join("generations/1/left")).unwrap();
    let mut four = start();
    four.await_logged("replica 4 of 5 in generation 1");
    if four.info("generation_sealed") == "0" {
        return false;
    }
    four.await_logged("takes part no more: it serves generation 1 until a majority of the others has left it");
    assert_eq!((generation(&four), four.info("generation_sealed")), (1, "1".into()));
    for line in ["SET key-0 other", "GET key-0"] {
        assert!(matches!(four.ask(line), Reply::Error(text) if text.contains("the store ends")));
    }
    assert_eq!(four.local("key-0"), value(0));
    assert_eq!(four.end("TERM"), Some(0));
    assert!(!places.directory(4).join("generations/2/reference").exists());
    true
}

#[test]
fn a_lost_machine_is_replaced() {
    let places = Places::new("replaced");
    let stores = [0, 1, 2].map(|replica| places.start_with(replica, &SHORT));
    set(&stores.each_ref(), 0..50);
    let [zero, one, two] = stores;
    drop(two);
    // (its node may still be ending)
    wait("the end of its node", || fs::rename(places.directory(2), places.folder.join("lost")).is_ok());
    set(&[&zero, &one], 50..100);
    let (two, identity) = join(&places, places.command(2), 2);
    assert!(matches!(ask(&mut two.client(), "SET x 1"), Reply::Error(_)));
    meets(&one, 2, &identity);
    operate(&one, &format!("EPAXOS REPLACE 2 {identity}"));
    two.await_logged(SERVES);
    has_all(&two, 0..100);
    set(&[&zero, &one, &two], 100..130);
    // The old machine is refused.
    drop(two);
    wait("its folder", || fs::rename(places.directory(2), places.folder.join("new")).is_ok());
    copy(&places.folder.join("lost"), &places.directory(2));
    let mut old = places.launch(&mut places.command(2), 2);
    old.await_logged("knows another replica under this one's number");
    assert!(matches!(old.ask("SET x 1"), Reply::Error(_)));
    assert_eq!(old.end("TERM"), Some(0));
}

#[test]
fn an_older_copy_of_a_folder_does_not_speak() {
    let places = Places::new("older");
    let long = ["--seal-numbers", "1900"];
    let stores = [0, 1, 2].map(|replica| places.start_with(replica, &long));
    set(&stores.each_ref(), 0..20);
    let [zero, one, two] = stores;
    drop(two);
    wait("its folder", || fs::rename(places.directory(2), places.folder.join("older")).is_ok());
    copy(&places.folder.join("older"), &places.directory(2));
    let two = places.start_with(2, &long);
    set(&[&zero, &one, &two], 20..60);
    drop(two);
    wait("its folder", || fs::rename(places.directory(2), places.folder.join("newer")).is_ok());
    copy(&places.folder.join("older"), &places.directory(2));
    let mut two = places.launch(&mut places.command(2), 2);
    assert_eq!(two.status(), Some(4));
    assert!(two.logged().contains("the folder is an older copy"), "{}", two.logged());
}

/// The others have left the generation of the copy, and have what the machine proposed there since. Its clients are
/// told nothing that isn't so.
#[test]
fn an_older_copy_of_a_generation_that_was_left_tells_nobody_that_it_has_done_something() {
    let places = Places::new("left");
    let [zero, one, two] = [0, 1, 2].map(|replica| places.start(replica));
    set(&[&zero, &one, &two], 0..6);
    drop(two);
    copy(&places.directory(2), &places.folder.join("older"));
    let two = places.start(2);
    set(&[&two], 6..14);
    drop(two);
    operate(&zero, "EPAXOS SEAL");
    wait("the other", || generation(&one) == 2);
    wait("its folder", || fs::rename(places.directory(2), places.folder.join("newer")).is_ok());
    copy(&places.folder.join("older"), &places.directory(2));
    let mut two = places.launch(&mut places.command(2), 2);
    two.await_logged(SERVES);
    let connect = |_| Client::connect(places.port(2), Duration::from_secs(60)).ok();
    let mut clients: Vec<Client> = (0..16).filter_map(connect).collect();
    for (number, client) in clients.iter_mut().enumerate() {
        let _ = client.send(&[&[b"SET", format!("new-{number}").as_bytes(), b"x"]]);
    }
    for (number, client) in clients.iter_mut().enumerate() {
        let is_told = client.read().ok() == Some(Reply::Simple("OK".into()));
        assert!(!is_told || zero.ask(&format!("GET new-{number}")) == Reply::Bulk(Some(b"x".to_vec())), "{number}");
    }
    assert_eq!(two.status(), Some(4));
    assert!(two.logged().contains("generation 1 has done what this replica proposed as 2."), "{}", two.logged());
    has_all(&zero, 6..14);
}

#[test]
fn an_older_copy_is_known_by_the_others_logs() {
    let places = Places::new("by-logs");
    let start = || [0, 1, 2].map(|replica| places.start(replica));
    let end = |stores: [Store; 3]| stores.into_iter().for_each(|mut store| assert_eq!(store.end("TERM"), Some(0)));
    let [zero, one, two] = start();
    set(&[&zero, &one, &two], 0..10);
    end([zero, one, two]);
    copy(&places.directory(2), &places.folder.join("older"));
    let [zero, one, two] = start();
    set(&[&zero, &one, &two], 10..30);
    end([zero, one, two]);
    // The files of what was seen are lost, as by a power failure. The logs were forced to the disk.
    [0, 1].iter().for_each(|replica| fs::remove_file(places.directory(*replica).join("seen")).unwrap());
    fs::rename(places.directory(2), places.folder.join("newer")).unwrap();
    copy(&places.folder.join("older"), &places.directory(2));
    let others = [0, 1].map(|replica| places.start(replica));
    let mut two = places.launch(&mut places.command_of(2, 3), 2);
    assert_eq!(two.status(), Some(4));
    assert!(two.logged().contains("the folder is an older copy"), "{}", two.logged());
    set(&others.each_ref(), 30..35);
}

#[test]
fn the_map_takes_no_more_than_it_may() {
    let places = Places::new("most-map");
    let start = |replica: usize| places.start_with(replica, &["--most-map", "20000"]);
    let [zero, one, two] = [0, 1, 2].map(start);
    let stores = [&zero, &one, &two];
    let set = |store: &Store, number: usize| store.ask(&format!("SET key-{number:03} {number:0100}"));
    let is_full = |reply: &Reply| matches!(reply, Reply::Error(text) if text.starts_with("OOM "));
    // (a key takes 112 bytes)
    let (mut answered, mut full) = (Vec::new(), [false; 3]);
    for number in 0..600 {
        let place = number % 3;
        match set(stores[place], number) {
            Reply::Simple(_) => answered.push(number),
            reply => full[place] |= is_full(&reply),
        }
        if full == [true; 3] {
            break;
        }
    }
    assert_eq!(full, [true; 3]);
    let map = || {
        operate(&zero, "EPAXOS SEAL");
        zero.info("map_bytes").parse::<usize>().unwrap()
    };
    let bytes = map();
    assert!((20_000 * 15 / 16 - 112 * 3..=20_000).contains(&bytes) && bytes == 112 * answered.len(), "{bytes}");
    assert_eq!(
        one.ask(&format!("GET key-{:03}", answered[7])),
        Reply::Bulk(Some(format!("{:0100}", answered[7]).into()))
    );
    assert!(is_full(&set(&two, 999)));
    for number in &answered[..60] {
        assert_eq!(one.ask(&format!("DEL key-{number:03}")), Reply::Integer(1));
    }
    assert_eq!(map(), bytes - 60 * 112);
    assert_eq!(set(&two, 999), Reply::Simple("OK".into()));
}
