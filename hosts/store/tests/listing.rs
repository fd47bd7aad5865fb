//! The keys that there are, and those that are past their deadlines: they are removed by who lists them, and by the store itself.
mod common;
use common::memory::Memory;
use common::{Places, ask, info, wait};
use std::sync::Arc;
use std::thread;
use std::time::{Duration, Instant};
use store::core::sweep::sweep;
use testing::client::{Client, Reply};

/// How many keys there are, with those that are hidden.
fn kept(client: &mut Client) -> usize {
    let text = info(client);
    text.lines().find_map(|line| line.strip_prefix("keys_kept:")).unwrap().parse().unwrap()
}

/// Sets so many keys that are past their deadlines soon, and one that stays.
fn set(client: &mut Client, count: usize) {
    (0..count).for_each(|number| assert_eq!(ask(client, &format!("SET gone-{number} v PX 50")), ok()));
    assert_eq!(ask(client, "SET stays v"), ok());
    thread::sleep(Duration::from_millis(100));
    assert_eq!(kept(client), count + 1);
}

fn ok() -> Reply {
    Reply::Simple("OK".into())
}

fn keys(keys: &[&str]) -> Reply {
    Reply::Array(keys.iter().map(|key| Reply::Bulk(Some(key.as_bytes().to_vec()))).collect())
}

#[test]
fn what_a_list_hides_is_removed() {
    let memory = Memory::start("hidden", Duration::ZERO);
    let mut client = memory.client();
    for (line, listed) in [
        ("KEYS *", keys(&["stays"])),
        ("DBSIZE", Reply::Integer(1)),
        ("SCAN 0 COUNT 100", Reply::Array(vec![Reply::Bulk(Some(b"0".to_vec())), keys(&["stays"])])),
    ] {
        set(&mut client, 7);
        assert_eq!(ask(&mut client, line), listed);
        let start = Instant::now();
        while kept(&mut client) > 1 {
            assert!(start.elapsed() < Duration::from_secs(300), "{line}");
        }
    }
}

#[test]
fn what_nobody_asks_for_is_removed_a_few_in_each_second() {
    let mut parts = None;
    let memory = Memory::start_with("sweep", Duration::ZERO, |shared| {
        parts = Some((shared.listing.clone(), shared.keys.clone(), shared.metrics.clone()));
    });
    let (listing, keys, metrics) = parts.unwrap();
    let mut client = memory.client();
    set(&mut client, 50);
    let (start, looked) = (Instant::now(), Arc::clone(&metrics));
    thread::spawn(move || sweep(&listing, &keys, &metrics));
    // (where the machine is slow some are gone by then)
    wait("the look", || looked.expired.get() > 0 || kept(&mut memory.client()) < 51);
    assert!([50, 30, 10, 0].contains(&looked.expired.get()));
    while kept(&mut client) > 1 {
        assert!(start.elapsed() < Duration::from_secs(300));
        thread::sleep(Duration::from_millis(10));
    }
    // (20 in each second: the last ten come after two)
    assert!(start.elapsed() >= Duration::from_secs(2));
    wait("the end", || looked.expired.get() == 0);
    assert_eq!(ask(&mut client, "GET stays"), Reply::Bulk(Some(b"v".to_vec())));
}

#[test]
fn a_store_with_its_core_lists_without_a_program() {
    let places = Places::new("listing");
    let [zero, one, _two] = [0, 1, 2].map(|replica| places.start(replica));
    wait("a majority", || zero.ask("SET a 1") == ok());
    for line in ["SET b 2", "SET c 3 PX 1", "SET d 4"] {
        wait("a majority", || one.ask(line) == ok());
    }
    // What others have proposed is there once this replica knows that it is committed.
    let sorted = |reply| match reply {
        Reply::Array(mut keys) => {
            keys.sort_by_key(|key| if let Reply::Bulk(Some(key)) = key { key.clone() } else { Vec::new() });
            Reply::Array(keys)
        }
        reply => reply,
    };
    for store in [&zero, &one] {
        wait("its keys", || sorted(store.ask("KEYS *")) == keys(&["a", "b", "d"]));
        assert_eq!(store.ask("DBSIZE"), Reply::Integer(3));
        let Reply::Array(scanned) = store.ask("SCAN 0 MATCH [bc]") else { panic!() };
        assert_eq!(scanned[1], keys(&["b"]));
    }
    // The one that was hidden is gone, also for the store's own look at its map.
    wait("the look", || zero.info("expired_kept") == "0");
}
