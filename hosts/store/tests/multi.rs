//! What stands between MULTI and EXEC is done at once, or not at all: by many clients, over a map in memory.
mod common;
use common::memory::Memory;
use common::{ask, info, wait};
use std::thread;
use std::time::Duration;
use testing::client::{Client, Reply};

const CLIENTS: usize = 8;

fn integer(reply: &Reply) -> i64 {
    match reply {
        Reply::Integer(number) => *number,
        Reply::Bulk(Some(text)) => std::str::from_utf8(text).unwrap().parse().unwrap(),
        other => panic!("{other:?}"),
    }
}

/// Sends a transaction of these lines at once: what EXEC replies.
fn exec(client: &mut Client, lines: &[String]) -> Reply {
    let lines: Vec<&str> = ["MULTI"].into_iter().chain(lines.iter().map(String::as_str)).chain(["EXEC"]).collect();
    let words: Vec<Vec<&[u8]>> = lines.iter().map(|line| line.split(' ').map(str::as_bytes).collect()).collect();
    client.send(&words.iter().map(Vec::as_slice).collect::<Vec<_>>()).unwrap();
    assert_eq!(client.read().unwrap(), Reply::Simple("OK".into()));
    for _ in 2..lines.len() {
        assert_eq!(client.read().unwrap(), Reply::Simple("QUEUED".into()));
    }
    client.read().unwrap()
}

#[test]
fn what_is_moved_is_neither_lost_nor_made() {
    let memory = Memory::start("moved", Duration::from_millis(1));
    let accounts = 5;
    let mut client = memory.client();
    let all: Vec<String> = (0..accounts).map(|account| format!("SET account-{account} 100")).collect();
    exec(&mut client, &all);
    let read: Vec<String> = (0..accounts).map(|account| format!("GET account-{account}")).collect();
    let sum = |client: &mut Client| match exec(client, &read) {
        Reply::Array(values) => values.iter().map(integer).sum::<i64>(),
        other => panic!("{other:?}"),
    };
    thread::scope(|scope| {
        for number in 0..CLIENTS {
            let (memory, sum) = (&memory, &sum);
            scope.spawn(move || {
                let mut client = memory.client();
                for step in 0..25 {
                    let (from, to) = ((number + step) % accounts, (2 * number + step + 1) % accounts);
                    let lines = [format!("DECRBY account-{from} 7"), format!("INCRBY account-{to} 7")];
                    assert!(matches!(exec(&mut client, &lines), Reply::Array(_)));
                    assert_eq!(sum(&mut client), 500);
                }
            });
        }
    });
    assert_eq!(sum(&mut client), 500);
}

#[test]
fn who_watches_is_alone() {
    let memory = Memory::start("watched", Duration::ZERO);
    thread::scope(|scope| {
        for _ in 0..CLIENTS {
            scope.spawn(|| {
                let mut client = memory.client();
                let mut done = 0;
                while done < 25 {
                    assert_eq!(ask(&mut client, "WATCH counter"), Reply::Simple("OK".into()));
                    let before = match ask(&mut client, "GET counter") {
                        Reply::Bulk(None) => 0,
                        reply => integer(&reply),
                    };
                    match exec(&mut client, &[format!("SET counter {}", before + 1)]) {
                        Reply::Array(_) => done += 1,
                        Reply::Bulk(None) => {}
                        other => panic!("{other:?}"),
                    }
                }
            });
        }
    });
    assert_eq!(integer(&ask(&mut memory.client(), "GET counter")), 25 * CLIENTS as i64);
}

/// A key that was changed and changed back passes, unless its client has seen what it had meanwhile.
#[test]
fn what_was_seen_while_it_was_changed_counts() {
    let memory = Memory::start("seen", Duration::ZERO);
    let (mut client, mut other) = (memory.client(), memory.client());
    let ok = || Reply::Simple("OK".into());
    for (seen, is_done) in [("GET other", true), ("GET x", false), ("MGET other x", false), ("TTL x", false)] {
        for (line, of) in [("SET x 1", 1), ("WATCH x", 0), ("SET x 2", 1)] {
            assert_eq!(ask(if of == 0 { &mut client } else { &mut other }, line), ok());
        }
        ask(&mut client, seen);
        assert_eq!(ask(&mut other, "SET x 1"), ok());
        let done = Reply::Array(vec![ok()]);
        assert_eq!(exec(&mut client, &["SET x 3".into()]), if is_done { done } else { Reply::Bulk(None) }, "{seen}");
    }
    // What it has seen is what it had when it was watched.
    for (line, of) in [("WATCH x", 0), ("SET x 2", 1), ("SET x 1", 1)] {
        assert_eq!(ask(if of == 0 { &mut client } else { &mut other }, line), ok());
    }
    assert_eq!(ask(&mut client, "GET x"), Reply::Bulk(Some(b"1".to_vec())));
    assert_eq!(exec(&mut client, &["SET x 3".into()]), Reply::Array(vec![ok()]));
}

/// Commands of one connection keep their order, also where several keys are written at once.
#[test]
fn a_pipeline_of_several_keys_is_in_order() {
    let memory = Memory::start("several", Duration::from_millis(1));
    let mut client = memory.client();
    let lines = [
        "SET a 1",
        "MSET a 2 b 2",
        "INCR a",
        "GET b",
        "RENAME a c",
        "MGET a b c",
        "DEL a b c",
        "GET c",
        "MSETNX a 7 b 7",
        "GET a",
        "EPAXOS TXN IF a 7 SET a 8 GET b",
        "APPEND a 9",
        "MULTI",
        "GET a",
        "EXEC",
        "GET a",
    ];
    let words: Vec<Vec<&[u8]>> = lines.iter().map(|line| line.split(' ').map(str::as_bytes).collect()).collect();
    for _ in 0..20 {
        client.send(&words.iter().map(Vec::as_slice).collect::<Vec<_>>()).unwrap();
        let bulk = |text: &str| Reply::Bulk(Some(text.into()));
        let (ok, nil) = (Reply::Simple("OK".into()), Reply::Bulk(None));
        let expected = [
            ok.clone(),
            ok.clone(),
            Reply::Integer(3),
            bulk("2"),
            ok.clone(),
            Reply::Array(vec![nil.clone(), bulk("2"), bulk("3")]),
            Reply::Integer(2),
            nil,
            Reply::Integer(1),
            bulk("7"),
            Reply::Array(vec![Reply::Integer(1), Reply::Array(vec![bulk("7")])]),
            Reply::Integer(2),
            ok,
            Reply::Simple("QUEUED".into()),
            Reply::Array(vec![bulk("89")]),
            bulk("89"),
        ];
        for (line, expected) in lines.iter().zip(expected) {
            assert_eq!(client.read().unwrap(), expected, "{line}");
        }
        assert_eq!(ask(&mut client, "DEL a b"), Reply::Integer(2));
    }
}

#[test]
fn limits() {
    let memory = Memory::start("limits", Duration::ZERO);
    let mut client = memory.client();
    let refused = |reply: Reply, words: &str| match reply {
        Reply::Error(text) => assert!(text.contains(words), "{text}"),
        other => panic!("{other:?}"),
    };
    let keys = |count: usize| (0..count).map(|key| format!("key-{key}")).collect::<Vec<_>>();
    let mset = |count| keys(count).iter().fold("MSET".to_string(), |line, key| line + " " + key + " 1");
    refused(ask(&mut client, &mset(1_025)), "nothing was done: at most 1024 keys");
    assert_eq!(ask(&mut client, &format!("EXISTS {}", keys(1_025).join(" "))), Reply::Integer(0));
    assert_eq!(ask(&mut client, &mset(1_024)), Reply::Simple("OK".into()));
    // What is read is read together, however much it is; and a DEL is done sixteen keys at a time.
    let gets: Vec<String> = keys(1_024).iter().map(|key| format!("GET {key}")).collect();
    let Reply::Array(values) = exec(&mut client, &gets) else { panic!() };
    assert!(values.len() == 1_024 && values.iter().all(|value| integer(value) == 1));
    assert_eq!(ask(&mut client, &format!("DEL {} none", keys(1_024).join(" "))), Reply::Integer(1_024));
    // 131,080 bytes: of three values of 50,000 two can be written together.
    let value = "v".repeat(50_000);
    refused(ask(&mut client, &format!("MSET a {value} b {value} c {value}")), "have at most 131080 bytes");
    refused(
        exec(&mut client, &[format!("SET a {value}"), format!("SET b {value}"), format!("SET c {value}")]),
        "nothing was done: keys and values that are written or compared at once",
    );
    assert_eq!(ask(&mut client, "EXISTS a b c"), Reply::Integer(0));
    assert_eq!(ask(&mut client, &format!("MSET a {value} b {value}")), Reply::Simple("OK".into()));
    assert!(matches!(exec(&mut client, &["APPEND a 1".into()]), Reply::Array(_)));
}

/// What is past its deadline is gone in a transaction too, for all and for good.
#[test]
fn what_expires_is_gone_in_transactions() {
    let memory = Memory::start("expires", Duration::ZERO);
    let mut client = memory.client();
    let is_gone = |client: &mut Client| {
        ask(client, "SET old a PX 30");
        ask(client, "SET other b PX 30");
        assert_eq!(ask(client, "WATCH old"), Reply::Simple("OK".into()));
        // (where the machine is busy it may be over by then)
        let is_there = ask(client, "EXISTS old") == Reply::Integer(1);
        thread::sleep(Duration::from_millis(40));
        let watched = exec(client, &["SET new 1".into()]);
        assert!(!is_there || watched == Reply::Bulk(None));
        let reply = exec(client, &["SET new 2".into(), "GET other".into(), "TTL old".into(), "EXISTS none".into()]);
        let nothing =
            Reply::Array(vec![Reply::Simple("OK".into()), Reply::Bulk(None), Reply::Integer(-2), Reply::Integer(0)]);
        assert_eq!(reply, nothing);
        // (the map has them no more)
        assert!(info(client).contains("keys_kept:1\r\n"));
        is_there
    };
    wait("a value that is watched while it is there", || is_gone(&mut memory.client()));
    ask(&mut client, "SET old a PX 20");
    thread::sleep(Duration::from_millis(30));
    let txn = ask(&mut client, "EPAXOS TXN IFABSENT old SET new 3 GET old");
    assert_eq!(txn, Reply::Array(vec![Reply::Integer(1), Reply::Array(vec![Reply::Bulk(None)])]));
}
