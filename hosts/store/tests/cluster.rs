//! Three stores around the proved program.
mod common;
use common::{Places, Store, wait};
use store::client::command_fault::CommandFault;
use testing::client::Reply;

#[test]
fn after_a_restart_local_reads_see_what_others_have_proposed() {
    let places = Places::new("restart");
    let start = || [0, 1, 2].map(|replica| places.start(replica));
    let value = |number: usize| Reply::Bulk(Some(format!("value-{number}").into_bytes()));
    let stores = start();
    for number in 0..30 {
        // (where a peer is lost for a while it is asked again: the value is the same)
        let line = format!("SET key-{number} value-{number}");
        wait("a majority", || stores[number % 3].ask(&line) == Reply::Simple("OK".into()));
    }
    // Nothing is read before the restart, so that nothing is executed but by who proposed it; but all is committed everywhere.
    stores.iter().for_each(|store| wait("all commits", || store.info("instances_open") == "0"));
    drop(stores);
    let stores = start();
    for (replica, store) in stores.iter().enumerate() {
        for number in 0..30 {
            // (a Commit that was on its way when the stores ended is sent again)
            let key = format!("key-{number}");
            wait(&format!("{key} at replica {replica}"), || store.local(&key) == value(number));
        }
    }
}

/// Sets so many keys at a store, while one of three is down whom its commands don't wait for.
fn set_keys(store: &Store, count: usize) {
    for number in 0..count {
        let line = format!("SET key-{number} value-{number}");
        wait("a majority", || store.ask(&line) == Reply::Simple("OK".into()));
    }
}

/// Waits until local reads see all of these keys.
fn wait_for_keys(store: &Store, count: usize) {
    for number in 0..count {
        let value = Reply::Bulk(Some(format!("value-{number}").into_bytes()));
        wait(&format!("key-{number}"), || store.local(&format!("key-{number}")) == value);
    }
}

/// The third replica comes once the first one has set keys, and `meanwhile` is over: it has them soon.
fn catches_up(name: &str, meanwhile: impl FnOnce(&mut Option<Store>, &Store)) {
    let places = Places::new(name);
    let (mut first, second) = (Some(places.start(0)), places.start(1));
    first.iter().for_each(|first| set_keys(first, 20));
    meanwhile(&mut first, &second);
    let third = places.start(2);
    wait_for_keys(&third, 20);
    wait("the last one", || third.info("instances_open") == "0");
}

#[test]
fn who_was_down_is_sent_what_was_committed_meanwhile() {
    // (no command is proposed once the third one is there, so that nothing but this brings it what it lacks)
    catches_up("down", |_first, _second| {});
}

#[test]
fn what_nobody_can_send_again_is_recovered() {
    // The one who has sent the Commits is gone, and the other one only knows of them.
    catches_up("hearsay", |first, second| {
        wait_for_keys(second, 20);
        *first = None;
    });
}

fn no_majority() -> Reply {
    Reply::Error(CommandFault::NoMajority.to_string())
}

#[test]
fn alone_a_replica_proposes_nothing() {
    let places = Places::new("alone");
    let store = places.start(0);
    for _ in 0..3 {
        assert_eq!(store.ask("SET x 1"), no_majority());
    }
    assert_eq!(store.info("instances_used"), "0");
    assert_eq!(store.local("x"), Reply::Bulk(None));
    // With a majority it is done.
    let others = [1, 2].map(|replica| places.start(replica));
    wait("a majority", || store.ask("SET x 2") == Reply::Simple("OK".into()));
    let used = store.info("instances_used");
    // It is cut off: again nothing is proposed.
    drop(others);
    wait("the loss", || ["peer_1", "peer_2"].iter().all(|peer| store.info(peer) == "lost"));
    assert_eq!(store.ask("SET x 3"), no_majority());
    assert_eq!(store.info("instances_used"), used);
}

/// What only reads sees all that was acknowledged before, at any replica, and leaves nothing in any log.
#[test]
fn reads_write_nothing() {
    let places = Places::new("reads");
    let stores = [0, 1, 2].map(|replica| places.start(replica));
    for number in 0..30 {
        let line = format!("SET key-{number} value-{number}");
        wait("a majority", || stores[number % 3].ask(&line) == Reply::Simple("OK".into()));
        let reader = &stores[(number + 1) % 3];
        assert_eq!(reader.ask(&format!("GET key-{number}")), Reply::Bulk(Some(format!("value-{number}").into())));
    }
    stores.iter().for_each(|store| {
        wait("all commits", || store.info("instances_open") == "0");
        wait_for_keys(store, 30);
    });
    let looked = |replica: usize| {
        let log = std::fs::metadata(places.directory(replica).join("generations/1/log")).unwrap().len();
        (log, ["generation_entries", "instances_used"].map(|name| stores[replica].info(name)))
    };
    let before = [0, 1, 2].map(looked);
    for (replica, store) in stores.iter().enumerate() {
        for number in 0..30 {
            let key = format!("key-{number}");
            assert_eq!(store.ask(&format!("GET {key}")), Reply::Bulk(Some(format!("value-{number}").into())));
            assert_eq!(store.ask(&format!("EXISTS {key} none-{replica}")), Reply::Integer(1));
            assert_eq!(store.ask(&format!("TTL {key}")), Reply::Integer(-1));
            assert_eq!(store.ask(&format!("STRLEN none-{number}")), Reply::Integer(0));
            assert_eq!(store.ask(&format!("TYPE {key}")), Reply::Simple("string".into()));
            assert_eq!(store.ask(&format!("EPAXOS HOLDER none-{number}")), Reply::Bulk(None));
        }
        assert!(store.info("questions_asked").parse::<u32>().unwrap() >= 180);
    }
    assert_eq!([0, 1, 2].map(looked), before);
}
