//! Commands of operators: the admin socket, and that no command leaves a cluster without a majority.
mod common;
use common::{Places, SERVES, Store, ask, wait};
use std::fs;
use std::os::unix::fs::PermissionsExt;
use std::process::Command;
use testing::client::{Client, Reply};

const MADE_UP: &str = "00112233445566778899aabbccddeeff";

/// The text of a reply that is no error.
fn text(reply: Reply) -> String {
    match reply {
        Reply::Bulk(Some(text)) => String::from_utf8(text).unwrap(),
        reply => panic!("{reply:?}"),
    }
}

/// Whether the reply is an error that has all of these.
fn is_refused(reply: &Reply, parts: &[&str]) {
    let Reply::Error(text) = reply else { panic!("{reply:?}") };
    assert!(parts.iter().all(|part| text.contains(part)), "{text}");
}

fn set(stores: &[&Store], numbers: std::ops::Range<usize>) {
    for number in numbers {
        let line = format!("SET key-{number} value-{number}");
        wait("a majority", || stores[number % stores.len()].ask(&line) == Reply::Simple("OK".into()));
    }
}

fn has_all(store: &Store, numbers: std::ops::Range<usize>) {
    for number in numbers {
        let value = Reply::Bulk(Some(format!("value-{number}").into_bytes()));
        wait("a local read", || store.local(&format!("key-{number}")) == value);
    }
}

fn wait_for_peers(store: &Store, peers: &[usize]) {
    wait("its peers", || peers.iter().all(|peer| store.info(&format!("peer_{peer}")) == "reached"));
}

/// Starts a machine beside the others that is to be this replica, at the places of another one: it, its identity and its address.
fn join(places: &Places, replica: usize, at: usize) -> (Store, String, String) {
    let peers: Vec<_> = (0..5).map(|it| places.peer(if it == replica { at } else { it })).collect();
    let peers = if replica < 3 { &peers[..3] } else { &peers };
    let mut command = Command::new(env!("CARGO_BIN_EXE_store"));
    command.args(["--replica", &replica.to_string(), "--peers", &peers.join(","), "--join"]);
    command.args(["--listen", &places.port(at).to_string()]).arg("--dir").arg(places.directory(at));
    let store = places.launch(&mut command, at);
    let wish = format!("EPAXOS REPLACE {replica} ");
    store.await_logged(&wish);
    let identity = store.logged().split_once(&wish).unwrap().1[..32].to_string();
    (store, identity, places.peer(at))
}

#[test]
fn the_clients_port_takes_none() {
    let places = Places::new("operators");
    let store = places.start(0);
    let socket = places.directory(0).join("admin.sock");
    assert_eq!(fs::metadata(&socket).unwrap().permissions().mode() & 0o777, 0o600);
    let mut client = store.client();
    for line in [
        "EPAXOS SEAL",
        "EPAXOS RESIZE 3",
        &format!("EPAXOS REPLACE 1 {MADE_UP}"),
        &format!("EPAXOS REPLACE 1 {MADE_UP} a:1 FORCE"),
        &format!("EPAXOS RESIZE 5 3 {MADE_UP} a:1 4 {MADE_UP} a:2"),
    ] {
        is_refused(&ask(&mut client, line), &["NOPERM ", socket.to_str().unwrap()]);
    }
    let mut operator = Client::connect_at(&socket, std::time::Duration::from_secs(60)).unwrap();
    assert!(matches!(ask(&mut operator, "HELLO 3"), Reply::Map(_)));
    assert_eq!(ask(&mut operator, "PING"), Reply::Simple("PONG".into()));
    for line in ["GET x", "SET x 1", "KEYS *", "EPAXOS LOCK x a 1000", "MULTI"] {
        is_refused(&ask(&mut operator, line), &["ERR the admin socket takes "]);
    }
    is_refused(&ask(&mut operator, "EPAXOS REPLACE 1 x"), &["32 hexadecimal digits"]);
    is_refused(&ask(&mut operator, &format!("EPAXOS REPLACE 1 {MADE_UP} a:1\n3")), &["syntax"]);
    // A second start in the same place, after a kill, takes the place of the socket that was left.
    drop(store);
    assert!(socket.exists());
    let _store = places.launch(&mut places.command(0), 0);
    wait("its socket", || Client::connect_at(&socket, std::time::Duration::from_secs(60)).is_ok());
}

#[test]
fn by_tcp_a_password_comes_first() {
    let places = Places::new("by-tcp");
    let secret = places.folder.join("secret");
    fs::write(&secret, "a-long-secret-of-operators\n").unwrap();
    fs::set_permissions(&secret, fs::Permissions::from_mode(0o600)).unwrap();
    let port = places.port(4);
    for place in [format!("0.0.0.0:{port}"), port.to_string()] {
        let mut refused = places.launch(places.command(0).args(["--admin", &place]), 0);
        assert_eq!(refused.status(), Some(2));
        assert!(refused.logged().contains("needs a password: add --admin-auth FILE"), "{}", refused.logged());
    }
    let words = ["--admin", &format!("0.0.0.0:{port}"), "--admin-auth", secret.to_str().unwrap()];
    let store = places.start_with(0, &words);
    is_refused(&store.ask("EPAXOS SEAL"), &["NOPERM ", &format!("0.0.0.0:{port}")]);
    let mut operator = Client::connect(port, std::time::Duration::from_secs(60)).unwrap();
    for line in ["EPAXOS SEAL", "EPAXOS MEMBERS", "INFO", "PING", "HELLO 3"] {
        is_refused(&ask(&mut operator, line), &["NOAUTH"]);
    }
    is_refused(&ask(&mut operator, "AUTH wrong"), &["WRONGPASS"]);
    is_refused(&ask(&mut operator, "EPAXOS SEAL"), &["NOAUTH"]);
    assert_eq!(ask(&mut operator, "AUTH a-long-secret-of-operators"), Reply::Simple("OK".into()));
    assert_eq!(ask(&mut operator, "PING"), Reply::Simple("PONG".into()));
}

#[test]
fn made_up_machines_end_no_cluster() {
    let places = Places::new("made-up");
    let stores = [0, 1, 2].map(|replica| places.start(replica));
    let [zero, one, two] = &stores;
    set(&[zero, one, two], 0..10);
    // Looks change nothing, and are for all.
    for members in [zero.ask("EPAXOS MEMBERS"), zero.operate("EPAXOS MEMBERS")] {
        assert!(text(members).starts_with("generation 1\n0 "));
    }
    let grown = (3..7).map(|number| format!(" {number} {MADE_UP} A")).collect::<String>();
    is_refused(&zero.operate(&format!("EPAXOS RESIZE 7{grown}")), &["waits to join as replica 3", "--join"]);
    wait_for_peers(zero, &[1, 2]);
    for replica in [1, 2] {
        let line = format!("EPAXOS REPLACE {replica} {MADE_UP}");
        is_refused(&zero.operate(&line), &[&format!("replica {replica} is reachable"), "FORCE"]);
        is_refused(&zero.operate(&format!("{line} FORCE")), &[&format!("waits to join as replica {replica}")]);
    }
    // All go on, in the generation in which they were.
    set(&[zero, one, two], 10..20);
    assert!(stores.iter().all(|store| store.info("generation") == "1"));
    // Alone it seals nothing.
    let [mut zero, one, two] = stores;
    drop((one, two));
    wait("their loss", || ["peer_1", "peer_2"].iter().all(|peer| zero.info(peer) == "lost"));
    is_refused(&zero.operate("EPAXOS SEAL"), &["no majority: 1 of 3 replicas can be reached"]);
    let socket = places.directory(0).join("admin.sock");
    assert!(socket.exists());
    assert_eq!(zero.end("TERM"), Some(0));
    assert!(!socket.exists());
}

#[test]
fn a_machine_is_let_in_that_waits_at_its_address() {
    let places = Places::new("let-in");
    let stores = [0, 1, 2].map(|replica| places.start(replica));
    let [zero, one, two] = stores;
    set(&[&zero, &one, &two], 0..10);
    wait_for_peers(&zero, &[1, 2]);
    let (new, identity, address) = join(&places, 2, 4);
    wait("its greeting", || text(zero.ask("EPAXOS MEMBERS")).contains(&format!("2 {identity} waits to be let in")));
    new.await_logged("hasn't let this machine in yet");
    assert!(!new.logged().contains("must not come back"), "{}", new.logged());
    let line = format!("EPAXOS REPLACE 2 {identity}");
    is_refused(&zero.operate(&format!("{line} {address}")), &["replica 2 is reachable", "FORCE"]);
    // Its address is looked at too.
    is_refused(&zero.operate(&format!("{line} 127.0.0.1:1 FORCE")), &["the peer at 127.0.0.1:1 isn't reached"]);
    let of_two = places.peer(2);
    is_refused(&zero.operate(&format!("{line} {of_two} FORCE")), &[&format!("the machine at {of_two} has identity ")]);
    assert_eq!(zero.info("generation"), "1");
    assert!(text(zero.operate(&format!("{line} {address} FORCE"))).starts_with("generation "));
    // The old one is thrown out, and the new one takes its place.
    two.await_logged("this one must not come back");
    new.await_logged(SERVES);
    has_all(&new, 0..10);
    set(&[&zero, &one, &new], 10..20);
    // Asked again it is so.
    let now = format!("generation {}", zero.info("generation"));
    assert_eq!(text(zero.operate(&format!("{line} {address}"))), now);
}
