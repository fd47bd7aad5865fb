//! How a store ends, or can't start: what it logs, and its status.
mod common;
use common::{Places, ask, info, wait};
use std::cell::RefCell;
use std::fs::{self, OpenOptions};
use std::io::Write;
use std::net::TcpListener;
use std::os::unix::net::UnixDatagram;
use std::panic::{AssertUnwindSafe, catch_unwind};
use std::path::PathBuf;
use std::process::{Command, Output};
use std::thread;
use std::time::{Duration, Instant};
use store::client::command_fault::CommandFault;
use testing::client::Reply;

/// The log of replica 0, which has begun, and ended.
fn log_of_one_that_ended(places: &Places) -> PathBuf {
    drop(places.start(0));
    places.directory(0).join("generations/1/log")
}

/// Runs replica 0 until it ends by itself.
fn run(places: &Places) -> (Option<i32>, String) {
    let Output { status, stderr, .. } = places.command(0).output().unwrap();
    (status.code(), String::from_utf8(stderr).unwrap())
}

#[test]
fn a_lost_log_is_reported_in_lines_with_times_and_levels() {
    let places = Places::new("lost");
    let mut store = places.start(0);
    assert_eq!(store.end("TERM"), Some(0));
    let begun = store.logged();
    fs::remove_file(places.directory(0).join("generations/1/log")).unwrap();
    let (status, logged) = run(&places);
    assert!(status == Some(3) && logged.contains("was lost. This replica must not come back"), "{logged}");
    let shape = |line: &str| line.chars().map(|it| if it.is_ascii_digit() { '0' } else { it }).collect::<String>();
    let has_time = |line: &str| shape(line).starts_with("0000-00-00T00:00:00.000Z ");
    assert!(begun.lines().chain(logged.lines()).all(has_time), "{begun}{logged}");
    assert!(
        begun.contains("Z INFO store 0: replica 0 of 3") && logged.contains("Z ERROR store 0: "),
        "{begun}{logged}"
    );
}

/// Of the tests themselves: they wait for a port that somebody has for a moment, and not for a store that has ended.
#[test]
fn a_start_is_waited_for_while_there_is_hope() {
    let places = Places::new("hope");
    let taken = TcpListener::bind(places.peer(0)).unwrap();
    thread::scope(|scope| {
        let started = scope.spawn(|| places.start(0));
        thread::sleep(Duration::from_millis(500));
        assert!(!started.is_finished());
        drop(taken);
        started.join().unwrap();
    });
    let start = Instant::now();
    let started = catch_unwind(AssertUnwindSafe(|| places.start_with(1, &["--patience", "0"])));
    assert!(started.is_err() && start.elapsed() < Duration::from_secs(100));
}

#[test]
fn what_the_core_reports_at_its_start_is_handed_on_once() {
    let places = Places::new("tells");
    let log = log_of_one_that_ended(&places);
    OpenOptions::new().append(true).open(log).unwrap().write_all(b"torn").unwrap();
    let logged = places.start(0).logged();
    assert!(logged.contains("store 0: the core tells: log cut: 4 bytes behind its last record"), "{logged}");
    assert_eq!(logged.matches("log cut").count(), 1, "{logged}");
}

#[test]
fn a_log_that_is_refused_is_reported() {
    let places = Places::new("refuses");
    let log = log_of_one_that_ended(&places);
    let mut bytes = fs::read(&log).unwrap();
    bytes[20] ^= 1;
    fs::write(&log, bytes).unwrap();
    let (status, logged) = run(&places);
    assert!(
        status == Some(3) && logged.contains(" ERROR store 0: the log of another replica, cluster or generation\n"),
        "{logged}"
    );
}

/// Where jemalloc was there as the store was built: it says so of itself, as it does where it was asked to.
#[test]
fn memory_is_of_jemalloc() {
    let mut command = Command::new(env!("CARGO_BIN_EXE_store"));
    let Output { stderr, .. } = command.arg("--version").env("MALLOC_CONF", "stats_print:true").output().unwrap();
    let told = String::from_utf8_lossy(&stderr);
    assert_eq!(told.contains("jemalloc statistics"), option_env!("JEMALLOC").is_some(), "{told}");
}

#[test]
fn it_prints_its_version() {
    let Output { status, stdout, .. } = Command::new(env!("CARGO_BIN_EXE_store")).arg("--version").output().unwrap();
    assert!(status.success());
    assert_eq!(stdout, concat!("store ", env!("CARGO_PKG_VERSION"), "\n").as_bytes());
}

#[test]
fn systemd_is_notified_when_it_serves_and_when_it_ends() {
    let places = Places::new("notify");
    let path = places.folder.join("notify");
    let socket = UnixDatagram::bind(&path).unwrap();
    socket.set_read_timeout(Some(Duration::from_secs(300))).unwrap();
    let mut store = places.launch(places.command_of(0, 3).env("NOTIFY_SOCKET", &path), 0);
    let notified = || {
        let mut bytes = [0; 256];
        let length = socket.recv(&mut bytes).unwrap();
        String::from_utf8(bytes[..length].to_vec()).unwrap()
    };
    assert_eq!(notified(), "READY=1\nSTATUS=replica 0 of 3 serves");
    assert_eq!(store.end("TERM"), Some(0));
    assert_eq!(notified(), "STOPPING=1");
}

#[test]
fn who_asked_what_was_not_proposed_at_the_end_learns_so() {
    let places = Places::new("ending");
    let [mut zero, one, two] = [0, 1, 2].map(|replica| places.start(replica));
    wait("a majority", || zero.ask("SET x 0") == Reply::Simple("OK".into()));
    let mut clients: Vec<_> = (0..50).map(|_| zero.client()).collect();
    clients.iter_mut().for_each(|client| assert_eq!(ask(client, "PING"), Reply::Simple("PONG".into())));
    let set = |number: usize| format!("SET x {number}");
    let send = |client: &mut testing::client::Client, number: usize| {
        let line = set(number);
        client.send(&[&line.split(' ').map(str::as_bytes).collect::<Vec<_>>()]).unwrap();
    };
    // (one more client looks: commands that have come take memory)
    let looking = RefCell::new(zero.client());
    let figure = |name: &str| -> usize {
        let text = info(&mut looking.borrow_mut());
        text.lines().find_map(|line| line.strip_prefix(name)?.strip_prefix(':')).unwrap().parse().unwrap()
    };
    wait("its clients", || figure("connected_clients") == clients.len() + 1);
    let signal = |name: &str| [&one, &two].iter().for_each(|store| store.signal(name));
    // (what an earlier look took may not be given back yet)
    let memory_taken = || (0..3).map(|_| figure("clients_memory")).min().unwrap();
    // Nobody answers any more: the first command is proposed, and the others wait for it.
    loop {
        wait("what was asked before", || figure("clients_memory") == 0);
        let (proposals, refused) = (figure("proposals"), figure("commands_refused"));
        let is_refused = || figure("commands_refused") > refused;
        signal("STOP");
        send(&mut clients[0], 0);
        wait("the first command", || figure("proposals") > proposals || is_refused());
        let mut sent = 1;
        if !is_refused() {
            let of_each = memory_taken();
            clients.iter_mut().enumerate().skip(1).for_each(|(number, client)| send(client, number));
            sent = clients.len();
            wait("those behind it", || memory_taken() >= sent * of_each || is_refused());
        }
        if !is_refused() {
            break;
        }
        // (the machine stood still, so that the others were taken for lost)
        signal("CONT");
        let may_come = [Reply::Simple("OK".into()), Reply::Error(CommandFault::NoMajority.to_string())];
        let came: Vec<_> = clients[..sent].iter_mut().map(|client| client.read().unwrap()).collect();
        assert!(came.iter().all(|reply| may_come.contains(reply)), "{came:?}");
        wait("the others", || figure("takes_part") == 1);
    }
    assert_eq!(zero.end("TERM"), Some(0));
    let replies: Vec<_> = clients.iter_mut().map(|client| client.read().unwrap()).collect();
    assert_eq!(replies[0], Reply::Error(CommandFault::StoreEnds.to_string()));
    let not_done = Reply::Error(CommandFault::Ending.to_string());
    assert!(replies[1..].iter().all(|reply| *reply == not_done), "{replies:?}");
}

/// A stop and a continuation interrupt the reads that wait with a timeout.
#[test]
fn who_was_stopped_and_goes_on_keeps_its_clients() {
    let places = Places::new("stopped");
    let zero = places.start(0);
    let (mut client, mut operator) = (zero.client(), zero.operator());
    for _ in 0..2 {
        assert_eq!(ask(&mut client, "ECHO x"), Reply::Bulk(Some(b"x".to_vec())));
        assert!(matches!(ask(&mut operator, "EPAXOS MEMBERS"), Reply::Bulk(_)));
        ["STOP", "CONT"].into_iter().for_each(|signal| zero.signal(signal));
        thread::sleep(Duration::from_millis(100));
    }
}
