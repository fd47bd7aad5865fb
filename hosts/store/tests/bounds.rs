//! Who is let in by a password, and what clients can't take up.
mod common;
use common::memory::Memory;
use common::{ask, field, info, wait};
use std::collections::VecDeque;
use std::io::{Read, Write};
use std::net::TcpStream;
use std::sync::Arc;
use std::sync::atomic::{AtomicBool, Ordering};
use std::time::{Duration, Instant};
use store::client::command_fault::CommandFault;
use store::client::connections::Connections;
use store::client::memory;
use store::client::password::Password;
use testing::client::{Client, Reply};

fn refused(fault: CommandFault) -> Reply {
    Reply::Error(fault.to_string())
}

fn ok() -> Reply {
    Reply::Simple("OK".into())
}

#[test]
fn nothing_is_done_before_the_password() {
    let memory =
        Memory::start_with("auth", Duration::ZERO, |it| it.password = Some(Password::of(b"a-long-secret-word")));
    let mut client = memory.client();
    for line in
        ["GET x", "SET x 1", "PING", "INFO", "KEYS *", "CLIENT ID", "MULTI", "EPAXOS SEAL", "NOTHING", "HELLO 3"]
    {
        assert_eq!(ask(&mut client, line), refused(CommandFault::NotKnown), "{line}");
    }
    for line in ["AUTH wrong", "AUTH other a-long-secret-word", "HELLO 3 AUTH default wrong"] {
        assert_eq!(ask(&mut client, line), refused(CommandFault::WrongPassword), "{line}");
    }
    assert_eq!(ask(&mut client, "GET x"), refused(CommandFault::NotKnown));
    assert_eq!(ask(&mut client, "AUTH a-long-secret-word"), ok());
    assert_eq!(ask(&mut client, "SET x 1"), ok());
    assert_eq!(ask(&mut client, "AUTH default a-long-secret-word"), ok());
    assert_eq!(ask(&mut client, "RESET"), Reply::Simple("RESET".into()));
    assert_eq!(ask(&mut client, "GET x"), refused(CommandFault::NotKnown));
    let mut client = memory.client();
    assert!(matches!(ask(&mut client, "HELLO 3 AUTH default a-long-secret-word"), Reply::Map(_)));
    assert_eq!(ask(&mut client, "GET x"), Reply::Bulk(Some(b"1".to_vec())));
    // What is too long isn't waited for.
    let mut stranger = TcpStream::connect(("127.0.0.1", memory.port)).unwrap();
    stranger.write_all(b"*2\r\n$4\r\nAUTH\r\n$200000\r\n").unwrap();
    let _ = stranger.write_all(&[b'a'; 100_000]);
    let mut received = String::new();
    let _ = stranger.read_to_string(&mut received);
    assert!(received.is_empty() || received == format!("-{}\r\n", CommandFault::NoMemory), "{received}");
}

#[test]
fn unfinished_commands_take_what_they_are() {
    let most = 4 << 20;
    let memory = Memory::start_with("unfinished", Duration::ZERO, |it| it.memory = memory::Memory::new(most));
    let mut begun = Vec::new();
    for _ in 0..40 {
        let mut stream = TcpStream::connect(("127.0.0.1", memory.port)).unwrap();
        stream.set_read_timeout(Some(Duration::from_secs(60))).unwrap();
        stream.write_all(b"*3\r\n$3\r\nSET\r\n$1\r\nx\r\n$200000\r\n").unwrap();
        let _ = stream.write_all(&[b'a'; 190_000]);
        begun.push(stream);
    }
    // Some were refused, and closed: there are 190,000 bytes for 22 of 40.
    let is_closed = |stream: &TcpStream| {
        stream.set_nonblocking(true).unwrap();
        let result = (&*stream).read(&mut [0; 100]);
        result.is_ok() || result.is_err_and(|error| error.kind() != std::io::ErrorKind::WouldBlock)
    };
    wait("the bound", || begun.iter().filter(|stream| is_closed(stream)).count() >= 15);
    // They make room again.
    drop(begun);
    wait("room", || {
        Client::connect(memory.port, Duration::from_secs(60))
            .unwrap()
            .ask(&[b"SET", b"x", b"1"])
            .is_ok_and(|it| it == ok())
    });
}

#[test]
fn replies_that_nobody_takes_are_bounded() {
    let memory = Memory::start_with("untaken", Duration::ZERO, |it| it.memory = memory::Memory::new(8 << 20));
    let mut client = memory.client();
    assert_eq!(client.ask(&[b"SET", b"x", &[b'v'; 60_000]]).unwrap(), ok());
    let mut greedy = TcpStream::connect(("127.0.0.1", memory.port)).unwrap();
    greedy.set_write_timeout(Some(Duration::from_millis(200))).unwrap();
    let gets = b"GET x\r\n".repeat(3_000);
    let _ = greedy.write_all(&gets);
    // Others get this error while it lasts, and go on once it is gone.
    drop(greedy);
    let is_answered = || memory.client().ask(&[b"GET", b"x"]).is_ok_and(|reply| matches!(reply, Reply::Bulk(Some(_))));
    wait("room", is_answered);
}

/// So many clients that ask for much and never read, and so many others.
const SLOW: [usize; 2] = [8, 64];
const GOOD: usize = 32;

#[test]
fn who_takes_no_replies_shuts_nobody_out() {
    for slow in SLOW {
        let most = 64 << 20;
        let memory = Memory::start_with("slow-readers", Duration::ZERO, |it| it.memory = memory::Memory::new(most));
        let mut client = memory.client();
        assert_eq!(client.ask(&[b"SET", b"x", &[b'v'; 60_000]]).unwrap(), ok());
        let begin = |_| {
            let mut slow = TcpStream::connect(("127.0.0.1", memory.port)).unwrap();
            slow.write_all(&b"GET x\r\n".repeat(1_000)).unwrap();
            slow
        };
        let slow: Vec<TcpStream> = (0..slow).map(begin).collect();
        let number = |name| field(&info(&mut memory.client()), name).parse::<usize>().unwrap();
        let closed = || number("client_output_buffer_limit_disconnections");
        let mut good: Vec<Client> = (0..GOOD).map(|_| memory.client()).collect();
        for round in 0..20 {
            for (place, client) in good.iter_mut().enumerate() {
                assert_eq!(ask(client, &format!("SET good-{place} {round}")), ok());
                let value = Reply::Bulk(Some(round.to_string().into_bytes()));
                assert_eq!(ask(client, &format!("GET good-{place}")), value);
                assert_eq!(ask(client, "PING"), Reply::Simple("PONG".into()));
            }
            assert!(number("clients_memory") <= most);
        }
        // Each has asked for as much as nearly all of the memory, and is closed once it has its part.
        wait("the slow ones' end", || closed() == slow.len());
        assert!(number("clients_memory") < most / 16);
        // Who reads gets all of as much.
        let long = Reply::Bulk(Some(vec![b'v'; 60_000]));
        assert_eq!(client.send(&vec![&[&b"GET"[..], b"x"][..]; 1_000]).ok(), Some(()));
        (0..1_000).for_each(|_| assert_eq!(client.read().unwrap(), long));
        assert_eq!(closed(), slow.len());
    }
}

/// By count and not by time: how many turns of the core's thread a command waits beside four pipelines of a thousand.
#[test]
fn one_command_waits_for_few_turns() {
    let memory = Memory::begin("turns", (Duration::from_millis(200), 16), |_| ());
    let keys: Vec<String> = (0..1_000).map(|key| format!("key-{key}")).collect();
    let mut others = [0, 1, 2, 3].map(|_| memory.client());
    for (place, client) in others.iter_mut().enumerate() {
        let words: Vec<Vec<u8>> = keys.iter().map(|key| format!("{place}-{key}").into_bytes()).collect();
        let words: Vec<[&[u8]; 3]> = words.iter().map(|key| [&b"SET"[..], key, b"1"]).collect();
        client.send(&words.iter().map(|line| &line[..]).collect::<Vec<_>>()).unwrap();
    }
    wait("the others", || memory.turns() > 2);
    let mut client = memory.client();
    let before = memory.turns();
    assert_eq!(ask(&mut client, "SET x 1"), ok());
    let waited = memory.turns() - before;
    // (all that waits takes 250; and a thread may have to wait for a processor)
    assert!(waited < 50, "{waited} turns");
}

#[test]
fn places_are_kept_for_who_asks_how_it_is() {
    let connections = Arc::new(Connections::new(3, Duration::from_secs(3_600)));
    let memory = Memory::start_with("connections", Duration::ZERO, |it| it.connections = connections);
    let mut clients: Vec<_> = (0..3).map(|_| memory.client()).collect();
    clients.iter_mut().for_each(|client| assert_eq!(ask(client, "SET x 1"), ok()));
    let mut more = memory.client();
    assert_eq!(ask(&mut more, "PING"), Reply::Simple("PONG".into()));
    assert!(matches!(ask(&mut more, "INFO"), Reply::Bulk(Some(_))));
    assert_eq!(ask(&mut more, "GET x"), refused(CommandFault::Full));
    let kept = || {
        let mut client = memory.client();
        assert_eq!(ask(&mut client, "PING"), Reply::Simple("PONG".into()));
        client
    };
    let kept: Vec<_> = (0..15).map(|_| kept()).collect();
    let reply = memory.client().read();
    assert!(reply.is_err() || reply.unwrap() == refused(CommandFault::NoPlace));
    // One leaves, and another one is taken in its place.
    clients.pop();
    drop(kept);
    drop(more);
    wait("a place", || {
        memory.client().ask(&[b"GET", b"x"]).is_ok_and(|reply| reply == Reply::Bulk(Some(b"1".to_vec())))
    });
}

#[test]
fn connections_that_say_nothing_keep_nobody_from_asking_how_it_is() {
    let connections = Arc::new(Connections::new(100, Duration::from_secs(3_600)));
    let memory = Memory::start_with("silent", Duration::ZERO, |it| it.connections = connections);
    // All places are taken by connections that say nothing, and more come all the time.
    let port = memory.port;
    let connect = move || TcpStream::connect(("127.0.0.1", port)).unwrap();
    let silent: Vec<_> = (0..200).map(|_| connect()).collect();
    let is_over = Arc::new(AtomicBool::new(false));
    let flood = {
        let is_over = is_over.clone();
        std::thread::spawn(move || {
            let mut more = VecDeque::new();
            while !is_over.load(Ordering::Relaxed) {
                more.push_back(connect());
                if more.len() > 200 {
                    more.pop_front();
                }
                std::thread::sleep(Duration::from_millis(20));
            }
        })
    };
    let is_soon = || {
        let start = Instant::now();
        let mut client = memory.client();
        assert_eq!(ask(&mut client, "PING"), Reply::Simple("PONG".into()));
        assert!(matches!(ask(&mut client, "INFO"), Reply::Bulk(Some(_))));
        start.elapsed() < Duration::from_secs(4)
    };
    // (who waits to be turned away waits 5 s; where the machine is busy it is tried again)
    wait("20 answers, each in 4 s", || (0..20).all(|_| is_soon()));
    is_over.store(true, Ordering::Relaxed);
    flood.join().unwrap();
    drop(silent);
}

#[test]
fn how_it_is_where_the_core_is_slow_or_alone() {
    let mut metrics = None;
    // (the core takes an hour: who is answered doesn't wait for it)
    let memory = Memory::start_with("slow", Duration::from_secs(3_600), |it| metrics = Some(it.metrics.clone()));
    let metrics = metrics.unwrap();
    let mut slow = memory.client();
    slow.send(&[&[b"SET", b"x", b"1"]]).unwrap();
    std::thread::sleep(Duration::from_millis(100));
    let mut client = memory.client();
    assert_eq!(ask(&mut client, "PING"), Reply::Simple("PONG".into()));
    let Reply::Bulk(Some(text)) = ask(&mut client, "INFO") else { panic!() };
    assert!(text.starts_with(b"core_is_slow:1\r\n"), "{}", String::from_utf8_lossy(&text));
    metrics.takes_part.set(0);
    assert_eq!(ask(&mut client, "PING"), refused(CommandFault::Apart));
}
