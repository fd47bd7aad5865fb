//! Links over TCP whose ends share a key.
#![cfg(not(feature = "plants"))]
#![forbid(unsafe_code)]

#[path = "common/calls.rs"]
mod calls;
#[path = "common/ports.rs"]
mod ports;

use calls::{PATIENCE, outcome_of, wait_for};
use epaxos::host::Settings;
use epaxos::service::{CallFault, Key, MemoryDisk, Service, Start, TcpLink};
use epaxos::{Cluster, OwnedCommand};
use ports::Ports;
use std::io::{Read, Write};
use std::net::{TcpListener, TcpStream};
use std::sync::Arc;
use std::sync::atomic::{AtomicUsize, Ordering};
use std::thread;
use std::time::Instant;

const SECRET: &[u8] = b"0123456789abcdef0123456789abcdef";

/// Three addresses that nobody else gets as long as the ports are there.
fn addresses() -> (Ports, Vec<String>) {
    let ports = Ports::take().unwrap();
    let addresses = (0..3).map(|place| ports.address(place)).collect();
    (ports, addresses)
}

fn start(me: u8, addresses: &[String], secret: Option<&[u8]>) -> Service {
    let mut link = TcpLink::new(me, addresses).unwrap();
    secret.into_iter().for_each(|secret| link.seal(Key::of(secret)));
    let settings = Settings { seed: me.into(), ..Settings::new(Cluster::Three, me) };
    Service::start(&settings, Start::New, MemoryDisk::default(), link).unwrap()
}

fn put(service: &Service, key: &str) {
    wait_for(|| service.call(OwnedCommand::Put { key: key.into(), value: b"1".into() }).is_ok());
}

#[test]
fn who_has_another_key_is_not_reached() {
    let (_ports, addresses) = addresses();
    let two = [0, 1].map(|me| start(me, &addresses, Some(SECRET)));
    put(&two[0], "x");
    for secret in [Some(&b"another one, also made by chance"[..]), None] {
        let other = start(2, &addresses, secret);
        // (it is tried again several times meanwhile)
        let refused = other.call(OwnedCommand::Put { key: b"x".into(), value: b"2".into() });
        assert!(matches!(refused, Err(CallFault::Refused(_))), "{refused:?}");
        assert!(other.status().unwrap().reached.is_empty());
        wait_for(|| two.each_ref().map(|it| it.status().unwrap().reached) == [vec![1], vec![0]]);
        other.stop().unwrap();
    }
    let third = start(2, &addresses, Some(SECRET));
    put(&third, "y");
    assert_eq!(outcome_of(|| two[1].read(b"y")), Ok(Some(b"1".into())));
}

/// Passes on what comes, and turns a bit now and then: how often it did.
fn turning(to: String) -> (String, Arc<AtomicUsize>) {
    let listener = TcpListener::bind("127.0.0.1:0").unwrap();
    let (address, count) = (listener.local_addr().unwrap().to_string(), Arc::new(AtomicUsize::new(0)));
    let turned = count.clone();
    let pass = move |mut from: TcpStream, mut to: TcpStream, turns: Option<Arc<AtomicUsize>>| {
        let (mut bytes, mut passed) = ([0; 1 << 12], 0);
        while let Ok(length @ 1..) = from.read(&mut bytes) {
            passed += length;
            if let Some(turned) = turns.as_ref().filter(|_| passed > 2_000) {
                bytes[length / 2] ^= 4;
                turned.fetch_add(1, Ordering::Relaxed);
                passed = 0;
            }
            if to.write_all(&bytes[..length]).is_err() {
                break;
            }
        }
        let _ = to.shutdown(std::net::Shutdown::Both);
    };
    thread::spawn(move || {
        for near in listener.incoming().flatten() {
            let Ok(far) = TcpStream::connect(&to) else { continue };
            let (back, forth) = (far.try_clone().unwrap(), near.try_clone().unwrap());
            let turned = turned.clone();
            thread::spawn(move || pass(near, far, Some(turned)));
            thread::spawn(move || pass(back, forth, None));
        }
    });
    (address, count)
}

#[test]
fn what_is_turned_on_the_way_is_not_taken() {
    let (_ports, addresses) = addresses();
    let (between, turned) = turning(addresses[1].clone());
    let by_it = [addresses[0].clone(), between, addresses[2].clone()];
    let three = [start(0, &by_it, Some(SECRET)), start(1, &addresses, Some(SECRET)), start(2, &by_it, Some(SECRET))];
    let begun = Instant::now();
    for number in 0.. {
        put(&three[number % 3], &format!("key {number}"));
        if turned.load(Ordering::Relaxed) >= 5 {
            break;
        }
        assert!(begun.elapsed() < PATIENCE, "nothing is turned");
    }
    // Each time the connection has ended, and what was turned never came to a host.
    assert_eq!(three[1].status().unwrap().refused, 0);
}
