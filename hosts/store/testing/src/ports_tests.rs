//! Ports for clusters on this machine.
use crate::ports::Ports;
use std::process::Command;
use std::sync::atomic::{AtomicBool, Ordering};
use std::thread;
use std::time::{Duration, Instant};

#[test]
fn no_two_have_a_port() {
    let first = Ports::take().unwrap();
    let listener = first.listen(62).unwrap();
    let second = Ports::take().unwrap();
    assert!(first.port(0).abs_diff(second.port(0)) > 63 && second.listen(0).is_ok());
    assert_eq!(listener.local_addr().unwrap().port(), first.port(0) + 62);
}

/// Of a run that was taken each port can be listened at at once, however many processes other threads begin meanwhile.
#[test]
fn what_is_taken_is_free() {
    let is_over = AtomicBool::new(false);
    thread::scope(|scope| {
        for _ in 0..4 {
            scope.spawn(|| {
                while !is_over.load(Ordering::Relaxed) {
                    let _ = Command::new("true").status();
                }
            });
        }
        let takers = (0..4).map(|_| {
            scope.spawn(|| {
                let start = Instant::now();
                let is_well = || Ports::take().is_ok_and(|ports| (0..63).all(|place| ports.listen(place).is_ok()));
                while start.elapsed() < Duration::from_secs(1) && is_well() {}
                start.elapsed()
            })
        });
        let takers: Vec<_> = takers.collect();
        let all: Vec<_> = takers.into_iter().map(|taker| taker.join().unwrap()).collect();
        is_over.store(true, Ordering::Relaxed);
        assert!(all.iter().all(|took| *took >= Duration::from_secs(1)), "{all:?}");
    });
}
