//! Services whose machines have identities: they are let in, replaced and left out.
#![cfg(not(feature = "plants"))]
#![forbid(unsafe_code)]

#[path = "common/calls.rs"]
mod calls;
#[path = "common/ports.rs"]
mod ports;

use calls::{outcome_of, wait_for};
use epaxos::host::{HostFault, Identity, Refusal, Settings, Wish, WishFault};
use epaxos::service::{CallFault, Folder, LocalNetwork, MemoryDisk, Service, Start, TcpLink};
use epaxos::{Cluster, OwnedCommand};
use ports::Ports;
use std::fs;
use std::path::{Path, PathBuf};

fn put(service: &Service, key: &str) {
    wait_for(|| service.call(OwnedCommand::Put { key: key.into(), value: b"1".into() }).is_ok());
}

fn has(service: &Service, key: &str) -> bool {
    outcome_of(|| service.read(key.as_bytes())).unwrap().is_some()
}

fn identities(service: &Service) -> Vec<Option<Identity>> {
    service.members().unwrap().into_iter().map(|member| member.identity).collect()
}

/// Asks until it is granted: who waits may not have said so yet.
fn wish(service: &Service, wish: &Wish) -> u32 {
    outcome_of(|| service.wish(wish.clone())).unwrap()
}

#[test]
fn three_grow_to_five_and_shrink() {
    let network = LocalNetwork::new(Cluster::Five);
    let start = |cluster, me: u8, start| {
        let settings = Settings { seed: me.into(), identity: Some([me; 16]), ..Settings::new(cluster, me) };
        Service::start(&settings, start, MemoryDisk::default(), network.link(me)).unwrap()
    };
    let mut all: Vec<Service> = (0..3).map(|me| start(Cluster::Three, me, Start::New)).collect();
    put(&all[0], "x");
    let five = Wish::Resize { size: 5, new: vec![(3, [3; 16], None), (4, [4; 16], None)] };
    // Those who are to come aren't there.
    let refused = all[0].wish(five.clone());
    assert_eq!(refused, Err(CallFault::Refused(Refusal::Wish(WishFault::NotWaiting(3, [3; 16])))));
    all.extend((3..5).map(|me| start(Cluster::Five, me, Start::Join)));
    assert_eq!(all[3].wish(five.clone()), Err(CallFault::Refused(Refusal::Joining)));
    wait_for(|| all[0].waiting_machines() == Ok(vec![(3, [3; 16]), (4, [4; 16])]));
    let grown = wish(&all[0], &five);
    assert_eq!(identities(&all[0]), [0, 1, 2, 3, 4].map(|it| Some([it; 16])));
    assert!(has(&all[4], "x"));
    wait_for(|| all[0].waiting_machines().unwrap().is_empty());
    // It is so, and isn't asked for again.
    assert!(wish(&all[1], &five) >= grown);
    // Two of five may be down.
    let down: Vec<Service> = all.drain(1..3).collect();
    drop(down);
    put(&all[2], "y");
    assert!(has(&all[0], "y"));
    assert!(matches!(
        all[0].wish(Wish::Resize { size: 3, new: Vec::new() }),
        Err(CallFault::Refused(Refusal::Wish(WishFault::NoMajority { reached: 1, replicas: 3 })))
    ));
}

#[test]
fn who_is_left_out_ends() {
    let network = LocalNetwork::new(Cluster::Five);
    let start = |me: u8| {
        let settings = Settings { seed: me.into(), identity: Some([me; 16]), ..Settings::new(Cluster::Five, me) };
        Service::start(&settings, Start::New, MemoryDisk::default(), network.link(me)).unwrap()
    };
    let mut all: Vec<Service> = (0..5).map(start).collect();
    put(&all[4], "x");
    // (a seal names whom it has met)
    wait_for(|| identities(&all[1]).iter().all(Option::is_some));
    let three = wish(&all[1], &Wish::Resize { size: 3, new: Vec::new() });
    assert_eq!(identities(&all[1]), [0, 1, 2].map(|it| Some([it; 16])));
    for left in all.drain(3..) {
        wait_for(|| left.status().is_err());
        assert!(matches!(left.stop(), Err(HostFault::Left(generation)) if generation <= three));
    }
    put(&all[2], "y");
    assert!(has(&all[0], "x") && has(&all[0], "y"));
}

/// A machine at an address, with its folder.
struct Machine {
    folder: PathBuf,
    address: String,
}

impl Machine {
    fn all(top: &Path, ports: &Ports) -> [Machine; 4] {
        let of = |place: usize| Machine { folder: top.join(place.to_string()), address: ports.address(place) };
        [0, 1, 2, 3].map(of)
    }

    /// Starts as the replica of this number, with those that it knows of.
    fn start(&self, me: u8, known: &[&Machine], start: Start) -> Service {
        let mut addresses: Vec<&String> = known.iter().map(|it| &it.address).collect();
        addresses[usize::from(me)] = &self.address;
        let (folder, link) = (Folder::open(&self.folder).unwrap(), TcpLink::new(me, &addresses).unwrap());
        let identity = Some(folder.identity().unwrap());
        let settings = Settings { seed: me.into(), identity, ..Settings::new(Cluster::Three, me) };
        Service::start(&settings, start, folder, link).unwrap()
    }
}

#[test]
fn a_machine_comes_at_another_address() {
    let top = std::env::temp_dir().join(format!("epaxos-members-{}", std::process::id()));
    let ports = Ports::take().unwrap();
    let [a, b, c, d] = &Machine::all(&top, &ports);
    let known = [a, b, c];
    let mut all: Vec<Service> = (0..3).map(|me| known[me as usize].start(me, &known, Start::New)).collect();
    put(&all[0], "x");
    all.pop().unwrap().stop().unwrap();
    // The new one waits, and is let in at its own address.
    let new = d.start(2, &known, Start::Join);
    let waiting = outcome_of(|| match &all[0].waiting_machines()?[..] {
        [(2, identity)] => Ok(*identity),
        _ => Err(CallFault::Refused(Refusal::Joining)),
    });
    let identity = waiting.unwrap();
    let address = Some(d.address.clone());
    let named = wish(&all[0], &Wish::Replace { replica: 2, identity, address, is_forced: false });
    assert!(has(&new, "x"));
    assert_eq!(new.members().unwrap()[2].address.as_ref(), Some(&d.address));
    // Who starts again finds it, though it was given the address before.
    all.remove(0).stop().unwrap();
    all.remove(0).stop().unwrap();
    let again = a.start(0, &known, Start::Again);
    put(&again, "y");
    assert!(has(&new, "y"));
    // The machine before gets no answer any more.
    let before = c.start(2, &known, Start::Again);
    let refused = before.call(OwnedCommand::Put { key: b"x".into(), value: b"2".into() });
    assert!(matches!(refused, Err(CallFault::Refused(_))));
    assert!(before.status().unwrap().generation < named);
    put(&new, "z");
    assert!(has(&again, "z"));
    drop([new, again, before]);
    fs::remove_dir_all(&top).unwrap();
}
