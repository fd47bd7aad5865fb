//! Hosts: under the simulator, and in threads over TCP and folders.
#![cfg(not(feature = "plants"))]

#[path = "common/calls.rs"]
mod calls;
#[path = "common/net.rs"]
mod net;
#[path = "common/ports.rs"]
mod ports;

use calls::{outcome_of, raise};
use epaxos::host::{
    Act, FolderFault, Host, HostFault, Name, Refusal, Settings, StartFault, Stored, Told, Wish, WishFault,
};
use epaxos::service::{Disk, Folder, MemoryDisk, Service, Start, TcpLink};
use epaxos::sim::{Age, Plan, Trouble, What, leave, run};
use epaxos::{Cluster, OwnedAnswer, OwnedCommand};
use net::Net;
use ports::Ports;
use std::fs;
use std::io;
use std::path::PathBuf;
use std::time::{Duration, Instant};

#[test]
fn seeds_are_right_and_repeat() {
    for seed in [3, 5] {
        let plan = Plan::of_seed(seed);
        let (seen, failure) = run(&plan);
        assert_eq!(failure, None, "seed {seed}");
        assert_eq!(run(&plan), (seen, None), "seed {seed}");
    }
}

/// Three machines, where nothing goes wrong.
fn calm() -> Plan {
    (1..).map(Plan::of_seed).find(|plan| plan.is_calm() && plan.cluster == Cluster::Three).unwrap()
}

/// What a run leaves is whole: a generation's logs at each replica, and a line for each question.
#[test]
fn a_run_is_left_in_a_folder() {
    let folder = std::env::temp_dir().join(format!("epaxos-left-by-{}", std::process::id()));
    let plan = Plan { asks: 200, numbers: 20, checkpoint: 1, ..calm() };
    let (seen, failure) = run(&plan);
    assert_eq!(failure, None);
    let left = leave(&plan, None, &folder).unwrap();
    // (the first ones are dropped by the disks, and kept for whoever looks)
    assert_eq!(
        left.iter().map(|it| u64::from(it.generation)).collect::<Vec<_>>(),
        (1..=seen.generations).collect::<Vec<_>>()
    );
    for it in &left {
        let generation = it.generation.to_string();
        assert!((0..it.replicas).all(|me| folder.join(me.to_string()).join(&generation).join("log").is_file()));
        assert!(folder.join(format!("receipts-{generation}")).is_file());
    }
    let asked = fs::read_to_string(folder.join("asked")).unwrap();
    assert_eq!(asked.lines().count() as u64, seen.asks);
    fs::remove_dir_all(&folder).unwrap();
}

/// Nothing is promised where a disk lies: what notices it is counted. Elsewhere nothing of that is.
#[test]
fn what_notices_a_disk_that_lies_is_counted() {
    let lie = Trouble { at: 1_000_000, machine: 1, what: What::Lie, lasts: 1_000_000 };
    let plan = Plan { clients: 3, think: 50_000, asks: 200, numbers: 8_000, troubles: vec![lie], ..calm() };
    let (seen, failure) = run(&plan);
    assert_eq!((failure, seen.lies, seen.lies_noticed, seen.replaced), (None, 1, 1, 1));
    let (mut lies, mut all) = (0, 0);
    for seed in 1..8 {
        let (seen, failure) = run(&Plan::of_seed(seed).lying());
        assert_eq!(failure, None, "seed {seed}");
        assert!(seen.lies_found <= 1 && seen.lies_noticed + seen.lies_unseen <= seen.lies, "seed {seed}");
        (lies, all) = (lies + seen.lies, all + 1);
    }
    assert!(lies > 2, "{lies} of {all}");
}

/// What is given up before it was proposed isn't done, and the rest is answered what became of it.
#[test]
fn what_is_given_up_is_answered_all_the_same() {
    let (mut given_up, mut answered) = (0, 0);
    for seed in 1..5 {
        let plan = Plan { given_up: 1_000, troubles: Vec::new(), lost: 0, ..Plan::of_seed(seed) };
        let (seen, failure) = run(&plan);
        assert_eq!(failure, None, "seed {seed}");
        (given_up, answered) = (given_up + seen.given_up, answered + seen.told);
    }
    assert!(given_up > 20 && answered > 200, "{given_up} given up, {answered} answered");
}

/// Who is asked to end answers first what is under way, and takes nothing more.
#[test]
fn a_machine_ends_slowly() {
    let end = |seconds: u64| Trouble { at: seconds * 1_000_000, machine: 1, what: What::End, lasts: 500_000 };
    let plan = Plan { think: 50_000, asks: 400, troubles: vec![end(1), end(8)], ..calm() };
    let (seen, failure) = run(&plan);
    assert_eq!((failure, seen.ended, seen.crashes), (None, 2, 2));
}

/// A service that is stopped ends once it has answered who waits, and one that reaches nobody within its patience.
#[test]
fn a_service_is_stopped() {
    let is_stopped_soon = || {
        let mut three = Service::local(Cluster::Three).unwrap();
        let put = OwnedCommand::Put { key: b"x".into(), value: b"1".into() };
        three[2].call(put).unwrap();
        let begun = Instant::now();
        three.pop().unwrap().stop().unwrap();
        let took = begun.elapsed();
        assert_eq!(three[0].read(b"x"), Ok(Some(b"1".into())));
        took < Duration::from_secs(5)
    };
    // (where the machine is busy it is tried again)
    assert!((0..10).any(|_| is_stopped_soon()));
}

#[test]
fn a_cluster_grows_and_shrinks() {
    let wish =
        |seconds: u64, cluster| Trouble { at: seconds * 1_000_000, machine: 0, what: What::Resize(cluster), lasts: 0 };
    let troubles = vec![wish(1, Cluster::Five), wish(3, Cluster::Seven), wish(5, Cluster::Three)];
    let plan = Plan { cluster: Cluster::Three, is_named: true, lost: 0, troubles, ..Plan::of_seed(5) };
    let (seen, failure) = run(&plan);
    assert_eq!((failure, seen.resized), (None, 3));
}

/// Of seven machines three stay, of which two are down and one is cut off while the others seal: those that leave serve
/// until a majority of the three has executed the seal.
#[test]
fn who_leaves_waits_for_those_that_stay() {
    assert_eq!(run(&Plan::of_seed(50_002_000_089)).1, None);
}

/// A machine that stands still as it comes back with an older copy notices that once it goes on.
#[test]
fn an_older_copy_is_noticed_late() {
    let ms = 1_000;
    let trouble = |at, what, lasts| Trouble { at: at * ms, machine: 1, what, lasts: lasts * ms };
    let plan = Plan {
        cluster: Cluster::Three,
        clients: 3,
        asks: 300,
        think: 500 * ms,
        delays: vec![vec![500; 3]; 3],
        lost: 0,
        numbers: 8_000,
        troubles: vec![trouble(6_000, What::Older(Age::Before), 0), trouble(11_000, What::Pause, 15_000)],
        ..Plan::of_seed(3)
    };
    let (seen, failure) = run(&plan);
    assert_eq!((seen.older, failure), (1, None));
}

/// A copy of what a disk has in generation 1.
fn copied(disk: &MemoryDisk) -> MemoryDisk {
    let mut copy = MemoryDisk::default();
    for (generation, name) in [(0, Name::Starts), (1, Name::Opening), (1, Name::Log)] {
        let bytes = disk.read(generation, name).unwrap().unwrap();
        copy.carry_out(&[Act::Put { generation, name, bytes }]).unwrap();
    }
    copy
}

/// A machine's commands since a copy of its disk were done, and the others have left that generation: who starts with
/// the copy, and is asked at once for as much, ends before anybody is answered.
#[test]
fn a_copy_of_a_generation_that_others_have_left_ends() {
    let settings = Settings::new(Cluster::Three, 0);
    let put = |key: u8| OwnedCommand::Put { key: vec![key], value: vec![key] };
    // (where it lacks nothing, it goes on, and so it does where it missed two generations)
    for (lacks, seals) in [(8, 1), (1, 1), (0, 1), (8, 2)] {
        let mut net = Net::begin(&settings);
        assert_eq!(net.ask(put(0)), Told::Done(OwnedAnswer::Absent));
        let copy = copied(&net.disks[2]);
        for key in 0..lacks {
            net.hosts[2].call(net.calls + 1, put(100 + key), net.now);
            assert_eq!(net.outcome(), Told::Done(OwnedAnswer::Absent));
        }
        net.away = vec![2];
        for _ in 0..seals {
            net.hosts[0].wish(net.calls + 1, Wish::Seal, net.now);
            assert!(matches!(net.outcome(), Told::Changed(_)));
        }
        while net.hosts[1].generation() <= seals {
            net.turn();
        }
        net.start(2, &settings, copy);
        (0..16).for_each(|key| net.hosts[2].call(1_000 + u64::from(key), put(200 + key), net.now));
        let (mut told, mut fault) = (Vec::new(), None);
        for _ in 0..5_000 {
            match net.try_turn() {
                Ok(replies) => told.extend(replies),
                Err(found) => {
                    fault = Some(found);
                    break;
                }
            }
        }
        if lacks > 0 && seals == 1 {
            let first =
                matches!(&fault, Some(HostFault::Disowned { generation: 1, instance }) if instance.replica == 2);
            assert!(first && told.is_empty(), "{fault:?} {told:?}");
        } else {
            assert!(fault.is_none() && told.len() == 16, "{fault:?} {told:?}");
            let all = net.hosts[0].contents().unwrap();
            assert!((0..16).all(|key| all.contains(&(vec![200 + key], vec![200 + key]))));
        }
    }
}

/// A start proposes nothing before it has heard all others, or a second has passed: one that it doesn't reach may have
/// seen more of it than its log has.
#[test]
fn who_starts_listens_first() {
    let settings = Settings::new(Cluster::Three, 0);
    let put = |key: u8| OwnedCommand::Put { key: vec![key], value: vec![key] };
    let mut net = Net::begin(&settings);
    net.hosts[2].call(net.calls + 1, put(0), net.now);
    assert_eq!(net.outcome(), Told::Done(OwnedAnswer::Absent));
    let disk = copied(&net.disks[2]);
    net.start(2, &settings, disk);
    net.hosts[2].link_lost(1, net.now);
    net.away = vec![1];
    let begun = net.now;
    net.hosts[2].call(net.calls + 1, put(1), net.now);
    assert_eq!(net.outcome(), Told::Done(OwnedAnswer::Absent));
    let took = net.now - begun;
    assert!((Duration::from_millis(990)..Duration::from_millis(1_100)).contains(&took), "{took:?}");
}

/// A proposal's frame is lost soon after a recovery that ended what a machine had proposed before it was down for long,
/// and soon after a machine stood still for long.
#[test]
fn what_is_lost_after_long_waits_is_waited_for_no_longer() {
    for seed in [40_000_000_622, 44_000_000_372] {
        assert_eq!(run(&Plan::of_seed(seed)).1, None, "seed {seed}");
    }
}

/// Who lags goes through the logs that a peer hands it, from the last whole opening there: nothing is written for it.
#[test]
fn who_lags_goes_through_the_logs_of_a_peer() {
    let settings = Settings { numbers: 20, checkpoint: u64::MAX, ..Settings::new(Cluster::Three, 0) };
    let mut net = Net::begin(&settings);
    let put = |key: u8| OwnedCommand::Put { key: vec![key], value: vec![key; 3_000] };
    let done = |net: &mut Net, keys: std::ops::Range<u8>| {
        keys.for_each(|key| assert_eq!(net.ask(put(key)), Told::Done(OwnedAnswer::Absent)));
    };
    done(&mut net, 0..10);
    net.away = vec![2];
    for keys in [10..40, 40..70, 70..100, 100..120] {
        done(&mut net, keys);
        net.hosts[0].wish(net.calls + 1, Wish::Seal, net.now);
        assert!(matches!(net.outcome(), Told::Changed(_)));
    }
    let newest = net.hosts[0].status().generation;
    assert!(newest >= 4 && net.hosts[2].status().generation == 1, "{newest}");
    net.away.clear();
    for _ in 0..10_000 {
        net.turn();
        if net.hosts[2].status().generation >= newest && net.hosts[2].look_up(&[119]) == Ok(Some(vec![119; 3_000])) {
            break;
        }
    }
    assert!((0..120).all(|key| net.hosts[2].look_up(&[key]) == Ok(Some(vec![key; 3_000]))));
    assert_eq!((net.written, net.followed), (0, 1));
    // What was handed is what it starts with.
    let disk = &net.disks[2];
    let mut again = Host::open(&Settings { me: 2, ..settings }, disk, net.now).unwrap();
    assert_eq!(again.status().generation, net.hosts[2].status().generation);
    let writes = again.turn(net.now).unwrap().writes.unwrap();
    again.synced(writes.number, net.now).unwrap();
    assert_eq!(again.look_up(&[60]), Ok(Some(vec![60; 3_000])));
    done(&mut net, 120..121);
}

/// Replicas that change the generation together write what it opens with in turn, one at each.
#[test]
fn checkpoints_are_written_in_turn() {
    let settings = Settings { numbers: 20, checkpoint: 1, kept: u32::MAX, ..Settings::new(Cluster::Three, 0) };
    let mut net = Net { writes: true, ..Net::begin(&settings) };
    for value in 0..200 {
        assert!(matches!(net.ask(OwnedCommand::Put { key: vec![1], value: vec![value; 100] }), Told::Done(_)));
    }
    let newest = net.hosts[0].status().generation;
    let has = |me: usize, generation| net.disks[me].read(generation, Name::Opening).unwrap().is_some();
    let who = |generation| (0..3).filter(|me| has(*me, generation)).collect::<Vec<_>>();
    assert!(newest >= 8, "{newest}");
    assert!((2..newest).all(|generation| who(generation) == [(generation as usize - 1) % 3]));
}

/// The files of this replica in tests/vectors/folders.txt, as a disk that has them. Lines that are indented further go
/// on with the one before.
fn older(replica: u8) -> MemoryDisk {
    let text = include_str!("../../../../tests/vectors/folders.txt");
    let (mut disk, mut files) = (MemoryDisk::default(), Vec::<(String, String)>::new());
    for line in text.lines().filter_map(|line| line.strip_prefix("    ")) {
        match (line.strip_prefix(' '), line.split_once(' '), files.last_mut()) {
            (Some(more), _, Some((_, hex))) => hex.push_str(more.trim()),
            (_, Some((name, hex)), _) => files.push((name.into(), hex.trim().into())),
            other => panic!("{other:?}"),
        }
    }
    for (name, hex) in files {
        let [of, generation, file] = name.split('/').collect::<Vec<_>>()[..] else { panic!("{name}") };
        let name = [Name::Opening, Name::Log, Name::Left].into_iter().find(|it| it.letters() == file).unwrap();
        let bytes =
            hex.as_bytes().chunks(2).map(|it| u8::from_str_radix(std::str::from_utf8(it).unwrap(), 16).unwrap());
        let put = Act::Put { generation: generation.parse().unwrap(), name, bytes: bytes.collect() };
        disk.carry_out(if of == replica.to_string() { std::slice::from_ref(&put) } else { &[] }).unwrap();
    }
    disk
}

/// Folders of a time without references are gone on from, and left by a reference.
#[test]
fn older_folders_are_gone_on_from() {
    let now = Instant::now();
    let settings = |me| Settings { seed: me, numbers: 20, checkpoint: 1, ..Settings::new(Cluster::Three, me as u8) };
    // (the third one is away)
    let disks: Vec<MemoryDisk> = (0..2).map(older).collect();
    let mut hosts: Vec<Host> = (0..).zip(&disks).map(|(me, it)| Host::open(&settings(me), it, now).unwrap()).collect();
    hosts[0].link_opened(1, now);
    hosts[1].link_opened(0, now);
    let mut net = Net { hosts, disks, now, calls: 0, away: vec![2], written: 0, followed: 0, writes: false };
    let put = |key: &[u8], value: u8| OwnedCommand::Put { key: key.into(), value: vec![value] };
    assert_eq!(net.ask(put(b"x", b'6')), Told::Done(OwnedAnswer::Present(b"5".into())));
    assert_eq!(net.hosts[0].status().generation, 2);
    for value in 0..60 {
        assert!(matches!(net.ask(put(b"w", value)), Told::Done(_)));
    }
    let newest = net.hosts[0].status().generation;
    assert!(newest > 2 && net.disks[0].read(3, Name::Reference).unwrap().is_some(), "{newest}");
    for (key, value) in [(b"x", b"6"), (b"y", b"2"), (b"z", b"3")] {
        assert_eq!(net.hosts[0].look_up(key), Ok(Some(value.into())));
    }
}

/// Each generation shares out the room that is left, while that is worth it; then deletes and reads go on.
#[test]
fn a_map_that_is_bounded_is_filled_and_not_passed() {
    let mut net = Net::begin(&Settings { most_map: Some(1_000), ..Settings::new(Cluster::Three, 0) });
    // (with its key and five bytes more it takes 100)
    let put = |key: u8| OwnedCommand::Put { key: vec![key], value: vec![1; 94] };
    let outcomes: Vec<Told> = (0..9).map(|key| net.ask(put(key))).collect();
    assert!(outcomes[..8].iter().all(|outcome| *outcome == Told::Done(OwnedAnswer::Absent)), "{outcomes:?}");
    assert_eq!(outcomes[8], Told::Refused(Refusal::MapFull));
    assert!(net.hosts[0].status().generation > 2);
    assert!(matches!(net.ask(OwnedCommand::Del { key: vec![0] }), Told::Done(OwnedAnswer::Present(_))));
    assert_eq!(net.ask(put(8)), Told::Done(OwnedAnswer::Absent));
    // A host that comes back doesn't know what it has added since the generation began.
    let settings = Settings { most_map: Some(1_000), ..Settings::new(Cluster::Three, 0) };
    net.hosts[0] = Host::open(&settings, &net.disks[0], net.now).unwrap();
    (1..3).for_each(|peer| net.hosts[0].link_opened(peer, net.now));
    assert!(matches!(net.ask(OwnedCommand::Del { key: vec![1] }), Told::Done(OwnedAnswer::Present(_))));
    assert_eq!(net.ask(put(9)), Told::Done(OwnedAnswer::Absent));
}

/// Who has fallen silent counts for no majority, though it isn't known to be lost.
#[test]
fn who_has_fallen_silent_counts_for_nothing() {
    let mut net = Net::begin(&Settings { identity: Some([0; 16]), ..Settings::new(Cluster::Five, 0) });
    let put = OwnedCommand::Put { key: b"x".into(), value: b"1".into() };
    assert_eq!(net.ask(put), Told::Done(OwnedAnswer::Absent));
    let resize = |net: &mut Net, size, new| {
        net.hosts[0].wish(net.calls + 1, Wish::Resize { size, new }, net.now);
        net.outcome()
    };
    // Of the three that would stay one is there.
    net.away = vec![1, 2];
    let refused = Told::Refused(Refusal::Wish(WishFault::NoMajority { reached: 1, replicas: 3 }));
    assert_eq!(resize(&mut net, 3, Vec::new()), refused);
    assert_eq!(net.hosts[0].status().reached, [1, 2, 3, 4]);
    net.away = vec![1, 2, 3];
    let refused = Told::Refused(Refusal::Wish(WishFault::Alone { reached: 2, replicas: 5 }));
    assert_eq!(resize(&mut net, 3, Vec::new()), refused);
    // One that answers makes it two of three.
    net.away = vec![2, 4];
    assert!(matches!(resize(&mut net, 3, Vec::new()), Told::Changed(2)));
    assert_eq!(net.hosts[0].members().len(), 3);
}

/// The same by the simulator's judge: two of the three that would stay are silent for long.
#[test]
fn no_resize_is_granted_beside_the_majority_that_stays() {
    let split = Trouble { at: 2_000_000, machine: 0, what: What::Split(2, false), lasts: 20_000_000 };
    let resize = Trouble { at: 4_000_000, machine: 0, what: What::Resize(Cluster::Three), lasts: 0 };
    let plan = Plan { cluster: Cluster::Five, is_named: true, troubles: vec![split, resize], ..calm() };
    let (seen, failure) = run(&plan);
    assert_eq!((failure, seen.resized), (None, 1));
    assert!(seen.time > Duration::from_secs(20));
}

/// What is here is read after all that is known to be committed, without the others.
#[test]
fn what_is_here_is_read_without_the_others() {
    let mut net = Net::begin(&Settings::new(Cluster::Three, 0));
    let put = |key: u8| OwnedCommand::Put { key: vec![key], value: vec![key] };
    (0..3).for_each(|key| assert_eq!(net.ask(put(key)), Told::Done(OwnedAnswer::Absent)));
    // (the second one learns of commits with what comes next)
    (0..20).for_each(|_| assert!(net.turn().is_empty()));
    net.away = vec![1];
    net.hosts[1].read_here(4, vec![2], net.now);
    assert_eq!(net.outcome(), Told::Value(Some(vec![2])));
    net.hosts[1].read_all_here(5, net.now);
    assert_eq!(net.outcome(), Told::All((0..3).map(|key| (vec![key], vec![key])).collect()));
    // It doesn't answer what it can't know.
    assert_eq!(net.ask(OwnedCommand::Del { key: vec![0] }), Told::Done(OwnedAnswer::Present(vec![0])));
    net.hosts[1].read_here(7, vec![0], net.now);
    assert_eq!(net.outcome(), Told::Value(Some(vec![0])));
    net.hosts[1].read_here(8, Vec::new(), net.now);
    assert_eq!(net.outcome(), Told::Refused(Refusal::Fault(epaxos::Fault::OutOfRange)));
    net.hosts[1].read_here(9, vec![0], net.now);
    net.hosts[1].give_up(9, net.now);
    assert_eq!(net.outcome(), Told::Refused(Refusal::GivenUp));
}

/// A disk on which nothing is.
struct Empty;

impl Stored for Empty {
    fn generations(&self) -> io::Result<Vec<u32>> {
        Ok(Vec::new())
    }

    fn read(&self, _: u32, _: Name) -> io::Result<Option<Vec<u8>>> {
        Ok(None)
    }
}

#[test]
fn what_is_refused_is_answered_at_once() {
    let (settings, now) = (Settings::new(Cluster::Three, 0), Instant::now());
    assert!(matches!(Host::open(&settings, &Empty, now), Err(StartFault::Folder(FolderFault::Plan(_)))));
    assert!(matches!(Host::begin(&Settings { me: 3, ..settings.clone() }, &Empty, now), Err(StartFault::OutOfRange)));
    let replies = |host: &mut Host, at| {
        host.turn(at).unwrap().replies.into_iter().map(|it| (it.token, it.told)).collect::<Vec<_>>()
    };
    let mut joins = Host::join(&settings, &Empty, now).unwrap();
    joins.call(1, OwnedCommand::Get { key: b"x".into() }, now);
    assert_eq!(replies(&mut joins, now), [(1, Told::Refused(Refusal::Joining))]);
    let mut host = Host::begin(&Settings { most: 1, ..settings }, &Empty, now).unwrap();
    host.call(1, OwnedCommand::Seal { value: Vec::new() }, now);
    host.read(2, Vec::new(), now);
    host.call(3, OwnedCommand::Get { key: b"x".into() }, now);
    host.call(4, OwnedCommand::Get { key: b"x".into() }, now);
    let refused = |fault| Told::Refused(Refusal::Fault(fault));
    let out_of_range = epaxos::Fault::OutOfRange;
    assert_eq!(
        replies(&mut host, now),
        [(1, refused(out_of_range.clone())), (2, refused(out_of_range)), (4, Told::Refused(Refusal::Full))]
    );
    // Nobody is there: what waits is answered so after a while, and is never done.
    host.synced(1, now).unwrap();
    assert_eq!(replies(&mut host, now), []);
    let later = now + Duration::from_secs(4);
    assert_eq!(replies(&mut host, later), [(3, Told::Refused(Refusal::Alone))]);
}

/// Three services over TCP, each with a folder.
struct Three {
    folder: PathBuf,
    _ports: Ports,
    addresses: Vec<String>,
    services: Vec<Option<Service>>,
}

impl Three {
    fn begin(name: &str) -> Three {
        let folder = std::env::temp_dir().join(format!("epaxos-hosts-{name}-{}", std::process::id()));
        let ports = Ports::take().unwrap();
        let addresses = (0..3).map(|place| ports.address(place)).collect();
        let mut three = Three { folder, _ports: ports, addresses, services: vec![None, None, None] };
        (0..3).for_each(|me| three.start(me, Start::New));
        three
    }

    fn start(&mut self, me: usize, start: Start) {
        // (so that generations change within the test)
        let settings =
            Settings { seed: me as u64, numbers: 20, checkpoint: 1, ..Settings::new(Cluster::Three, me as u8) };
        let folder = Folder::open(self.folder.join(me.to_string())).unwrap();
        let link = TcpLink::new(me as u8, &self.addresses).unwrap();
        self.services[me] = Some(Service::start(&settings, start, folder, link).unwrap());
    }

    fn stop(&mut self, me: usize) {
        self.services[me].take().unwrap().stop().unwrap();
    }

    fn at(&self, me: usize) -> &Service {
        self.services[me].as_ref().unwrap()
    }

    fn get(&self, me: usize) -> Option<Vec<u8>> {
        outcome_of(|| self.at(me).read(b"x")).unwrap()
    }
}

#[test]
fn three_services_over_tcp_outlive_one() {
    let mut three = Three::begin("three");
    for number in 1..=40 {
        raise(three.at(number as usize % 3), "x", number);
    }
    assert_eq!(three.get(1), Some(b"40".into()));
    // One ends, and comes back with its folder; then another machine takes its number.
    three.stop(2);
    raise(three.at(0), "x", 41);
    three.start(2, Start::Again);
    assert_eq!(three.get(2), Some(b"41".into()));
    three.stop(2);
    fs::remove_dir_all(three.folder.join("2")).unwrap();
    three.start(2, Start::Join);
    assert_eq!(three.get(2), Some(b"41".into()));
    let status = three.at(2).status().unwrap();
    assert!(status.generation >= 3, "{status:?}");
    (0..3).for_each(|me| three.stop(me));
    fs::remove_dir_all(&three.folder).unwrap();
}
