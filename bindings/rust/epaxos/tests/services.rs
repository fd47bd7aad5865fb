//! Services inside one process: what they are asked, and what they answer.
#![forbid(unsafe_code)]

#[path = "common/calls.rs"]
mod calls;

use calls::{answer, have_done, outcome_of, raise};
use epaxos::host::{Act, Name, Refusal, Settings, Stored};
use epaxos::service::{
    CallFault, Disk, Inbox, Link, LocalLink, LocalNetwork, MemoryDisk, Service, Start, Watch, WatchEnd, Watched,
};
use epaxos::{Checkpoint, Cluster, Command, OwnedAnswer, OwnedCommand};
use std::collections::BTreeMap;
use std::io;
use std::sync::atomic::{AtomicBool, Ordering};
use std::sync::mpsc::{Sender, channel};
use std::sync::{Arc, Mutex};
use std::thread;
use std::time::{Duration, Instant};

fn three() -> Vec<Service> {
    Service::local(Cluster::Three).unwrap()
}

fn put(key: &str, value: &str) -> OwnedCommand {
    OwnedCommand::Put { key: key.into(), value: value.into() }
}

/// Links of which a test says when they are lost.
#[derive(Clone, Default)]
struct Links {
    /// The replica that is cut off.
    cut: Arc<Mutex<Option<u8>>>,
    inboxes: Arc<Mutex<BTreeMap<u8, Inbox>>>,
}

impl Links {
    /// A replica is cut off from the others, or reaches them again.
    fn set_cut(&self, replica: u8, is_cut: bool) {
        *self.cut.lock().unwrap() = is_cut.then_some(replica);
        let notify = if is_cut { Inbox::lost } else { Inbox::opened };
        let inboxes = self.inboxes.lock().unwrap();
        for (peer, inbox) in inboxes.iter().filter(|(peer, _)| **peer != replica) {
            notify(inbox, replica);
            notify(&inboxes[&replica], *peer);
        }
    }
}

/// The links of one of them.
struct Cut {
    link: LocalLink,
    links: Links,
    me: u8,
}

impl Link for Cut {
    fn start(&mut self, inbox: Inbox) -> io::Result<()> {
        self.links.inboxes.lock().unwrap().insert(self.me, inbox.clone());
        self.link.start(inbox)
    }

    fn send(&mut self, to: u8, bytes: Vec<u8>) {
        let cut = *self.links.cut.lock().unwrap();
        if cut != Some(self.me) && cut != Some(to) {
            self.link.send(to, bytes);
        }
    }
}

/// Those of a service whose generations are short.
fn settings(me: u8) -> Settings {
    Settings { seed: me.into(), numbers: 20, checkpoint: 1, ..Settings::new(Cluster::Three, me) }
}

/// Three services whose generations are short.
fn short() -> (Vec<Service>, Links) {
    let (network, links) = (LocalNetwork::new(Cluster::Three), Links::default());
    let start = |me: u8| {
        let link = Cut { link: network.link(me), links: links.clone(), me };
        Service::start(&settings(me), Start::New, MemoryDisk::default(), link).unwrap()
    };
    ((0..3).map(start).collect(), links)
}

/// The next change, which has to come within a minute.
fn next(watch: &Watch) -> (String, Option<String>) {
    let change = watch.next_within(Duration::from_secs(60)).unwrap().expect("a change in time");
    let text = |bytes| String::from_utf8(bytes).unwrap();
    (text(change.key), change.value.map(text))
}

#[test]
fn what_a_command_requires_and_does_not_find_is_reported() {
    let three = three();
    have_done(&three[0], &put("x", "1"));
    let raise = |from: &'static [u8], to: &'static [u8]| {
        Command::tx().require(b"x", from).tell(b"x").put(b"x", to).build().unwrap()
    };
    let outcome = |answer| match answer {
        OwnedAnswer::Done(values) => (true, values),
        OwnedAnswer::Undone(values) => (false, values),
        other => panic!("{other:?}"),
    };
    let (is_done, values) = outcome(answer(&three[1], &raise(b"0", b"2")));
    assert!(!is_done && values.iter().eq([Some(&b"1"[..])]));
    // It was answered when it was executed, and not proposed again.
    assert!(three[1].status().unwrap().used <= 2);
    let (is_done, values) = outcome(answer(&three[2], &raise(b"1", b"2")));
    assert!(is_done && values.iter().eq([Some(&b"1"[..])]));
    assert_eq!(outcome_of(|| three[0].read(b"x")).unwrap(), Some(b"2".into()));
}

#[test]
fn a_key_that_is_watched_is_reported_write_by_write() {
    let (three, _) = short();
    raise(&three[0], "x", 1);
    let (mut last, mut begun, mut generations) = (1, None, 0);
    let again = || outcome_of(|| three[2].watch(Watched::Key(b"x".into()), 1_000)).unwrap();
    let mut watch = again();
    assert_eq!(watch.values(), [(b"x".into(), b"1".into())]);
    // Until one watch has gone through two changes of generation. (A replica that lags takes the opening of a peer:
    // then the watch ends, and the next one begins with what there is.)
    for number in 2..10_000 {
        raise(&three[number as usize % 3], "x", number);
        raise(&three[number as usize % 2], "y", number - 1);
        while last < number {
            match watch.next_within(Duration::from_secs(60)) {
                Ok(change) => {
                    let change = change.expect("a change in time");
                    last += 1;
                    assert_eq!((change.key, change.value), (b"x".into(), Some(last.to_string().into())));
                    generations = change.generation - *begun.get_or_insert(change.generation);
                }
                Err(end) => {
                    assert_eq!(end, WatchEnd::Skipped);
                    watch = again();
                    assert_eq!(watch.values(), [(b"x".into(), number.to_string().into())]);
                    (last, begun) = (number, None);
                }
            }
        }
        if generations == 2 {
            break;
        }
    }
    assert_eq!(generations, 2);
    have_done(&three[0], &put("x", "70"));
    have_done(&three[0], &put("y", "70"));
    assert_eq!(next(&watch), ("x".into(), Some("70".into())));
    // What has no effect is no change; what a swap brings is one.
    have_done(&three[0], &OwnedCommand::Cas { key: b"x".into(), expected: None, new: Some(b"no".into()) });
    have_done(&three[0], &OwnedCommand::Del { key: b"z".into() });
    have_done(&three[0], &OwnedCommand::Swap { first: b"z".into(), second: b"x".into() });
    have_done(&three[1], &OwnedCommand::Swap { first: b"x".into(), second: b"y".into() });
    have_done(&three[1], &Command::tx().require(b"x", b"70").put(b"x", b"t").build().unwrap());
    assert_eq!(next(&watch), ("x".into(), None));
    assert_eq!(next(&watch), ("x".into(), Some("70".into())));
    assert_eq!(next(&watch), ("x".into(), Some("t".into())));
    assert_eq!(watch.next_within(Duration::from_millis(300)), Ok(None));
    drop(three);
    assert_eq!(watch.next(), Err(WatchEnd::Ended));
}

/// Four writers raise counters; whoever watches their prefix, from wherever on, sees each number once, and in turn.
#[test]
fn a_prefix_that_is_watched_has_no_gap() {
    const LAST: u32 = 60;
    let (three, _) = short();
    thread::scope(|scope| {
        for (place, name) in ["n/a", "n/b", "n/c", "m"].into_iter().enumerate() {
            let service = &three[place % 3];
            let write = move || {
                for number in 1..=LAST {
                    raise(service, name, number);
                }
            };
            scope.spawn(write);
        }
        let mut followed = Vec::new();
        for (begin, service) in three.iter().enumerate() {
            let follow = move || {
                thread::sleep(Duration::from_millis(40 * begin as u64));
                let watch = || outcome_of(|| service.watch(Watched::Prefix(b"n/".into()), 1_000)).unwrap();
                let of = |(key, value): &(Vec<u8>, Vec<u8>)| {
                    let number = String::from_utf8(value.clone()).unwrap().parse().unwrap();
                    (String::from_utf8(key.clone()).unwrap(), number)
                };
                let mut own = watch();
                let mut last: BTreeMap<String, u32> = own.values().iter().map(of).collect();
                while last.len() < 3 || last.values().any(|number| *number < LAST) {
                    match own.next_within(Duration::from_secs(60)) {
                        Ok(change) => {
                            let (key, number) = change.map(|it| of(&(it.key, it.value.unwrap()))).unwrap();
                            let before = last.insert(key, number).unwrap_or(0);
                            assert_eq!(number, before + 1);
                        }
                        Err(end) => {
                            assert_eq!(end, WatchEnd::Skipped);
                            own = watch();
                            let values: BTreeMap<String, u32> = own.values().iter().map(of).collect();
                            assert!(last.iter().all(|(key, number)| values[key] >= *number));
                            last = values;
                        }
                    }
                }
                last.into_keys().collect::<Vec<_>>()
            };
            followed.push(scope.spawn(follow));
        }
        for keys in followed {
            assert_eq!(keys.join().unwrap(), ["n/a", "n/b", "n/c"]);
        }
    });
}

#[test]
fn a_watch_ends_where_too_much_waits() {
    let three = three();
    let watch = outcome_of(|| three[0].watch(Watched::Prefix(Vec::new()), 3)).unwrap();
    for number in 1..=5 {
        have_done(&three[0], &put("x", &number.to_string()));
    }
    for number in 1..=3 {
        assert_eq!(next(&watch), ("x".into(), Some(number.to_string())));
    }
    assert_eq!(watch.next(), Err(WatchEnd::Lagged));
    assert_eq!(watch.next(), Err(WatchEnd::Lagged));
    let again = outcome_of(|| three[0].watch(Watched::Key(b"x".into()), 3)).unwrap();
    assert_eq!(again.values(), [(b"x".into(), b"5".into())]);
    have_done(&three[1], &put("x", "6"));
    assert_eq!(next(&again), ("x".into(), Some("6".into())));
}

#[test]
fn a_watch_ends_where_an_opening_is_taken() {
    let (three, links) = short();
    let (key, all) = (Watched::Key(b"x".into()), Watched::Prefix(Vec::new()));
    let watch = |watched: &Watched| outcome_of(|| three[2].watch(watched.clone(), 1_000)).unwrap();
    let watches = [&key, &all].map(watch);
    have_done(&three[2], &put("x", "first"));
    links.set_cut(2, true);
    for number in 1..=70 {
        have_done(&three[number % 2], &put("x", &number.to_string()));
    }
    links.set_cut(2, false);
    for watch in &watches {
        assert_eq!(next(watch), ("x".into(), Some("first".into())));
        let begun = Instant::now();
        let end = loop {
            match watch.next_within(Duration::from_secs(60)) {
                // (what was still on its way when it was cut off)
                Ok(Some(change)) => assert!(change.value > Some(b"0".into())),
                Ok(None) => panic!("no end after {:?}", begun.elapsed()),
                Err(end) => break end,
            }
        };
        assert_eq!(end, WatchEnd::Skipped);
    }
    let again = watch(&key);
    assert_eq!(again.values(), [(b"x".into(), b"70".into())]);
    have_done(&three[2], &put("x", "71"));
    assert_eq!(next(&again), ("x".into(), Some("71".into())));
}

/// A disk that takes its time to write an opening.
#[derive(Clone)]
struct Slow {
    disk: MemoryDisk,
    begun: Sender<()>,
    is_written: Arc<AtomicBool>,
}

impl Stored for Slow {
    fn generations(&self) -> io::Result<Vec<u32>> {
        self.disk.generations()
    }

    fn read(&self, generation: u32, name: Name) -> io::Result<Option<Vec<u8>>> {
        self.disk.read(generation, name)
    }
}

impl Disk for Slow {
    fn carry_out(&mut self, acts: &[Act]) -> io::Result<()> {
        self.disk.carry_out(acts)
    }

    fn write_opening(&mut self, generation: u32, checkpoint: Checkpoint) -> io::Result<([u8; 32], u64)> {
        let _ = self.begun.send(());
        thread::sleep(Duration::from_millis(300));
        let written = self.disk.write_opening(generation, checkpoint);
        self.is_written.store(true, Ordering::Release);
        written
    }

    fn read_opening(&mut self, generation: u32, offset: u64, length: u64) -> io::Result<(u64, Vec<u8>)> {
        self.disk.read_opening(generation, offset, length)
    }
}

#[test]
fn a_disk_is_free_once_its_service_has_ended() {
    let (network, (begun, writes)) = (LocalNetwork::new(Cluster::Three), channel());
    let slow = Slow { disk: MemoryDisk::default(), begun, is_written: Arc::default() };
    let is_written = slow.is_written.clone();
    let zero = Service::start(&settings(0), Start::New, slow, network.link(0)).unwrap();
    let start = |me: u8| Service::start(&settings(me), Start::New, MemoryDisk::default(), network.link(me)).unwrap();
    let _others = [1, 2].map(start);
    while writes.try_recv().is_err() {
        have_done(&zero, &put("x", "1"));
    }
    zero.stop().unwrap();
    assert!(is_written.load(Ordering::Acquire));
}

#[test]
fn who_joins_is_not_watched_yet() {
    let (network, settings) = (LocalNetwork::new(Cluster::Three), Settings::new(Cluster::Three, 2));
    let joins = Service::start(&settings, Start::Join, MemoryDisk::default(), network.link(2)).unwrap();
    for watched in [Watched::Key(b"x".into()), Watched::Prefix(b"x".into())] {
        let refused = joins.watch(watched, 10).unwrap_err();
        assert_eq!(refused, CallFault::Refused(Refusal::Joining));
    }
}
