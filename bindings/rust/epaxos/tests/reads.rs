//! Reads that write nothing: what F + 1 replicas report of what interferes, and what one of them is answered.
#![forbid(unsafe_code)]

mod common;

use common::{Owned, Random, Reply, World};
use epaxos::{Cluster, Fault, Instance, MOST_FOUND, OwnedReading as Reading, Replica};

const KEYS: [&[u8]; 2] = [b"a", b"b"];

/// A read that was asked for.
struct Asked {
    reader: usize,
    key: usize,
    found: Vec<Instance>,
    /// The greatest value that a client knew of when it was asked for: by a put or by a read.
    least: u32,
}

/// A cluster in which one client puts rising values at each key, and others read.
struct Reads<'a> {
    world: World<'a>,
    /// How many are looked at.
    looks: usize,
    requests: [u32; 2],
    /// The greatest values that clients know of.
    greatest: [u32; 2],
    asked: Vec<Asked>,
    random: Random,
    /// Who hears of nobody else.
    cut: Vec<usize>,
    answered: usize,
    waited: usize,
    stale: usize,
}

/// What interferes with a read of the key.
fn interfering(replica: &mut Replica, key: &[u8]) -> Result<Vec<Instance>, Fault> {
    replica.interfering(&[key]).map(|found| found.concat())
}

/// A read of the key, for which these were found.
fn read(replica: &mut Replica, key: &[u8], found: &[Instance]) -> Result<Reading, Fault> {
    replica.read(&[(key, found)]).map(|mut readings| readings.swap_remove(0))
}

/// What a call answers once all is on the disk.
fn settled<T>(world: &mut World, me: usize, call: impl Fn(&mut World) -> Result<T, Fault>) -> T {
    loop {
        match call(world) {
            Err(Fault::Unsynced) => world.settle(me),
            answer => return answer.unwrap(),
        }
    }
}

impl Reads<'_> {
    fn new(cluster: Cluster, looks: usize, seed: u64) -> Self {
        let world = World::new(cluster, None, seed);
        let random = Random(seed);
        let (requests, greatest, asked, cut) = ([0; 2], [0; 2], Vec::new(), Vec::new());
        Reads { world, looks, requests, greatest, asked, random, cut, answered: 0, waited: 0, stale: 0 }
    }

    fn below(&mut self, end: usize) -> usize {
        self.random.below(end as u64) as usize
    }

    /// Has the client of a key put its next value, if the one before was answered.
    fn put(&mut self) {
        let (key, me) = (self.below(2), self.below(self.world.seats.len()));
        if !self.hear(key) {
            return;
        }
        self.requests[key] += 1;
        let put = Owned::Put(KEYS[key].to_vec(), self.requests[key].to_be_bytes().to_vec());
        self.world.propose(me, key as u32 + 1, self.requests[key], &put);
    }

    /// Whether the client of a key was answered its last put, if it put anything. (Where that was lost, its value is
    /// never there.)
    fn hear(&mut self, key: usize) -> bool {
        let last = self.requests[key];
        let mut answered = self.world.seats.iter().flat_map(|seat| &seat.answered);
        let answer = answered.find(|it| (it.client, it.request) == (key as u32 + 1, last));
        if answer.is_some_and(|it| it.reply != Reply::Lost) {
            self.greatest[key] = self.greatest[key].max(last);
        }
        last == 0 || answer.is_some()
    }

    /// Asks for a read.
    fn ask(&mut self) {
        let (count, key) = (self.world.seats.len(), self.below(2));
        self.hear(key);
        let least = self.greatest[key];
        // (those that have heard least are looked at first)
        let first = self.below(count);
        let mut looked: Vec<_> = (0..count).map(|it| (first + it) % count).collect();
        looked.sort_by_key(|me| !self.cut.contains(me));
        let reader = looked[0];
        let mut found = Vec::new();
        for me in looked.into_iter().take(self.looks) {
            let more = settled(&mut self.world, me, |world| interfering(world.replica(me), KEYS[key]));
            assert!(more.is_sorted());
            found.extend(more);
        }
        found.sort();
        found.dedup();
        self.asked.push(Asked { reader, key, found, least });
    }

    /// Asks all reads that wait: what they wait for.
    fn read(&mut self) -> Vec<(usize, Instance)> {
        let mut waits = Vec::new();
        for asked in std::mem::take(&mut self.asked) {
            let (me, key) = (asked.reader, asked.key);
            let read_at = |world: &mut World| match read(world.replica(me), KEYS[key], &asked.found)? {
                Reading::Waits(instance) => Ok(Err(instance)),
                Reading::Absent => Ok(Ok(0)),
                Reading::Present(value) => Ok(Ok(u32::from_be_bytes(value[..].try_into().unwrap()))),
                Reading::Closed => panic!("nothing was sealed"),
            };
            match settled(&mut self.world, me, read_at) {
                Err(instance) => {
                    assert!(asked.found.contains(&instance));
                    waits.push((me, instance));
                    self.asked.push(asked);
                }
                Ok(value) => {
                    assert!(value <= self.requests[key]);
                    self.stale += usize::from(value < asked.least);
                    self.answered += 1;
                    self.greatest[key] = self.greatest[key].max(value);
                }
            }
        }
        self.waited += waits.len();
        waits
    }

    /// Cuts off other replicas, F at most. Whatever was on its way from or to one of them is lost.
    fn cut(&mut self) {
        let (count, first) = (self.world.seats.len(), self.below(self.world.seats.len()));
        let few = if self.below(2) == 0 { count / 2 } else { self.below(count / 2 + 1) };
        self.cut = (0..few).map(|it| (first + it) % count).collect();
    }

    fn play(&mut self, steps: usize) {
        for step in 0..steps {
            if step % (50 * self.world.seats.len()) == 0 {
                self.cut();
            }
            let cut = &self.cut;
            self.world
                .frames
                .retain(|(to, frame)| !cut.contains(&usize::from(*to)) && !cut.contains(&usize::from(frame[4])));
            match self.below(8) {
                0 => self.put(),
                1 => self.ask(),
                2 => _ = self.read(),
                3 => self.world.now += 10,
                _ => (0..6).for_each(|_| self.world.deliver(true)),
            }
            let me = self.below(self.world.seats.len());
            self.world.replica(me).execute_all().unwrap();
            self.world.settle(me);
        }
        self.world.finish();
        for _ in 0..10 {
            let waits = self.read();
            if waits.is_empty() {
                return;
            }
            // (all messages of an instance of which another one reported may have been lost)
            for (me, instance) in waits {
                let _committed = self.world.replica(me).recover(instance);
            }
            self.world.finish();
        }
        panic!("a read stays unanswered");
    }
}

#[test]
fn reads_are_behind_all_that_was_answered() {
    for (cluster, steps) in [(Cluster::Three, 1_500), (Cluster::Five, 2_500), (Cluster::Seven, 4_000)] {
        let mut reads = Reads::new(cluster, usize::from(cluster.replicas()) / 2 + 1, 7);
        reads.play(steps);
        assert_eq!(reads.stale, 0, "of {} at {}", reads.answered, cluster.replicas());
        let seen = (reads.answered, reads.waited, reads.greatest.iter().sum::<u32>());
        assert!(seen.0 > steps / 20 && seen.1 > 10 && seen.2 > 2, "{seen:?}");
    }
}

/// What makes the reads above right is that many are looked at: this test sees it.
#[test]
fn a_look_at_too_few_is_found_out() {
    for (cluster, looks) in [(Cluster::Three, 1), (Cluster::Five, 2), (Cluster::Seven, 3)] {
        let mut stale = 0;
        for seed in 0..20 {
            let mut reads = Reads::new(cluster, looks, seed);
            reads.play(700);
            stale += reads.stale;
        }
        assert!(stale > 0, "{looks} of {}", cluster.replicas());
    }
}

#[test]
fn reads_write_nothing() {
    let mut world = World::new(Cluster::Three, None, 1);
    world.propose(0, 1, 1, &Owned::Put(b"a".to_vec(), b"1".to_vec()));
    assert_eq!(interfering(world.replica(0), b"a"), Err(Fault::Unsynced));
    assert_eq!(read(world.replica(0), b"a", &[]), Err(Fault::Unsynced));
    world.finish();
    let (own, later) = (Instance { replica: 0, number: 1 }, Instance { replica: 0, number: 2 });
    for me in 0..3 {
        let (log, before) = (world.seats[me].log.len(), world.replica(me).state().unwrap());
        assert_eq!(interfering(world.replica(me), b"a"), Ok(vec![own]));
        assert_eq!(interfering(world.replica(me), b"b"), Ok(vec![]));
        assert_eq!(read(world.replica(me), b"a", &[own]), Ok(Reading::Present(b"1".to_vec())));
        assert_eq!(read(world.replica(me), b"b", &[own]), Ok(Reading::Absent));
        assert_eq!(read(world.replica(me), b"a", &[later, own]), Ok(Reading::Waits(later)));
        assert_eq!(world.replica(me).state(), Ok(before));
        assert_eq!(world.replica(me).ready().unwrap().log(), b"");
        world.settle(me);
        assert_eq!(world.seats[me].log.len(), log);
    }
    assert!(world.frames.is_empty());

    // a seal interferes with each read, and closes the map
    world.propose(1, 1, 2, &Owned::Seal(b"end".to_vec()));
    world.finish();
    let seal = Instance { replica: 1, number: 1 };
    for me in 0..3 {
        assert_eq!(interfering(world.replica(me), b"a"), Ok(vec![own, seal]));
        assert_eq!(interfering(world.replica(me), b"b"), Ok(vec![seal]));
        assert_eq!(read(world.replica(me), b"a", &[own, seal]), Ok(Reading::Closed));
        assert_eq!(read(world.replica(me), b"b", &[]), Ok(Reading::Closed));
        assert_eq!(read(world.replica(me), b"b", &[later]), Ok(Reading::Waits(later)));
    }
}

#[test]
fn odd_reads_are_refused() {
    let mut world = World::new(Cluster::Three, None, 2);
    let replica = world.replica(0);
    for key in [&b""[..], &[7; 256], &[7; 257]] {
        assert_eq!(interfering(replica, key), Err(Fault::OutOfRange));
        assert_eq!(read(replica, key, &[]), Err(Fault::OutOfRange));
    }
    let first = Instance { replica: 0, number: 1 };
    for (replica_of, number) in [(3, 1), (255, 1), (0, 0), (0, 9_001)] {
        let none = Instance { replica: replica_of, number };
        assert_eq!(read(replica, b"a", &[first, none]), Err(Fault::OutOfRange), "{none}");
    }
    assert_eq!(read(replica, b"a", &[first; MOST_FOUND + 1]), Err(Fault::OutOfRange));
    assert_eq!(read(replica, b"a", &[first; MOST_FOUND]), Ok(Reading::Waits(first)));
    assert_eq!(read(replica, &[7; 255], &[]), Ok(Reading::Absent));
    assert_eq!(interfering(replica, &[7; 255]), Ok(vec![]));
    // one odd one of many is refused with all; many are answered in their order
    assert_eq!(replica.read(&[(b"a", &[]), (b"b", &[Instance { replica: 3, number: 1 }])]), Err(Fault::OutOfRange));
    let keys: Vec<Vec<u8>> = (0..2_000).map(|it| format!("{it:0>99}").into_bytes()).collect();
    let found: Vec<_> = (1..=2_000).map(|number| [Instance { replica: 0, number }]).collect();
    let reads: Vec<(&[u8], &[Instance])> = keys.iter().zip(&found).map(|(key, it)| (&key[..], &it[..])).collect();
    let waits: Vec<_> = found.iter().map(|it| Reading::Waits(it[0])).collect();
    assert_eq!(replica.read(&reads), Ok(waits));
    let keys: Vec<&[u8]> = keys.iter().map(Vec::as_slice).collect();
    assert_eq!(replica.interfering(&keys), Ok(vec![vec![]; 2_000]));
    assert_eq!((replica.read(&[]), replica.interfering(&[])), (Ok(vec![]), Ok(vec![])));
    // nothing is left of them
    assert_eq!(replica.ready().unwrap().log(), b"");
}
