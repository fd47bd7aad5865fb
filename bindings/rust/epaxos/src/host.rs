//! A host of a replica, without clock, disk or network: what a cluster needs around its core.
//!
//! A [`Replica`](crate::Replica) is a step function of a protocol. What has to be around it is here, once: calls under
//! numbers of their own, sending again, waits by measured round trips, whom proposals spare, reads that write nothing,
//! one generation after the other, how a replica that lags catches up, a machine that is replaced, and bounds on all
//! that waits. A [`Host`] is handed what happens, with the time, and a [`Turn`] says what is to be done. So the same
//! code runs over TCP and folders, and under a simulator that repeats a run by its seed ([`sim`](crate::sim)).
//!
//! ```
//! use epaxos::host::{Act, Host, Name, Settings, Stored, Told};
//! use epaxos::{Cluster, OwnedCommand};
//! use std::collections::{BTreeMap, VecDeque};
//! use std::io;
//! use std::time::{Duration, Instant};
//!
//! /// A disk in memory: a program writes files.
//! #[derive(Default)]
//! struct Disk(BTreeMap<(u32, Name), Vec<u8>>);
//!
//! impl Stored for Disk {
//!     fn generations(&self) -> io::Result<Vec<u32>> {
//!         let mut all: Vec<u32> = self.0.keys().map(|(generation, _)| *generation).filter(|it| *it > 0).collect();
//!         all.dedup();
//!         Ok(all)
//!     }
//!
//!     fn read(&self, generation: u32, name: Name) -> io::Result<Option<Vec<u8>>> {
//!         Ok(self.0.get(&(generation, name)).cloned())
//!     }
//! }
//!
//! # fn main() -> Result<(), Box<dyn std::error::Error>> {
//! let mut now = Instant::now();
//! let mut disks: Vec<Disk> = (0..3).map(|_| Disk::default()).collect();
//! let begin = |(me, disk): (u8, &Disk)| {
//!     let settings = Settings { seed: me.into(), ..Settings::new(Cluster::Three, me) };
//!     Host::begin(&settings, disk, now)
//! };
//! let mut hosts: Vec<Host> = (0..).zip(&disks).map(begin).collect::<Result<_, _>>()?;
//! for (me, host) in hosts.iter_mut().enumerate() {
//!     (0..3).filter(|peer| *peer != me as u8).for_each(|peer| host.link_opened(peer, now));
//! }
//! hosts[0].call(7, OwnedCommand::Put { key: b"x".into(), value: b"1".into() }, now);
//! let mut frames = VecDeque::new();
//! let reply = 'replied: loop {
//!     for (me, (host, disk)) in hosts.iter_mut().zip(&mut disks).enumerate() {
//!         let turn = host.turn(now)?;
//!         frames.extend(turn.frames.into_iter().map(|(to, bytes)| (me as u8, to, bytes)));
//!         for writes in turn.writes {
//!             for act in writes.acts {
//!                 match act {
//!                     Act::Append { generation, bytes } => {
//!                         disk.0.entry((generation, Name::Log)).or_default().extend(&*bytes);
//!                     }
//!                     Act::Put { generation, name, bytes } => _ = disk.0.insert((generation, name), bytes),
//!                     Act::Drop { below } => disk.0.retain(|(it, _), _| *it == 0 || *it >= below),
//!                 }
//!             }
//!             host.synced(writes.number, now)?; // and only now does anything go out of it
//!         }
//!         if let Some(reply) = turn.replies.into_iter().next() {
//!             break 'replied reply;
//!         }
//!     }
//!     while let Some((from, to, bytes)) = frames.pop_front() {
//!         hosts[usize::from(to)].receive(from, bytes, now)?;
//!     }
//!     now += Duration::from_millis(1);
//! };
//! assert_eq!((reply.token, reply.told), (7, Told::Done(epaxos::Answer::Absent.to_owned())));
//! # Ok(()) }
//! ```
#![forbid(unsafe_code)]

mod act;
mod acting;
mod applying;
mod asking;
mod begun;
mod calling;
mod changing;
mod ending;
mod fault;
mod files;
mod handing;
mod hearing;
mod held;
mod here;
mod ids;
mod key_change;
mod machine;
mod members;
mod observer;
mod observing;
mod plant;
mod reading;
mod reply;
mod settings;
mod span;
mod start;
mod starting;
mod status;
mod stored;
mod sums;
mod trail;
mod turn;
mod work;

pub use crate::parts::folder_fault::FolderFault;
pub use crate::parts::identity::Identity;
pub use crate::parts::members::Member;
pub use crate::parts::wishes::{Asked as Wish, ChangeFault as WishFault};
pub use act::{Act, Name, Writes};
pub use begun::Begun;
pub use fault::{HostFault, StartFault};
pub use key_change::KeyChange;
pub use machine::{Machine, Ordered};
pub use observer::Observer;
pub use plant::Plant;
pub use reply::{Refusal, Reply, Told};
pub use settings::Settings;
pub use span::Span;
pub use start::Start;
pub use status::Status;
pub use stored::Stored;
pub use sums::{Summing, Sums};
pub use trail::Trail;
pub use turn::{Done, Turn};
pub use work::Work;

use crate::parts::batch::Pending;
use crate::parts::calls::Calls;
use crate::parts::executions::Executions;
use crate::parts::fetch::Fetch;
use crate::parts::generation::Stage;
use crate::parts::lead::{Lead, Piece};
use crate::parts::leaving::Lag;
use crate::parts::members::Members;
use crate::parts::messages::Message;
use crate::parts::place::{MOST_REPLICAS, Place};
use crate::parts::progress::Progress;
use crate::parts::random::Random;
use crate::parts::reading::Reading;
use crate::parts::wishes::Wishes;
use crate::{Cluster, Reference, State};
use acting::Acting;
use applying::Applying;
use files::Files;
use handing::Going;
use held::{Held, Request};
use here::Here;
use ids::Ids;
use members::{Asking, cluster_of};
use starting::Started;
use std::collections::{BTreeMap, BTreeSet, VecDeque};
use std::time::{Duration, Instant};

/// Between two words to all peers.
const TICK: Duration = Duration::from_secs(1);
/// At a start no majority is waited for so much longer.
const STARTING: Duration = Duration::from_secs(2);
/// A start over a log hears all others before it acts, or waits so long for those that it doesn't reach: one of them
/// may have seen more of this replica than its log has.
const LISTENING: Duration = Duration::from_secs(1);
/// What others have proposed is executed so often, where something was committed.
const BETWEEN_EXECUTIONS: Duration = Duration::from_millis(200);
/// And so often with what is written anyway: a seal is executed after all of it, and clients wait for that.
const BETWEEN_EXECUTIONS_ASIDE: Duration = Duration::from_millis(20);

/// What the disk is doing, and what follows once that is done.
struct Busy {
    number: u64,
    requests: Vec<Request>,
    done: Vec<Result<(), crate::Fault>>,
    /// Whether the core waits for it.
    is_core: bool,
    change: Option<Change>,
}

/// A change of generation, which counts once it is on the disk.
enum Change {
    /// The host's first turn.
    Start,
    /// The present generation was sealed, and left for the one that this stands for.
    Sealed(Reference, Next),
    /// An opening of so many bytes was taken.
    Taken(u64, Next),
}

/// What a generation begins with: of how many replicas it is, and whom its seal names, where it names some.
struct Next {
    replicas: usize,
    members: Option<Members>,
}

/// A host: see [the module's page](self).
///
/// It is handed what happens: links that open and close, what comes from peers, calls and reads, and what of the disk
/// is done. After that, and at [`due`](Host::due), comes a [`turn`](Host::turn). It is deterministic: the same
/// settings, the same disk and the same calls at the same times give the same turns.
///
/// ```
/// # use epaxos::{Cluster, host::{Host, Settings}, service::MemoryDisk};
/// # use std::time::Instant;
/// # fn main() -> Result<(), Box<dyn std::error::Error>> {
/// let now = Instant::now();
/// let host = Host::begin(&Settings::new(Cluster::Three, 0), &MemoryDisk::default(), now)?;
/// assert_eq!(host.status().generation, 1);
/// # Ok(()) }
/// ```
pub struct Host {
    settings: Settings,
    /// How far this replica and its peers are.
    progress: Progress,
    /// None where the host joins, and has no generation yet.
    acting: Option<Acting>,
    /// The machine, where there is one, and whoever observes.
    applying: Option<Applying>,
    observer: Option<Box<dyn Observer>>,
    reads: Reading<u64>,
    here: Vec<Here>,
    /// The machines whom the last seal named; of the others whom this host has met first; and those that wait to be let
    /// in, with when they said so.
    named: Members,
    met: Vec<Option<Identity>>,
    outside: BTreeMap<(u8, Identity), Instant>,
    wishes: Wishes<u64>,
    /// Whether what is wished waits for answers, and how often they were asked for.
    asking: Option<Asking>,
    questions: u64,
    ids: Ids,
    calls: Calls<Held>,
    /// The greatest stamp that a receipt had.
    seen: u64,
    /// Until when this start waits for others that it hasn't heard.
    listens_until: Instant,
    /// What is to be asked of the core.
    pending: Pending<Held>,
    /// What peers have asked that the core has to answer.
    asked: VecDeque<(u8, Message)>,
    busy: Option<Busy>,
    /// How many batches of acts the disk was given.
    writes: u64,
    /// Acts that go with the next ones.
    acts: Vec<Act>,
    executions: Executions,
    next_execution: Instant,
    next_aside: Instant,
    next_tick: Instant,
    files: Files,
    /// Who wants an opening that isn't written yet, who waits for a part of one, and when one was wanted last.
    wanting: BTreeSet<u8>,
    reading: Vec<(u8, u32, u64)>,
    handed: Option<Instant>,
    /// What leads peers that lag to the present generation, the pieces that are being read, and what may be dropped
    /// once nobody is handed anything.
    lead: Lead,
    gathering: BTreeMap<u64, (u8, Piece)>,
    gathered: u64,
    drops_below: Option<u32>,
    /// What was said to be dropped last, and the generation for which room was made last.
    dropped: u32,
    prepared: u32,
    /// An opening that is on its way, or what leads to one; what has come and is being gone through; and an opening
    /// that has come.
    fetch: Option<Fetch<Vec<u8>>>,
    going: Option<Going>,
    taken: Option<(u32, Vec<u8>)>,
    lag: Lag,
    /// Of a host that joins: the generations that peers have named, and the least one that it may begin with.
    joins: Option<BTreeMap<u8, u32>>,
    least: u32,
    /// Of one that has an identity: the last generation that was looked at, and doesn't name it.
    looked: u32,
    random: Random,
    /// When the next turn is due.
    due: Instant,
    counts: Counts,
    out: Turn,
    reports_changes: bool,
    /// When the seal of the present generation was executed, or an opening came, and how long the last change took.
    changes_since: Option<Instant>,
    changed_in: Duration,
    /// How many bytes of the log a start has cut off.
    cut: u64,
    /// Whether it was asked to end.
    ends: bool,
}

/// What is counted since the start.
#[derive(Default)]
struct Counts {
    changes: u64,
    /// Openings that were taken from peers.
    taken: u64,
    syncs: u64,
    proposals: u64,
}

impl Host {
    /// The host of a new replica, whose disk has nothing, or what an earlier `begin` had put there before anything was
    /// answered.
    ///
    /// Once in a cluster's life: a replica whose disk is lost comes back by [`join`](Host::join).
    ///
    /// # Errors
    ///
    /// [`StartFault`] says why.
    ///
    /// ```
    /// # use epaxos::{Cluster, host::{Host, Settings}, service::MemoryDisk};
    /// # use std::time::Instant;
    /// # fn main() -> Result<(), Box<dyn std::error::Error>> {
    /// let now = Instant::now();
    /// let host = Host::begin(&Settings::new(Cluster::Three, 0), &MemoryDisk::default(), now)?;
    /// assert_eq!(host.due(), now); // its first turn says what the disk is to do
    /// # Ok(()) }
    /// ```
    pub fn begin(settings: &Settings, stored: &impl Stored, now: Instant) -> Result<Host, StartFault> {
        Host::start(settings, Start::New, stored, None, now)
    }

    /// The host that goes on with what its disk has.
    ///
    /// # Errors
    ///
    /// [`StartFault`] says why. Nothing was changed.
    ///
    /// ```
    /// # use epaxos::{Cluster, host::{Host, Settings}, service::{Disk, MemoryDisk}};
    /// # use std::time::Instant;
    /// # fn main() -> Result<(), Box<dyn std::error::Error>> {
    /// let (settings, mut disk, now) = (Settings::new(Cluster::Three, 0), MemoryDisk::default(), Instant::now());
    /// let first = Host::begin(&settings, &disk, now)?.turn(now)?.writes.ok_or("nothing to write")?;
    /// disk.carry_out(&first.acts)?;
    /// assert_eq!(Host::open(&settings, &disk, now)?.status().generation, 1);
    /// # Ok(()) }
    /// ```
    pub fn open(settings: &Settings, stored: &impl Stored, now: Instant) -> Result<Host, StartFault> {
        Host::start(settings, Start::Again, stored, None, now)
    }

    /// The host of a machine that takes the number of one that is gone for good, with an empty disk. It has no
    /// generation before peers have handed it one: a later one than the machine before can have acted in, so it has the
    /// others change their generation, twice at least. Until then calls are [refused](Refusal::Joining).
    ///
    /// The machine before must not come back: it is up to you to see to that.
    ///
    /// Where machines have an [identity](Settings::identity), it waits instead until another host is
    /// [wished](Host::wish) to let it in, and begins with the first generation whose seal names it; a machine before it
    /// that comes back then ends. So come the machines of a cluster that grows, too.
    ///
    /// # Errors
    ///
    /// [`StartFault`] says why: [`Folder`](StartFault::Folder) where a generation is there already, so that
    /// [`open`](Host::open) goes on with it.
    ///
    /// ```
    /// # use epaxos::{Cluster, host::{Host, Settings}, service::MemoryDisk};
    /// # use std::time::Instant;
    /// # fn main() -> Result<(), Box<dyn std::error::Error>> {
    /// let host = Host::join(&Settings::new(Cluster::Three, 2), &MemoryDisk::default(), Instant::now())?;
    /// assert_eq!(host.status().generation, 0);
    /// # Ok(()) }
    /// ```
    pub fn join(settings: &Settings, stored: &impl Stored, now: Instant) -> Result<Host, StartFault> {
        Host::start(settings, Start::Join, stored, None, now)
    }

    /// The host that goes on with a later opening than its disk has, which somebody hands it who runs the cluster: one
    /// that was made of what is left of it, after its majority was lost. Where the disk has it already, as by a `take`
    /// before, the host goes on with it.
    ///
    /// # Errors
    ///
    /// [`StartFault`] says why. Nothing was changed.
    ///
    /// ```
    /// use epaxos::host::{Host, Settings, StartFault};
    /// # use epaxos::{Cluster, service::MemoryDisk};
    /// # use std::time::Instant;
    ///
    /// let settings = Settings::new(Cluster::Three, 0);
    /// let taken = Host::take(&settings, &MemoryDisk::default(), b"no opening", Instant::now());
    /// assert!(matches!(taken, Err(StartFault::Folder(_))));
    /// ```
    pub fn take(settings: &Settings, stored: &impl Stored, opening: &[u8], now: Instant) -> Result<Host, StartFault> {
        check(settings)?;
        Host::started(settings, starting::take(settings, stored, opening)?, now)
    }

    /// How many bytes behind the last whole record of the log this start has cut off: what a crash had left.
    ///
    /// ```
    /// # use epaxos::{Cluster, host::{Host, Settings}, service::MemoryDisk};
    /// # use std::time::Instant;
    /// # fn main() -> Result<(), Box<dyn std::error::Error>> {
    /// let host = Host::begin(&Settings::new(Cluster::Three, 0), &MemoryDisk::default(), Instant::now())?;
    /// assert_eq!(host.cut(), 0);
    /// # Ok(()) }
    /// ```
    pub fn cut(&self) -> u64 {
        self.cut
    }

    /// This entry of a peer was seen in this generation before the start, by what a program keeps beside the disk:
    /// where that peer has fewer, it has forgotten what it promised, and learns so. (What the log has handled is known
    /// without it.) To be called before the first turn.
    ///
    /// ```
    /// # use epaxos::{Cluster, host::{Host, Settings}, service::MemoryDisk};
    /// # use std::time::Instant;
    /// # fn main() -> Result<(), Box<dyn std::error::Error>> {
    /// let mut host = Host::begin(&Settings::new(Cluster::Three, 0), &MemoryDisk::default(), Instant::now())?;
    /// host.see(1, 1, 7);
    /// host.see(2, 2, 9); // (of another generation)
    /// assert_eq!((host.seen_of(1), host.seen_of(2)), (7, 0));
    /// # Ok(()) }
    /// ```
    pub fn see(&mut self, generation: u32, peer: u8, entry: u32) {
        if generation == self.progress.generation.number {
            self.progress.others.see(peer, entry);
        }
    }

    /// The host of a replica with a [`Machine`], which does the opaque commands, begun as [`begin`](Host::begin),
    /// [`open`](Host::open) or [`join`](Host::join). In a new cluster each replica's has the same state; else it is
    /// given the one that the disk has, or a peer.
    ///
    /// # Errors
    ///
    /// [`StartFault`] says why: [`Machine`](StartFault::Machine) where the disk is that of a host without one, too.
    ///
    /// ```
    /// use epaxos::host::{Host, Machine, Ordered, Settings, Start};
    /// # use epaxos::{Cluster, service::MemoryDisk};
    /// # use std::time::Instant;
    ///
    /// /// It counts what it is asked.
    /// struct Count(u64);
    ///
    /// impl Machine for Count {
    ///     fn apply(&mut self, _ordered: &Ordered) -> Vec<u8> {
    ///         self.0 += 1;
    ///         self.snapshot()
    ///     }
    ///
    ///     fn snapshot(&self) -> Vec<u8> {
    ///         self.0.to_be_bytes().into()
    ///     }
    ///
    ///     fn restore(&mut self, snapshot: &[u8]) -> std::io::Result<()> {
    ///         self.0 = u64::from_be_bytes(snapshot.try_into().map_err(std::io::Error::other)?);
    ///         Ok(())
    ///     }
    /// }
    ///
    /// # fn main() -> Result<(), Box<dyn std::error::Error>> {
    /// let (settings, disk) = (Settings::new(Cluster::Three, 0), MemoryDisk::default());
    /// let host = Host::with_machine(&settings, Start::New, &disk, Box::new(Count(0)), Instant::now())?;
    /// assert_eq!(host.machine().map(|it| it.snapshot()), Some(vec![0; 8]));
    /// # Ok(()) }
    /// ```
    pub fn with_machine(
        settings: &Settings,
        start: Start,
        stored: &impl Stored,
        machine: Box<dyn Machine>,
        now: Instant,
    ) -> Result<Host, StartFault> {
        Host::start(settings, start, stored, Some(machine), now)
    }

    /// The machine as it is here: a look that may be old. None where there is none.
    ///
    /// ```
    /// # use epaxos::{Cluster, host::{Host, Settings}, service::MemoryDisk};
    /// # use std::time::Instant;
    /// # fn main() -> Result<(), Box<dyn std::error::Error>> {
    /// let now = Instant::now();
    /// let host = Host::begin(&Settings::new(Cluster::Three, 0), &MemoryDisk::default(), now)?;
    /// assert!(host.machine().is_none());
    /// # Ok(()) }
    /// ```
    pub fn machine(&self) -> Option<&dyn Machine> {
        self.applying.as_ref().map(Applying::machine)
    }

    pub(crate) fn start(
        settings: &Settings,
        start: Start,
        stored: &impl Stored,
        machine: Option<Box<dyn Machine>>,
        now: Instant,
    ) -> Result<Host, StartFault> {
        check(settings)?;
        let mut applying = machine.map(Applying::new);
        let mut host = match start {
            Start::New => Host::started(settings, starting::begin(settings, stored, applying.as_mut())?, now)?,
            Start::Again => Host::started(settings, starting::go_on(settings, stored, applying.as_mut())?, now)?,
            Start::Join => Host::joining(settings, stored, now)?,
        };
        host.applying = applying;
        Ok(host)
    }

    fn joining(settings: &Settings, stored: &impl Stored, now: Instant) -> Result<Host, StartFault> {
        starting::check_none(stored)?;
        let (start, counted) = starting::count(settings, stored)?;
        let mut host = Host::new(settings, settings.cluster, (ids(settings, start)?, State::default()), now)?;
        host.joins = Some(BTreeMap::new());
        host.acts.push(counted);
        Ok(host)
    }

    fn started(settings: &Settings, started: Started, now: Instant) -> Result<Host, StartFault> {
        let Started { acting, files, acts, start, executed, cluster, members } = started;
        let state = State { generation: acting.generation, ..State::default() };
        let mut host = Host::new(settings, cluster, (ids(settings, start)?, state), now)?;
        if let Some(members) = members {
            match host.check_members(&members, acting.generation) {
                Ok(()) => host.named = members,
                Err(_) => return Err(StartFault::Replaced(acting.generation)),
            }
        }
        (host.cut, host.files) = (acting.replica.cut(), files);
        host.acting = Some(acting);
        host.out.executed = if settings.tells_executed { executed } else { Vec::new() };
        host.writes += 1;
        let (requests, done) = (Vec::new(), Vec::new());
        host.busy = Some(Busy { number: host.writes, requests, done, is_core: true, change: Some(Change::Start) });
        host.out.writes = Some(Writes { number: host.writes, acts });
        Ok(host)
    }

    fn new(
        settings: &Settings,
        cluster: Cluster,
        (ids, state): (Ids, State),
        now: Instant,
    ) -> Result<Host, StartFault> {
        let place = Place { replicas: cluster.replicas().into(), replica: settings.me };
        let mut progress = Progress::new(place, state, settings.seed, now).map_err(FolderFault::Open)?;
        progress.others.is_blind = settings.has(Plant::SeesNothing);
        let reads = Reading::new(place.replicas, ids.sealer(), settings.planted_in_reads());
        let calls = Calls::new(settings.patience, settings.together, settings.most_map);
        Ok(Host {
            settings: settings.clone(),
            progress: Progress {
                measures: !settings.has(Plant::FixedWaits),
                is_trusting: settings.has(Plant::TakesForOwn),
                ..progress
            },
            acting: None,
            applying: None,
            observer: None,
            reads,
            here: Vec::new(),
            named: Members(Vec::new()),
            met: vec![None; MOST_REPLICAS.into()],
            outside: BTreeMap::new(),
            wishes: Wishes::default(),
            asking: None,
            questions: 0,
            ids,
            // (the peers may just be starting)
            calls: Calls { alone_since: Some(now + STARTING), ..calls },
            seen: 0,
            listens_until: now,
            pending: Pending::default(),
            asked: VecDeque::new(),
            busy: None,
            writes: 0,
            acts: Vec::new(),
            executions: Executions::new(place.replicas),
            next_execution: now,
            next_aside: now,
            next_tick: now,
            files: Files::default(),
            wanting: BTreeSet::new(),
            reading: Vec::new(),
            handed: None,
            lead: Lead::default(),
            gathering: BTreeMap::new(),
            gathered: 0,
            drops_below: None,
            dropped: 0,
            prepared: 0,
            fetch: None,
            going: None,
            taken: None,
            lag: Lag::default(),
            joins: None,
            least: 0,
            looked: 0,
            random: Random::from_seed(settings.seed),
            due: now,
            counts: Counts::default(),
            out: Turn::default(),
            reports_changes: false,
            changes_since: None,
            changed_in: Duration::ZERO,
            cut: 0,
            ends: false,
        })
    }

    /// A link to a peer was opened: what is sent to it may arrive from now on.
    ///
    /// ```
    /// # use epaxos::{Cluster, host::{Host, Settings}, service::MemoryDisk};
    /// # use std::time::Instant;
    /// # fn main() -> Result<(), Box<dyn std::error::Error>> {
    /// let now = Instant::now();
    /// let mut host = Host::begin(&Settings::new(Cluster::Three, 0), &MemoryDisk::default(), now)?;
    /// host.link_opened(1, now);
    /// assert!(host.turn(now)?.frames.iter().all(|(to, _)| *to == 1)); // that one is greeted
    /// # Ok(()) }
    /// ```
    pub fn link_opened(&mut self, peer: u8, now: Instant) {
        let Some(link) = self.progress.links.get_mut(usize::from(peer)) else { return };
        *link = true;
        self.progress.watch.open(peer, now);
        self.progress.commits.open(peer, now);
        self.progress.others.drop_early(peer);
        self.greet(peer);
        self.due = self.due.min(now);
    }

    /// It is over: nothing arrives any more, as far as is known.
    ///
    /// ```
    /// # use epaxos::{Cluster, host::{Host, Settings}, service::MemoryDisk};
    /// # use std::time::Instant;
    /// # fn main() -> Result<(), Box<dyn std::error::Error>> {
    /// let now = Instant::now();
    /// let mut host = Host::begin(&Settings::new(Cluster::Three, 0), &MemoryDisk::default(), now)?;
    /// host.link_opened(1, now);
    /// host.link_lost(1, now);
    /// assert!(host.status().reached.is_empty());
    /// # Ok(()) }
    /// ```
    pub fn link_lost(&mut self, peer: u8, now: Instant) {
        if let Some(link) = self.progress.links.get_mut(usize::from(peer)) {
            *link = false;
            self.due = self.due.min(now);
        }
    }

    /// Something has come from a peer, whoever carries it being sure that it is of that peer.
    ///
    /// # Errors
    ///
    /// [`HostFault::Forgotten`]: the host must end, and its machine be replaced.
    ///
    /// ```
    /// # use epaxos::{Cluster, host::{Host, Settings}, service::MemoryDisk};
    /// # use std::time::Instant;
    /// # fn main() -> Result<(), Box<dyn std::error::Error>> {
    /// let now = Instant::now();
    /// let mut host = Host::begin(&Settings::new(Cluster::Three, 0), &MemoryDisk::default(), now)?;
    /// host.receive(1, b"no frame".into(), now)?;
    /// assert_eq!(host.status().refused, 1);
    /// # Ok(()) }
    /// ```
    pub fn receive(&mut self, from: u8, bytes: Vec<u8>, now: Instant) -> Result<(), HostFault> {
        if from == self.progress.place.replica || from >= MOST_REPLICAS {
            self.progress.counts.refused += 1;
            return Ok(());
        }
        self.due = self.due.min(now);
        self.progress.distances.hear(from, now);
        self.hear(from, bytes, now)
    }

    /// The acts of this number are done, and on the disk.
    ///
    /// # Errors
    ///
    /// [`HostFault`]: the host has ended.
    ///
    /// ```
    /// # use epaxos::{Cluster, host::{Host, Settings}, service::MemoryDisk};
    /// # use std::time::Instant;
    /// # fn main() -> Result<(), Box<dyn std::error::Error>> {
    /// let now = Instant::now();
    /// let mut host = Host::begin(&Settings::new(Cluster::Three, 0), &MemoryDisk::default(), now)?;
    /// let writes = host.turn(now)?.writes.ok_or("nothing to write")?;
    /// // (here they are written)
    /// host.synced(writes.number, now)?;
    /// assert!(host.synced(writes.number, now).is_err()); // each is reported once
    /// # Ok(()) }
    /// ```
    pub fn synced(&mut self, number: u64, now: Instant) -> Result<(), HostFault> {
        self.due = self.due.min(now);
        match self.busy.take() {
            Some(busy) if busy.number == number => self.finish(busy, now),
            busy if self.settings.has(Plant::BeforeSync) => {
                self.busy = busy;
                Ok(())
            }
            _ => Err(HostFault::NotAsked),
        }
    }

    /// What is to be done now: after something has happened, and at [`due`](Host::due).
    ///
    /// # Errors
    ///
    /// [`HostFault`]: the host has ended.
    ///
    /// ```
    /// # use epaxos::{Cluster, host::{Host, Settings}, service::MemoryDisk};
    /// # use std::time::Instant;
    /// # fn main() -> Result<(), Box<dyn std::error::Error>> {
    /// let now = Instant::now();
    /// let mut host = Host::begin(&Settings::new(Cluster::Three, 0), &MemoryDisk::default(), now)?;
    /// assert!(host.turn(now)?.writes.is_some()); // the log begins
    /// # Ok(()) }
    /// ```
    pub fn turn(&mut self, now: Instant) -> Result<Turn, HostFault> {
        self.tick(now);
        self.ping_peers(now);
        match self.acting {
            None => self.catch_up(now)?,
            Some(_) if self.busy.is_none() => match self.work(now) {
                // (who waits is answered before the host ends)
                Err(HostFault::Left(_)) if !self.out.replies.is_empty() => {
                    self.due = now;
                    return Ok(std::mem::take(&mut self.out));
                }
                done => done?,
            },
            Some(_) => {}
        }
        self.drop_left(now);
        if self.busy.is_none() && !self.acts.is_empty() {
            self.write(Vec::new(), Vec::new(), (false, None));
        }
        self.due = self.next_due(now);
        Ok(std::mem::take(&mut self.out))
    }

    /// Whether [`Turn::changes`] has what is written from now on. At first it hasn't.
    ///
    /// ```
    /// # use epaxos::{Cluster, host::{Host, Settings}, service::MemoryDisk};
    /// # use std::time::Instant;
    /// # fn main() -> Result<(), Box<dyn std::error::Error>> {
    /// let mut host = Host::begin(&Settings::new(Cluster::Three, 0), &MemoryDisk::default(), Instant::now())?;
    /// host.set_tells_changes(true);
    /// # Ok(()) }
    /// ```
    pub fn set_tells_changes(&mut self, reports: bool) {
        self.reports_changes = reports;
    }

    /// When the next turn is due, if nothing happens before.
    ///
    /// ```
    /// # use epaxos::{Cluster, host::{Host, Settings}, service::MemoryDisk};
    /// # use std::time::Instant;
    /// # fn main() -> Result<(), Box<dyn std::error::Error>> {
    /// let now = Instant::now();
    /// let mut host = Host::begin(&Settings::new(Cluster::Three, 0), &MemoryDisk::default(), now)?;
    /// host.turn(now)?;
    /// assert!(host.due() > now);
    /// # Ok(()) }
    /// ```
    pub fn due(&self) -> Instant {
        self.due
    }

    /// What the core can be asked, now that the disk has done all that it was given.
    fn work(&mut self, now: Instant) -> Result<(), HostFault> {
        self.answer_here()?;
        self.go_on(now)?;
        if self.busy.is_some() {
            return Ok(());
        }
        for (from, bytes) in self.progress.others.take_early(self.progress.generation.number) {
            self.hear(from, bytes, now)?;
        }
        self.hear_asked(now)?;
        if self.is_listening(now) {
            return Ok(());
        }
        self.read_all(now)?;
        let mut batch = self.take_pending(now);
        self.release(&mut batch, now);
        self.grant(now);
        self.seal(&mut batch, now);
        self.prepare_next();
        if !self.progress.generation.is_sealed() {
            self.look(now)?;
            self.remedy_late(&mut batch, now);
        }
        self.carry_out(batch, now)?;
        if self.busy.is_none() {
            self.look_again()?;
            self.answer_here()?;
            self.go_on(now)?;
        }
        Ok(())
    }

    /// Whether this start may still learn that its log is an older copy, before it has promised anything by it.
    fn is_listening(&self, now: Instant) -> bool {
        now < self.listens_until && !self.progress.peers().all(|peer| self.progress.others.was_heard(peer))
    }

    fn next_due(&self, now: Instant) -> Instant {
        let ping = self.progress.distances.due(now);
        let working = if self.acting.is_some() && self.busy.is_none() { self.next_work(now) } else { None };
        let behind = match (&self.going, &self.fetch) {
            _ if self.progress.generation.is_sealed() => None,
            (Some(going), _) => Some(going.due()),
            (None, Some(fetch)) => Some(fetch.due()),
            (None, None) => self.lag.due(),
        };
        [ping, working, behind].into_iter().flatten().fold(self.next_tick, Instant::min)
    }

    /// When there is something to ask the core next, if nothing happens before.
    fn next_work(&self, now: Instant) -> Option<Instant> {
        if self.is_listening(now) {
            return Some(self.listens_until);
        }
        let watch = if self.progress.generation.is_sealed() { None } else { self.progress.watch.next() };
        let execution = self.executions.is_due().then_some(self.next_execution);
        let is_closing = self.progress.generation.stage == Stage::Committed && self.executions.is_due();
        let sealed = self.progress.served_until().or(is_closing.then_some(now));
        let (calls, pending, asking) = (self.calls.due(), self.pending.due(), self.asking.map(|it| it.due()));
        [watch, execution, sealed, calls, pending, asking, self.reads.due()].into_iter().flatten().min()
    }

    fn send(&mut self, to: u8, bytes: Vec<u8>) {
        if self.progress.has_link(to) {
            self.out.frames.push((to, bytes));
        }
    }

    /// Once a second reports to the peers how far this replica is, and looks after what waits.
    fn tick(&mut self, now: Instant) {
        if now < self.next_tick {
            return;
        }
        self.next_tick = now + TICK;
        self.forget_gone(now);
        if !self.settings.has(Plant::GreetsOnce) {
            self.greet_all();
        }
        self.progress.watch.hear(self.reads.uncommitted(&self.progress));
        if let Some(acting) = &self.acting {
            self.progress.generation.log = acting.length;
        }
    }

    /// Learns which peers are reached, and pings those where that is due.
    fn ping_peers(&mut self, now: Instant) {
        for (peer, ping) in self.progress.look_at_peers(self.due, now) {
            self.send(peer, ping);
        }
    }

    /// Gives the disk these acts, and those that wait.
    fn write(
        &mut self,
        requests: Vec<Request>,
        done: Vec<Result<(), crate::Fault>>,
        (is_core, change): (bool, Option<Change>),
    ) {
        self.writes += 1;
        let acts = std::mem::take(&mut self.acts);
        self.counts.syncs += 1;
        self.busy = Some(Busy { number: self.writes, requests, done, is_core, change });
        self.out.writes = Some(Writes { number: self.writes, acts });
    }

    /// What the disk was given is done.
    fn finish(&mut self, busy: Busy, now: Instant) -> Result<(), HostFault> {
        let Busy { requests, done, is_core, change, .. } = busy;
        if let Some(acting) = self.acting.as_mut().filter(|_| is_core) {
            let is_observed = matches!(change, None | Some(Change::Sealed(..)));
            let mut outcome = acting.synced(self.reports_changes, self.observer.as_mut().filter(|_| is_observed))?;
            let mut proposed = std::mem::take(&mut outcome.proposed).into_iter();
            for (request, done) in requests.into_iter().zip(done) {
                self.accept((request, done), &mut proposed, now)?;
            }
            match &change {
                // (what was handed out before this start may be lost: it is sent again as anything that is lost is)
                Some(_) => _ = self.note_executed(outcome.executed),
                None => self.hand_out(outcome, now),
            }
        }
        match change {
            None => Ok(()),
            Some(change) => {
                if matches!(change, Change::Start | Change::Taken(..)) {
                    self.begin_observing()?;
                }
                self.begin_generation(change, now)
            }
        }
    }
}

fn check(settings: &Settings) -> Result<(), StartFault> {
    let is_well = settings.me < settings.cluster.replicas() && (1..=8_890).contains(&settings.numbers);
    if is_well { Ok(()) } else { Err(StartFault::OutOfRange) }
}

/// The numbers of a start.
fn ids(settings: &Settings, start: u32) -> Result<Ids, StartFault> {
    let seed = if settings.has(Plant::SameNumbers) { 0 } else { settings.seed };
    Ids::new(settings.me, start, &mut Random::from_seed(seed))
}
