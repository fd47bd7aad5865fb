//! A [`Host`] that runs: in a thread of its own, over links, a disk and a clock of yours, or over [TCP](TcpLink) and a
//! [folder](Folder).
//!
//! ```no_run
//! use epaxos::host::Settings;
//! use epaxos::service::{Folder, Service, Start, TcpLink};
//! use epaxos::{Cluster, OwnedCommand};
//!
//! # fn main() -> Result<(), Box<dyn std::error::Error>> {
//! let addresses = ["10.0.0.1:7000", "10.0.0.2:7000", "10.0.0.3:7000"];
//! let link = TcpLink::new(0, &addresses)?;
//! // At the first start of the cluster `Start::New`; at each later one `Start::Again`; of a machine that takes
//! // the place of one that is gone `Start::Join`.
//! // (a seed that differs at each replica and each start: their random waits do then)
//! let settings = Settings { seed: std::process::id().into(), ..Settings::new(Cluster::Three, 0) };
//! let service = Service::start(&settings, Start::New, Folder::open("/var/lib/mine")?, link)?;
//! service.call(OwnedCommand::Put { key: b"x".into(), value: b"1".into() })?;
//! assert_eq!(service.read(b"x")?, Some(b"1".into()));
//! # Ok(()) }
//! ```
//!
//! `examples/service.rs` is three processes, of which one is killed. For tests, [`Service::local`] starts a cluster
//! inside one process.
#![forbid(unsafe_code)]

mod call_fault;
mod clock;
mod disk;
mod folder;
#[cfg(feature = "async")]
mod futures;
mod inbox;
mod link;
mod local_link;
mod local_network;
mod memory_disk;
mod promise;
mod tcp_link;
mod watch;
mod watch_end;
mod watch_queue;
mod watched;
mod watcher;

pub use crate::host::Start;
pub use crate::parts::secret::KeyFault;
pub use call_fault::CallFault;
pub use clock::{Clock, SystemClock};
pub use disk::Disk;
pub use folder::Folder;
pub use inbox::Inbox;
pub use link::Link;
pub use local_link::LocalLink;
pub use local_network::LocalNetwork;
pub use memory_disk::MemoryDisk;
pub use tcp_link::TcpLink;
pub use watch::Watch;
pub use watch_end::WatchEnd;
pub use watched::Watched;

/// The key that the replicas of a cluster share, for [`TcpLink::seal`].
///
/// ```
/// use epaxos::service::Key;
///
/// let key = Key::of(b"32 bytes by chance, which nobody else has");
/// # let _ = key;
/// ```
pub type Key = crate::parts::sealed::Key<crate::parts::mac::Guard>;

use crate::host::{
    Act, Host, HostFault, Identity, Machine, Member, Name, Refusal, Reply, Settings, StartFault, Status, Told, Turn,
    Wish, Work,
};
use crate::parts::place::MOST_REPLICAS;
use crate::{Cluster, OwnedAnswer, OwnedCommand};
use inbox::Came;
use promise::{Awaited, Promise, promise};
use std::collections::BTreeMap;
use std::sync::mpsc::{Receiver, RecvTimeoutError, Sender, channel};
use std::thread::{self, JoinHandle};
use std::time::{Duration, Instant};
use watcher::{Watcher, Wish as WatchWish};

/// At most so many things that came are taken before a turn.
const MOST: usize = 512;
/// A host that is to end has so long for what is under way.
const ENDING: Duration = Duration::from_secs(5);

/// A host in a thread of its own. It may be called from any thread; who calls waits for the answer.
///
/// ```
/// use epaxos::service::Service;
/// use epaxos::{Cluster, OwnedCommand};
/// use std::thread;
///
/// # fn main() -> Result<(), Box<dyn std::error::Error>> {
/// let three = Service::local(Cluster::Three)?;
/// thread::scope(|scope| {
///     for (service, key) in three.iter().zip(["a", "b", "c"]) {
///         scope.spawn(move || service.call(OwnedCommand::Put { key: key.into(), value: b"1".into() }));
///     }
/// });
/// assert_eq!(three[0].read(b"c")?, Some(b"1".into()));
/// # Ok(()) }
/// ```
pub struct Service {
    inbox: Sender<Came>,
    thread: Option<JoinHandle<Result<(), HostFault>>>,
}

impl std::fmt::Debug for Service {
    fn fmt(&self, f: &mut std::fmt::Formatter) -> std::fmt::Result {
        f.debug_struct("Service").finish_non_exhaustive()
    }
}

impl Service {
    /// Starts a host by the system's clock.
    ///
    /// # Errors
    ///
    /// [`StartFault`] says why.
    ///
    /// ```
    /// use epaxos::Cluster;
    /// use epaxos::host::Settings;
    /// use epaxos::service::{LocalNetwork, MemoryDisk, Service, Start};
    ///
    /// # fn main() -> Result<(), Box<dyn std::error::Error>> {
    /// let (network, disk) = (LocalNetwork::new(Cluster::Three), MemoryDisk::default());
    /// let settings = Settings::new(Cluster::Three, 0);
    /// Service::start(&settings, Start::New, disk.clone(), network.link(0))?.stop()?;
    /// // it isn't new any more:
    /// assert!(Service::start(&settings, Start::New, disk.clone(), network.link(0)).is_err());
    /// Service::start(&settings, Start::Again, disk, network.link(0))?;
    /// # Ok(()) }
    /// ```
    pub fn start(settings: &Settings, start: Start, disk: impl Disk, link: impl Link) -> Result<Service, StartFault> {
        Service::start_by(settings, start, (disk, link), SystemClock)
    }

    /// Starts a new cluster inside this process, with disks in memory, all its replicas in their order: to test what
    /// stands on a service, also where a machine is slow. So it has a minute of
    /// [patience](crate::host::Settings::patience).
    ///
    /// # Errors
    ///
    /// [`StartFault`] says why.
    ///
    /// ```
    /// use epaxos::service::Service;
    /// use epaxos::{Cluster, OwnedAnswer, OwnedCommand};
    ///
    /// # fn main() -> Result<(), Box<dyn std::error::Error>> {
    /// let mut five = Service::local(Cluster::Five)?;
    /// five.truncate(3); // two of them end
    /// let put = OwnedCommand::Put { key: b"x".into(), value: b"1".into() };
    /// assert_eq!(five[0].call(put)?, OwnedAnswer::Absent);
    /// # Ok(()) }
    /// ```
    pub fn local(cluster: Cluster) -> Result<Vec<Service>, StartFault> {
        let start = |settings: &Settings, ends| Service::start_by(settings, Start::New, ends, SystemClock);
        local(cluster, start)
    }

    /// The same, each replica with a machine of its own, as [`Machine`] shows.
    ///
    /// # Errors
    ///
    /// [`StartFault`] says why.
    ///
    /// ```
    /// use epaxos::host::Machine;
    /// use epaxos::service::Service;
    /// use epaxos::{Cluster, OwnedCommand};
    ///
    /// /// What a machine replies to a command.
    /// fn reply<M: Machine>(new: fn() -> M, command: OwnedCommand) -> Result<Vec<u8>, Box<dyn std::error::Error>> {
    ///     Ok(Service::local_with(Cluster::Three, new)?[0].apply(command)?)
    /// }
    /// ```
    pub fn local_with<M: Machine>(cluster: Cluster, machine: impl Fn() -> M) -> Result<Vec<Service>, StartFault> {
        let start =
            |settings: &Settings, ends| Service::with_machine(settings, Start::New, ends, SystemClock, machine());
        local(cluster, start)
    }

    /// The same as [`start`](Service::start), by a clock of yours.
    ///
    /// # Errors
    ///
    /// [`StartFault`] says why.
    ///
    /// ```
    /// use epaxos::Cluster;
    /// use epaxos::host::Settings;
    /// use epaxos::service::{Clock, LocalNetwork, MemoryDisk, Service, Start};
    /// use std::time::Instant;
    ///
    /// /// A clock for a test, which goes on where the test began.
    /// struct Since(Instant);
    ///
    /// impl Clock for Since {
    ///     fn now(&self) -> Instant {
    ///         self.0 + self.0.elapsed()
    ///     }
    /// }
    ///
    /// # fn main() -> Result<(), Box<dyn std::error::Error>> {
    /// let ends = (MemoryDisk::default(), LocalNetwork::new(Cluster::Three).link(0));
    /// let settings = Settings::new(Cluster::Three, 0);
    /// Service::start_by(&settings, Start::New, ends, Since(Instant::now()))?.stop()?;
    /// # Ok(()) }
    /// ```
    pub fn start_by<D: Disk, L: Link>(
        settings: &Settings,
        start: Start,
        (disk, link): (D, L),
        clock: impl Clock,
    ) -> Result<Service, StartFault> {
        let host = Host::start(settings, start, &disk, None, clock.now())?;
        Service::run(host, (disk, link), clock)
    }

    /// The same, of a replica with a machine: [`Host::with_machine`]. [`apply`](Service::apply) has it do something.
    ///
    /// # Errors
    ///
    /// [`StartFault`] says why.
    ///
    /// ```
    /// use epaxos::host::{Machine, Ordered, Settings};
    /// use epaxos::service::{Clock, Folder, Service, Start, SystemClock, TcpLink};
    ///
    /// fn start(settings: &Settings, machine: impl Machine) -> Result<Service, Box<dyn std::error::Error>> {
    ///     let link = TcpLink::new(settings.me, &["10.0.0.1:7000", "10.0.0.2:7000", "10.0.0.3:7000"])?;
    ///     let ends = (Folder::open("/var/lib/mine")?, link);
    ///     Ok(Service::with_machine(settings, Start::Again, ends, SystemClock, machine)?)
    /// }
    /// ```
    pub fn with_machine<D: Disk, L: Link>(
        settings: &Settings,
        start: Start,
        (disk, link): (D, L),
        clock: impl Clock,
        machine: impl Machine,
    ) -> Result<Service, StartFault> {
        let host = Host::with_machine(settings, start, &disk, Box::new(machine), clock.now())?;
        Service::run(host, (disk, link), clock)
    }

    fn run<D: Disk, L: Link>(host: Host, (disk, mut link): (D, L), clock: impl Clock) -> Result<Service, StartFault> {
        let (inbox, came) = channel();
        link.start(Inbox(inbox.clone()))?;
        let (waiting, token, own) = (BTreeMap::new(), 0, inbox.clone());
        let (watches, workers) = (Watches::default(), Vec::new());
        let driver =
            Driver { host, disk, link, clock, own, waiting, token, watches, workers, addressed: 0, ends_at: None };
        let thread = thread::Builder::new().name("epaxos".into()).spawn(move || driver.run(&came))?;
        Ok(Service { inbox, thread: Some(thread) })
    }

    /// Has a command done, and waits until it is: its answer. A command over many keys that didn't find what it
    /// requires is answered too, by [`Undone`](crate::Answer::Undone).
    ///
    /// # Errors
    ///
    /// [`CallFault`] says whether it may have been done.
    ///
    /// ```
    /// use epaxos::service::Service;
    /// use epaxos::{Cluster, Command, OwnedAnswer};
    ///
    /// # fn main() -> Result<(), Box<dyn std::error::Error>> {
    /// let three = Service::local(Cluster::Three)?;
    /// // a lock is taken where nobody has it:
    /// let take = |owner| Command::Cas { key: b"lock", expected: None, new: Some(owner) }.to_owned();
    /// assert_eq!(three[0].call(take(b"ann"))?, OwnedAnswer::Absent);
    /// assert_eq!(three[1].call(take(b"ben"))?, OwnedAnswer::Present(b"ann".into()));
    /// # Ok(()) }
    /// ```
    pub fn call(&self, command: OwnedCommand) -> Result<OwnedAnswer, CallFault> {
        answer(self.ask(|reply| Came::Call(command, reply)).wait())
    }

    /// Has the [`Machine`] do an opaque command, and waits until it has: what it replied.
    ///
    /// # Errors
    ///
    /// [`CallFault`] says whether it may have been done. [`CallFault::DoneUnseen`] where there is no machine, or the
    /// command isn't opaque, too.
    ///
    /// ```
    /// use epaxos::OwnedCommand;
    /// use epaxos::service::{CallFault, Service};
    ///
    /// /// What a machine says of an account, which understands "balance".
    /// fn balance(service: &Service, account: &str) -> Result<Vec<u8>, CallFault> {
    ///     let (first, second, body) = (account.into(), None, b"balance".into());
    ///     service.apply(OwnedCommand::Opaque { is_reading: true, first, second, body })
    /// }
    /// ```
    pub fn apply(&self, command: OwnedCommand) -> Result<Vec<u8>, CallFault> {
        replied(self.ask(|reply| Came::Call(command, reply)).wait())
    }

    /// What a key has, after all that was answered before anywhere. Nothing is written for it.
    ///
    /// # Errors
    ///
    /// [`CallFault::Refused`], [`CallFault::Ended`].
    ///
    /// ```
    /// # use epaxos::{Cluster, service::Service};
    /// # fn main() -> Result<(), Box<dyn std::error::Error>> {
    /// let three = Service::local(Cluster::Three)?;
    /// assert_eq!(three[2].read(b"x")?, None);
    /// # Ok(()) }
    /// ```
    pub fn read(&self, key: &[u8]) -> Result<Option<Vec<u8>>, CallFault> {
        value(self.ask(|reply| Came::Read(key.to_vec(), reply)).wait())
    }

    /// What a key has at this replica, after all that it knows to be committed: without the others, so it may be old.
    ///
    /// # Errors
    ///
    /// [`CallFault::Refused`], [`CallFault::Ended`].
    ///
    /// ```
    /// # use epaxos::{Cluster, service::Service};
    /// # fn main() -> Result<(), Box<dyn std::error::Error>> {
    /// let three = Service::local(Cluster::Three)?;
    /// assert_eq!(three[2].read_here(b"x")?, None);
    /// # Ok(()) }
    /// ```
    pub fn read_here(&self, key: &[u8]) -> Result<Option<Vec<u8>>, CallFault> {
        value(self.ask(|reply| Came::ReadHere(Some(key.to_vec()), reply)).wait())
    }

    /// The same of all keys, in their order.
    ///
    /// # Errors
    ///
    /// [`CallFault::Refused`], [`CallFault::Ended`].
    ///
    /// ```
    /// # use epaxos::{Cluster, OwnedCommand, service::Service};
    /// # fn main() -> Result<(), Box<dyn std::error::Error>> {
    /// let three = Service::local(Cluster::Three)?;
    /// three[0].call(OwnedCommand::Put { key: b"x".into(), value: b"1".into() })?;
    /// assert_eq!(three[0].read_all_here()?, [(b"x".to_vec(), b"1".to_vec())]);
    /// # Ok(()) }
    /// ```
    pub fn read_all_here(&self) -> Result<Vec<(Vec<u8>, Vec<u8>)>, CallFault> {
        match self.ask(|reply| Came::ReadHere(None, reply)).wait().ok_or(CallFault::Ended)? {
            Told::All(all) => Ok(all),
            Told::Refused(refusal) => Err(CallFault::Refused(refusal)),
            _ => Err(CallFault::Doubtful),
        }
    }

    /// Watches a key, or the keys of a prefix: what they have, and from then on each write that this replica executes,
    /// whoever asked for it. At most `most` changes wait to be taken, of up to 65,790 bytes each: who lets more come
    /// learns that the watch has [ended](WatchEnd::Lagged), and watches again.
    ///
    /// A key is read first, so that the watch begins with all that was answered before anywhere. A prefix begins with
    /// what this replica has: what it hasn't executed yet comes as a change. Those of one key come in the same order at
    /// all replicas; those of different keys needn't. A write of what a key has already is a change too.
    ///
    /// Where the replica falls so far behind that it takes the opening of a later generation from a peer, it doesn't
    /// know by which commands the keys came to what they have: each watch [ends](WatchEnd::Skipped) there.
    ///
    /// # Errors
    ///
    /// [`CallFault::Refused`], [`CallFault::Ended`].
    ///
    /// ```
    /// use epaxos::service::{Service, Watched};
    /// use epaxos::{Cluster, OwnedCommand};
    ///
    /// # fn main() -> Result<(), Box<dyn std::error::Error>> {
    /// let three = Service::local(Cluster::Three)?;
    /// let watch = three[2].watch(Watched::Prefix(b"task/".into()), 1_000)?;
    /// three[0].call(OwnedCommand::Put { key: b"task/1".into(), value: b"sweep".into() })?;
    /// three[0].call(OwnedCommand::Del { key: b"task/1".into() })?;
    /// assert_eq!(watch.next()?.value, Some(b"sweep".into()));
    /// assert_eq!(watch.next()?.value, None);
    /// # Ok(()) }
    /// ```
    pub fn watch(&self, watched: Watched, most: usize) -> Result<Watch, CallFault> {
        self.ask(|reply| Came::Watch(WatchWish { watched, most, reply })).wait().unwrap_or(Err(CallFault::Ended))
    }

    /// Wishes the next generation to be another one, and waits until it is: the number of the generation since which
    /// it is so. A machine that waits to be let in takes the place of one that is gone, or there are 3, 5 or 7 replicas
    /// from then on. [`Host::wish`] says what is granted.
    ///
    /// Machines are named by their identities ([`Settings::identity`]; a [`Folder`] keeps one), and where they come to
    /// a link by their addresses. A machine waits once it is started by [`Start::Join`]; it says so to its peers once a
    /// second, and [`waiting_machines`](Service::waiting_machines) lists it.
    ///
    /// # Errors
    ///
    /// [`CallFault::Refused`], [`CallFault::Ended`].
    ///
    /// ```
    /// use epaxos::host::{Settings, Wish};
    /// use epaxos::service::{LocalNetwork, MemoryDisk, Service, Start};
    /// use epaxos::Cluster;
    ///
    /// # fn main() -> Result<(), Box<dyn std::error::Error>> {
    /// let network = LocalNetwork::new(Cluster::Five);
    /// let start = |cluster, me: u8, start| {
    ///     let settings = Settings { seed: me.into(), identity: Some([me; 16]), ..Settings::new(cluster, me) };
    ///     Service::start(&settings, start, MemoryDisk::default(), network.link(me))
    /// };
    /// let three = (0..3).map(|me| start(Cluster::Three, me, Start::New)).collect::<Result<Vec<_>, _>>()?;
    /// let two = (3..5).map(|me| start(Cluster::Five, me, Start::Join)).collect::<Result<Vec<_>, _>>()?;
    /// while three[0].waiting_machines()?.len() < 2 || three[0].status()?.is_alone {
    ///     std::thread::sleep(std::time::Duration::from_millis(10));
    /// }
    /// let generation = three[0].wish(Wish::Resize { size: 5, new: vec![(3, [3; 16], None), (4, [4; 16], None)] })?;
    /// assert!(generation >= 2 && three[0].members()?.len() == 5);
    /// # drop(two);
    /// # Ok(()) }
    /// ```
    pub fn wish(&self, wish: Wish) -> Result<u32, CallFault> {
        changed(self.ask(|reply| Came::Wish(wish, reply)).wait())
    }

    /// Who takes part in the present generation, as far as this replica knows, by number.
    ///
    /// # Errors
    ///
    /// [`CallFault::Ended`].
    ///
    /// ```
    /// # use epaxos::{Cluster, service::Service};
    /// # fn main() -> Result<(), Box<dyn std::error::Error>> {
    /// assert_eq!(Service::local(Cluster::Three)?[0].members()?.len(), 3);
    /// # Ok(()) }
    /// ```
    pub fn members(&self) -> Result<Vec<Member>, CallFault> {
        self.ask(Came::Members).wait().map(|(members, _)| members).ok_or(CallFault::Ended)
    }

    /// The machines that wait to be let in, each with the number that it is to have. Each has said so within 5 s.
    ///
    /// # Errors
    ///
    /// [`CallFault::Ended`].
    ///
    /// ```
    /// # use epaxos::{Cluster, service::Service};
    /// # fn main() -> Result<(), Box<dyn std::error::Error>> {
    /// assert!(Service::local(Cluster::Three)?[0].waiting_machines()?.is_empty());
    /// # Ok(()) }
    /// ```
    pub fn waiting_machines(&self) -> Result<Vec<(u8, Identity)>, CallFault> {
        self.ask(Came::Members).wait().map(|(_, waiting)| waiting).ok_or(CallFault::Ended)
    }

    /// How the host is.
    ///
    /// # Errors
    ///
    /// [`CallFault::Ended`].
    ///
    /// ```
    /// # use epaxos::{Cluster, service::Service};
    /// # fn main() -> Result<(), Box<dyn std::error::Error>> {
    /// let three = Service::local(Cluster::Three)?;
    /// assert_eq!(three[0].status()?.generation, 1);
    /// # Ok(()) }
    /// ```
    pub fn status(&self) -> Result<Status, CallFault> {
        self.ask(Came::Status).wait().ok_or(CallFault::Ended)
    }

    /// Asks the host's thread; what it answers is waited for.
    fn ask<T>(&self, what: impl FnOnce(Promise<T>) -> Came) -> Awaited<T> {
        let (reply, outcome) = promise();
        // (where the host has ended the promise is dropped, which ends the wait)
        let _ = self.inbox.send(what(reply));
        outcome
    }

    /// Ends it, and waits until it has ended: once what is under way is done, or after five seconds; who asks
    /// meanwhile is [refused](Refusal::Ending). What was answered stays. Dropping it ends it at once, and what waits
    /// isn't answered.
    ///
    /// # Errors
    ///
    /// With what the host had ended before, if it had.
    ///
    /// ```
    /// # use epaxos::{Cluster, service::Service};
    /// # fn main() -> Result<(), Box<dyn std::error::Error>> {
    /// for service in Service::local(Cluster::Three)? {
    ///     service.stop()?;
    /// }
    /// # Ok(()) }
    /// ```
    pub fn stop(mut self) -> Result<(), HostFault> {
        let _ = self.inbox.send(Came::Stop);
        self.thread
            .take()
            .map_or(Ok(()), |thread| thread.join().unwrap_or_else(|panic| std::panic::resume_unwind(panic)))
    }
}

impl Drop for Service {
    fn drop(&mut self) {
        let _ = self.inbox.send(Came::End);
        self.thread.take().map(JoinHandle::join);
    }
}

/// What somebody who called is answered.
fn answer(outcome: Option<Told>) -> Result<OwnedAnswer, CallFault> {
    match outcome.ok_or(CallFault::Ended)? {
        Told::Done(answer) => Ok(answer),
        Told::Replied(_) => Ok(OwnedAnswer::Ordered),
        Told::DoneUnseen => Err(CallFault::DoneUnseen),
        Told::Refused(refusal) => Err(CallFault::Refused(refusal)),
        Told::Doubtful | Told::Value(_) | Told::All(_) | Told::Changed(_) => Err(CallFault::Doubtful),
    }
}

/// What somebody who had the machine do something is answered.
fn replied(outcome: Option<Told>) -> Result<Vec<u8>, CallFault> {
    match outcome.ok_or(CallFault::Ended)? {
        Told::Replied(reply) => Ok(reply),
        Told::Done(_) | Told::DoneUnseen => Err(CallFault::DoneUnseen),
        Told::Refused(refusal) => Err(CallFault::Refused(refusal)),
        Told::Doubtful | Told::Value(_) | Told::All(_) | Told::Changed(_) => Err(CallFault::Doubtful),
    }
}

/// The replicas of a new cluster inside this process.
fn local(
    cluster: Cluster,
    start: impl Fn(&Settings, (MemoryDisk, LocalLink)) -> Result<Service, StartFault>,
) -> Result<Vec<Service>, StartFault> {
    let network = LocalNetwork::new(cluster);
    let begin = |me: u8| {
        let patience = Duration::from_secs(60);
        let settings = Settings { seed: me.into(), patience, ..Settings::new(cluster, me) };
        start(&settings, (MemoryDisk::default(), network.link(me)))
    };
    (0..cluster.replicas()).map(begin).collect()
}

/// What somebody who read is answered.
fn value(outcome: Option<Told>) -> Result<Option<Vec<u8>>, CallFault> {
    match outcome.ok_or(CallFault::Ended)? {
        Told::Value(value) => Ok(value),
        Told::Refused(refusal) => Err(CallFault::Refused(refusal)),
        _ => Err(CallFault::Doubtful),
    }
}

/// What somebody who wished something is answered.
fn changed(outcome: Option<Told>) -> Result<u32, CallFault> {
    match outcome.ok_or(CallFault::Ended)? {
        Told::Changed(generation) => Ok(generation),
        Told::Refused(refusal) => Err(CallFault::Refused(refusal)),
        _ => Err(CallFault::Doubtful),
    }
}

/// What the thread has.
struct Driver<D, L, C> {
    host: Host,
    disk: D,
    link: L,
    clock: C,
    own: Sender<Came>,
    /// Who waits, by number.
    waiting: BTreeMap<u64, Promise<Told>>,
    token: u64,
    watches: Watches,
    /// The threads that do something in the background.
    workers: Vec<JoinHandle<()>>,
    /// The generation whose members' addresses the link has; 0 before the first one.
    addressed: u32,
    /// Until when it ends, where it is to.
    ends_at: Option<Instant>,
}

/// Who watches.
#[derive(Default)]
struct Watches {
    all: Vec<Watcher>,
    /// Who watches a key once it is read, by the read's number.
    reading: BTreeMap<u64, WatchWish>,
    /// Who watches a prefix from the next turn on.
    next: Vec<WatchWish>,
}

impl Watches {
    fn is_empty(&self) -> bool {
        self.all.is_empty() && self.reading.is_empty() && self.next.is_empty()
    }
}

impl<D: Disk, L: Link, C: Clock> Driver<D, L, C> {
    /// Runs until it ends; then nothing uses the disk any more.
    fn run(mut self, came: &Receiver<Came>) -> Result<(), HostFault> {
        let done = self.serve(came);
        let workers = std::mem::take(&mut self.workers);
        // (who waits for something is answered first)
        drop(self);
        workers.into_iter().for_each(|worker| _ = worker.join());
        done
    }

    fn serve(&mut self, came: &Receiver<Came>) -> Result<(), HostFault> {
        loop {
            self.turn()?;
            let now = self.clock.now();
            if self.host.is_ended() || self.ends_at.is_some_and(|at| now >= at) {
                return Ok(());
            }
            let wait = self.ends_at.map_or(self.host.due(), |at| at.min(self.host.due()));
            let wait = wait.saturating_duration_since(now);
            let mut next = match came.recv_timeout(wait) {
                Ok(first) => Some(first),
                Err(RecvTimeoutError::Timeout) => None,
                Err(RecvTimeoutError::Disconnected) => return Ok(()),
            };
            let mut count = 0;
            while let Some(one) = next {
                if matches!(one, Came::End) {
                    return Ok(());
                }
                self.take(one)?;
                count += 1;
                next = if count < MOST { came.try_recv().ok() } else { None };
            }
        }
    }

    fn take(&mut self, came: Came) -> Result<(), HostFault> {
        let now = self.clock.now();
        match came {
            Came::Opened(peer) => self.host.link_opened(peer, now),
            Came::Lost(peer) => self.host.link_lost(peer, now),
            Came::From(peer, bytes) => self.host.receive(peer, bytes, now)?,
            Came::Call(command, reply) => {
                let token = self.wait(reply);
                self.host.call(token, command, now);
            }
            Came::Read(key, reply) => {
                let token = self.wait(reply);
                self.host.read(token, key, now);
            }
            Came::ReadHere(key, reply) => {
                let token = self.wait(reply);
                match key {
                    Some(key) => self.host.read_here(token, key, now),
                    None => self.host.read_all_here(token, now),
                }
            }
            Came::Status(reply) => reply.send(self.host.status()),
            Came::Watch(wish) => self.watch(wish, now),
            Came::Wish(wish, reply) => {
                let token = self.wait(reply);
                self.host.wish(token, wish, now);
            }
            Came::Members(reply) => reply.send((self.host.members(), self.host.waiting_machines())),
            Came::Written(generation, digest, bytes) => self.host.opening_written(generation, &digest, bytes, now),
            Came::NotWritten(generation) => self.host.opening_failed(generation, now),
            Came::Part(generation, offset, part) => self.host.opening_read(generation, offset, part, now),
            Came::LetGo(generation, checkpoint) => self.host.let_go(generation, checkpoint, now),
            Came::Gathered(number, bytes) => self.host.gathered(number, bytes, now),
            Came::Followed(generation, opening) => self.host.followed(generation, opening, now),
            Came::Stop => {
                self.host.end(now);
                self.ends_at = Some(now + ENDING);
            }
            Came::End => {}
        }
        Ok(())
    }

    fn wait(&mut self, reply: Promise<Told>) -> u64 {
        self.token += 1;
        self.waiting.insert(self.token, reply);
        self.token
    }

    /// Has turns while the disk has something to do for the host.
    fn turn(&mut self) -> Result<(), HostFault> {
        loop {
            let begun = self.begin_prefixes();
            let turn = self.host.turn(self.clock.now())?;
            self.meet();
            let Turn { frames, writes, replies, receipts, work, changes, lacks_changes, .. } = turn;
            if !receipts.is_empty() {
                self.disk.keep_receipts(&receipts).map_err(HostFault::Disk)?;
            }
            self.watches.all.retain(|watcher| watcher.report(&changes));
            self.watches.all.extend(begun);
            for Reply { token, told: outcome } in replies {
                match self.watches.reading.remove(&token) {
                    Some(wish) => self.begin_key(wish, outcome),
                    None => _ = self.waiting.remove(&token).map(|reply| reply.send(outcome)),
                }
            }
            if lacks_changes {
                self.watches.all.drain(..).for_each(|watcher| watcher.skip());
            }
            self.host.set_tells_changes(!self.watches.is_empty());
            let mut for_each: [Vec<Vec<u8>>; MOST_REPLICAS as usize] = Default::default();
            for (to, bytes) in frames {
                if let Some(all) = for_each.get_mut(usize::from(to)) {
                    all.push(bytes);
                }
            }
            let sent = (0..).zip(for_each).filter(|(_, all)| !all.is_empty());
            sent.for_each(|(to, all)| self.link.send_several(to, all));
            work.into_iter().for_each(|work| self.begin(work));
            let Some(writes) = writes else { return Ok(()) };
            // (whatever happens then, nothing more is answered: nobody knows what the disk has)
            self.disk.carry_out(&writes.acts).map_err(HostFault::Disk)?;
            self.host.synced(writes.number, self.clock.now())?;
        }
    }

    /// The link learns where the members of a generation are, once it has begun.
    fn meet(&mut self) {
        let generation = self.host.generation();
        if generation == self.addressed {
            return;
        }
        self.addressed = generation;
        for (peer, member) in (0..).zip(self.host.members()) {
            member.address.into_iter().for_each(|address| self.link.set_address(peer, address));
        }
    }

    /// Somebody wants to watch. All changes are reported from here on, so that none is left out behind the begin.
    fn watch(&mut self, wish: WatchWish, now: Instant) {
        self.host.set_tells_changes(true);
        match &wish.watched {
            Watched::Key(key) => {
                self.token += 1;
                self.host.read(self.token, key.clone(), now);
                self.watches.reading.insert(self.token, wish);
            }
            Watched::Prefix(_) => self.watches.next.push(wish),
        }
    }

    /// A key was read, which has all that was reported in earlier turns, and in this one.
    fn begin_key(&mut self, wish: WatchWish, outcome: Told) {
        match (outcome, &wish.watched) {
            (Told::Value(value), Watched::Key(key)) => {
                let values = value.map(|value| (key.clone(), value)).into_iter().collect();
                self.watches.all.push(wish.begin(values));
            }
            (Told::Refused(refusal), _) => wish.refuse(CallFault::Refused(refusal)),
            _ => wish.refuse(CallFault::Doubtful),
        }
    }

    /// Who watches a prefix from here on. What the next turn reports is in the map already: the disk has nothing to do
    /// before that turn.
    fn begin_prefixes(&mut self) -> Vec<Watcher> {
        let wishes = std::mem::take(&mut self.watches.next);
        if wishes.is_empty() {
            return Vec::new();
        }
        let refusal = match self.host.contents() {
            Ok(all) => {
                let begin = |wish: WatchWish| {
                    let own = all.iter().filter(|(key, _)| wish.watched.has(key));
                    let values = own.cloned().collect();
                    wish.begin(values)
                };
                return wishes.into_iter().map(begin).collect();
            }
            Err(_) if self.host.status().generation == 0 => Refusal::Joining,
            Err(fault) => Refusal::Fault(fault),
        };
        wishes.into_iter().for_each(|wish| wish.refuse(CallFault::Refused(refusal.clone())));
        Vec::new()
    }

    /// Has something done in the background. Where the disk refuses it, nothing comes of it: the logs are there.
    fn begin(&mut self, work: Work) {
        let (mut disk, own) = (self.disk.clone(), self.own.clone());
        let run = move || match work {
            Work::Write { generation, machine, checkpoint } => {
                let put = machine.map(|bytes| Act::Put { generation, name: Name::Machine, bytes });
                let written = disk.carry_out(put.as_slice()).and_then(|()| disk.write_opening(generation, checkpoint));
                let _ = own.send(match written {
                    Ok((digest, bytes)) => Came::Written(generation, digest, bytes),
                    Err(_) => Came::NotWritten(generation),
                });
            }
            Work::Prepare { generation } => _ = disk.prepare(generation),
            Work::Read { generation, offset, length } => {
                if let Ok(part) = disk.read_opening(generation, offset, length) {
                    let _ = own.send(Came::Part(generation, offset, part));
                }
            }
            Work::LetGo { generation, mut checkpoint } => {
                checkpoint.let_go();
                let _ = own.send(Came::LetGo(generation, checkpoint));
            }
            Work::Gather { number, spans } => {
                let read = spans.iter().map(|span| disk.read_span(span)).collect::<Result<Vec<_>, _>>();
                let _ = own.send(Came::Gathered(number, read.ok().map(|all| all.concat())));
            }
            Work::Follow { generation, trail } => {
                let _ = own.send(Came::Followed(generation, trail.opening().ok()));
            }
        };
        self.workers.retain(|worker| !worker.is_finished());
        self.workers.extend(thread::Builder::new().name("opening".into()).spawn(run));
    }
}
