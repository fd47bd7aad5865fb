//! A replica.
#![forbid(unsafe_code)]

use crate::followed::Followed;
use crate::lent::Lent;
use crate::library::{Library, SAID};
use crate::own_log::OwnLog;
use crate::past::Past;
use crate::question::{self, Question};
use crate::report::Report;
use crate::{
    Begin, Call, Checkpoint, CloseFault, Cluster, Command, Contents, Event, Fault, Instance, LONGEST_KEY, MOST_FOUND,
    OpenFault, OutOfRange, Output, OwnedReading, Reading, Ready, Reference, Setup, State, SucceedFault, Succession,
    Written,
};
use std::cell::Cell;
use std::fmt;
use std::marker::PhantomData;

/// One replica. It takes what happens, and returns what is to be done, once what it took is on the disk. See [the
/// crate's page](crate).
///
/// Its log comes first: before [`ready`](Replica::ready) and [`commit`](Ready::commit) nothing is taken ([`Fault::Unsynced`]). In the examples here the log is a
/// `Vec<u8>`, in memory; a program has a [`LogFile`](crate::LogFile), or a [`Log`](crate::Log) of its own.
///
/// It is [`Send`] and not [`Sync`]: it lives on one thread at a time, and every call takes `&mut self`.
///
/// ```
/// fn is_send<T: Send>() {}
/// is_send::<epaxos::Replica>();
/// ```
///
/// ```compile_fail
/// fn is_sync<T: Sync>() {}
/// is_sync::<epaxos::Replica>();
/// ```
pub struct Replica {
    library: Library,
    /// How many entries were reported.
    reported: u32,
    cut: u64,
    own_log: OwnLog,
    /// How many bytes it has once what is lent is written.
    end: u64,
    /// Whether what there is to report of that was made.
    is_begun: bool,
    /// How many replicas there are.
    replicas: u8,
    is_alone: PhantomData<Cell<()>>,
}

impl fmt::Debug for Replica {
    fn fmt(&self, f: &mut fmt::Formatter) -> fmt::Result {
        f.debug_struct("Replica").field("told", &self.reported).finish_non_exhaustive()
    }
}

impl Replica {
    /// The replica of this number in a new cluster, before any event. Its log comes first: [`ready`](Replica::ready) lends its beginning, and nothing is taken
    /// before that is on the disk ([`commit`](Ready::commit)).
    ///
    /// # Errors
    ///
    /// [`OpenFault::OutOfRange`] where the number isn't below the cluster's size; [`OpenFault::Memory`].
    ///
    /// ```
    /// use epaxos::{Cluster, Replica};
    ///
    /// let replica = Replica::new(Cluster::Three, 0)?;
    /// # drop(replica);
    /// # Ok::<(), epaxos::OpenFault>(())
    /// ```
    pub fn new(cluster: Cluster, me: u8) -> Result<Replica, OpenFault> {
        Setup::new(cluster, me).begin()
    }

    /// The replica that this log is of, as if it had never stopped; the log is all that its file has. What was handed out is there again, and what
    /// wasn't synced is gone, as if it had never come. As with [`new`](Replica::new) the log comes first: it is written anew.
    ///
    /// # Errors
    ///
    /// [`OpenFault`] says why this log can't be gone on from.
    ///
    /// ```
    /// use epaxos::{Call, Cluster, Command, Replica};
    ///
    /// let mut log = Vec::new();
    /// {
    ///     let mut replica = Replica::new(Cluster::Three, 0)?;
    ///     replica.ready()?.commit(&mut log)?;
    ///     replica.propose(Call::new(1, 1), Command::Put { key: b"x", value: b"1" })?;
    ///     replica.ready()?.commit(&mut log)?;
    /// }
    /// log.extend(b"torn");
    /// let mut replica = Replica::open(Cluster::Three, 0, &log)?;
    /// assert_eq!(replica.cut(), 4);
    /// let output = replica.ready_with_open(1)?.commit(&mut log)?;
    /// assert_eq!(output.open().next().unwrap().instance.to_string(), "0.1");
    /// # Ok::<(), Box<dyn std::error::Error>>(())
    /// ```
    pub fn open(cluster: Cluster, me: u8, log: &[u8]) -> Result<Replica, OpenFault> {
        Setup::new(cluster, me).open(log)
    }

    pub(crate) fn begun(setup: &Setup, log: Option<&[u8]>) -> Result<Replica, OpenFault> {
        let Setup { cluster, me, opening, reference, told: reported } = *setup;
        if me >= cluster.replicas() {
            return Err(OpenFault::OutOfRange);
        }
        let begin = Begin { cluster, me, opening, reference, log };
        if let Some(reference) = reference {
            begin.check(&reference)?;
        }
        let mut library = Library::open(&begin)?;
        let Past { reported, cut } = Past::of(log, library.cut()?, reported)?;
        Ok(Replica {
            library,
            reported,
            cut,
            own_log: OwnLog::of(&begin),
            end: 0,
            is_begun: false,
            replicas: cluster.replicas(),
            is_alone: PhantomData,
        })
    }

    /// How many bytes were left out behind the last whole record of the log that was opened: what a crash has left.
    /// Report it to whoever runs the replica.
    ///
    /// ```
    /// # use epaxos::{Cluster, Replica};
    /// assert_eq!(Replica::new(Cluster::Three, 0)?.cut(), 0);
    /// # Ok::<(), epaxos::OpenFault>(())
    /// ```
    pub fn cut(&self) -> u64 {
        self.cut
    }

    /// The reference to this replica's log as it is, with this SHA-256, by which the next generation, of this cluster, begins: for [`succeed`](Replica::succeed). Its bytes
    /// have to be on the disk before the log of the next generation is.
    ///
    /// # Errors
    ///
    /// [`OutOfRange`]: no generation is left, or the log isn't on the disk yet.
    ///
    /// ```
    /// use epaxos::{Cluster, Replica, Sum};
    ///
    /// let mut log = Vec::new();
    /// let mut replica = Replica::new(Cluster::Three, 0)?;
    /// replica.ready()?.commit(&mut log)?;
    /// let reference = replica.reference(Cluster::Five, Sum::of(&log))?;
    /// assert_eq!((reference.generation(), reference.length()), (2, 43));
    /// assert!(reference.is_to(&log));
    /// # Ok::<(), Box<dyn std::error::Error>>(())
    /// ```
    pub fn reference(&self, next: Cluster, sum: [u8; 32]) -> Result<Reference, OutOfRange> {
        let generation = self.own_log.generation.checked_add(1).ok_or(OutOfRange)?;
        Reference::new(next, generation, self.own_log.bytes, sum)
    }

    /// Goes on in the next generation, once a seal was executed here and all that was taken is on the disk and reported (what isn't reported is dropped): the replica is then that of the next one, with the map
    /// as it is, of which nothing is copied. As after [`new`](Replica::new) its log comes first, a log of its own, whose header names the reference's digest.
    /// So the map is on the disk by the reference; write the file when there is time: the [`Checkpoint`] gives it in pieces, to any thread.
    ///
    /// The order on the disk, for generation G + 1: [`Reference::bytes`] as `G+1/reference`, synced, with its folder; then this call, whose [`ready`](Replica::ready) lends the
    /// header of `G+1/log`; then the mark `G/left`, which says G + 1; and only then [`commit`](Ready::commit), or [`written`](Replica::written), by which the new
    /// generation reports anything. The file comes later: `G+1/opening`, and once that is synced,
    /// [`Reference::binding`] as `G+1/whole`. Then what is older may go.
    ///
    /// After a start the same call leads from the last whole opening through the generations since, each with its log: the replica of the first is opened with as many bytes of
    /// its log as the next reference names, which have its SHA-256 ([`Reference::is_to`]), is said to have them on the disk
    /// ([`assume_synced`](Ready::assume_synced)), and goes on with the log of the next ([`Succession::log`]).
    ///
    /// # Errors
    ///
    /// [`SucceedFault`]: but for [`Memory`](SucceedFault::Memory) and [`Log`](SucceedFault::Log), by which the replica is gone, it is as it was.
    ///
    /// ```
    /// use epaxos::{Call, Cluster, Command, Instance, Replica, Succession, SucceedFault, Sum};
    ///
    /// # fn main() -> Result<(), Box<dyn std::error::Error>> {
    /// # let (mut log, mut log_of_one) = (Vec::new(), Vec::new());
    /// let mut zero = Replica::new(Cluster::Three, 0)?;
    /// let mut one = Replica::new(Cluster::Three, 1)?;
    /// zero.ready()?.commit(&mut log)?;
    /// one.ready()?.commit(&mut log_of_one)?;
    /// let reference = zero.reference(Cluster::Three, Sum::of(&log))?;
    /// assert_eq!(zero.succeed(&Succession::new(reference, 0)).unwrap_err(), SucceedFault::NotSealed);
    ///
    /// zero.propose(Call::new(1, 1), Command::Seal { value: b"" })?;
    /// # for frame in zero.ready()?.commit(&mut log)?.frames() { one.handle(frame.bytes)?; }
    /// # for frame in one.ready()?.commit(&mut log_of_one)?.frames() { zero.handle(frame.bytes)?; }
    /// // .. once it is committed:
    /// zero.execute_all()?;
    /// assert!(zero.ready()?.commit(&mut log)?.is_sealed());
    ///
    /// let reference = zero.reference(Cluster::Three, Sum::of(&log))?;         // (a host adds to a Sum what it writes)
    /// // .. reference.bytes() is on the disk:
    /// let checkpoint = zero.succeed(&Succession::new(reference, 0))?;
    /// let mut log = Vec::new();                                               // that of generation 2
    /// zero.ready()?.commit(&mut log)?;
    /// assert_eq!(zero.state()?.generation, 2);
    ///
    /// // and when there is time, in another thread:
    /// let mut opening = Vec::new();
    /// let digest = checkpoint.write(&mut opening)?;
    /// assert!(opening.ends_with(&digest));
    /// # Ok(()) }
    /// ```
    pub fn succeed(&mut self, succession: &Succession) -> Result<Checkpoint, SucceedFault> {
        let Succession { reference, me, log, told: reported } = *succession;
        let cluster = reference.cluster();
        if self.is_begun {
            return Err(SucceedFault::Unsynced);
        }
        if me >= cluster.replicas() {
            return Err(SucceedFault::OutOfRange);
        }
        let own = &self.own_log;
        if Some(reference.generation()) != own.generation.checked_add(1) || reference.length() != own.bytes {
            return Err(SucceedFault::OtherReference);
        }
        if log.is_some_and(<[u8]>::is_empty) {
            return Err(SucceedFault::Log(OpenFault::NoLog));
        }
        // (what a crash has left may look like a record, which the library alone knows)
        Past::of(log, 0, reported).map_err(SucceedFault::Log)?;
        let checkpoint = Checkpoint::of(self.library.succeed(succession)?);
        let past = self.library.cut().and_then(|cut| Past::of(log, cut, reported));
        let past = past.inspect_err(|_| self.library.end()).map_err(SucceedFault::Log)?;
        (self.reported, self.cut) = (past.reported, past.cut);
        (self.own_log, self.end) = (OwnLog::begun(me, reference.generation(), log), 0);
        self.replicas = cluster.replicas();
        Ok(checkpoint)
    }

    /// What people are to know of the core, or nothing: a library that isn't proved says so here.
    ///
    /// ```
    /// # use epaxos::{Cluster, Replica};
    /// let replica = Replica::new(Cluster::Three, 0)?;
    /// eprintln!("{}", replica.said());
    /// # Ok::<(), epaxos::OpenFault>(())
    /// ```
    pub fn said(&self) -> &'static str {
        SAID
    }

    /// Takes an event, of which nothing is reported before it is on the disk.
    ///
    /// # Errors
    ///
    /// [`Fault`] says which. What is refused has changed nothing.
    ///
    /// ```
    /// # let mut log = Vec::new();
    /// # use epaxos::{Cluster, Event, Fault, Instance, Replica};
    /// let mut replica = Replica::new(Cluster::Three, 0)?;
    /// replica.ready()?.commit(&mut log)?;             // its log comes first
    /// let instance = Instance { replica: 1, number: 1 };
    /// assert_eq!(replica.take(&Event::Execute(instance)), Err(Fault::NotCommitted(instance)));
    /// # Ok::<(), Box<dyn std::error::Error>>(())
    /// ```
    pub fn take(&mut self, event: &Event) -> Result<(), Fault> {
        self.library.take(event)
    }

    /// Takes events, one after the other, and returns of each what came of it: what is refused changes nothing, and the
    /// next one is taken all the same.
    ///
    /// ```
    /// # let mut log = Vec::new();
    /// # use epaxos::{Call, Cluster, Command, Event, Fault, Replica};
    /// let mut replica = Replica::new(Cluster::Three, 0)?;
    /// replica.ready()?.commit(&mut log)?;             // its log comes first
    /// let put = Event::Propose { call: Call::new(1, 1), command: Command::Put { key: b"x", value: b"1" } };
    /// assert_eq!(replica.take_all(&[Event::Handle(b"garbage"), put]), [Err(Fault::BadFrame), Ok(())]);
    /// # Ok::<(), Box<dyn std::error::Error>>(())
    /// ```
    pub fn take_all(&mut self, events: &[Event]) -> Vec<Result<(), Fault>> {
        events.iter().map(|event| self.take(event)).collect()
    }

    /// Proposes a client's command. Its instance is reported by [`Output::proposed`], and its answer by
    /// [`Output::receipts`].
    ///
    /// # Errors
    ///
    /// As [`take`](Replica::take).
    ///
    /// ```
    /// # let mut log = Vec::new();
    /// # use epaxos::{Call, Cluster, Command, Fault, Replica};
    /// let mut replica = Replica::new(Cluster::Three, 0)?;
    /// replica.ready()?.commit(&mut log)?;             // its log comes first
    /// replica.propose(Call::new(1, 1), Command::Get { key: b"x" })?;
    /// assert_eq!(replica.propose(Call::new(1, 2), Command::Get { key: b"" }), Err(Fault::OutOfRange));
    /// # Ok::<(), Box<dyn std::error::Error>>(())
    /// ```
    pub fn propose(&mut self, call: Call, command: Command) -> Result<(), Fault> {
        self.take(&Event::Propose { call, command })
    }

    /// Proposes a client's command, and spares this other replica: it is not asked at first, and all others have to answer before the command is committed in one round
    /// trip. So name the slowest one, or one that can't be reached. [`propose`](Replica::propose) spares the one just below this replica (the last one, at replica 0).
    ///
    /// # Errors
    ///
    /// As [`take`](Replica::take): [`Fault::OutOfRange`] where it is this replica itself, or none of the cluster.
    ///
    /// ```
    /// # let mut log = Vec::new();
    /// # use epaxos::{Call, Cluster, Command, Fault, Replica};
    /// let mut replica = Replica::new(Cluster::Three, 0)?;
    /// replica.ready()?.commit(&mut log)?;             // its log comes first
    /// let get = Command::Get { key: b"x" };
    /// replica.propose_sparing(Call::new(1, 1), get, 1)?;
    /// assert_eq!(replica.ready()?.commit(&mut log)?.frames().next().unwrap().to, 2);
    /// assert_eq!(replica.propose_sparing(Call::new(1, 2), get, 0), Err(Fault::OutOfRange));
    /// # Ok::<(), Box<dyn std::error::Error>>(())
    /// ```
    pub fn propose_sparing(&mut self, call: Call, command: Command, spared: u8) -> Result<(), Fault> {
        self.take(&Event::ProposeSparing { call, command, spared })
    }

    /// Handles bytes that came from a peer. They may be anything: what is no frame for this replica is refused.
    ///
    /// # Errors
    ///
    /// As [`take`](Replica::take). A frame that was refused when out of memory may be treated as lost.
    ///
    /// ```
    /// # use epaxos::{Call, Cluster, Command, Replica};
    /// # let (mut log, mut log_of_one) = (Vec::new(), Vec::new());
    /// let mut zero = Replica::new(Cluster::Three, 0)?;
    /// let mut one = Replica::new(Cluster::Three, 1)?;
    /// zero.ready()?.commit(&mut log)?;                // their logs come first
    /// one.ready()?.commit(&mut log_of_one)?;
    /// zero.propose(Call::new(1, 1), Command::Put { key: b"x", value: b"1" })?;
    /// for frame in zero.ready()?.commit(&mut log)?.frames() {
    ///     one.handle(frame.bytes)?;
    /// }
    /// let output = one.ready()?.commit(&mut log_of_one)?;
    /// assert_eq!(output.frames().next().unwrap().to, 0);      // it agrees
    /// # Ok::<(), Box<dyn std::error::Error>>(())
    /// ```
    pub fn handle(&mut self, frame: &[u8]) -> Result<(), Fault> {
        self.take(&Event::Handle(frame))
    }

    /// Waits no longer for the fast quorum of an own instance: it commits by the slow path, with the answers that are there.
    ///
    /// # Errors
    ///
    /// As [`take`](Replica::take): [`Fault::TooFewAnswers`], [`Fault::NotLeading`].
    ///
    /// ```
    /// # let mut log = Vec::new();
    /// # use epaxos::{Call, Cluster, Command, Fault, Instance, Replica};
    /// let mut replica = Replica::new(Cluster::Three, 0)?;
    /// replica.ready()?.commit(&mut log)?;             // its log comes first
    /// replica.propose(Call::new(1, 1), Command::Get { key: b"x" })?;
    /// let instance = Instance { replica: 0, number: 1 };
    /// assert_eq!(replica.give_up(instance), Err(Fault::TooFewAnswers));
    /// # Ok::<(), Box<dyn std::error::Error>>(())
    /// ```
    pub fn give_up(&mut self, instance: Instance) -> Result<(), Fault> {
        self.take(&Event::GiveUp(instance))
    }

    /// Takes over an instance that stays open, by explicit prepare. Safe at any time; [`Patience`](crate::Patience)
    /// says when it is wise.
    ///
    /// # Errors
    ///
    /// As [`take`](Replica::take): [`Fault::AlreadyCommitted`].
    ///
    /// ```
    /// # let mut log = Vec::new();
    /// # use epaxos::{Cluster, Instance, Replica};
    /// let mut replica = Replica::new(Cluster::Three, 0)?;
    /// replica.ready()?.commit(&mut log)?;             // its log comes first
    /// replica.recover(Instance { replica: 1, number: 1 })?;
    /// assert_eq!(replica.ready()?.commit(&mut log)?.frames().count(), 2);     // Prepare, to both others
    /// # Ok::<(), Box<dyn std::error::Error>>(())
    /// ```
    pub fn recover(&mut self, instance: Instance) -> Result<(), Fault> {
        self.take(&Event::Recover(instance))
    }

    /// Executes an instance, and before it all that it depends on.
    ///
    /// # Errors
    ///
    /// As [`take`](Replica::take): [`Fault::NotCommitted`].
    ///
    /// ```
    /// # let mut log = Vec::new();
    /// # use epaxos::{Cluster, Instance, Replica};
    /// let mut replica = Replica::new(Cluster::Three, 0)?;
    /// replica.ready()?.commit(&mut log)?;             // its log comes first
    /// assert!(replica.execute(Instance { replica: 0, number: 1 }).is_err());
    /// # Ok::<(), Box<dyn std::error::Error>>(())
    /// ```
    pub fn execute(&mut self, instance: Instance) -> Result<(), Fault> {
        self.take(&Event::Execute(instance))
    }

    /// Executes all own instances that are ready: committed, and waiting for none that isn't. So clients get their answers.
    ///
    /// # Errors
    ///
    /// [`Fault::Memory`], [`Fault::Unsynced`], [`Fault::Ended`].
    ///
    /// ```
    /// # let mut log = Vec::new();
    /// # use epaxos::{Cluster, Replica};
    /// let mut replica = Replica::new(Cluster::Three, 0)?;
    /// replica.ready()?.commit(&mut log)?;             // its log comes first
    /// replica.advance()?;                  // nothing is ready
    /// # Ok::<(), Box<dyn std::error::Error>>(())
    /// ```
    pub fn advance(&mut self) -> Result<(), Fault> {
        self.library.advance()
    }

    /// Executes all instances that are ready, others' too: before a local read, or where a machine of one's own is to keep up.
    ///
    /// # Errors
    ///
    /// As [`advance`](Replica::advance).
    ///
    /// ```
    /// # let mut log = Vec::new();
    /// # use epaxos::{Cluster, Replica};
    /// let mut replica = Replica::new(Cluster::Three, 0)?;
    /// replica.ready()?.commit(&mut log)?;             // its log comes first
    /// replica.execute_all()?;
    /// # Ok::<(), Box<dyn std::error::Error>>(())
    /// ```
    pub fn execute_all(&mut self) -> Result<(), Fault> {
        self.library.execute_all()
    }

    /// What all that was taken leaves to be done: bytes for the log first, then frames and receipts.
    ///
    /// # Errors
    ///
    /// [`Fault::Memory`], [`Fault::Ended`].
    ///
    /// ```
    /// # let mut log = Vec::new();
    /// # use epaxos::{Cluster, Replica};
    /// # let mut replica = Replica::new(Cluster::Three, 0)?;
    /// # let mut file = std::io::sink();
    /// # use std::io::Write;
    /// let ready = replica.ready()?;
    /// file.write_all(ready.log())?;
    /// let output = ready.commit(&mut log)?;
    /// # drop(output);
    /// # Ok::<(), Box<dyn std::error::Error>>(())
    /// ```
    pub fn ready(&mut self) -> Result<Ready<'_>, Fault> {
        self.ready_with_open(0)
    }

    /// The same, with the least `most` instances that are open: to learn what is late, a few times a second. Each takes a pass over what the replica knows.
    ///
    /// # Errors
    ///
    /// As [`ready`](Replica::ready).
    ///
    /// ```
    /// # let mut log = Vec::new();
    /// # use epaxos::{Call, Cluster, Command, Phase, Replica};
    /// let mut replica = Replica::new(Cluster::Three, 0)?;
    /// replica.ready()?.commit(&mut log)?;             // its log comes first
    /// replica.propose(Call::new(1, 1), Command::Get { key: b"x" })?;
    /// let output = replica.ready_with_open(64)?.commit(&mut log)?;
    /// let (instance, leading) = output.led().next().unwrap();
    /// assert_eq!((instance.number, leading.phase, leading.answers), (1, Phase::Proposing, 0));
    /// # Ok::<(), Box<dyn std::error::Error>>(())
    /// ```
    pub fn ready_with_open(&mut self, most: u8) -> Result<Ready<'_>, Fault> {
        self.library.lend()?;
        self.own_log.lent(self.library.lent());
        self.end = self.own_log.with(self.library.lent());
        Ok(Ready::new(self, most))
    }

    pub(crate) fn lent(&self) -> Lent<'_> {
        self.library.lent()
    }

    pub(crate) fn own_log(&self) -> &OwnLog {
        &self.own_log
    }

    pub(crate) fn synced(&mut self, most: u8) -> Result<Output<'_>, Fault> {
        self.library.sync()?;
        self.own_log.bytes = self.end;
        if std::mem::take(&mut self.is_begun) {
            self.library.release()?;
        } else {
            self.library.gather(self.reported, most)?;
        }
        let report = Report::read(self.library.report()).ok_or_else(bad_report)?;
        let followed = Followed::read(self.library.followed()).ok_or_else(bad_report)?;
        self.reported = report.entries;
        Ok(Output::new(report, followed))
    }

    pub(crate) fn begin(&mut self, most: u8) -> Result<(), Fault> {
        if !self.is_begun {
            self.library.begin(self.reported, most)?;
            self.is_begun = true;
        }
        Ok(())
    }

    /// Hands out what there is to send and to answer of what [`Ready::begin`] let go of, and nothing of what was taken
    /// since.
    ///
    /// # Errors
    ///
    /// [`Fault::Unsynced`]: it is of another replica, or was reported before. [`Fault::Ended`].
    ///
    /// ```
    /// # let mut log = Vec::new();
    /// # use epaxos::{Call, Cluster, Command, Replica};
    /// let mut replica = Replica::new(Cluster::Three, 0)?;
    /// replica.ready()?.commit(&mut log)?;             // its log comes first
    /// replica.propose(Call::new(1, 1), Command::Get { key: b"x" })?;
    /// let written = replica.ready()?.begin()?.write(&mut log)?;
    /// assert_eq!(replica.written(written)?.proposed().count(), 1);
    /// # Ok::<(), Box<dyn std::error::Error>>(())
    /// ```
    pub fn written(&mut self, written: Written) -> Result<Output<'_>, Fault> {
        if !self.is_begun || (written.opened, written.end) != (self.own_log.opened, self.end) {
            return Err(Fault::Unsynced);
        }
        self.synced(0)
    }

    /// Reports once more what there was to report behind the first `after` entries, for who has to send it again ([when](crate#what-is-lost-on-its-way)): frames,
    /// receipts and commits; not what was proposed or executed. And the least `most` instances that are open. With `u32::MAX` it reports these alone.
    ///
    /// # Errors
    ///
    /// [`Fault::Unsynced`], as [`get`](Replica::get); [`Fault::Memory`].
    ///
    /// ```
    /// # let mut log = Vec::new();
    /// # use epaxos::{Call, Cluster, Command, Replica};
    /// let mut replica = Replica::new(Cluster::Three, 0)?;
    /// replica.ready()?.commit(&mut log)?;             // its log comes first
    /// replica.propose(Call::new(1, 1), Command::Get { key: b"x" })?;
    /// assert_eq!(replica.ready()?.commit(&mut log)?.frames().count(), 1);
    /// let output = replica.report(0, 64)?;
    /// assert_eq!((output.frames().count(), output.open().count()), (1, 1));
    /// assert_eq!(replica.report(1, 0)?.frames().count(), 0);
    /// # Ok::<(), Box<dyn std::error::Error>>(())
    /// ```
    pub fn report(&mut self, after: u32, most: u8) -> Result<Output<'_>, Fault> {
        self.library.gather_again(after, most)?;
        let report = Report::read(self.library.report()).ok_or_else(bad_report)?;
        Ok(Output::new(report, Followed::default()))
    }

    /// What this replica's map has at the key, after all that was executed here: a local read, which may be old. A
    /// client's read is a command, or a [`read`](Replica::read).
    ///
    /// # Errors
    ///
    /// [`Fault::Unsynced`] while something that was taken isn't on the disk: after [`commit`](Ready::commit) nothing is. [`Fault::OutOfRange`] of a key
    /// that can't be.
    ///
    /// ```
    /// # let mut log = Vec::new();
    /// # use epaxos::{Cluster, Replica};
    /// let mut replica = Replica::new(Cluster::Three, 0)?;
    /// replica.ready()?.commit(&mut log)?;
    /// assert_eq!(replica.get(b"x")?, None);
    /// # Ok::<(), Box<dyn std::error::Error>>(())
    /// ```
    pub fn get(&mut self, key: &[u8]) -> Result<Option<&[u8]>, Fault> {
        self.library.get(key)
    }

    /// Which instances interfere with a read of each of these keys, in rising order: those of all writes of the key,
    /// and of all seals, that this replica has recorded, whether committed or not. It is one of F + 1 answers that a
    /// [`read`](Replica::read) is given.
    ///
    /// # Errors
    ///
    /// [`Fault::Unsynced`], [`Fault::OutOfRange`], as [`get`](Replica::get); [`Fault::Memory`].
    ///
    /// ```
    /// # let mut log = Vec::new();
    /// # use epaxos::{Call, Cluster, Command, Replica};
    /// let mut replica = Replica::new(Cluster::Three, 0)?;
    /// replica.ready()?.commit(&mut log)?;             // its log comes first
    /// replica.propose(Call::new(1, 1), Command::Put { key: b"x", value: b"1" })?;
    /// replica.ready()?.commit(&mut log)?;
    /// let found = replica.interfering(&[b"x", b"y"])?;
    /// assert_eq!((found[0][0].to_string(), found[1].len()), ("0.1".into(), 0));
    /// # Ok::<(), Box<dyn std::error::Error>>(())
    /// ```
    pub fn interfering(&mut self, keys: &[&[u8]]) -> Result<Vec<Vec<Instance>>, Fault> {
        keys.iter().try_for_each(|key| check_key(key))?;
        let questions: Vec<Question> = keys.iter().map(|key| Question::Interfering(key)).collect();
        let mut found = Vec::with_capacity(keys.len());
        self.library
            .ask_all(&questions, &mut |answer| question::interfering(answer).map(|it| found.push(it)).is_some())?;
        Ok(found)
    }

    /// Clients' reads of keys that write nothing, each as good as the command: it stands behind all that was answered
    /// when it was asked for. It takes no instance, no entry and no frame.
    ///
    /// Each key comes with what was found for it: the union of what F + 1 replicas were asked for, *after* the client
    /// asked: [`interfering`](Replica::interfering) at each of them, of which this one may be one; F is 1 of three
    /// replicas, 2 of five, 3 of seven. How a replica's host asks another one is yours; the question names the
    /// generation. One answer is for all reads of the key that were asked for before its question was sent, and for
    /// none that was asked for later.
    ///
    /// Where a read [waits](crate::ReadingOf::Waits), execute what is ready ([`execute_all`](Replica::execute_all)),
    /// and once that instance is executed read again, with the same instances; where it stays open it is recovered as any
    /// other is. Where the generation is [closed](crate::ReadingOf::Closed), ask anew in the next one, the replicas
    /// too.
    ///
    /// # Errors
    ///
    /// [`Fault::Unsynced`], as [`get`](Replica::get); [`Fault::OutOfRange`] of a key or an instance that can't be, or
    /// of more than [`MOST_FOUND`] of them; [`Fault::Memory`].
    ///
    /// ```
    /// use epaxos::{Call, Cluster, Command, OwnedReading, Replica};
    ///
    /// # let (mut log, mut log_of_one) = (Vec::new(), Vec::new());
    /// let mut zero = Replica::new(Cluster::Three, 0)?;
    /// let mut one = Replica::new(Cluster::Three, 1)?;
    /// zero.ready()?.commit(&mut log)?;
    /// one.ready()?.commit(&mut log_of_one)?;
    /// zero.propose(Call::new(1, 1), Command::Put { key: b"x", value: b"1" })?;
    /// let frame = zero.ready()?.commit(&mut log)?.frames().next().unwrap().bytes.to_vec();
    /// one.handle(&frame)?;
    /// let answer = one.ready()?.commit(&mut log_of_one)?.frames().next().unwrap().bytes.to_vec();
    /// zero.handle(&answer)?;
    /// zero.execute_all()?;                            // the put is done, as its client is answered
    /// let commit = zero.ready()?.commit(&mut log)?.frames().next().unwrap().bytes.to_vec();
    ///
    /// // A client asks replica 1 for x, which hasn't heard that the put is committed.
    /// let mut found = one.interfering(&[b"x"])?.concat();
    /// found.extend(zero.interfering(&[b"x"])?.concat());      // (by a message, and its answer)
    /// found.sort();
    /// found.dedup();
    /// assert_eq!(one.read(&[(b"x", &found)])?, [OwnedReading::Waits(found[0])]);
    /// one.handle(&commit)?;
    /// one.execute_all()?;
    /// one.ready()?.commit(&mut log_of_one)?;
    /// assert_eq!(one.read(&[(b"x", &found)])?, [OwnedReading::Present(b"1".into())]);
    /// # Ok::<(), Box<dyn std::error::Error>>(())
    /// ```
    pub fn read(&mut self, reads: &[(&[u8], &[Instance])]) -> Result<Vec<OwnedReading>, Fault> {
        for (key, found) in reads {
            check_key(key)?;
            if found.len() > MOST_FOUND {
                return Err(Fault::OutOfRange);
            }
        }
        let questions: Vec<Question> = reads.iter().map(|(key, found)| Question::Read { key, found }).collect();
        let mut readings = Vec::with_capacity(reads.len());
        self.library.ask_all(&questions, &mut |answer| {
            Reading::read(answer).map(|it| readings.push(it.to_owned())).is_some()
        })?;
        Ok(readings)
    }

    /// What all keys of this replica's map have, after all that was executed here: a local read, as [`get`](Replica::get). It takes a copy of the map.
    ///
    /// # Errors
    ///
    /// [`Fault::Unsynced`], as [`get`](Replica::get); [`Fault::Memory`].
    ///
    /// ```
    /// # use epaxos::{Cluster, Replica};
    /// # let mut log = Vec::new();
    /// let mut replica = Replica::new(Cluster::Three, 0)?;
    /// replica.ready()?.commit(&mut log)?;
    /// for (key, value) in replica.contents()? {
    ///     println!("{} has {} bytes", key.escape_ascii(), value.len());
    /// }
    /// # Ok::<(), Box<dyn std::error::Error>>(())
    /// ```
    pub fn contents(&mut self) -> Result<Contents<'_>, Fault> {
        Contents::read(self.library.contents()?).ok_or_else(bad_report)
    }

    /// How many entries of a peer this replica knows of: the greatest number among the entries whose frames it has handled, 0 where it has handled none. It is in
    /// the log, so it outlives any start. A peer whose log has fewer has lost what it promised, as one that was put back to an older copy, and must not go on.
    ///
    /// # Errors
    ///
    /// [`Fault::OutOfRange`] of a replica that there isn't; [`Fault::Unsynced`], as [`get`](Replica::get).
    ///
    /// ```
    /// # use epaxos::{Call, Cluster, Command, Replica};
    /// # let (mut log, mut log_of_one) = (Vec::new(), Vec::new());
    /// let mut zero = Replica::new(Cluster::Three, 0)?;
    /// let mut one = Replica::new(Cluster::Three, 1)?;
    /// zero.ready()?.commit(&mut log)?;
    /// one.ready()?.commit(&mut log_of_one)?;
    /// zero.propose(Call::new(1, 1), Command::Get { key: b"x" })?;
    /// for frame in zero.ready()?.commit(&mut log)?.frames() {
    ///     one.handle(frame.bytes)?;
    /// }
    /// one.ready()?.commit(&mut log_of_one)?;
    /// assert_eq!((one.handled(0)?, one.handled(2)?), (1, 0));
    /// # Ok::<(), Box<dyn std::error::Error>>(())
    /// ```
    pub fn handled(&mut self, peer: u8) -> Result<u32, Fault> {
        if peer >= self.replicas {
            return Err(Fault::OutOfRange);
        }
        self.library.handled(peer)
    }

    /// How far it is in its generation.
    ///
    /// # Errors
    ///
    /// [`Fault::Unsynced`], as [`get`](Replica::get).
    ///
    /// ```
    /// # let mut log = Vec::new();
    /// # use epaxos::{Cluster, Replica};
    /// let mut replica = Replica::new(Cluster::Three, 0)?;
    /// replica.ready()?.commit(&mut log)?;
    /// assert!(!replica.state()?.is_sealed);
    /// # Ok::<(), Box<dyn std::error::Error>>(())
    /// ```
    pub fn state(&mut self) -> Result<State, Fault> {
        self.library.state()
    }

    /// Closes the generation, once a seal was executed: the opening of the next one, for so many replicas. Keep it on the disk, begin each replica with it
    /// ([`Setup::opening`]), and let none act in the generation before: so the replica is gone with this.
    ///
    /// # Errors
    ///
    /// [`CloseFault`] says why, and the replica comes back with it.
    ///
    /// ```no_run
    /// # fn of(mut replica: epaxos::Replica) -> Result<(), Box<dyn std::error::Error>> {
    /// use epaxos::{Cluster, Setup};
    /// use std::{fs::File, io::Write};
    ///
    /// let opening = replica.close(Cluster::Three).map_err(|(_, fault)| fault)?;
    /// let mut file = File::create("zero/2/opening")?;
    /// file.write_all(&opening)?;
    /// file.sync_all()?;
    /// let next = Setup { opening: Some(&opening), ..Setup::new(Cluster::Three, 0) }.begin()?;
    /// # drop(next);
    /// # Ok(()) }
    /// ```
    pub fn close(mut self, next: Cluster) -> Result<Vec<u8>, (Box<Replica>, CloseFault)> {
        self.next_opening(next).map_err(|fault| (Box::new(self), fault))
    }

    /// The same, where the replica goes on: peers that lag may still need its answers. So the next generation can be made ready meanwhile: write the
    /// opening beside its place, and begin a replica with it. Before that one's log is on the disk, let this one go: it must not act any more then.
    ///
    /// # Errors
    ///
    /// [`CloseFault`] says why; the replica is as it was.
    ///
    /// ```
    /// use epaxos::{CloseFault, Cluster, Replica};
    ///
    /// # let mut log = Vec::new();
    /// let mut replica = Replica::new(Cluster::Three, 0)?;
    /// replica.ready()?.commit(&mut log)?;
    /// assert_eq!(replica.next_opening(Cluster::Three), Err(CloseFault::NotSealed));
    /// # Ok::<(), Box<dyn std::error::Error>>(())
    /// ```
    pub fn next_opening(&mut self, next: Cluster) -> Result<Vec<u8>, CloseFault> {
        self.library.close(next)
    }
}

fn check_key(key: &[u8]) -> Result<(), Fault> {
    if (1..=LONGEST_KEY).contains(&key.len()) { Ok(()) } else { Err(Fault::OutOfRange) }
}

fn bad_report() -> Fault {
    Fault::Ended("what it tells isn't of the protocol".into())
}
