//! When to wait no longer.
#![forbid(unsafe_code)]

use crate::ffi::PatienceHandle as Handle;
use crate::status::{DONE, MEMORY, OUT_OF_RANGE};
use crate::{Cluster, Event, Fault, Instance, OpenFault, OpenInstance, Phase};

/// The kind of a request that gives up.
const GIVE_UP: u8 = 3;
/// In place of a phase: a peer reports that the instance is committed.
const COMMITTED: u8 = 4;

/// How long is waited, in the unit in which the time is handed in. Numbers are rounded down, so count in microseconds.
///
/// ```
/// use epaxos::Waits;
///
/// let waits = Waits { longest: 5_000_000, ..Waits::MICROSECONDS };
/// assert_eq!(waits.granularity, 100_000);
/// ```
#[derive(Clone, Copy, PartialEq, Eq, Hash, Debug)]
pub struct Waits {
    /// G of RFC 6298: a peer's time-out is SRTT + max(G, 4 RTTVAR).
    pub granularity: u32,
    /// The time-out of a peer that was never measured.
    pub initial: u32,
    /// How long a Commit is waited for which a peer reports.
    pub told: u32,
    /// Waits double up to this one.
    pub longest: u32,
}

impl Waits {
    /// 100 ms, 1 s, 1.5 s and 20 s, in microseconds.
    ///
    /// ```
    /// assert_eq!(epaxos::Waits::MICROSECONDS.longest, 20_000_000);
    /// ```
    pub const MICROSECONDS: Waits =
        Waits { granularity: 100_000, initial: 1_000_000, told: 1_500_000, longest: 20_000_000 };
}

/// Says when to give up and when to recover, without a clock: it is handed the time, how long peers take to answer, and
/// what is open. It is the library's proved one.
///
/// Any answer would be safe; it is a question of time alone. What comes in time is neither given up nor
/// recovered while as many members are reached as it needs.
///
/// ```
/// # let mut log = Vec::new();
/// use epaxos::{Call, Cluster, Command, Patience, Replica, Waits};
///
/// let mut replica = Replica::new(Cluster::Three, 0)?;
/// let mut patience = Patience::new(Cluster::Three, 0, Waits::MICROSECONDS, 7)?;
/// replica.ready()?.commit(&mut log)?;
/// replica.propose(Call::new(1, 1), Command::Get { key: b"x" })?;
/// patience.reach(1, false)?; // a link is lost, by which the proposal's frame went
/// let output = replica.ready_with_open(64)?.commit(&mut log)?;
/// let open: Vec<_> = output.open().collect();
/// for event in patience.turn(0, &open, &[])? {
///     replica.take(&event)?;
/// }
/// # Ok::<(), Box<dyn std::error::Error>>(())
/// ```
#[derive(Debug)]
pub struct Patience {
    handle: Handle,
    /// The replica that an own proposal spares which names none.
    usual: u8,
    /// The bytes that are handed in.
    bytes: Vec<u8>,
}

impl Patience {
    /// That of this replica, by chance from this seed. Replicas have different seeds. All peers are taken to be reached.
    ///
    /// # Errors
    ///
    /// [`OpenFault::OutOfRange`], [`OpenFault::Memory`], [`OpenFault::OtherLibrary`].
    ///
    /// ```
    /// # use epaxos::{Cluster, Patience, Waits};
    /// let patience = Patience::new(Cluster::Five, 3, Waits::MICROSECONDS, 3);
    /// assert!(patience.is_ok());
    /// assert!(Patience::new(Cluster::Five, 5, Waits::MICROSECONDS, 3).is_err());
    /// ```
    pub fn new(cluster: Cluster, me: u8, waits: Waits, seed: u64) -> Result<Patience, OpenFault> {
        match Handle::begin(cluster.replicas(), me, waits, seed) {
            Ok(handle) => {
                let usual = me.checked_sub(1).unwrap_or(cluster.replicas() - 1);
                Ok(Patience { handle, usual, bytes: Vec::new() })
            }
            Err(MEMORY) => Err(OpenFault::Memory),
            Err(OUT_OF_RANGE) => Err(OpenFault::OutOfRange),
            Err(_) => Err(OpenFault::OtherLibrary),
        }
    }

    /// An answer of this peer to an own proposal came so long after the proposal's frame was sent to it, which is after the sync. Not where that frame was sent
    /// twice: it isn't known then which one is answered (Karn's rule). Of a peer that proposals spare, report now and
    /// then how long a message of yours and its answer took: else nothing is known of it.
    ///
    /// # Errors
    ///
    /// [`Fault::OutOfRange`]: there is no such peer.
    ///
    /// ```
    /// # use epaxos::{Cluster, Patience, Waits};
    /// # let mut patience = Patience::new(Cluster::Three, 0, Waits::MICROSECONDS, 1).unwrap();
    /// assert!(patience.measure(1, 150_000).is_ok() && patience.measure(7, 1).is_err());
    /// ```
    pub fn measure(&mut self, peer: u8, took: u32) -> Result<(), Fault> {
        done(self.handle.measure(peer, took))
    }

    /// Whether frames to this peer arrive, as far as the host knows. Where one is reached again, what was asked for is hurried.
    ///
    /// # Errors
    ///
    /// [`Fault::OutOfRange`]: there is no such peer.
    ///
    /// ```
    /// # use epaxos::{Cluster, Patience, Waits};
    /// # let mut patience = Patience::new(Cluster::Three, 0, Waits::MICROSECONDS, 1).unwrap();
    /// assert!(patience.reach(2, false).is_ok());
    /// ```
    pub fn reach(&mut self, peer: u8, is_reached: bool) -> Result<(), Fault> {
        done(self.handle.reach(peer, is_reached))
    }

    /// What was asked for before needn't be waited for as long any more: when a seal is committed, say.
    ///
    /// ```
    /// # use epaxos::{Cluster, Patience, Waits};
    /// # let mut patience = Patience::new(Cluster::Three, 0, Waits::MICROSECONDS, 1).unwrap();
    /// patience.hurry();
    /// ```
    pub fn hurry(&mut self) {
        _ = self.handle.hurry();
    }

    /// A Prepare or an Accept of this instance was sent or handled here, at a ballot of this counter: another recovery would be in its way, so it is put off, if it
    /// is waited for.
    ///
    /// # Errors
    ///
    /// [`Fault::OutOfRange`]: there is no such instance.
    ///
    /// ```
    /// # use epaxos::{Cluster, Instance, Patience, Waits};
    /// # let mut patience = Patience::new(Cluster::Three, 0, Waits::MICROSECONDS, 1).unwrap();
    /// assert!(patience.put_off(Instance { replica: 1, number: 1 }, 3, 1_000).is_ok());
    /// ```
    pub fn put_off(&mut self, instance: Instance, ballot: u16, now: u64) -> Result<(), Fault> {
        done(self.handle.put_off(instance, ballot, now))
    }

    /// A turn at this time, at which just these instances are open, and a peer reports that these are committed (those
    /// of them that are open are waited for as open ones): at most 64 events that the replica is to take.
    ///
    /// # Errors
    ///
    /// [`Fault::Memory`], [`Fault::OutOfRange`]: there is no such instance, or no such replica that is spared. Nothing has changed.
    ///
    /// ```
    /// # use epaxos::{Cluster, Event, Instance, OpenInstance, Patience, Waits};
    /// # let mut patience = Patience::new(Cluster::Three, 0, Waits::MICROSECONDS, 1).unwrap();
    /// let open = OpenInstance { instance: Instance { replica: 1, number: 1 }, since: None, led: None, spared: None };
    /// assert_eq!(patience.turn(0, &[open], &[]), Ok(vec![]));
    /// // once to twice the time-out of a peer that was never measured, and the way to the leader
    /// let due = patience.next_due().unwrap();
    /// assert!((2_000_000..=4_000_000).contains(&due));
    /// assert_eq!(patience.turn(due, &[open], &[]), Ok(vec![Event::Recover(open.instance)]));
    /// ```
    pub fn turn(
        &mut self,
        now: u64,
        open: &[OpenInstance],
        committed: &[Instance],
    ) -> Result<Vec<Event<'static>>, Fault> {
        let spared = |open: &OpenInstance| open.spared.unwrap_or(self.usual);
        let mut all: Vec<(Instance, u8, u8, u8)> =
            open.iter().map(|open| (open.instance, phase(open), answers(open), spared(open))).collect();
        all.extend(committed.iter().map(|instance| (*instance, COMMITTED, 0, 0)));
        // (an open one stands before the same one that a peer reports)
        all.sort_by_key(|(instance, phase, ..)| (instance.replica, instance.number, *phase));
        all.dedup_by_key(|(instance, ..)| *instance);
        let mut bytes = std::mem::take(&mut self.bytes);
        bytes.clear();
        for (instance, phase, answers, spared) in all {
            let [high, low] = instance.number.to_be_bytes();
            bytes.extend([instance.replica, high, low, 0, 0, 0, 0, phase, answers, spared]);
        }
        let status = self.handle.turn(now, &bytes);
        self.bytes = bytes;
        done(status)?;
        Ok(self.late())
    }

    /// When to have the next turn at the latest, where no instance is opened before. None: nothing is waited for, or too few peers are reached.
    ///
    /// ```
    /// # use epaxos::{Cluster, Patience, Waits};
    /// # let mut patience = Patience::new(Cluster::Three, 0, Waits::MICROSECONDS, 1).unwrap();
    /// assert_eq!(patience.next_due(), None);
    /// ```
    pub fn next_due(&mut self) -> Option<u64> {
        self.handle.due()
    }

    /// What the last turn asks for.
    fn late(&self) -> Vec<Event<'static>> {
        let event = |bytes: &[u8]| {
            let instance = Instance { replica: bytes[1], number: u16::from_be_bytes([bytes[2], bytes[3]]) };
            if bytes[0] == GIVE_UP { Event::GiveUp(instance) } else { Event::Recover(instance) }
        };
        self.handle.late().chunks_exact(4).map(event).collect()
    }
}

fn done(status: u8) -> Result<(), Fault> {
    match status {
        DONE => Ok(()),
        MEMORY => Err(Fault::Memory),
        OUT_OF_RANGE => Err(Fault::OutOfRange),
        status => Err(Fault::Ended(format!("the library answers status {status}"))),
    }
}

fn phase(open: &OpenInstance) -> u8 {
    match open.led.map(|led| led.phase) {
        None => 0,
        Some(Phase::Proposing) => 1,
        Some(Phase::Accepting) => 2,
        Some(Phase::Preparing) => 3,
    }
}

fn answers(open: &OpenInstance) -> u8 {
    open.led.map_or(0, |led| led.answers)
}
