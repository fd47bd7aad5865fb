//! The calls of the library, as bindings/c/epaxos.h has them. All unsafe code of the crate is here, but for
//! system.rs.
#![allow(unsafe_code)]

#[rustfmt::skip]
mod header;

use crate::{Call, Command, Instance, Reference, Succession, Waits};
use header::*;
pub(crate) use header::{
    FrameHead, HeldGeneration, LogHead, OpeningHead, Pair, Place, ReferenceHead, StartPlan, StartWish, VERSION,
};
use std::{ptr, slice};

impl Bytes {
    const EMPTY: Bytes = Bytes::of(&[]);

    const fn of(bytes: &[u8]) -> Bytes {
        Bytes { at: bytes.as_ptr(), len: bytes.len() }
    }

    /// Those that may be none, and whether they are there.
    fn of_any(bytes: Option<&[u8]>) -> (Bytes, u8) {
        (bytes.map_or(Bytes::EMPTY, Bytes::of), u8::from(bytes.is_some()))
    }
}

impl header::Succession {
    /// The replica of this number; new, or with this log.
    fn of(reference: &Reference, digest: &[u8; 32], replica: u8, log: Option<&[u8]>) -> header::Succession {
        let (log, is_old) = Bytes::of_any(log);
        let replicas = reference.cluster().replicas();
        header::Succession { digest: Bytes::of(digest), log, replicas, replica, is_new: 1 - is_old }
    }
}

impl header::Instance {
    fn of(instance: Instance) -> header::Instance {
        header::Instance { number: instance.number, replica: instance.replica }
    }
}

/// What the library is of.
pub(crate) fn version() -> u32 {
    ep_version()
}

// SAFETY, of each call below: a pointer and a length are of one slice, and what is written to is a place of the
// pointer's own type.

/// Copies the file that generation 1 of so many replicas opens with: how many bytes it has, and the status.
pub(crate) fn first_opening(replicas: u8, out: &mut [u8]) -> (usize, u8) {
    let mut length = 0;
    let status = unsafe { ep_first_opening(replicas, out.as_mut_ptr(), out.len(), &mut length) };
    (length, status)
}

/// Copies the reference of a generation of so many replicas, by a log of this length with this SHA-256: the status.
pub(crate) fn reference((replicas, generation, length): (u8, u32, u64), sum: &[u8; 32], out: &mut [u8]) -> u8 {
    let (closed, mut len) = (ClosedLog { sum: Bytes::of(sum), length, generation, replicas }, 0);
    unsafe { ep_reference(&closed, out.as_mut_ptr(), out.len(), &mut len) }
}

/// What the header of a frame says.
pub(crate) fn frame_head(frame: &[u8]) -> Option<FrameHead> {
    let mut head = FrameHead::default();
    let status = unsafe { ep_frame_head(frame.as_ptr(), frame.len(), &mut head) };
    (status == 0).then_some(head)
}

/// Where the first key of a map's bytes and its value stand.
pub(crate) fn pair(pairs: &[u8]) -> Option<Pair> {
    let mut pair = Pair::default();
    let status = unsafe { ep_pair(pairs.as_ptr(), pairs.len(), &mut pair) };
    (status == 0).then_some(pair)
}

/// What a reference says, where the bytes are one; or the status, and where they are wrong.
pub(crate) fn read_reference(reference: &[u8]) -> Result<ReferenceHead, (u8, Place)> {
    let (mut head, mut place) = (ReferenceHead::default(), Place::default());
    match unsafe { ep_read_reference(reference.as_ptr(), reference.len(), &mut head, &mut place) } {
        0 => Ok(head),
        status => Err((status, place)),
    }
}

/// Copies what binds the opening of this digest to the reference of that one: the status.
pub(crate) fn binding(reference: &[u8; 32], opening: &[u8; 32], out: &mut [u8]) -> u8 {
    let mut len = 0;
    unsafe {
        ep_binding(
            reference.as_ptr(),
            reference.len(),
            opening.as_ptr(),
            opening.len(),
            out.as_mut_ptr(),
            out.len(),
            &mut len,
        )
    }
}

/// What an opening says before its map, by its first bytes; or the status.
pub(crate) fn opening_head(opening: &[u8]) -> Result<OpeningHead, u8> {
    let mut head = OpeningHead::default();
    match unsafe { ep_opening_head(opening.as_ptr(), opening.len(), &mut head) } {
        0 => Ok(head),
        status => Err(status),
    }
}

/// Whether the bytes are an opening's; else the status, and where they are wrong.
pub(crate) fn check_opening(opening: &[u8]) -> Result<(), (u8, Place)> {
    let mut place = Place::default();
    match unsafe { ep_check_opening(opening.as_ptr(), opening.len(), &mut place) } {
        0 => Ok(()),
        status => Err((status, place)),
    }
}

/// Copies the opening of a generation of so many replicas, with this map, from whose stamp clocks go on: how many bytes
/// it has; or the status, and where the parts are wrong.
pub(crate) fn opening(
    (replicas, generation, base_stamp): (u8, u32, u64),
    seal: &[u8],
    map: &[u8],
    out: &mut [u8],
) -> Result<usize, (u8, Place)> {
    let parts = OpeningParts { seal: Bytes::of(seal), map: Bytes::of(map), base_stamp, generation, replicas };
    let (mut len, mut place) = (0, Place::default());
    match unsafe { ep_opening(&parts, out.as_mut_ptr(), out.len(), &mut len, &mut place) } {
        0 => Ok(len),
        status => Err((status, place)),
    }
}

/// Whose log it is, by its first bytes.
pub(crate) fn log_head(log: &[u8]) -> Option<LogHead> {
    let mut head = LogHead::default();
    let status = unsafe { ep_log_head(log.as_ptr(), log.len(), &mut head) };
    (status == 0).then_some(head)
}

/// How many bytes the first record has of those of a log.
pub(crate) fn record(records: &[u8]) -> Option<u64> {
    let mut length = 0;
    let status = unsafe { ep_record(records.as_ptr(), records.len(), &mut length) };
    (status == 0).then_some(length)
}

/// The SHA-256 of the bytes.
pub(crate) fn sum(bytes: &[u8]) -> [u8; 32] {
    let (mut sum, mut len) = ([0; 32], 0);
    // (there is room, so nothing is refused)
    unsafe { ep_sum(bytes.as_ptr(), bytes.len(), sum.as_mut_ptr(), sum.len(), &mut len) };
    sum
}

/// The greatest generation that is there; or the status.
pub(crate) fn newest(held: &[HeldGeneration]) -> Result<u32, u8> {
    let mut newest = 0;
    match unsafe { ep_newest(held.as_ptr(), held.len(), &mut newest) } {
        0 => Ok(newest),
        status => Err(status),
    }
}

/// How a replica starts that has this; or the status, and the generation that it names.
pub(crate) fn plan(held: &[HeldGeneration], wish: &StartWish) -> Result<StartPlan, (u8, u64)> {
    let (mut plan, mut place) = (StartPlan::default(), Place::default());
    match unsafe { ep_plan(held.as_ptr(), held.len(), wish, &mut plan, &mut place) } {
        0 => Ok(plan),
        status => Err((status, place.at)),
    }
}

/// From which generation on logs are replayed to open this one; or the status, and the generation that it names.
pub(crate) fn first(held: &[HeldGeneration], generation: u32) -> Result<u32, (u8, u32)> {
    let mut first = 0;
    match unsafe { ep_first(held.as_ptr(), held.len(), generation, &mut first) } {
        0 => Ok(first),
        status => Err((status, first)),
    }
}

/// The generation that the name of a folder spells.
pub(crate) fn generation_in(name: &[u8]) -> Option<u32> {
    let mut generation = 0;
    let status = unsafe { ep_generation_in(name.as_ptr(), name.len(), &mut generation) };
    (status == 0).then_some(generation)
}

/// The later generation that the mark of this one names.
pub(crate) fn left_in(mark: &[u8], generation: u32) -> u32 {
    unsafe { ep_left_in(mark.as_ptr(), mark.len(), generation) }
}

/// A replica of the library, and what it lends.
///
/// Each call answers a status of the header. It ends what was lent before, also where it is refused.
pub(crate) struct Handle {
    held: Replica,
    lent: Bytes,
}

// SAFETY: that the library's replica may go to another thread is proved (crates/ep_handle, `Send`); what it lends is its own.
unsafe impl Send for Handle {}

// SAFETY, of each call below: the handle is of `open` alone, and is used by one call at a time, since each takes `&mut self`; a pointer and a length are of
// one slice, which outlives the call; and what is written to is a place of the pointer's own type.
impl Handle {
    /// A replica; or the status, and where the log or the opening is refused.
    pub(crate) fn open(replicas: u8, replica: u8, opening: &[u8], log: Option<&[u8]>) -> Result<Handle, (u8, Place)> {
        let (log, is_old) = Bytes::of_any(log);
        let setup = Setup { opening: Bytes::of(opening), log, replicas, replica, is_new: 1 - is_old };
        let (mut handle, mut place) =
            (Handle { held: Replica { at: ptr::null_mut() }, lent: Bytes::EMPTY }, Place::default());
        match unsafe { ep_open(&mut handle.held, &setup, &mut place) } {
            0 => Ok(handle),
            status => Err((status, place)),
        }
    }

    /// The same, of a replica whose log names the reference that stood for the opening.
    pub(crate) fn open_bound(
        opening: &[u8],
        reference: &Reference,
        me: u8,
        log: Option<&[u8]>,
    ) -> Result<Handle, (u8, Place)> {
        let digest = reference.digest();
        let next = header::Succession::of(reference, &digest, me, log);
        let (mut handle, mut place) =
            (Handle { held: Replica { at: ptr::null_mut() }, lent: Bytes::EMPTY }, Place::default());
        match unsafe { ep_open_bound(&mut handle.held, opening.as_ptr(), opening.len(), &next, &mut place) } {
            0 => Ok(handle),
            status => Err((status, place)),
        }
    }

    /// Goes on in the next generation, with the file that that opens with; or the status, and where the log is refused.
    pub(crate) fn succeed(&mut self, succession: &Succession) -> Result<CheckpointHandle, (u8, Place)> {
        let digest = succession.reference.digest();
        let next = header::Succession::of(&succession.reference, &digest, succession.me, succession.log);
        let (mut checkpoint, mut place) =
            (CheckpointHandle { held: Checkpoint { at: ptr::null_mut() }, lent: Bytes::EMPTY }, Place::default());
        match unsafe { ep_succeed(self.held(), &mut checkpoint.held, &next, &mut place) } {
            0 => Ok(checkpoint),
            status => Err((status, place)),
        }
    }

    /// Ends the replica: each call answers then that there is none.
    pub(crate) fn free(&mut self) {
        unsafe { ep_free(self.held()) };
    }

    /// What was cut off the log that it was opened from.
    pub(crate) fn cut(&mut self) -> (u8, Place) {
        let mut place = Place::default();
        let status = unsafe { ep_cut(self.held(), &mut place) };
        (status, place)
    }

    /// The replica, of which nothing is lent any more.
    fn held(&mut self) -> *mut Replica {
        self.lent = Bytes::EMPTY;
        &mut self.held
    }

    /// What the last call has lent.
    pub(crate) fn lent(&self) -> &[u8] {
        if self.lent.len == 0 {
            return &[];
        }
        // SAFETY: what is lent stays until the next call, and each call takes `&mut self` and ends it.
        unsafe { slice::from_raw_parts(self.lent.at, self.lent.len) }
    }

    pub(crate) fn propose(&mut self, call: &Call, command: &Command, spared: Option<u8>) -> u8 {
        let held = self.held();
        let Call { client, request, seen } = *call;
        let has_spared = u8::from(spared.is_some());
        let caller = &header::Call { seen, client, request, has_spared, spared: spared.unwrap_or_default() };
        match *command {
            Command::Get { key } => unsafe { ep_propose_get(held, caller, key.as_ptr(), key.len()) },
            Command::Put { key, value } => unsafe {
                ep_propose_put(held, caller, key.as_ptr(), key.len(), value.as_ptr(), value.len())
            },
            Command::Del { key } => unsafe { ep_propose_del(held, caller, key.as_ptr(), key.len()) },
            Command::Swap { first, second } => unsafe {
                ep_propose_swap(held, caller, first.as_ptr(), first.len(), second.as_ptr(), second.len())
            },
            Command::Cas { key, expected, new } => {
                let (expected, has_expected) = Bytes::of_any(expected);
                let (desired, has_desired) = Bytes::of_any(new);
                let exchange = Exchange { expected, desired, has_expected, has_desired };
                unsafe { ep_propose_cas(held, caller, key.as_ptr(), key.len(), &exchange) }
            }
            Command::Opaque { is_reading, first, second, body } => {
                let (second, has_second) = Bytes::of_any(second);
                let touching =
                    Touching { first: Bytes::of(first), second, has_second, is_reading: u8::from(is_reading) };
                unsafe { ep_propose_opaque(held, caller, &touching, body.as_ptr(), body.len()) }
            }
            Command::Tx(tx) => unsafe { ep_propose_tx(held, caller, tx.body().as_ptr(), tx.body().len()) },
            Command::Seal { value } => unsafe { ep_propose_seal(held, caller, value.as_ptr(), value.len()) },
        }
    }

    pub(crate) fn handle(&mut self, frame: &[u8]) -> u8 {
        unsafe { ep_handle(self.held(), frame.as_ptr(), frame.len()) }
    }

    pub(crate) fn give_up(&mut self, instance: Instance) -> u8 {
        unsafe { ep_give_up(self.held(), header::Instance::of(instance)) }
    }

    pub(crate) fn recover(&mut self, instance: Instance) -> u8 {
        unsafe { ep_recover(self.held(), header::Instance::of(instance)) }
    }

    /// With the instance that it waits for, where the status says so.
    pub(crate) fn execute(&mut self, instance: Instance) -> (u8, Instance) {
        let mut waits_for = header::Instance::of(instance);
        let status = unsafe { ep_execute(self.held(), header::Instance::of(instance), &mut waits_for) };
        (status, Instance { replica: waits_for.replica, number: waits_for.number })
    }

    pub(crate) fn advance(&mut self) -> u8 {
        unsafe { ep_advance(self.held()) }
    }

    pub(crate) fn execute_all(&mut self) -> u8 {
        unsafe { ep_execute_all(self.held()) }
    }

    /// Lends what is to be written, and returns whether it takes the place of the whole log.
    pub(crate) fn ready(&mut self) -> (u8, bool) {
        let (mut lent, mut is_anew) = (Bytes::EMPTY, 0);
        let status = unsafe { ep_ready(self.held(), &mut lent, &mut is_anew) };
        self.lent = lent;
        (status, is_anew == 1)
    }

    /// What `ready` has lent is on the disk: so many bytes.
    pub(crate) fn synced(&mut self, count: usize) -> u8 {
        unsafe { ep_synced(self.held(), count) }
    }

    /// Lends answers.
    pub(crate) fn answers(&mut self, reported: u32, most: u8) -> u8 {
        let mut lent = Bytes::EMPTY;
        let status = unsafe { ep_answers(self.held(), reported, most, &mut lent) };
        self.lent = lent;
        status
    }

    /// The same, with what was proposed and executed.
    pub(crate) fn answers_all(&mut self, reported: u32, most: u8) -> u8 {
        let mut lent = Bytes::EMPTY;
        let status = unsafe { ep_answers_all(self.held(), reported, most, &mut lent) };
        self.lent = lent;
        status
    }

    /// Has such answers made of what is lent.
    pub(crate) fn prepare_all(&mut self, reported: u32, most: u8) -> u8 {
        unsafe { ep_prepare_all(self.held(), reported, most) }
    }

    /// Lends them.
    pub(crate) fn prepared(&mut self) -> u8 {
        let mut lent = Bytes::EMPTY;
        let status = unsafe { ep_told(self.held(), &mut lent) };
        self.lent = lent;
        status
    }

    pub(crate) fn ask(&mut self, request: &[u8]) -> u8 {
        unsafe { ep_ask(self.held(), request.as_ptr(), request.len()) }
    }

    /// Lends the value.
    pub(crate) fn get(&mut self, key: &[u8]) -> u8 {
        let mut lent = Bytes::EMPTY;
        let status = unsafe { ep_get(self.held(), key.as_ptr(), key.len(), &mut lent) };
        self.lent = lent;
        status
    }

    /// Lends the map, whole.
    pub(crate) fn contents(&mut self) -> u8 {
        let mut lent = Bytes::EMPTY;
        let status = unsafe { ep_contents(self.held(), &mut lent) };
        self.lent = lent;
        status
    }

    /// How many entries of a peer are known.
    pub(crate) fn handled(&mut self, peer: u8) -> (u8, u32) {
        let mut entries = 0;
        let status = unsafe { ep_handled(self.held(), peer, &mut entries) };
        (status, entries)
    }

    /// How the instance is led.
    pub(crate) fn leads(&mut self, instance: Instance) -> u8 {
        let mut leading = Leading { phase: 0, answers: 0 };
        unsafe { ep_leads(self.held(), header::Instance::of(instance), &mut leading) }
    }

    /// Lends the next generation's opening.
    pub(crate) fn close(&mut self, replicas: u8) -> u8 {
        let mut lent = Bytes::EMPTY;
        let status = unsafe { ep_close(self.held(), replicas, &mut lent) };
        self.lent = lent;
        status
    }
}

impl Drop for Handle {
    fn drop(&mut self) {
        self.free();
    }
}

/// A file that is given in pieces, and the piece that it lends.
#[derive(Debug)]
pub(crate) struct CheckpointHandle {
    held: Checkpoint,
    lent: Bytes,
}

// SAFETY: that it may go to another thread is proved (crates/ep_handle, `Send`); what it lends is its own.
unsafe impl Send for CheckpointHandle {}

// SAFETY, of each call below: as of `Handle`.
impl CheckpointHandle {
    /// Lends the next bytes.
    pub(crate) fn next(&mut self, most: usize) -> u8 {
        self.lent = Bytes::EMPTY;
        let mut lent = Bytes::EMPTY;
        let status = unsafe { ep_checkpoint_next(&mut self.held, most, &mut lent) };
        self.lent = lent;
        status
    }

    /// Lets go what is left of the generation before.
    pub(crate) fn rest(&mut self) {
        self.lent = Bytes::EMPTY;
        unsafe { ep_checkpoint_rest(&mut self.held) };
    }

    /// What the last call has lent.
    pub(crate) fn piece(&self) -> &[u8] {
        if self.lent.len == 0 {
            return &[];
        }
        // SAFETY: what is lent stays until the next call, and each call takes `&mut self` and ends it.
        unsafe { slice::from_raw_parts(self.lent.at, self.lent.len) }
    }
}

impl Drop for CheckpointHandle {
    fn drop(&mut self) {
        unsafe { ep_checkpoint_free(&mut self.held) };
    }
}

/// What says when to wait no longer, and what it lends.
#[derive(Debug)]
pub(crate) struct PatienceHandle {
    held: Patience,
    lent: Bytes,
}

// SAFETY: that it may go to another thread is proved (crates/ep_handle, `Send`); what it lends is its own.
unsafe impl Send for PatienceHandle {}

// SAFETY, of each call below: as of `Handle`.
impl PatienceHandle {
    /// One; or the status, which is none of the header's where the library is of another version.
    pub(crate) fn begin(replicas: u8, replica: u8, waits: Waits, seed: u64) -> Result<PatienceHandle, u8> {
        if version() != VERSION {
            return Err(u8::MAX);
        }
        let Waits { granularity, initial, told, longest } = waits;
        let spans = header::Waits { seed, granularity, initial, told, longest, replicas, replica };
        let mut handle = PatienceHandle { held: Patience { at: ptr::null_mut() }, lent: Bytes::EMPTY };
        match unsafe { ep_patience_begin(&mut handle.held, &spans) } {
            0 => Ok(handle),
            status => Err(status),
        }
    }

    /// That of which nothing is lent any more.
    fn held(&mut self) -> *mut Patience {
        self.lent = Bytes::EMPTY;
        &mut self.held
    }

    pub(crate) fn measure(&mut self, peer: u8, took: u32) -> u8 {
        unsafe { ep_patience_measure(self.held(), peer, took) }
    }

    pub(crate) fn reach(&mut self, peer: u8, is_reached: bool) -> u8 {
        unsafe { ep_patience_reach(self.held(), peer, u8::from(is_reached)) }
    }

    pub(crate) fn hurry(&mut self) -> u8 {
        unsafe { ep_patience_hurry(self.held()) }
    }

    pub(crate) fn put_off(&mut self, instance: Instance, ballot: u16, now: u64) -> u8 {
        unsafe { ep_patience_put_off(self.held(), header::Instance::of(instance), ballot, now) }
    }

    /// Lends what is asked for.
    pub(crate) fn turn(&mut self, now: u64, open: &[u8]) -> u8 {
        let mut lent = Bytes::EMPTY;
        let status = unsafe { ep_patience_turn(self.held(), now, open.as_ptr(), open.len(), &mut lent) };
        self.lent = lent;
        status
    }

    /// What the last call has lent.
    pub(crate) fn late(&self) -> &[u8] {
        if self.lent.len == 0 {
            return &[];
        }
        // SAFETY: what is lent stays until the next call, and each call takes `&mut self` and ends it.
        unsafe { slice::from_raw_parts(self.lent.at, self.lent.len) }
    }

    /// When the next turn is due, if one is.
    pub(crate) fn due(&mut self) -> Option<u64> {
        let mut due = 0;
        (unsafe { ep_patience_due(self.held(), &mut due) } == 0).then_some(due)
    }
}

impl Drop for PatienceHandle {
    fn drop(&mut self) {
        unsafe { ep_patience_free(self.held()) };
    }
}
