//! The core: the library.
#![forbid(unsafe_code)]

use crate::bytes::Fields;
use crate::ffi::{self, CheckpointHandle, Handle, Place};
use crate::lent::Lent;
use crate::question::{self, Question};
use crate::status::{self, DONE, NONE, NOT_COMMITTED, TOO_SHORT};
use crate::{Begin, CloseFault, Cluster, Event, Fault, Instance, OpenFault, State, SucceedFault, Succession};
use std::ops::Range;

/// No entry has this number: behind it there is nothing to report.
const NOTHING: u32 = u32::MAX;

/// How many bytes the length of an answer has.
const LENGTH: usize = 4;

/// What the library says.
pub(crate) const SAID: &str = if crate::IS_PROVED { "" } else { "not proved: built with --unproved" };

pub(crate) struct Library {
    handle: Handle,
    me: u8,
    /// How many bytes are lent to be written, and whether they take the place of the whole log.
    lent: usize,
    is_anew: bool,
    /// Whether what there is to report of it was made, so that more may be taken.
    is_begun: bool,
    /// Where the last report stands in what the handle lends, and what was proposed and executed by what it is of.
    report: Range<usize>,
    followed: Range<usize>,
    request: Vec<u8>,
}

impl Library {
    pub(crate) fn open(begin: &Begin) -> Result<Library, OpenFault> {
        if ffi::version() != ffi::VERSION {
            return Err(OpenFault::OtherLibrary);
        }
        let replicas = begin.cluster.replicas();
        let opening = begin.opening.unwrap_or_else(|| begin.cluster.first_opening());
        // (no bytes are no opening; to the library they would be another version)
        if opening.is_empty() {
            return Err(open_fault(status::OPENING_SHORT, Place::default()));
        }
        let opened = match &begin.reference {
            None => Handle::open(replicas, begin.me, opening, begin.log),
            Some(reference) => Handle::open_bound(opening, reference, begin.me, begin.log),
        };
        let handle = opened.map_err(|(status, place)| open_fault(status, place))?;
        Ok(Library {
            handle,
            me: begin.me,
            lent: 0,
            is_anew: false,
            is_begun: false,
            report: 0..0,
            followed: 0..0,
            request: Vec::new(),
        })
    }

    /// How many bytes of the log that it was opened from stood behind the last whole record, and were cut off.
    pub(crate) fn cut(&mut self) -> Result<u64, OpenFault> {
        match self.handle.cut() {
            (DONE, place) => Ok(place.by),
            (NONE, _) => Ok(0),
            (status, place) => Err(open_fault(status, place)),
        }
    }

    /// Ends it.
    pub(crate) fn end(&mut self) {
        self.handle.free();
    }

    /// While something is lent nothing is reported. (A refused call of the library would end the lending of the bytes.)
    fn check_not_lent(&self) -> Result<(), Fault> {
        if self.lent > 0 { Err(Fault::Unsynced) } else { Ok(()) }
    }

    /// Nor is anything taken, before what there is to report was made.
    fn check_may_take(&self) -> Result<(), Fault> {
        if self.is_begun { Ok(()) } else { self.check_not_lent() }
    }

    /// What is asked while something isn't on the disk is answered only then.
    fn check_synced(&mut self) -> Result<(), Fault> {
        self.check_not_lent()?;
        match self.handle.leads(Instance { replica: self.me, number: 1 }) {
            status @ (status::LENT | status::UNSYNCED) => Err(fault(status)),
            _ => Ok(()),
        }
    }

    /// Notes where the last of the answers stand that the handle lends: a report, and what was proposed and executed.
    fn note_all(&mut self) -> Result<(), Fault> {
        self.followed = last(self.handle.lent()).ok_or_else(bad_answers)?;
        let before = self.followed.start.saturating_sub(LENGTH);
        self.report = last(&self.handle.lent()[..before]).ok_or_else(bad_answers)?;
        Ok(())
    }

    /// Takes an event. While something is lent to be written, nothing is taken, unless what there is to report of it
    /// was made (`begin`).
    pub(crate) fn take(&mut self, event: &Event) -> Result<(), Fault> {
        self.check_may_take()?;
        let handle = &mut self.handle;
        match event {
            Event::Propose { call, command } => done(handle.propose(call, command, None)),
            Event::ProposeSparing { call, command, spared } => done(handle.propose(call, command, Some(*spared))),
            Event::Handle(frame) => done(handle.handle(frame)),
            Event::GiveUp(instance) => done(handle.give_up(*instance)),
            Event::Recover(instance) => done(handle.recover(*instance)),
            Event::Execute(instance) => match handle.execute(*instance) {
                (NOT_COMMITTED, waits_for) => Err(Fault::NotCommitted(waits_for)),
                (status, _) => done(status),
            },
        }
    }

    /// Executes all own instances that are ready.
    pub(crate) fn advance(&mut self) -> Result<(), Fault> {
        self.check_may_take()?;
        done(self.handle.advance())
    }

    /// Executes all instances that are ready.
    pub(crate) fn execute_all(&mut self) -> Result<(), Fault> {
        self.check_may_take()?;
        done(self.handle.execute_all())
    }

    /// Lends what is to be written, or the same again.
    pub(crate) fn lend(&mut self) -> Result<(), Fault> {
        let (status, is_anew) = self.handle.ready();
        done(status)?;
        (self.lent, self.is_anew) = (self.handle.lent().len(), is_anew);
        Ok(())
    }

    pub(crate) fn lent(&self) -> Lent<'_> {
        let bytes = if self.lent > 0 { self.handle.lent() } else { &[] };
        Lent { bytes, is_anew: self.is_anew && self.lent > 0 }
    }

    /// What was lent is on the disk.
    pub(crate) fn sync(&mut self) -> Result<(), Fault> {
        done(self.handle.synced(self.lent))?;
        self.lent = 0;
        Ok(())
    }

    /// Makes what `gather` would gather once all that was taken, and is lent, is on the disk. Meanwhile more may be
    /// taken.
    pub(crate) fn begin(&mut self, reported: u32, most: u8) -> Result<(), Fault> {
        done(self.handle.prepare_all(reported, most))?;
        self.is_begun = true;
        Ok(())
    }

    /// Gathers what there is to report behind the first `reported` entries, all of which are on the disk, and of `most`
    /// open instances.
    pub(crate) fn gather(&mut self, reported: u32, most: u8) -> Result<(), Fault> {
        done(self.handle.answers_all(reported, most))?;
        self.note_all()
    }

    /// Gathers that once more, but for what was proposed and executed.
    pub(crate) fn gather_again(&mut self, reported: u32, most: u8) -> Result<(), Fault> {
        done(self.handle.answers(reported, most))?;
        self.report = last(self.handle.lent()).ok_or_else(bad_answers)?;
        Ok(())
    }

    /// Gathers what `begin` made, all of which is on the disk.
    pub(crate) fn release(&mut self) -> Result<(), Fault> {
        done(self.handle.prepared())?;
        self.is_begun = false;
        self.note_all()
    }

    /// What was gathered, in the bytes of a report.
    pub(crate) fn report(&self) -> &[u8] {
        self.handle.lent().get(self.report.clone()).unwrap_or_default()
    }

    /// What was proposed and executed by what was gathered.
    pub(crate) fn followed(&self) -> &[u8] {
        self.handle.lent().get(self.followed.clone()).unwrap_or_default()
    }

    pub(crate) fn get(&mut self, key: &[u8]) -> Result<Option<&[u8]>, Fault> {
        self.check_not_lent()?;
        match self.handle.get(key) {
            DONE => Ok(Some(self.handle.lent())),
            NONE => Ok(None),
            status => Err(fault(status)),
        }
    }

    /// What all keys have: bytes that [`Contents`](crate::Contents) reads.
    pub(crate) fn contents(&mut self) -> Result<&[u8], Fault> {
        self.check_not_lent()?;
        done(self.handle.contents())?;
        Ok(self.handle.lent())
    }

    /// The greatest entry number in the frames from this peer that were handled.
    pub(crate) fn handled(&mut self, peer: u8) -> Result<u32, Fault> {
        self.check_not_lent()?;
        let (status, entries) = self.handle.handled(peer);
        done(status).map(|()| entries)
    }

    pub(crate) fn state(&mut self) -> Result<State, Fault> {
        let mut state = None;
        self.ask_all(&[Question::State], &mut |answer| {
            state = question::state(answer);
            state.is_some()
        })?;
        state.ok_or_else(bad_answers)
    }

    /// Asks questions that change nothing, and hands on each answer, in their order; `take` says whether it is one.
    /// While something isn't on the disk nothing is asked.
    pub(crate) fn ask_all(&mut self, questions: &[Question], take: &mut dyn FnMut(&[u8]) -> bool) -> Result<(), Fault> {
        self.check_synced()?;
        for question in questions {
            self.request.clear();
            question.push(&mut self.request);
            done(self.handle.ask(&self.request))?;
        }
        done(self.handle.answers(NOTHING, 0))?;
        // (before them may stand answers to what was asked when memory was short; behind them there is a report)
        let answers = blocks(self.handle.lent()).ok_or_else(bad_answers)?;
        let first = answers.len().checked_sub(questions.len() + 1).ok_or_else(bad_answers)?;
        let untaken = answers[first..].iter().take(questions.len()).find(|answer| !take(answer));
        untaken.map_or(Ok(()), |answer| Err(refusal(answer)))
    }

    /// The opening of the next generation, for so many replicas.
    pub(crate) fn close(&mut self, next: Cluster) -> Result<Vec<u8>, CloseFault> {
        if self.lent > 0 {
            return Err(CloseFault::Unsynced);
        }
        match self.handle.close(next.replicas()) {
            DONE if self.me >= next.replicas() => Err(CloseFault::OutOfRange),
            DONE => Ok(self.handle.lent().to_vec()),
            status::MEMORY => Err(CloseFault::Memory),
            status::OUT_OF_RANGE => Err(CloseFault::OutOfRange),
            status::LENT | status::UNSYNCED => Err(CloseFault::Unsynced),
            status::NOT_SEALED => Err(CloseFault::NotSealed),
            status::LAST_GENERATION => Err(CloseFault::LastGeneration),
            status => Err(CloseFault::Ended(unknown(status))),
        }
    }

    /// Goes on in the next generation, of which it gives the opening file. At `Memory` and `Log` it is gone.
    pub(crate) fn succeed(&mut self, succession: &Succession) -> Result<CheckpointHandle, SucceedFault> {
        if self.lent > 0 {
            return Err(SucceedFault::Unsynced);
        }
        match self.handle.succeed(succession) {
            Ok(checkpoint) => {
                (self.me, self.is_anew, self.is_begun) = (succession.me, false, false);
                (self.report, self.followed) = (0..0, 0..0);
                Ok(checkpoint)
            }
            Err((status::MEMORY, _)) => {
                // (it may be there without its file)
                self.handle.free();
                Err(SucceedFault::Memory)
            }
            Err((status::OUT_OF_RANGE, _)) => Err(SucceedFault::OutOfRange),
            Err((status::LENT | status::UNSYNCED, _)) => Err(SucceedFault::Unsynced),
            Err((status::NOT_SEALED, _)) => Err(SucceedFault::NotSealed),
            Err((status::LAST_GENERATION, _)) => Err(SucceedFault::LastGeneration),
            Err((status::NO_REPLICA, _)) => Err(SucceedFault::NoReplica),
            Err((status @ status::NO_LOG.., place)) => Err(SucceedFault::Log(open_fault(status, place))),
            Err((status, _)) => Err(SucceedFault::Ended(unknown(status))),
        }
    }
}

/// Lends the next piece of the file, of some `most` bytes. None: all was given.
pub(crate) fn next_piece(file: &mut CheckpointHandle, most: usize) -> Result<Option<&[u8]>, Fault> {
    match file.next(most) {
        DONE => Ok(Some(file.piece())),
        NONE => Ok(None),
        status => Err(fault(status)),
    }
}

/// The opening of generation 1. None where there is no memory for it.
pub(crate) fn first_opening(replicas: u8) -> Option<Vec<u8>> {
    let mut bytes = Vec::new();
    loop {
        match ffi::first_opening(replicas, &mut bytes) {
            (_, DONE) => return Some(bytes),
            (length, TOO_SHORT) if length > bytes.len() => bytes.resize(length, 0),
            _ => return None,
        }
    }
}

/// Where the last of a run of answers stands, without its length. None where the run isn't of whole ones.
fn last(answers: &[u8]) -> Option<Range<usize>> {
    let len = blocks(answers)?.last()?.len();
    Some(answers.len() - len..answers.len())
}

/// Answers, each without its length. None where the run isn't of whole ones.
fn blocks(answers: &[u8]) -> Option<Vec<&[u8]>> {
    let (mut fields, mut all) = (Fields::new(answers), Vec::new());
    while !fields.is_over() {
        all.push(fields.block()?);
    }
    Some(all)
}

fn done(status: u8) -> Result<(), Fault> {
    if status == DONE { Ok(()) } else { Err(fault(status)) }
}

fn fault(status: u8) -> Fault {
    match status {
        status::LENT | status::UNSYNCED => Fault::Unsynced,
        status::NO_REPLICA => Fault::NoReplica,
        // (which instance is reported otherwise)
        NOT_COMMITTED => Fault::Ended(unknown(status)),
        _ => Fault::of(status, None).unwrap_or_else(|| Fault::Ended(unknown(status))),
    }
}

/// What no call answers that is made here.
fn unknown(status: u8) -> String {
    format!("the library answers status {status}")
}

/// Why an answer isn't the one that was asked for.
fn refusal(answer: &[u8]) -> Fault {
    question::refusal(answer).unwrap_or_else(bad_answers)
}

fn bad_answers() -> Fault {
    Fault::Ended("its answers aren't of the protocol".into())
}

/// Why nothing is opened, in the words of the programs.
pub(crate) fn open_fault(status: u8, Place { at, by }: Place) -> OpenFault {
    let log = |why: String| OpenFault::BadLog(why);
    let opening = |why: String| OpenFault::BadOpening(why);
    match status {
        status::MEMORY => OpenFault::Memory,
        status::OUT_OF_RANGE => OpenFault::OutOfRange,
        status::NO_LOG => OpenFault::NoLog,
        status::OTHER_LOG | status::OTHER_GENERATION => OpenFault::OtherLog,
        status::NO_HEADER => log("no header of a log".into()),
        status::OTHER_VERSION => log("a log of another version".into()),
        status::BAD_LENGTH => log(format!("bad length in the record at byte {at}")),
        status::BAD_CHECKSUM => log(format!("bad checksum in the record at byte {at}")),
        status::BAD_ENTRY => log(format!("no entry in the record at byte {at}")),
        status::NOT_NEXT => log(format!("not the next entry in the record at byte {at}")),
        status::TURNED => log(format!("damaged at byte {at}, which was on the disk by the record at byte {by}")),
        status::NOT_CLOCKED => log(format!("entry {at} is not clocked")),
        status::OPENING_SHORT => opening(format!("cut short at byte {at}")),
        status::OPENING_DAMAGED => opening(format!("damaged: no digest of the bytes before it at byte {at}")),
        status::OPENING_WRONG => opening(format!("wrong field at byte {at}")),
        status::OTHER_OPENING => opening("it is for another number of replicas".into()),
        _ => OpenFault::Ended(unknown(status)),
    }
}
