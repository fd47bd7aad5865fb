//! A replica in its generation, with what is known of its log.
use crate::host::key_change::changes;
use crate::host::{Done, KeyChange, Observer, Settings, Summing, Sums};
use crate::parts::members::Members;
use crate::parts::room::growth;
use crate::{Cluster, Command, Executed, Fault, Instance, OwnedAnswer, Proposed, Reference, Replica};
use std::collections::HashSet;
use std::sync::Arc;

/// A receipt, with its answer.
pub(super) struct Receipt {
    pub(super) client: u32,
    pub(super) request: u32,
    pub(super) stamp: u64,
    pub(super) entry: u32,
    pub(super) answer: OwnedAnswer,
}

/// What there is to hand out, now that what it rests on is on the disk.
#[derive(Default)]
pub(super) struct Outcome {
    pub(super) entries: u32,
    pub(super) proposed: Vec<Proposed>,
    pub(super) frames: Vec<(u8, Vec<u8>)>,
    pub(super) receipts: Vec<Receipt>,
    /// Their bytes.
    pub(super) bytes: Vec<u8>,
    /// What got committed.
    pub(super) committed: Vec<Instance>,
    /// What was executed: it needn't be tried any more.
    pub(super) tried: HashSet<Instance>,
    pub(super) executed: Vec<Done>,
    pub(super) changes: Vec<KeyChange>,
    pub(super) lacks_changes: bool,
    pub(super) is_sealed: bool,
}

/// The replica, whose log's length and sum are known.
pub(super) struct Acting {
    pub(super) replica: Replica,
    pub(super) generation: u32,
    /// How many bytes the log has, with those that are lent.
    pub(super) length: u64,
    sums: Sums,
    sum: Box<dyn Summing>,
    reports_executed: bool,
    /// How many bytes the map had when the generation began, and has.
    map: (u64, u64),
    /// Whom the seal names that was executed, where one was, and names some.
    pub(super) members: Option<Members>,
}

/// What was executed in a generation.
pub(super) fn done(generation: u32, executed: &Executed) -> Done {
    let (command, answer) = (executed.command.as_ref().map(Command::to_owned), executed.answer.to_owned());
    Done { generation, instance: executed.instance, command, answer }
}

impl Acting {
    /// That of a generation which begins with a map of so many bytes.
    pub(super) fn new(replica: Replica, generation: u32, map: u64, settings: &Settings) -> Acting {
        let (sums, reports_executed) = (settings.sums, settings.tells_executed);
        let sum = (sums.begin)();
        Acting { replica, generation, length: 0, sums, sum, reports_executed, map: (map, map), members: None }
    }

    /// The same, which reports what was executed where a machine is there to do it.
    pub(super) fn reporting(self, has_machine: bool) -> Acting {
        Acting { reports_executed: self.reports_executed || has_machine, ..self }
    }

    /// How many bytes the map had when the generation began.
    pub(super) fn map(&self) -> u64 {
        self.map.0
    }

    /// Lends what is to be written next, and whether it takes the place of the whole log. None: nothing is.
    pub(super) fn lend(&mut self) -> Result<Option<(Arc<Vec<u8>>, bool)>, Fault> {
        let ready = self.replica.ready()?;
        let (bytes, is_anew) = (Arc::new(ready.log().to_vec()), ready.is_anew());
        if is_anew {
            (self.sum, self.length) = ((self.sums.begin)(), 0);
        }
        self.sum.share(&bytes);
        self.length += bytes.len() as u64;
        Ok((!bytes.is_empty()).then_some((bytes, is_anew)))
    }

    /// The same of a log that begins.
    pub(super) fn lend_whole(&mut self) -> Result<Option<Vec<u8>>, Fault> {
        Ok(self.lend()?.map(|(bytes, _)| Arc::unwrap_or_clone(bytes)))
    }

    /// What was lent is on the disk. What was written is reported, where that is wanted, and what was executed an
    /// observer.
    pub(super) fn synced(
        &mut self,
        reports_changes: bool,
        mut observer: Option<&mut Box<dyn Observer>>,
    ) -> Result<Outcome, Fault> {
        let (generation, reports_executed) = (self.generation, self.reports_executed);
        let output = self.replica.ready()?.assume_synced()?;
        let mut outcome = Outcome {
            entries: output.entries(),
            proposed: output.proposed().collect(),
            frames: output.frames().map(|frame| (frame.to, frame.bytes.to_vec())).collect(),
            committed: output.committed().collect(),
            tried: output.executed_instances().collect(),
            is_sealed: output.is_sealed(),
            ..Outcome::default()
        };
        for it in output.executed() {
            if let Some(command) = it.command.as_ref().filter(|_| it.answer.is_done()) {
                if let Command::Seal { value } = command {
                    self.members = Members::read(value);
                }
                self.map.1 = self.map.1.saturating_add_signed(growth(command, &it.answer));
            }
            observer.iter_mut().for_each(|observer| observer.note(&it));
        }
        for receipt in output.receipts() {
            outcome.bytes.extend(receipt.bytes);
            let (client, request, stamp, entry) = (receipt.client, receipt.request, receipt.stamp, receipt.entry);
            outcome.receipts.push(Receipt { client, request, stamp, entry, answer: receipt.answer.to_owned() });
        }
        if reports_executed || reports_changes {
            outcome.executed = output.executed().map(|it| done(generation, &it)).collect();
        }
        if reports_changes {
            let present = |key: &[u8]| Ok(self.replica.get(key)?.map(<[u8]>::to_vec));
            (outcome.changes, outcome.lacks_changes) = changes(&outcome.executed, present)?;
        }
        if !reports_executed {
            outcome.executed = Vec::new();
        }
        Ok(outcome)
    }

    /// The reference to the log as it is, by which the next generation begins.
    pub(super) fn reference(&self, next: Cluster) -> Result<Reference, Fault> {
        self.replica.reference(next, self.sum.digest()).map_err(|_| Fault::OutOfRange)
    }

    /// The replica has gone on in the next generation, whose log it begins.
    pub(super) fn begin(&mut self, generation: u32) {
        (self.generation, self.length, self.sum, self.members) = (generation, 0, (self.sums.begin)(), None);
        self.map.0 = self.map.1;
    }
}
