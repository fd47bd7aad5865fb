//! How logs are gone through, from a whole opening on: a start goes so through its own, and a replica that lags through
//! those of a peer.
use crate::host::Stored;
use crate::parts::folder::{Opened, Started, SumOf, log_of, look};
use crate::parts::folder_fault::FolderFault;
use crate::parts::opening::Opening;
use crate::parts::tally::Tally;
use crate::{Checkpoint, Cluster, Executed, OpenFault, Reference, Replica, Setup, SucceedFault, Succession};

/// The replica that logs are of.
#[derive(Clone, Copy)]
pub struct Follower {
    pub replica: u8,
}

/// A replica in the generation that is gone on with, whose log comes first.
pub struct Begun {
    pub replica: Replica,
    /// What the generation opens with,
    pub opening: Opening,
    /// and all of that, with what stands for it, where no file has it.
    pub unwritten: Option<(Reference, Checkpoint)>,
}

impl Follower {
    /// How the replica begins with this opening, or goes on.
    fn setup<'a>(&self, opening: &'a Opened) -> Result<Setup<'a>, FolderFault> {
        let new = Setup::new(cluster(opening.replicas)?, self.replica);
        let (opening, reference) = (Some(&opening.bytes[..]), opening.reference);
        Ok(Setup { opening, reference, told: Some(0), ..new })
    }

    pub fn succession<'a>(&self, reference: Reference, log: Option<&'a [u8]>) -> Succession<'a> {
        Succession { log, told: Some(0), ..Succession::new(reference, self.replica) }
    }

    /// The replica in the generation that is started, with this log, or at its beginning: by its opening, or by the
    /// logs from an earlier one on. `log_of` gives the log that a reference names; `each` gets what each of these
    /// executed, with its generation, and then that it is over.
    pub fn begin(
        &self,
        started: &Started,
        log: Option<&[u8]>,
        log_of: impl Fn(&Reference) -> Result<Vec<u8>, FolderFault>,
        each: impl FnMut(u32, Option<Executed>),
    ) -> Result<Begun, FolderFault> {
        let Some(reference) = started.references.last().copied() else {
            let (first, setup) = (&started.first, self.setup(&started.first)?);
            let replica = log.map_or_else(|| setup.begin(), |log| setup.open(log));
            let replica = replica.map_err(|fault| FolderFault::of(fault, Some(first.generation)))?;
            return Ok(Begun { replica, opening: Opening::of(&first.bytes).unwrap_or_default(), unwritten: None });
        };
        let (mut replica, tally) = self.lead(started, log_of, each)?;
        let opening = opening_of(&mut replica, &reference, tally)?;
        let checkpoint = replica.succeed(&self.succession(reference, log));
        let checkpoint = checkpoint.map_err(|fault| not_led(fault, &reference))?;
        Ok(Begun { replica, opening, unwritten: Some((reference, checkpoint)) })
    }

    /// The replica that the logs of earlier generations lead to, which has executed the seal of the last of these.
    fn lead(
        &self,
        started: &Started,
        log_of: impl Fn(&Reference) -> Result<Vec<u8>, FolderFault>,
        mut each: impl FnMut(u32, Option<Executed>),
    ) -> Result<(Replica, Tally), FolderFault> {
        let Started { first, references, .. } = started;
        let log = log_of(&references[0])?;
        let replica = self.setup(first)?.open(&log);
        let mut replica = replica.map_err(|fault| FolderFault::of(fault, Some(first.generation)))?;
        let mut tally = Tally::of(Opening::of(&first.bytes).map_or(0, |opening| opening.map));
        replay(&mut replica, &log, first.generation, &mut tally, &mut each)?;
        for two in references.windows(2) {
            let (reference, log) = (two[0], log_of(&two[1])?);
            let succession = self.succession(reference, Some(&log));
            drop(replica.succeed(&succession).map_err(|fault| not_led(fault, &reference))?);
            tally = Tally::of(tally.map);
            replay(&mut replica, &log, reference.generation(), &mut tally, &mut each)?;
        }
        Ok((replica, tally))
    }

    /// What a generation opens with, as its file has it, or as logs lead to it. Nothing is changed.
    pub fn opening_in(&self, stored: &impl Stored, generation: u32, sum: SumOf) -> Result<Opened, FolderFault> {
        let started = Started::read(stored, &look(stored)?, generation)?;
        let Some(reference) = started.references.last().copied() else { return Ok(started.first) };
        let mut bytes = Vec::new();
        for piece in self.opening_of(&started, reference, |next| log_of(stored, next, sum))? {
            bytes.extend(piece?);
        }
        Ok(Opened { generation, replicas: reference.cluster().replicas(), bytes, reference: Some(reference) })
    }

    /// The opening of a generation that logs lead to, by the last reference.
    pub fn opening_of(
        &self,
        started: &Started,
        reference: Reference,
        log_of: impl Fn(&Reference) -> Result<Vec<u8>, FolderFault>,
    ) -> Result<Checkpoint, FolderFault> {
        let (mut replica, _) = self.lead(started, log_of, |_, _| {})?;
        replica.succeed(&self.succession(reference, None)).map_err(|fault| not_led(fault, &reference))
    }
}

/// Has a replica take its log for what is on the disk, all of which is its own.
fn replay(
    replica: &mut Replica,
    log: &[u8],
    generation: u32,
    tally: &mut Tally,
    each: &mut impl FnMut(u32, Option<Executed>),
) -> Result<(), FolderFault> {
    let ready = replica.ready()?;
    if ready.log() != log {
        return Err(FolderFault::OtherLog(generation));
    }
    let output = ready.assume_synced()?;
    for executed in output.executed() {
        tally.add(&executed);
        each(generation, Some(executed));
    }
    each(generation, None);
    Ok(())
}

/// What the generation of this reference opens with, by what its replica has done in the one before: clocks go on from
/// the last stamp there.
pub fn opening_of(replica: &mut Replica, reference: &Reference, tally: Tally) -> Result<Opening, FolderFault> {
    let base_stamp = replica.state()?.stamp;
    let (generation, replicas) = (reference.generation(), reference.cluster().replicas());
    Ok(Opening { base_stamp, generation, replicas, seal: tally.seal, map: tally.map, executed: tally.executed })
}

/// Why the logs don't lead to the generation of this reference.
fn not_led(fault: SucceedFault, reference: &Reference) -> FolderFault {
    match fault {
        SucceedFault::NotSealed => FolderFault::OtherLog(reference.generation() - 1),
        SucceedFault::Log(fault) => FolderFault::Open(fault),
        fault => FolderFault::Succeed(fault),
    }
}

pub fn cluster(replicas: u8) -> Result<Cluster, FolderFault> {
    Cluster::try_from(replicas).map_err(|_| FolderFault::Open(OpenFault::OutOfRange))
}
