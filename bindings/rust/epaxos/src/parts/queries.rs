//! What a host asks its core beside events: nothing is changed by it.
use crate::{Fault, Instance, OpenInstance, OwnedReading, Replica};

/// What there is to report of entries, and of open instances.
#[derive(Clone, Default, PartialEq, Eq, Debug)]
pub struct Report {
    /// Each with its receiver.
    pub frames: Vec<(u8, Vec<u8>)>,
    /// The instances that got committed, own and others'.
    pub committed: Vec<Instance>,
    pub open: Vec<OpenInstance>,
}

/// A core that is asked. What it reports is on the disk.
pub trait Queries {
    type Fault;

    /// What there is to report of the entries after so many, and the least open instances, at most so many. Of the
    /// entries after `u32::MAX` there is nothing.
    ///
    /// # Errors
    ///
    /// What befell the core, as of each question.
    fn report(&mut self, after: u32, most: u8) -> Result<Report, Self::Fault>;

    /// The greatest number of an entry of this peer whose frames its log has handled in this generation; 0 where there
    /// is none.
    fn handled(&mut self, peer: u8) -> Result<u32, Self::Fault>;

    /// Of each of these keys the instances that interfere with a read of it, rising.
    fn interfering(&mut self, keys: &[&[u8]]) -> Result<Vec<Vec<Instance>>, Self::Fault>;

    /// What reads of these keys are answered that write nothing, with which these instances interfere.
    fn read(&mut self, reads: &[(&[u8], &[Instance])]) -> Result<Vec<OwnedReading>, Self::Fault>;
}

impl Queries for Replica {
    type Fault = Fault;

    fn report(&mut self, after: u32, most: u8) -> Result<Report, Fault> {
        let output = Replica::report(self, after, most)?;
        let frames = output.frames().map(|frame| (frame.to, frame.bytes.to_vec())).collect();
        Ok(Report { frames, committed: output.committed().collect(), open: output.open().collect() })
    }

    fn handled(&mut self, peer: u8) -> Result<u32, Fault> {
        Replica::handled(self, peer)
    }

    fn interfering(&mut self, keys: &[&[u8]]) -> Result<Vec<Vec<Instance>>, Fault> {
        Replica::interfering(self, keys)
    }

    fn read(&mut self, reads: &[(&[u8], &[Instance])]) -> Result<Vec<OwnedReading>, Fault> {
        Replica::read(self, reads)
    }
}
