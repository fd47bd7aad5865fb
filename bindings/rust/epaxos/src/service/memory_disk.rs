//! A disk in memory.
use crate::Checkpoint;
use crate::host::{Act, Name, Stored};
use crate::service::Disk;
use std::collections::BTreeMap;
use std::io::{self, ErrorKind};
use std::sync::{Arc, Mutex, MutexGuard, PoisonError};

/// A disk in memory: a copy of it is the same disk, so that a replica can start again with what it has. For tests.
///
/// ```
/// use epaxos::host::{Act, Name, Stored};
/// use epaxos::service::{Disk, MemoryDisk};
///
/// let mut disk = MemoryDisk::default();
/// let same = disk.clone();
/// disk.carry_out(&[Act::Put { generation: 1, name: Name::Log, bytes: b"EP".into() }])?;
/// disk.carry_out(&[Act::Append { generation: 1, bytes: b"LG".to_vec().into() }])?;
/// assert_eq!(same.read(1, Name::Log)?, Some(b"EPLG".into()));
/// # Ok::<(), std::io::Error>(())
/// ```
#[derive(Clone, Default, Debug)]
pub struct MemoryDisk {
    files: Arc<Mutex<BTreeMap<(u32, Name), Vec<u8>>>>,
}

impl MemoryDisk {
    fn files(&self) -> MutexGuard<'_, BTreeMap<(u32, Name), Vec<u8>>> {
        self.files.lock().unwrap_or_else(PoisonError::into_inner)
    }
}

impl Stored for MemoryDisk {
    fn generations(&self) -> io::Result<Vec<u32>> {
        let mut all: Vec<u32> = self.files().keys().map(|(generation, _)| *generation).filter(|it| *it > 0).collect();
        all.dedup();
        Ok(all)
    }

    fn read(&self, generation: u32, name: Name) -> io::Result<Option<Vec<u8>>> {
        Ok(self.files().get(&(generation, name)).cloned())
    }
}

impl Disk for MemoryDisk {
    fn carry_out(&mut self, acts: &[Act]) -> io::Result<()> {
        let mut files = self.files();
        for act in acts {
            match act {
                Act::Append { generation, bytes } => {
                    let log = files.get_mut(&(*generation, Name::Log)).ok_or(ErrorKind::NotFound)?;
                    log.extend_from_slice(bytes);
                }
                Act::Put { generation, name, bytes } => _ = files.insert((*generation, *name), bytes.clone()),
                Act::Drop { below } => files.retain(|(generation, _), _| *generation == 0 || generation >= below),
            }
        }
        Ok(())
    }

    fn write_opening(&mut self, generation: u32, checkpoint: Checkpoint) -> io::Result<([u8; 32], u64)> {
        let mut bytes = Vec::new();
        let digest = checkpoint.write(&mut bytes)?;
        let length = bytes.len() as u64;
        self.files().insert((generation, Name::Opening), bytes);
        Ok((digest, length))
    }

    fn read_opening(&mut self, generation: u32, offset: u64, length: u64) -> io::Result<(u64, Vec<u8>)> {
        let files = self.files();
        let bytes = files.get(&(generation, Name::Opening)).ok_or(ErrorKind::NotFound)?;
        let total = bytes.len() as u64;
        let (begin, end) = (offset.min(total) as usize, offset.saturating_add(length).min(total) as usize);
        Ok((total, bytes[begin..end].to_vec()))
    }
}
