//! What the host has done in the background.
use crate::ops::say::warn;
use epaxos::Checkpoint;
use epaxos::host::{Host, Work};
use epaxos::parts::{give_way, leave_real_time};
use epaxos::service::{Disk, Folder};
use std::time::Instant;

/// What a thread in the background has done.
pub enum Worked {
    Written(u32, [u8; 32], u64),
    NotWritten(u32),
    Part(u32, u64, (u64, Vec<u8>)),
    Gathered(u64, Option<Vec<u8>>),
    Followed(u32, Option<Vec<u8>>),
    LetGo(u32, Checkpoint),
}

impl Worked {
    /// Does this. None: nothing is to be reported of it.
    pub fn of(work: Work, disk: &mut Folder) -> Option<Worked> {
        Some(match work {
            Work::Write { generation, checkpoint, .. } => {
                give_way();
                match disk.write_opening(generation, checkpoint) {
                    Ok((digest, bytes)) => Worked::Written(generation, digest, bytes),
                    Err(fault) => {
                        warn(&format!("the opening of generation {generation} can't be written: {fault}"));
                        Worked::NotWritten(generation)
                    }
                }
            }
            Work::Prepare { generation } => {
                // (where it can't be made now it is made at the change)
                let _ = disk.prepare(generation);
                return None;
            }
            Work::Read { generation, offset, length } => {
                Worked::Part(generation, offset, disk.read_opening(generation, offset, length).ok()?)
            }
            Work::LetGo { generation, mut checkpoint } => {
                // (it holds the allocator's locks, for which who serves may wait: so it is no nicer)
                leave_real_time();
                checkpoint.let_go();
                Worked::LetGo(generation, checkpoint)
            }
            Work::Gather { number, spans } => {
                let read = spans.iter().map(|span| disk.read_span(span)).collect::<Result<Vec<_>, _>>();
                Worked::Gathered(number, read.ok().map(|all| all.concat()))
            }
            Work::Follow { generation, trail } => {
                let from = trail.from();
                let opening = trail.opening();
                if let Err(fault) = &opening {
                    warn(&format!("what replica {from} has handed isn't taken: {fault}"));
                }
                Worked::Followed(generation, opening.ok())
            }
        })
    }

    /// Reports it to the host.
    pub fn report(self, host: &mut Host, now: Instant) {
        match self {
            Worked::Written(generation, digest, bytes) => host.opening_written(generation, &digest, bytes, now),
            Worked::NotWritten(generation) => host.opening_failed(generation, now),
            Worked::Part(generation, offset, part) => host.opening_read(generation, offset, part, now),
            Worked::Gathered(number, bytes) => host.gathered(number, bytes, now),
            Worked::Followed(generation, opening) => host.followed(generation, opening, now),
            Worked::LetGo(generation, checkpoint) => host.let_go(generation, checkpoint, now),
        }
    }
}
