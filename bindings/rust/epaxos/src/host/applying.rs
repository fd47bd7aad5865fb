//! A machine that does what is executed, and its state when the generation began.
use crate::host::{Done, Machine, Ordered};
use crate::{Fields, Instance, OwnedAnswer, OwnedCommand, Sum};
use std::collections::BTreeMap;
use std::io;

/// What a file of a state begins with, before the generation that begins with it, its length and itself.
const MAGIC: &[u8; 5] = b"EPMS\x01";

/// A machine, and what of it peers are handed.
pub(super) struct Applying {
    machine: Box<dyn Machine>,
    /// The file of its state when the present generation began.
    begun: Vec<u8>,
}

impl Applying {
    pub(super) fn new(machine: Box<dyn Machine>) -> Applying {
        Applying { machine, begun: Vec::new() }
    }

    pub(super) fn machine(&self) -> &dyn Machine {
        &*self.machine
    }

    pub(super) fn begun(&self) -> &[u8] {
        &self.begun
    }

    /// Does what was executed: what it replied in the instances of this replica.
    pub(super) fn apply(&mut self, executed: &[Done], me: u8) -> BTreeMap<Instance, Vec<u8>> {
        let mut replied = BTreeMap::new();
        for Done { generation, instance, command, answer } in executed {
            let (Some(OwnedCommand::Opaque { is_reading, first, second, body }), OwnedAnswer::Ordered) =
                (command, answer)
            else {
                continue;
            };
            let (generation, instance, is_reading) = (*generation, *instance, *is_reading);
            let ordered = Ordered { generation, instance, is_reading, first, second: second.as_deref(), body };
            let reply = self.machine.apply(&ordered);
            if instance.replica == me {
                replied.insert(instance, reply);
            }
        }
        replied
    }

    /// This generation begins with the state as it is.
    pub(super) fn begin(&mut self, generation: u32) {
        self.begun = write(generation, &self.machine.snapshot());
    }

    /// This generation begins with the state of these bytes' file, and the machine has it. Whether they are that.
    ///
    /// # Errors
    ///
    /// The machine's, which has no state then.
    pub(super) fn restore(&mut self, generation: u32, file: &[u8]) -> io::Result<bool> {
        match split(file) {
            Some((of, snapshot, [])) if of == generation => self.machine.restore(snapshot)?,
            _ => return Ok(false),
        }
        self.begun = file.to_vec();
        Ok(true)
    }
}

/// The file of a state with which a generation begins.
fn write(generation: u32, snapshot: &[u8]) -> Vec<u8> {
    let mut out = MAGIC.to_vec();
    out.extend(generation.to_be_bytes());
    out.extend((snapshot.len() as u64).to_be_bytes());
    out.extend(snapshot);
    out.extend(Sum::of(&out));
    out
}

/// The generation, the state, and what stands behind the file. None where the bytes begin with none.
pub(super) fn split(bytes: &[u8]) -> Option<(u32, &[u8], &[u8])> {
    let mut fields = Fields::new(bytes);
    if fields.run(MAGIC.len())? != MAGIC {
        return None;
    }
    let (generation, length) = (fields.u32()?, fields.u64()?);
    let snapshot = fields.run(usize::try_from(length).ok()?)?;
    let (digest, rest) = fields.rest().split_first_chunk::<32>()?;
    let summed = bytes.len() - rest.len() - digest.len();
    (Sum::of(&bytes[..summed]) == *digest).then_some((generation, snapshot, rest))
}

#[cfg(test)]
mod tests {
    use super::*;

    #[test]
    fn files_word_for_word() {
        let file = write(258, b"xy");
        assert_eq!(file[..19], *b"EPMS\x01\x00\x00\x01\x02\x00\x00\x00\x00\x00\x00\x00\x02xy");
        assert_eq!(file[19..], Sum::of(&file[..19]));
        let more = [&file[..], b"behind"].concat();
        assert_eq!(split(&more), Some((258, &b"xy"[..], &b"behind"[..])));
        assert_eq!(split(&write(1, b"")), Some((1, &b""[..], &b""[..])));
        for cut in 0..file.len() {
            assert_eq!(split(&file[..cut]), None);
        }
        for turned in 0..file.len() {
            let mut other = file.clone();
            other[turned] ^= 1;
            assert_eq!(split(&other), None, "byte {turned}");
        }
    }
}
