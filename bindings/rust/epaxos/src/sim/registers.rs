//! The machine of each replica.
use crate::host::{Machine, Ordered};
use std::collections::BTreeMap;
use std::io::{self, ErrorKind};

/// Registers by key: a command writes a value, or only reads; its reply is what the register had.
#[derive(Default)]
pub(super) struct Registers(BTreeMap<Vec<u8>, Register>);

/// What a register has, and how often it was written, which shows a machine that has done something twice.
#[derive(Default)]
struct Register {
    value: Vec<u8>,
    count: u32,
}

impl Machine for Registers {
    fn apply(&mut self, ordered: &Ordered) -> Vec<u8> {
        let had = self.0.get(ordered.first).map(|it| it.value.clone()).unwrap_or_default();
        if !ordered.is_reading {
            let register = self.0.entry(ordered.first.to_vec()).or_default();
            (register.value, register.count) = (ordered.body.to_vec(), register.count + 1);
        }
        had
    }

    fn snapshot(&self) -> Vec<u8> {
        let mut out = Vec::new();
        for (key, Register { value, count }) in &self.0 {
            out.extend([key.len() as u8, value.len() as u8]);
            out.extend(key);
            out.extend(value);
            out.extend(count.to_be_bytes());
        }
        out
    }

    fn restore(&mut self, mut snapshot: &[u8]) -> io::Result<()> {
        let mut take = |length: usize| snapshot.split_off(..length).ok_or(ErrorKind::InvalidData);
        self.0.clear();
        while let Ok([key, value]) = take(2) {
            let key = take(usize::from(*key))?.to_vec();
            let value = take(usize::from(*value))?.to_vec();
            let count = take(4)?.try_into().map(u32::from_be_bytes).map_err(io::Error::other)?;
            self.0.insert(key, Register { value, count });
        }
        Ok(())
    }
}

#[cfg(test)]
mod tests {
    use super::*;
    use crate::Instance;

    #[test]
    fn a_snapshot_is_the_state() {
        let mut registers = Registers::default();
        let ordered = |is_reading, first, body| {
            let instance = Instance { replica: 0, number: 1 };
            Ordered { generation: 1, instance, is_reading, first, second: None, body }
        };
        assert_eq!(registers.apply(&ordered(false, b"x", b"1")), b"");
        assert_eq!(registers.apply(&ordered(false, b"x", b"2")), b"1");
        assert_eq!(registers.apply(&ordered(true, b"y", b"")), b"");
        let mut other = Registers::default();
        other.restore(&registers.snapshot()).unwrap();
        assert_eq!(other.snapshot(), registers.snapshot());
        assert_eq!(other.apply(&ordered(true, b"x", b"")), b"2");
        assert!(other.restore(&registers.snapshot()[..3]).is_err());
    }
}
