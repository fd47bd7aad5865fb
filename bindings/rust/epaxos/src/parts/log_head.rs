//! What a log says before its records.
use crate::ffi;
use crate::records::HEADER;

/// Whose log it is.
#[derive(Clone, Copy, PartialEq, Eq, Debug)]
pub struct LogHead {
    /// 0 of a replica of version 2.
    pub generation: u32,
    pub replicas: u8,
    pub replica: u8,
}

impl LogHead {
    /// A log begins with so many bytes.
    pub const BYTES: usize = HEADER;

    /// That of a log with these first bytes. None where no log begins so.
    pub fn read(log: &[u8]) -> Option<LogHead> {
        let ffi::LogHead { generation, replicas, replica } = ffi::log_head(log)?;
        Some(LogHead { generation, replicas, replica })
    }
}

#[cfg(test)]
mod tests {
    use super::*;
    use crate::{Cluster, Replica};

    /// By the places in docs/FORMATS.md, section 9.
    #[test]
    fn the_places_of_the_header() {
        let log = [&b"EPLG\x03\x05\x04\0\0\x01\x02"[..], &[9; 32]].concat();
        assert_eq!(LogHead::read(&log), Some(LogHead { generation: 258, replicas: 5, replica: 4 }));
        assert_eq!(LogHead::read(&[&log[..], b"records"].concat()), LogHead::read(&log));
        assert!((0..log.len()).all(|cut| LogHead::read(&log[..cut]).is_none()));
        for (at, byte) in [(0, b'e'), (4, 2), (5, 4), (6, 5)] {
            let mut other = log.clone();
            other[at] = byte;
            assert_eq!(LogHead::read(&other), None, "{byte} at {at}");
        }
        let mut log = Vec::new();
        let mut replica = Replica::new(Cluster::Seven, 6).unwrap();
        drop(replica.ready().unwrap().commit(&mut log).unwrap());
        assert_eq!(LogHead::read(&log), Some(LogHead { generation: 1, replicas: 7, replica: 6 }));
        assert_eq!(log.len(), LogHead::BYTES);
    }
}
