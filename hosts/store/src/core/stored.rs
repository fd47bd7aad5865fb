//! What lies under a key: a client's value, maybe with a deadline, or a lock. How it is spelled in the bytes that replicas agree on:
//!
//! - A value without a deadline that doesn't begin with the byte ff stands for itself.
//! - `ff 00` and a value: that value, without a deadline.
//! - `ff 01`, a deadline (8 bytes) and a value.
//! - `ff 02`, a token (8 bytes), a deadline (8 bytes) and an owner: a lock. Where nobody has it the deadline is 0 and there is no owner.
//!
//! A deadline is in milliseconds since 1970, of the wall clock (UTC). Numbers have the highest byte first. Each thing has one spelling. Bytes
//! that begin with ff and aren't one of these are taken for a value: another host's, which knows nothing of this.
use epaxos::{Fields, LONGEST_VALUE};
use std::time::{SystemTime, UNIX_EPOCH};

/// A client's value has at most so many bytes, so that a deadline can stand before it.
pub const LONGEST_CONTENT: usize = LONGEST_VALUE - 10;
/// An owner of a lock has 1 to so many bytes.
pub const LONGEST_OWNER: usize = 255;
const MARK: u8 = 0xff;
const PLAIN: u8 = 0;
const EXPIRING: u8 = 1;
const LOCK: u8 = 2;

/// What lies under a key.
#[derive(Clone, PartialEq, Eq, Debug)]
pub enum Stored {
    Value { content: Vec<u8>, deadline: Option<u64> },
    Lock(Lock),
}

/// A lock: how often it was taken, which is the token of who took it last, and who has it.
#[derive(Clone, PartialEq, Eq, Debug)]
pub struct Lock {
    pub token: u64,
    pub holder: Option<Holder>,
}

/// Who has a lock, until when.
#[derive(Clone, PartialEq, Eq, Debug)]
pub struct Holder {
    pub owner: Vec<u8>,
    pub deadline: u64,
}

impl Lock {
    /// Who has it now: nobody where the deadline is past.
    pub fn holder_at(&self, now: u64) -> Option<&Holder> {
        self.holder.as_ref().filter(|holder| holder.deadline > now)
    }
}

impl Stored {
    pub fn value(content: Vec<u8>) -> Stored {
        Stored::Value { content, deadline: None }
    }

    /// Whether its deadline is past, so that it is as if it weren't there. A lock stays.
    pub fn is_over(&self, now: u64) -> bool {
        matches!(self, Stored::Value { deadline: Some(deadline), .. } if *deadline <= now)
    }

    /// Its type, in one word.
    pub fn kind(&self) -> &'static str {
        match self {
            Stored::Value { .. } => "string",
            Stored::Lock(_) => "lock",
        }
    }

    pub fn read(bytes: Vec<u8>) -> Stored {
        match read_marked(&bytes) {
            Some(stored) => stored,
            None => Stored::value(bytes),
        }
    }

    pub fn into_bytes(self) -> Vec<u8> {
        match self {
            Stored::Value { content, deadline: None } if content.first() != Some(&MARK) => content,
            Stored::Value { content, deadline: None } => [vec![MARK, PLAIN], content].concat(),
            Stored::Value { content, deadline: Some(deadline) } => {
                [vec![MARK, EXPIRING], deadline.to_be_bytes().to_vec(), content].concat()
            }
            Stored::Lock(Lock { token, holder }) => {
                let (owner, deadline) = holder.map_or((Vec::new(), 0), |holder| (holder.owner, holder.deadline));
                [vec![MARK, LOCK], token.to_be_bytes().to_vec(), deadline.to_be_bytes().to_vec(), owner].concat()
            }
        }
    }
}

/// The deadline of the value that these bytes are, where it has one; a lock stays.
pub fn deadline_in(bytes: &[u8]) -> Option<u64> {
    let rest = bytes.strip_prefix(&[MARK, EXPIRING])?;
    rest.first_chunk().map(|deadline| u64::from_be_bytes(*deadline))
}

fn read_marked(bytes: &[u8]) -> Option<Stored> {
    let mut fields = Fields::new(bytes);
    if fields.u8()? != MARK {
        return None;
    }
    match fields.u8()? {
        PLAIN => Some(Stored::value(fields.rest().to_vec())).filter(|_| bytes.get(2) == Some(&MARK)),
        EXPIRING => {
            let deadline = Some(fields.u64()?);
            Some(Stored::Value { content: fields.rest().to_vec(), deadline })
        }
        LOCK => {
            let (token, deadline) = (fields.u64()?, fields.u64()?);
            let owner = fields.rest().to_vec();
            let holder = match (owner.len(), deadline) {
                (0, 0) => None,
                (0, _) => return None,
                _ => Some(Holder { owner, deadline }),
            };
            Some(Stored::Lock(Lock { token, holder }))
        }
        _ => None,
    }
}

/// Milliseconds since 1970, by this machine's wall clock.
pub fn now() -> u64 {
    SystemTime::now().duration_since(UNIX_EPOCH).map_or(0, |since| since.as_millis() as u64)
}

#[cfg(test)]
mod tests {
    use super::*;

    #[test]
    fn each_has_its_spelling() {
        let value = |content: &[u8], deadline| Stored::Value { content: content.to_vec(), deadline };
        let lock = |token, holder: Option<(&[u8], u64)>| {
            let holder = holder.map(|(owner, deadline)| Holder { owner: owner.to_vec(), deadline });
            Stored::Lock(Lock { token, holder })
        };
        let spelled: [(Stored, &[u8]); 8] = [
            (value(b"", None), b""),
            (value(b"12", None), b"12"),
            (value(b"\xfe\xff", None), b"\xfe\xff"),
            (value(b"\xff\x02", None), b"\xff\x00\xff\x02"),
            (value(b"", Some(256)), b"\xff\x01\0\0\0\0\0\0\x01\0"),
            (value(b"\xffx", Some(1)), b"\xff\x01\0\0\0\0\0\0\0\x01\xffx"),
            (lock(3, None), b"\xff\x02\0\0\0\0\0\0\0\x03\0\0\0\0\0\0\0\0"),
            (lock(3, Some((b"me", 5))), b"\xff\x02\0\0\0\0\0\0\0\x03\0\0\0\0\0\0\0\x05me"),
        ];
        for (stored, bytes) in spelled {
            assert_eq!(stored.clone().into_bytes(), bytes);
            assert_eq!(Stored::read(bytes.to_vec()), stored);
        }
    }

    #[test]
    fn other_bytes_are_values() {
        let odd: [&[u8]; 7] = [
            b"\xff",
            b"\xff\x00",
            b"\xff\x00a",
            b"\xff\x01\0\0",
            b"\xff\x02\0\0\0\0\0\0\0\x03",
            b"\xff\x02\0\0\0\0\0\0\0\x03\0\0\0\0\0\0\0\x05",
            b"\xff\x03abc",
        ];
        for bytes in odd {
            assert_eq!(Stored::read(bytes.to_vec()), Stored::value(bytes.to_vec()));
        }
    }

    #[test]
    fn deadlines() {
        let stored = Stored::Value { content: Vec::new(), deadline: Some(10) };
        assert!(!stored.is_over(9) && stored.is_over(10) && stored.is_over(11));
        assert!(!Stored::value(Vec::new()).is_over(u64::MAX));
        let lock = Lock { token: 1, holder: Some(Holder { owner: b"a".to_vec(), deadline: 10 }) };
        assert!(lock.holder_at(9).is_some() && lock.holder_at(10).is_none());
        assert!(!Stored::Lock(lock).is_over(11));
    }
}
