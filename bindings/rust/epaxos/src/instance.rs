//! A place for one command.
#![forbid(unsafe_code)]

use crate::bytes::Fields;
use std::fmt;

/// An instance, which is a place for one command: the replica that leads it, and its number among those that this one leads, from 1.
///
/// ```
/// use epaxos::Instance;
///
/// let instance = Instance { replica: 2, number: 7 };
/// assert_eq!(instance.to_string(), "2.7");
/// assert!(instance < Instance { replica: 2, number: 8 });
/// ```
#[derive(Clone, Copy, PartialEq, Eq, PartialOrd, Ord, Hash, Debug)]
pub struct Instance {
    /// The replica that leads it.
    pub replica: u8,
    /// Its number, from 1 to 9,000.
    pub number: u16,
}

impl Instance {
    /// Its three bytes: the replica, and the number with its high byte first.
    ///
    /// ```
    /// # use epaxos::Instance;
    /// assert_eq!(Instance { replica: 1, number: 258 }.bytes(), [1, 1, 2]);
    /// ```
    pub fn bytes(self) -> [u8; 3] {
        let [high, low] = self.number.to_be_bytes();
        [self.replica, high, low]
    }

    /// Reads one. None where the bytes are over.
    ///
    /// ```
    /// # use epaxos::{Fields, Instance};
    /// assert_eq!(Instance::read(&mut Fields::new(&[1, 1, 2])), Some(Instance { replica: 1, number: 258 }));
    /// ```
    pub fn read(fields: &mut Fields) -> Option<Instance> {
        let (replica, number) = (fields.u8()?, fields.u16()?);
        Some(Instance { replica, number })
    }

    /// None where the number is 0, which no instance has.
    pub(crate) fn read_or_none(fields: &mut Fields) -> Option<Option<Instance>> {
        Some(Instance::read(fields)?).map(|instance| (instance.number > 0).then_some(instance))
    }

    /// All in these bytes.
    pub(crate) fn all<'a>(bytes: &'a [u8]) -> impl ExactSizeIterator<Item = Instance> + use<'a> {
        bytes.chunks_exact(3).map(|it| Instance { replica: it[0], number: u16::from_be_bytes([it[1], it[2]]) })
    }
}

impl fmt::Display for Instance {
    fn fmt(&self, f: &mut fmt::Formatter) -> fmt::Result {
        write!(f, "{}.{}", self.replica, self.number)
    }
}
