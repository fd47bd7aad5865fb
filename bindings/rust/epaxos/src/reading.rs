//! What reads that write nothing are answered.
#![forbid(unsafe_code)]

use crate::{Fields, Instance};

/// What a read that writes nothing is answered, with a value that is lent.
///
/// ```
/// use epaxos::Reading;
///
/// fn is_to_be_asked_again(reading: &Reading) -> bool {
///     matches!(reading, Reading::Waits(_) | Reading::Closed)
/// }
/// ```
pub type Reading<'a> = ReadingOf<&'a [u8]>;

/// The same, with a value of its own.
///
/// ```
/// use epaxos::{OwnedReading, Reading};
///
/// assert_eq!(Reading::Present(b"1").to_owned(), OwnedReading::Present(b"1".to_vec()));
/// ```
pub type OwnedReading = ReadingOf<Vec<u8>>;

/// What a read that writes nothing is answered. [`Reading`] and [`OwnedReading`] are this.
///
/// ```
/// use epaxos::Reading;
///
/// assert_ne!(Reading::Absent, Reading::Present(b""));
/// ```
#[derive(Clone, Copy, PartialEq, Eq, Debug)]
pub enum ReadingOf<B> {
    /// The key has no value.
    Absent,
    /// The key has this value.
    Present(B),
    /// A seal has ended the generation: the read is asked for anew in the next one.
    Closed,
    /// This instance isn't executed here yet, the least of those that were found: the read is asked again, with the
    /// same ones, once it is.
    Waits(Instance),
}

impl<'a> Reading<'a> {
    /// The same, with a value of its own.
    ///
    /// ```
    /// use epaxos::{OwnedReading, Reading};
    ///
    /// assert_eq!(Reading::Closed.to_owned(), OwnedReading::Closed);
    /// ```
    pub fn to_owned(&self) -> OwnedReading {
        match self {
            ReadingOf::Absent => ReadingOf::Absent,
            ReadingOf::Present(value) => ReadingOf::Present(value.to_vec()),
            ReadingOf::Closed => ReadingOf::Closed,
            ReadingOf::Waits(instance) => ReadingOf::Waits(*instance),
        }
    }

    /// Reads the answer to such a read. None where it is none.
    pub(crate) fn read(answer: &'a [u8]) -> Option<Reading<'a>> {
        let mut fields = Fields::new(answer);
        let reading = match (fields.u8()?, fields.u8()?) {
            (12, 0) => Reading::Absent,
            (12, 1) => {
                let length = fields.u16()?;
                Reading::Present(fields.run(length.into())?)
            }
            (12, 2) => Reading::Waits(Instance::read(&mut fields)?),
            (12, 3) => Reading::Closed,
            _ => return None,
        };
        fields.is_over().then_some(reading)
    }
}
