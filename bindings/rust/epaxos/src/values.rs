//! What the answer to a command over many keys reports of them.
#![forbid(unsafe_code)]

use crate::bytes::{Fields, push_part, read_part};
use crate::{LONGEST_VALUE, MOST_TOLD, OutOfRange};

/// Values that are lent, as an answer has them.
///
/// ```
/// use epaxos::{Answer, Values};
///
/// fn values<'a>(answer: &Answer<'a>) -> Option<Values<'a>> {
///     match *answer {
///         Answer::Done(values) | Answer::Undone(values) => Some(values),
///         _ => None,
///     }
/// }
/// # assert_eq!(values(&Answer::Absent), None);
/// ```
pub type Values<'a> = ValuesOf<&'a [u8]>;

/// Values that have their bytes themselves.
///
/// ```
/// use epaxos::OwnedValues;
///
/// assert!(OwnedValues::default().is_empty());
/// ```
pub type OwnedValues = ValuesOf<Vec<u8>>;

/// What each of the keys had that a [`Tx`](crate::Command::Tx) asks for, a value or none, in rising order of the keys:
/// at most 16. [`Values`] and [`OwnedValues`] are this, with bytes that are lent, and with bytes of its own.
///
/// ```
/// use epaxos::OwnedValues;
///
/// let values = OwnedValues::new([Some("1"), None])?;
/// assert_eq!(values.iter().collect::<Vec<_>>(), [Some(&b"1"[..]), None]);
/// # Ok::<(), epaxos::OutOfRange>(())
/// ```
#[derive(Clone, Copy, PartialEq, Eq, Hash, Debug)]
pub struct ValuesOf<B> {
    count: u16,
    /// The values, one after the other.
    parts: B,
}

impl Default for OwnedValues {
    fn default() -> OwnedValues {
        ValuesOf { count: 0, parts: Vec::new() }
    }
}

impl OwnedValues {
    /// These values, in this order.
    ///
    /// # Errors
    ///
    /// They are more than 16, or one has more than 65,535 bytes.
    ///
    /// ```
    /// use epaxos::OwnedValues;
    ///
    /// assert_eq!(OwnedValues::new([Some(b"old")])?.lent().get(0), Some(Some(&b"old"[..])));
    /// assert!(OwnedValues::new([None::<&str>; 17]).is_err());
    /// # Ok::<(), epaxos::OutOfRange>(())
    /// ```
    pub fn new<V: AsRef<[u8]>>(values: impl IntoIterator<Item = Option<V>>) -> Result<OwnedValues, OutOfRange> {
        let mut all = OwnedValues::default();
        for value in values {
            let value = value.as_ref().map(AsRef::as_ref);
            if usize::from(all.count) == MOST_TOLD || value.is_some_and(|it| it.len() > LONGEST_VALUE) {
                return Err(OutOfRange);
            }
            push_part(&mut all.parts, value);
            all.count += 1;
        }
        Ok(all)
    }
}

impl<B> ValuesOf<B> {
    /// How many they are.
    ///
    /// ```
    /// assert_eq!(epaxos::OwnedValues::default().len(), 0);
    /// ```
    pub fn len(&self) -> usize {
        self.count.into()
    }

    /// Whether nothing was asked for.
    ///
    /// ```
    /// assert!(epaxos::OwnedValues::default().is_empty());
    /// ```
    pub fn is_empty(&self) -> bool {
        self.count == 0
    }

    /// The same values, their bytes put through `of`.
    pub(crate) fn map<'a, C>(&'a self, of: impl FnOnce(&'a B) -> C) -> ValuesOf<C> {
        ValuesOf { count: self.count, parts: of(&self.parts) }
    }
}

impl<B: AsRef<[u8]>> ValuesOf<B> {
    /// Each of them.
    ///
    /// ```
    /// # let values = epaxos::OwnedValues::new([Some("1"), None]).unwrap();
    /// let present = values.iter().flatten().count();
    /// # assert_eq!(present, 1);
    /// ```
    pub fn iter(&self) -> impl Iterator<Item = Option<&[u8]>> {
        self.lent().each()
    }

    /// The values, with their bytes lent.
    ///
    /// ```
    /// # let values = epaxos::OwnedValues::default();
    /// assert_eq!(values.lent().to_owned(), values);
    /// ```
    pub fn lent(&self) -> Values<'_> {
        self.map(AsRef::as_ref)
    }

    /// The values, with a copy of their bytes.
    ///
    /// ```
    /// # let values = epaxos::OwnedValues::default();
    /// assert_eq!(values.to_owned(), values);
    /// ```
    pub fn to_owned(&self) -> OwnedValues {
        self.map(|parts| parts.as_ref().to_vec())
    }
}

impl<'a> Values<'a> {
    /// What the key had that is in this place among those asked for, from 0. None where there is no such key.
    ///
    /// ```
    /// # let values = epaxos::OwnedValues::new([Some("1"), None]).unwrap();
    /// assert_eq!(values.lent().get(0), Some(Some(&b"1"[..])));
    /// assert_eq!((values.lent().get(1), values.lent().get(2)), (Some(None), None));
    /// ```
    pub fn get(&self, place: usize) -> Option<Option<&'a [u8]>> {
        self.each().nth(place)
    }

    fn each(&self) -> impl Iterator<Item = Option<&'a [u8]>> + use<'a> {
        let mut fields = Fields::new(self.parts);
        std::iter::from_fn(move || read_part(&mut fields))
    }

    /// Appends them as an answer has them.
    pub(crate) fn write(&self, out: &mut Vec<u8>) {
        out.extend(self.count.to_be_bytes());
        out.extend(self.parts);
    }

    /// Reads what `write` has written. None where the bytes are none.
    pub(crate) fn read(fields: &mut Fields<'a>) -> Option<Values<'a>> {
        let count = fields.u16().filter(|it| usize::from(*it) <= MOST_TOLD)?;
        let parts = fields.spanned(|it| (0..count).try_for_each(|_| read_part(it).map(drop)))?;
        Some(ValuesOf { count, parts })
    }
}
