//! Some bytes of a file.
use crate::host::Name;

/// Some bytes of a file: `length` of `G/name`, from `offset` on.
///
/// ```
/// use epaxos::host::{Name, Span};
///
/// let span = Span { generation: 3, name: Name::Log, offset: 43, length: 100 };
/// assert_eq!(span.of(&[7; 143]), Some(&[7; 100][..]));
/// assert_eq!(span.of(&[7; 142]), None);
/// ```
#[derive(Clone, Copy, PartialEq, Eq, Debug)]
pub struct Span {
    /// The generation G.
    pub generation: u32,
    /// The file.
    pub name: Name,
    /// Where they begin.
    pub offset: u64,
    /// How many they are.
    pub length: u64,
}

impl Span {
    /// Those of a file's bytes; None where that has fewer.
    ///
    /// ```
    /// # use epaxos::host::{Name, Span};
    /// let span = Span { generation: 1, name: Name::Opening, offset: 1, length: 2 };
    /// assert_eq!(span.of(b"EPOP"), Some(&b"PO"[..]));
    /// ```
    pub fn of<'a>(&self, file: &'a [u8]) -> Option<&'a [u8]> {
        let (from, length) = (usize::try_from(self.offset).ok()?, usize::try_from(self.length).ok()?);
        file.get(from..from.checked_add(length)?)
    }
}
