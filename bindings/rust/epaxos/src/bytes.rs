//! Fields of bytes, read one after the other; numbers have the highest byte first.
#![forbid(unsafe_code)]

use crate::LONGEST_VALUE;

/// Bytes that are read from the front, field after field, as docs/FORMATS.md lays them out. Numbers have the highest byte first. What reads past the end
/// is None, and reads nothing.
///
/// ```
/// use epaxos::Fields;
///
/// let mut fields = Fields::new(&[0, 2, 7, 8, 9]);
/// assert_eq!(fields.u16(), Some(2));
/// assert_eq!(fields.run(2), Some(&[7, 8][..]));
/// assert_eq!(fields.u32(), None);
/// assert_eq!(fields.rest(), [9]);
/// ```
#[derive(Clone, Copy, Default, PartialEq, Eq, Debug)]
pub struct Fields<'a> {
    rest: &'a [u8],
}

impl<'a> Fields<'a> {
    /// These bytes.
    ///
    /// ```
    /// assert!(epaxos::Fields::new(&[]).is_over());
    /// ```
    pub fn new(bytes: &'a [u8]) -> Fields<'a> {
        Fields { rest: bytes }
    }

    /// The next `length` bytes, where there are so many.
    ///
    /// ```
    /// assert_eq!(epaxos::Fields::new(&[7, 8]).run(3), None);
    /// ```
    pub fn run(&mut self, length: usize) -> Option<&'a [u8]> {
        let (run, rest) = self.rest.split_at_checked(length)?;
        self.rest = rest;
        Some(run)
    }

    fn array<const N: usize>(&mut self) -> Option<[u8; N]> {
        let (run, rest) = self.rest.split_first_chunk::<N>()?;
        self.rest = rest;
        Some(*run)
    }

    /// A number of one byte.
    ///
    /// ```
    /// assert_eq!(epaxos::Fields::new(&[7]).u8(), Some(7));
    /// ```
    pub fn u8(&mut self) -> Option<u8> {
        self.array().map(u8::from_be_bytes)
    }

    /// A number of two bytes.
    ///
    /// ```
    /// assert_eq!(epaxos::Fields::new(&[1, 2]).u16(), Some(258));
    /// ```
    pub fn u16(&mut self) -> Option<u16> {
        self.array().map(u16::from_be_bytes)
    }

    /// A number of four bytes.
    ///
    /// ```
    /// assert_eq!(epaxos::Fields::new(&[0, 0, 1, 2]).u32(), Some(258));
    /// ```
    pub fn u32(&mut self) -> Option<u32> {
        self.array().map(u32::from_be_bytes)
    }

    /// A number of eight bytes.
    ///
    /// ```
    /// assert_eq!(epaxos::Fields::new(&[0, 0, 0, 0, 0, 0, 1, 2]).u64(), Some(258));
    /// ```
    pub fn u64(&mut self) -> Option<u64> {
        self.array().map(u64::from_be_bytes)
    }

    /// So many bytes as a number of four bytes before them says.
    ///
    /// ```
    /// assert_eq!(epaxos::Fields::new(&[0, 0, 0, 1, 7]).block(), Some(&[7][..]));
    /// ```
    pub fn block(&mut self) -> Option<&'a [u8]> {
        let length = self.u32()?;
        self.run(length as usize)
    }

    /// The bytes that are left.
    ///
    /// ```
    /// assert_eq!(epaxos::Fields::new(&[7, 8]).rest(), [7, 8]);
    /// ```
    pub fn rest(&self) -> &'a [u8] {
        self.rest
    }

    /// Whether nothing is left.
    ///
    /// ```
    /// assert!(!epaxos::Fields::new(&[7]).is_over());
    /// ```
    pub fn is_over(&self) -> bool {
        self.rest.is_empty()
    }

    /// The bytes that `read` goes over.
    pub(crate) fn spanned<T>(&mut self, read: impl FnOnce(&mut Fields<'a>) -> Option<T>) -> Option<&'a [u8]> {
        let before = self.rest;
        read(self)?;
        before.get(..before.len() - self.rest.len())
    }
}

/// Appends the bytes, behind a number of four bytes that says how many they are.
pub(crate) fn push_block(out: &mut Vec<u8>, run: &[u8]) {
    out.extend((run.len() as u32).to_be_bytes());
    out.extend(run);
}

/// Appends a value, or that there is none: 0, or 1 and a block.
pub(crate) fn push_part(out: &mut Vec<u8>, part: Option<&[u8]>) {
    match part {
        None => out.push(0),
        Some(value) => {
            out.push(1);
            push_block(out, value);
        }
    }
}

/// Reads what `push_part` has written of a value that isn't too long. None where the bytes are none.
pub(crate) fn read_part<'a>(fields: &mut Fields<'a>) -> Option<Option<&'a [u8]>> {
    match fields.u8()? {
        0 => Some(None),
        1 => read_value(fields).map(Some),
        _ => None,
    }
}

/// Reads a block that isn't too long for a value.
pub(crate) fn read_value<'a>(fields: &mut Fields<'a>) -> Option<&'a [u8]> {
    fields.block().filter(|it| it.len() <= LONGEST_VALUE)
}
