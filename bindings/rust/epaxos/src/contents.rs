//! What a map has.
#![forbid(unsafe_code)]

use crate::bytes::Fields;
use crate::ffi;

/// What all keys of a replica's map have: each key that has a value, with its value, in rising order of keys.
///
/// ```
/// # fn of(replica: &mut epaxos::Replica) -> Result<(), epaxos::Fault> {
/// let keys: Vec<Vec<u8>> = replica.contents()?.map(|(key, _)| key.to_vec()).collect();
/// # drop(keys);
/// # Ok(()) }
/// ```
#[derive(Clone, Debug)]
pub struct Contents<'a> {
    fields: Fields<'a>,
    left: usize,
}

impl<'a> Contents<'a> {
    /// Reads the bytes of a map: how many keys have a value, and each with its value. None where they are none.
    pub(crate) fn read(bytes: &'a [u8]) -> Option<Contents<'a>> {
        let mut fields = Fields::new(bytes);
        let contents = Contents { left: fields.u32()? as usize, fields };
        (0..contents.left).try_for_each(|_| pair(&mut fields).map(drop))?;
        fields.is_over().then_some(contents)
    }
}

/// The key that comes next of a map's bytes, and its value. None where there is no whole one.
pub(crate) fn pair<'a>(fields: &mut Fields<'a>) -> Option<(&'a [u8], &'a [u8])> {
    let pair = ffi::pair(fields.rest())?;
    let bytes = fields.run(pair.len as usize)?;
    let part = |at: u32, length: u32| bytes.get(at as usize..)?.get(..length as usize);
    Some((part(pair.key_at, pair.key_len)?, part(pair.value_at, pair.value_len)?))
}

impl<'a> Iterator for Contents<'a> {
    type Item = (&'a [u8], &'a [u8]);

    fn next(&mut self) -> Option<(&'a [u8], &'a [u8])> {
        self.left = self.left.checked_sub(1)?;
        pair(&mut self.fields)
    }

    fn size_hint(&self) -> (usize, Option<usize>) {
        (self.left, Some(self.left))
    }
}

impl ExactSizeIterator for Contents<'_> {}
