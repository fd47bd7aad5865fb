//! What a client may be answered to its command.
#![forbid(unsafe_code)]

use crate::bytes::Fields;
use crate::{Answer, Instance};

/// What a client may be answered to a command that was proposed here.
///
/// ```
/// # fn reply(_: u32, _: epaxos::Answer) {}
/// fn answer(receipt: &epaxos::Receipt) {
///     reply(receipt.client, receipt.answer);
/// }
/// ```
#[derive(Clone, Copy, PartialEq, Eq, Hash, Debug)]
pub struct Receipt<'a> {
    /// Whose command it is.
    pub client: u32,
    /// Which of that client's.
    pub request: u32,
    /// Where the command stands.
    pub instance: Instance,
    /// The stamp that the client handed in.
    pub seen: u64,
    /// The replica that gives the receipt.
    pub replica: u8,
    /// The entry of its journal that does, counted from 1.
    pub entry: u32,
    /// What the client hands in as `seen` with its next command, if it knows of no greater one.
    pub stamp: u64,
    /// The answer.
    pub answer: Answer<'a>,
    /// The receipt as an audit takes it (`epaxos collect --receipts`): append it to a file, if what was answered is to
    /// be judged.
    pub bytes: &'a [u8],
}

impl<'a> Receipt<'a> {
    /// Reads one, of a file of receipts say. None where the bytes are none.
    ///
    /// ```
    /// use epaxos::{Fields, Receipt};
    ///
    /// /// How many receipts a file has.
    /// fn count(file: &[u8]) -> usize {
    ///     let mut fields = Fields::new(file);
    ///     std::iter::from_fn(|| Receipt::read(&mut fields)).count()
    /// }
    /// # assert_eq!(count(&[]), 0);
    /// ```
    pub fn read(fields: &mut Fields<'a>) -> Option<Receipt<'a>> {
        let mut parts = *fields;
        let bytes = fields.spanned(Receipt::skip)?;
        Some(Receipt {
            client: parts.u32()?,
            request: parts.u32()?,
            instance: Instance::read(&mut parts)?,
            seen: parts.u64()?,
            replica: parts.u8()?,
            entry: parts.u32()?,
            stamp: parts.u64()?,
            answer: Answer::read(&mut parts)?,
            bytes,
        })
    }

    /// Goes over one.
    fn skip(fields: &mut Fields<'a>) -> Option<()> {
        fields.run(32)?;
        Answer::read(fields)?;
        Some(())
    }
}
