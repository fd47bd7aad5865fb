//! What there is to send and to answer, as the library reports it (docs/FORMATS.md, section 10).
#![forbid(unsafe_code)]

use crate::bytes::Fields;
use crate::{Frame, Instance, OpenInstance, Receipt};

/// The kind of its answer.
const REPORT: u8 = 9;

/// All that there is to report. Its bytes are there, and well.
#[derive(Clone, Copy, PartialEq, Eq, Debug)]
pub(crate) struct Report<'a> {
    /// How many entries there are.
    pub(crate) entries: u32,
    /// Whether a seal was executed.
    pub(crate) is_sealed: bool,
    frames: &'a [u8],
    receipts: &'a [u8],
    committed: &'a [u8],
    executed: &'a [u8],
    open: &'a [u8],
}

impl<'a> Report<'a> {
    /// Reads one. None where the bytes are none.
    pub(crate) fn read(answer: &'a [u8]) -> Option<Report<'a>> {
        let mut fields = Fields::new(answer);
        (fields.u8()? == REPORT).then_some(())?;
        let entries = fields.u32()?;
        let is_sealed = match fields.u8()? {
            0 => false,
            1 => true,
            _ => return None,
        };
        let count = fields.u32()?;
        let frames = fields.spanned(|it| (0..count).try_for_each(|_| read_frame(it).map(drop)))?;
        let count = fields.u32()?;
        let receipts = fields.spanned(|it| (0..count).try_for_each(|_| Receipt::read(it).map(drop)))?;
        let committed = read_instances(&mut fields)?;
        let executed = read_instances(&mut fields)?;
        let count = fields.u8()?;
        let open = fields.spanned(|it| (0..count).try_for_each(|_| OpenInstance::read(it).map(drop)))?;
        fields.is_over().then_some(Report { entries, is_sealed, frames, receipts, committed, executed, open })
    }

    /// The frames to be sent.
    pub(crate) fn frames(&self) -> impl Iterator<Item = Frame<'a>> + use<'a> {
        each(self.frames, read_frame)
    }

    /// What clients may be answered.
    pub(crate) fn receipts(&self) -> impl Iterator<Item = Receipt<'a>> + use<'a> {
        each(self.receipts, Receipt::read)
    }

    /// The instances that got committed, own and others'.
    pub(crate) fn committed(&self) -> impl ExactSizeIterator<Item = Instance> + use<'a> {
        Instance::all(self.committed)
    }

    /// Those that were executed.
    pub(crate) fn executed(&self) -> impl ExactSizeIterator<Item = Instance> + use<'a> {
        Instance::all(self.executed)
    }

    /// The least open instances.
    pub(crate) fn open(&self) -> impl Iterator<Item = OpenInstance> + use<'a> {
        each(self.open, OpenInstance::read)
    }
}

fn read_frame<'a>(fields: &mut Fields<'a>) -> Option<Frame<'a>> {
    Some(Frame { to: fields.u8()?, bytes: fields.block()? })
}

/// The bytes of so many instances as are counted before them.
fn read_instances<'a>(fields: &mut Fields<'a>) -> Option<&'a [u8]> {
    let count = fields.u32()? as usize;
    fields.run(count.checked_mul(3)?)
}

/// Each of what `read` reads in these bytes.
fn each<'a, T, R: Fn(&mut Fields<'a>) -> Option<T>>(
    bytes: &'a [u8],
    read: R,
) -> impl Iterator<Item = T> + use<'a, T, R> {
    let mut fields = Fields::new(bytes);
    std::iter::from_fn(move || read(&mut fields))
}
