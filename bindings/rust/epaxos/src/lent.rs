//! What a replica lends.
#![forbid(unsafe_code)]

/// What is lent to be written.
#[derive(Clone, Copy, Debug)]
pub(crate) struct Lent<'a> {
    pub(crate) bytes: &'a [u8],
    /// Whether it takes the place of the whole log.
    pub(crate) is_anew: bool,
}
