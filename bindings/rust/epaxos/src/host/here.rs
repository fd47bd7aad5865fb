//! What is asked of what is here.

/// What somebody asks of what is here, once all that was known to be committed is executed.
pub(super) struct Here {
    pub(super) token: u64,
    /// The key; none of who asks for all of them.
    pub(super) key: Option<Vec<u8>>,
    /// Whether that was executed.
    pub(super) is_due: bool,
}
