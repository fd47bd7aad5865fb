//! What is watched.

/// What is watched.
///
/// ```
/// use epaxos::service::Watched;
///
/// let all = Watched::Prefix(Vec::new());
/// let tasks = Watched::Prefix(b"task/".into());
/// assert!(all.has(b"x") && tasks.has(b"task/7") && !tasks.has(b"x"));
/// ```
#[derive(Clone, PartialEq, Eq, Hash, Debug)]
pub enum Watched {
    /// A key.
    Key(Vec<u8>),
    /// All keys that begin with these bytes.
    Prefix(Vec<u8>),
}

impl Watched {
    /// Whether a key is one of these.
    ///
    /// ```
    /// # use epaxos::service::Watched;
    /// assert!(!Watched::Key(b"x".into()).has(b"xy"));
    /// ```
    pub fn has(&self, key: &[u8]) -> bool {
        match self {
            Watched::Key(it) => it == key,
            Watched::Prefix(prefix) => key.starts_with(prefix),
        }
    }
}
