//! Whose command it is.
#![forbid(unsafe_code)]

/// Whose command it is. A client has a number from 1, numbers its requests from 1, and hands on the greatest stamp that
/// it knows from receipts.
///
/// A pair of a client and a request names one command, over all starts: the core doesn't compare them, so a request that is proposed
/// twice is executed twice, and the receipt of one may be taken for the other's. So after a start a client's number is used again only where its requests go on
/// above all earlier ones; who doesn't know them takes another number.
///
/// ```
/// use epaxos::Call;
///
/// let first = Call::new(1, 1);
/// assert_eq!(first.seen, 0);
/// // after a receipt of stamp 4:
/// let next = Call { request: 2, seen: 4, ..first };
/// # assert_eq!(next.client, 1);
/// ```
#[derive(Clone, Copy, PartialEq, Eq, Hash, Debug)]
pub struct Call {
    /// The client, from 1.
    pub client: u32,
    /// Its request, from 1.
    pub request: u32,
    /// The greatest stamp of all receipts that the client knows of; 0 if none. The command then stands behind what
    /// those report in the history that an audit makes.
    pub seen: u64,
}

impl Call {
    /// A call of a client who has seen nothing.
    ///
    /// ```
    /// # use epaxos::Call;
    /// assert_eq!(Call::new(3, 1), Call { client: 3, request: 1, seen: 0 });
    /// ```
    pub fn new(client: u32, request: u32) -> Call {
        Call { client, request, seen: 0 }
    }
}
