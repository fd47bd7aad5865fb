//! Making a command over many keys.
#![forbid(unsafe_code)]

use crate::{Item, LONGEST_KEY, LONGEST_TX, LONGEST_VALUE, MOST_KEYS, MOST_TOLD, OwnedCommand, OwnedTx, TxFault};

/// Makes a command over many keys ([`Command::tx`](crate::Command::tx)). Calls come in any order; of each key at most
/// one thing is required, it is asked for once, and it is put or deleted once. [`build`](TxBuilder::build) looks at all
/// of it.
///
/// ```
/// use epaxos::Command;
///
/// let mut tx = Command::tx().require(b"epoch", b"7");
/// for account in ["alice", "bob"] {
///     tx = tx.tell(account.as_bytes());
/// }
/// let command = tx.put(b"seen", b"1").build()?;
/// # assert!(!command.is_seal());
/// # Ok::<(), epaxos::TxFault>(())
/// ```
#[derive(Clone, Default, Debug)]
#[must_use]
pub struct TxBuilder<'a> {
    /// What each call says, with no more than that of its key.
    said: Vec<Item<'a>>,
}

impl<'a> TxBuilder<'a> {
    /// Of no key yet.
    ///
    /// ```
    /// use epaxos::{TxBuilder, TxFault};
    ///
    /// assert_eq!(TxBuilder::new().build(), Err(TxFault::NoKey));
    /// ```
    pub fn new() -> TxBuilder<'a> {
        TxBuilder::default()
    }

    fn with(mut self, said: Item<'a>) -> TxBuilder<'a> {
        self.said.push(said);
        self
    }

    /// The key must have this value, or nothing is written.
    ///
    /// ```
    /// # use epaxos::Command;
    /// let tx = Command::tx().require(b"owner", b"me").put(b"x", b"1").build();
    /// # assert!(tx.is_ok());
    /// ```
    pub fn require(self, key: &'a [u8], value: &'a [u8]) -> TxBuilder<'a> {
        self.with(Item { required: Some(Some(value)), ..Item::of(key) })
    }

    /// The key must have no value, or nothing is written.
    ///
    /// ```
    /// # use epaxos::Command;
    /// let tx = Command::tx().require_absent(b"lock").put(b"lock", b"me").build();
    /// # assert!(tx.is_ok());
    /// ```
    pub fn require_absent(self, key: &'a [u8]) -> TxBuilder<'a> {
        self.with(Item { required: Some(None), ..Item::of(key) })
    }

    /// The answer reports what the key had before the command, whether that was done or not.
    ///
    /// ```
    /// # use epaxos::Command;
    /// let all = Command::tx().tell(b"x").tell(b"y").build();
    /// # assert!(all.is_ok());
    /// ```
    pub fn tell(self, key: &'a [u8]) -> TxBuilder<'a> {
        self.with(Item { is_told: true, ..Item::of(key) })
    }

    /// The key gets this value.
    ///
    /// ```
    /// # use epaxos::Command;
    /// let tx = Command::tx().put(b"x", b"1").put(b"y", b"2").build();
    /// # assert!(tx.is_ok());
    /// ```
    pub fn put(self, key: &'a [u8], value: &'a [u8]) -> TxBuilder<'a> {
        self.with(Item { written: Some(Some(value)), ..Item::of(key) })
    }

    /// The key's value is taken away, if it has one.
    ///
    /// ```
    /// # use epaxos::Command;
    /// let moved = Command::tx().require(b"x", b"1").del(b"x").put(b"y", b"1").build();
    /// # assert!(moved.is_ok());
    /// ```
    pub fn del(self, key: &'a [u8]) -> TxBuilder<'a> {
        self.with(Item { written: Some(None), ..Item::of(key) })
    }

    /// The command.
    ///
    /// # Errors
    ///
    /// [`TxFault`] says why there is none.
    ///
    /// ```
    /// use epaxos::{Command, OwnedCommand, TxFault};
    ///
    /// let command = Command::tx().tell(b"y").put(b"x", b"1").require_absent(b"x").build()?;
    /// let OwnedCommand::Tx(tx) = command else { unreachable!() };
    /// assert_eq!(tx.items().count(), 2);
    /// assert_eq!(Command::tx().tell(b"").build(), Err(TxFault::BadKey(vec![])));
    /// # Ok::<(), TxFault>(())
    /// ```
    pub fn build(self) -> Result<OwnedCommand, TxFault> {
        let mut said = self.said;
        // (calls of one key stay in their order)
        said.sort_by_key(|it| it.key);
        let mut items: Vec<Item> = Vec::with_capacity(said.len());
        for more in said {
            check(&more)?;
            match items.last_mut().filter(|it| it.key == more.key) {
                Some(item) => join(item, &more)?,
                None => items.push(more),
            }
        }
        let reported = items.iter().filter(|it| it.is_told).count();
        match items.len() {
            0 => return Err(TxFault::NoKey),
            many if many > MOST_KEYS => return Err(TxFault::ManyKeys(many)),
            _ if reported > MOST_TOLD => return Err(TxFault::ManyTold(reported)),
            _ => {}
        }
        let tx = OwnedTx::of(&items);
        match tx.lent().body().len() {
            long if long > LONGEST_TX => Err(TxFault::Long(long)),
            _ => Ok(OwnedCommand::Tx(tx)),
        }
    }
}

/// Whether the lengths are in their ranges.
fn check(item: &Item) -> Result<(), TxFault> {
    if !(1..=LONGEST_KEY).contains(&item.key.len()) {
        return Err(TxFault::BadKey(item.key.to_vec()));
    }
    if [item.required, item.written].into_iter().flatten().flatten().any(|it| it.len() > LONGEST_VALUE) {
        return Err(TxFault::LongValue(item.key.to_vec()));
    }
    Ok(())
}

/// Adds what another call says of the key.
fn join<'a>(item: &mut Item<'a>, more: &Item<'a>) -> Result<(), TxFault> {
    let key = || more.key.to_vec();
    if item.required.is_some() && more.required.is_some() {
        return Err(TxFault::RequiredTwice(key()));
    }
    if item.is_told && more.is_told {
        return Err(TxFault::ToldTwice(key()));
    }
    if item.written.is_some() && more.written.is_some() {
        return Err(TxFault::WrittenTwice(key()));
    }
    item.required = item.required.or(more.required);
    item.is_told |= more.is_told;
    item.written = item.written.or(more.written);
    Ok(())
}

#[cfg(test)]
mod tests {
    use super::*;
    use crate::{Command, Tx};

    fn items(command: &OwnedCommand) -> Vec<Item<'_>> {
        let OwnedCommand::Tx(tx) = command else { panic!("{command:?}") };
        assert_eq!(Tx::read(tx.lent().body()), Some(tx.lent()));
        tx.items().collect()
    }

    #[test]
    fn calls_of_one_key_become_one_item_in_any_order() {
        let tx =
            Command::tx().put(b"b", b"2").tell(b"ab").tell(b"b").del(b"a").require(b"b", b"1").require_absent(b"c");
        let built = tx.build().unwrap();
        let whole = [
            Item { written: Some(None), ..Item::of(b"a") },
            Item { is_told: true, ..Item::of(b"ab") },
            Item { key: b"b", required: Some(Some(b"1")), is_told: true, written: Some(Some(b"2")) },
            Item { required: Some(None), ..Item::of(b"c") },
        ];
        assert_eq!(items(&built), whole);
    }

    #[test]
    fn what_is_said_twice_is_refused() {
        let key = || b"x".to_vec();
        for (tx, fault) in [
            (Command::tx().require(b"x", b"1").require_absent(b"x"), TxFault::RequiredTwice(key())),
            (Command::tx().tell(b"x").put(b"a", b"").tell(b"x"), TxFault::ToldTwice(key())),
            (Command::tx().put(b"x", b"1").put(b"x", b"1"), TxFault::WrittenTwice(key())),
            (Command::tx().put(b"x", b"1").del(b"x"), TxFault::WrittenTwice(key())),
        ] {
            assert_eq!(tx.build(), Err(fault));
        }
    }

    #[test]
    fn limits() {
        let (key, long) = (vec![b'k'; LONGEST_KEY + 1], vec![0; LONGEST_VALUE + 1]);
        assert_eq!(Command::tx().tell(&key).build(), Err(TxFault::BadKey(key.clone())));
        assert!(Command::tx().tell(&key[1..]).build().is_ok());
        assert_eq!(Command::tx().put(b"x", &long).build(), Err(TxFault::LongValue(b"x".to_vec())));
        assert_eq!(Command::tx().require(b"x", &long).build(), Err(TxFault::LongValue(b"x".to_vec())));

        let keys: Vec<[u8; 2]> = (0..=MOST_KEYS as u16).map(u16::to_be_bytes).collect();
        let reports = |count: usize| keys[..count].iter().fold(Command::tx(), |tx, key| tx.tell(key));
        assert_eq!(items(&reports(MOST_TOLD).build().unwrap()).len(), 16);
        assert_eq!(reports(MOST_TOLD + 1).build(), Err(TxFault::ManyTold(17)));
        let delete = |count: usize| keys[..count].iter().rev().fold(Command::tx(), |tx, key| tx.del(key));
        assert_eq!(items(&delete(MOST_KEYS).build().unwrap()).len(), 1_024);
        assert_eq!(delete(MOST_KEYS + 1).build(), Err(TxFault::ManyKeys(1_025)));

        // A count of 2 bytes, and two items, each of a key of 1 byte with 2 before it, and a value with 4 before it.
        let room = LONGEST_TX - 2 - 2 * (2 + 1 + 4) - LONGEST_VALUE;
        let two = |other: usize| Command::tx().put(b"a", &long[1..]).put(b"b", &long[..other]).build();
        assert_eq!(room, 65_529);
        assert_eq!(items(&two(room).unwrap()).len(), 2);
        assert_eq!(two(room + 1), Err(TxFault::Long(131_081)));
    }
}
