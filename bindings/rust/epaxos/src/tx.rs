//! A command over many keys.
#![forbid(unsafe_code)]

use crate::bytes::{Fields, push_block, push_part, read_part, read_value};
use crate::{LONGEST_TX, MOST_KEYS, MOST_TOLD};

/// A command over many keys whose bytes are lent.
///
/// ```
/// use epaxos::{Command, Tx};
///
/// fn tx_of<'a>(command: &Command<'a>) -> Option<Tx<'a>> {
///     match *command {
///         Command::Tx(tx) => Some(tx),
///         _ => None,
///     }
/// }
/// # assert_eq!(tx_of(&Command::Get { key: b"x" }), None);
/// ```
pub type Tx<'a> = TxOf<&'a [u8]>;

/// A command over many keys that has its bytes itself.
///
/// ```
/// use epaxos::{Command, OwnedCommand, OwnedTx};
///
/// let OwnedCommand::Tx(tx) = Command::tx().tell(b"x").build()? else { unreachable!() };
/// let kept: OwnedTx = tx;
/// # assert_eq!(kept.items().count(), 1);
/// # Ok::<(), epaxos::TxFault>(())
/// ```
pub type OwnedTx = TxOf<Vec<u8>>;

/// A command over 1 to 1,024 keys: what each of some must have, which at most 16 of them the answer reports, and what
/// is written. If each has what is required, all is written; else nothing is. [`Command::tx`](crate::Command::tx) makes
/// one; [`Tx`] and [`OwnedTx`] are this, with bytes that are lent, and with bytes of its own.
///
/// ```
/// use epaxos::{Command, OwnedCommand};
///
/// let OwnedCommand::Tx(tx) = Command::tx().put(b"y", b"1").tell(b"x").build()? else { unreachable!() };
/// assert_eq!(tx.items().map(|it| it.key).collect::<Vec<_>>(), [b"x", b"y"]);
/// # Ok::<(), epaxos::TxFault>(())
/// ```
#[derive(Clone, Copy, PartialEq, Eq, Hash, Debug)]
pub struct TxOf<B> {
    /// Bytes that are one.
    body: B,
}

/// What a command over many keys says of one of them.
///
/// ```
/// use epaxos::Item;
///
/// // x must have no value, and gets one:
/// let item = Item { key: b"x", required: Some(None), is_told: false, written: Some(Some(b"1")) };
/// # let _ = item;
/// ```
#[derive(Clone, Copy, PartialEq, Eq, Hash, Debug)]
pub struct Item<'a> {
    /// The key.
    pub key: &'a [u8],
    /// What it must have, a value or none, if anything is required.
    pub required: Option<Option<&'a [u8]>>,
    /// Whether the answer reports what it had.
    pub is_told: bool,
    /// What it gets, a value or none, if it is written.
    pub written: Option<Option<&'a [u8]>>,
}

const REPORTED: u8 = 1;
const GUARDED: u8 = 2;
const PUT: u8 = 4;
const DEL: u8 = 8;

impl<'a> Item<'a> {
    /// An item that says nothing of the key yet.
    pub(crate) fn of(key: &'a [u8]) -> Item<'a> {
        Item { key, required: None, is_told: false, written: None }
    }

    /// Appends its bytes. Its lengths are in their ranges.
    fn write(&self, out: &mut Vec<u8>) {
        let reported = if self.is_told { REPORTED } else { 0 };
        let guarded = if self.required.is_some() { GUARDED } else { 0 };
        let written = self.written.map_or(0, |it| if it.is_some() { PUT } else { DEL });
        out.extend([self.key.len() as u8, reported | guarded | written]);
        out.extend(self.key);
        if let Some(required) = self.required {
            push_part(out, required);
        }
        if let Some(Some(value)) = self.written {
            push_block(out, value);
        }
    }

    fn read(fields: &mut Fields<'a>) -> Option<Item<'a>> {
        let (length, flags) = (fields.u8()?, fields.u8()?);
        if length == 0 || flags == 0 || flags > REPORTED | GUARDED | DEL {
            return None;
        }
        let key = fields.run(length.into())?;
        let required = if flags & GUARDED > 0 { Some(read_part(fields)?) } else { None };
        let written = match flags & (PUT | DEL) {
            0 => None,
            PUT => Some(Some(read_value(fields)?)),
            _ => Some(None),
        };
        Some(Item { key, required, is_told: flags & REPORTED > 0, written })
    }
}

impl OwnedTx {
    /// The command of these items, which are in rising order of keys, and in all their ranges but that of the bytes.
    pub(crate) fn of(items: &[Item]) -> OwnedTx {
        let mut body = (items.len() as u16).to_be_bytes().to_vec();
        items.iter().for_each(|it| it.write(&mut body));
        TxOf { body }
    }
}

impl<B> TxOf<B> {
    /// The same command, its bytes put through `of`.
    pub(crate) fn map<'a, C>(&'a self, of: impl FnOnce(&'a B) -> C) -> TxOf<C> {
        TxOf { body: of(&self.body) }
    }
}

impl<B: AsRef<[u8]>> TxOf<B> {
    /// What it says of each of its keys, in rising order of keys.
    ///
    /// ```
    /// # use epaxos::OwnedTx;
    /// fn written(tx: &OwnedTx) -> impl Iterator<Item = &[u8]> {
    ///     tx.items().filter(|it| it.written.is_some()).map(|it| it.key)
    /// }
    /// ```
    pub fn items(&self) -> impl Iterator<Item = Item<'_>> {
        self.lent().each()
    }

    /// The keys that it asks for, in the order in which the answer reports what they had.
    ///
    /// ```
    /// use epaxos::{Command, OwnedCommand, OwnedValues};
    ///
    /// let OwnedCommand::Tx(tx) = Command::tx().tell(b"y").tell(b"x").build()? else { unreachable!() };
    /// let values = OwnedValues::new([Some("1"), None])?;
    /// let reported: Vec<_> = tx.told().zip(values.iter()).collect();
    /// assert_eq!(reported, [(&b"x"[..], Some(&b"1"[..])), (b"y", None)]);
    /// # Ok::<(), Box<dyn std::error::Error>>(())
    /// ```
    pub fn told(&self) -> impl Iterator<Item = &[u8]> {
        self.items().filter(|it| it.is_told).map(|it| it.key)
    }

    /// Whether it writes nothing.
    ///
    /// ```
    /// # use epaxos::{Command, OwnedCommand};
    /// let OwnedCommand::Tx(tx) = Command::tx().tell(b"x").build()? else { unreachable!() };
    /// assert!(tx.only_reads());
    /// # Ok::<(), epaxos::TxFault>(())
    /// ```
    pub fn only_reads(&self) -> bool {
        self.items().all(|it| it.written.is_none())
    }

    /// The command, with its bytes lent.
    ///
    /// ```
    /// # fn of(kept: &epaxos::OwnedTx) {
    /// let tx: epaxos::Tx = kept.lent();
    /// # let _ = tx;
    /// # }
    /// ```
    pub fn lent(&self) -> Tx<'_> {
        self.map(AsRef::as_ref)
    }

    /// The command, with a copy of its bytes.
    ///
    /// ```
    /// # fn of(tx: epaxos::Tx) {
    /// let kept: epaxos::OwnedTx = tx.to_owned();
    /// # let _ = kept;
    /// # }
    /// ```
    pub fn to_owned(&self) -> OwnedTx {
        self.map(|body| body.as_ref().to_vec())
    }
}

impl<'a> Tx<'a> {
    /// Reads the body of one (docs/FORMATS.md, section 1). None where the bytes are none.
    ///
    /// ```
    /// use epaxos::Tx;
    ///
    /// assert!(Tx::read(&[0, 1, 1, 1, b'x']).is_some());
    /// assert_eq!(Tx::read(&[0, 1, 1, 0, b'x']), None);
    /// ```
    pub fn read(body: &'a [u8]) -> Option<Tx<'a>> {
        let mut fields = Fields::new(body);
        let (count, mut reported, mut above): (_, _, &[u8]) = (fields.u16()?, 0, &[]);
        for _ in 0..count {
            let item = Item::read(&mut fields)?;
            if item.key <= above {
                return None;
            }
            above = item.key;
            reported += usize::from(item.is_told);
        }
        let is_well = (1..=MOST_KEYS).contains(&count.into()) && reported <= MOST_TOLD && body.len() <= LONGEST_TX;
        (is_well && fields.is_over()).then_some(TxOf { body })
    }

    /// Its bytes, as [`read`](Tx::read) takes them.
    ///
    /// ```
    /// # use epaxos::Tx;
    /// let body = [0, 1, 1, 1, b'x'];
    /// assert_eq!(Tx::read(&body).map(|it| it.body()), Some(&body[..]));
    /// ```
    pub fn body(&self) -> &'a [u8] {
        self.body
    }

    fn each(&self) -> impl Iterator<Item = Item<'a>> + use<'a> {
        let mut fields = Fields::new(self.body.get(2..).unwrap_or_default());
        std::iter::from_fn(move || Item::read(&mut fields))
    }
}
