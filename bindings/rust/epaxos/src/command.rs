//! What a client asks for.
#![forbid(unsafe_code)]

use crate::bytes::{Fields, push_part, read_part};
use crate::{Fault, LONGEST_KEY, LONGEST_VALUE, TxBuilder, TxOf};

/// A command whose bytes are lent, as calls take it.
///
/// ```
/// use epaxos::{Call, Command, Event};
///
/// let put = Command::Put { key: b"x", value: b"1" };
/// let event = Event::Propose { call: Call::new(1, 1), command: put };
/// # let _ = event;
/// ```
pub type Command<'a> = CommandOf<&'a [u8]>;

/// A command that has its bytes itself: to keep it, or to hand it to another thread.
///
/// ```
/// use epaxos::{Command, OwnedCommand};
///
/// let waiting: Vec<OwnedCommand> = vec![Command::Get { key: b"x" }.to_owned()];
/// assert_eq!(waiting[0].lent(), Command::Get { key: b"x" });
/// ```
pub type OwnedCommand = CommandOf<Vec<u8>>;

/// A command of a client. Keys have 1 to 255 bytes, values and bodies at most 65,535. [`Command`] and [`OwnedCommand`] are this, with bytes that are lent,
/// and with bytes of its own.
///
/// Commands on a common key that don't both only read are executed in one order at all replicas.
///
/// ```
/// use epaxos::Command;
///
/// // a lock is taken where nobody has it:
/// let take = Command::Cas { key: b"lock", expected: None, new: Some(b"client 7") };
/// assert!(!take.is_seal());
/// ```
#[derive(Clone, Copy, PartialEq, Eq, Hash, Debug)]
pub enum CommandOf<B> {
    /// Answers the value of a key. As any command it sees all that was answered before it was proposed, at whichever
    /// replica.
    Get {
        /// The key.
        key: B,
    },
    /// Gives a key a value. The answer is what it had.
    Put {
        /// The key.
        key: B,
        /// Its new value.
        value: B,
    },
    /// Takes a key's value away. The answer is what it had.
    Del {
        /// The key.
        key: B,
    },
    /// The values of two different keys change places. The answer is what the first had.
    Swap {
        /// One key.
        first: B,
        /// The other one.
        second: B,
    },
    /// Compare and set: the key gets the new value, or none, where it has the expected one, or none. The answer is what it had: so the
    /// caller knows whether it was done.
    Cas {
        /// The key.
        key: B,
        /// What it has to have.
        expected: Option<B>,
        /// What it then gets.
        new: Option<B>,
    },
    /// A command of a machine of your own, which the core puts in its place by the keys, and doesn't understand.
    Opaque {
        /// Whether your machine only reads what belongs to the keys.
        is_reading: bool,
        /// A key that it touches.
        first: B,
        /// Another one, if it touches two.
        second: Option<B>,
        /// What your machine understands.
        body: B,
    },
    /// Closes the map, and so ends the generation.
    Seal {
        /// Yours: who takes part in the next generation.
        value: B,
    },
    /// Asks for some keys, and writes some, if all that it requires is there, and nothing otherwise. The answer is
    /// [`Done`](crate::Answer::Done) or [`Undone`](crate::Answer::Undone). [`Command::tx`] makes it.
    Tx(TxOf<B>),
}

const GET: u8 = 2;
const PUT: u8 = 3;
const DEL: u8 = 4;
const SWAP: u8 = 5;
const CAS: u8 = 6;
const ASK: u8 = 7;
const ACT: u8 = 8;
const SEAL: u8 = 9;
const TX: u8 = 10;

impl<B> CommandOf<B> {
    /// Whether it ends the generation.
    ///
    /// ```
    /// assert!(epaxos::Command::Seal { value: b"" }.is_seal());
    /// ```
    pub fn is_seal(&self) -> bool {
        matches!(self, CommandOf::Seal { .. })
    }

    /// The same command, each of its runs of bytes put through `of`.
    fn map<'a, C>(&'a self, of: impl Fn(&'a B) -> C) -> CommandOf<C> {
        match self {
            CommandOf::Get { key } => CommandOf::Get { key: of(key) },
            CommandOf::Put { key, value } => CommandOf::Put { key: of(key), value: of(value) },
            CommandOf::Del { key } => CommandOf::Del { key: of(key) },
            CommandOf::Swap { first, second } => CommandOf::Swap { first: of(first), second: of(second) },
            CommandOf::Cas { key, expected, new } => {
                CommandOf::Cas { key: of(key), expected: expected.as_ref().map(&of), new: new.as_ref().map(&of) }
            }
            CommandOf::Opaque { is_reading, first, second, body } => CommandOf::Opaque {
                is_reading: *is_reading,
                first: of(first),
                second: second.as_ref().map(&of),
                body: of(body),
            },
            CommandOf::Seal { value } => CommandOf::Seal { value: of(value) },
            CommandOf::Tx(tx) => CommandOf::Tx(tx.map(of)),
        }
    }
}

impl<B: AsRef<[u8]>> CommandOf<B> {
    /// The command, with its bytes lent.
    ///
    /// ```
    /// # use epaxos::{Command, OwnedCommand};
    /// let put = OwnedCommand::Put { key: b"x".to_vec(), value: b"1".to_vec() };
    /// assert_eq!(put.lent(), Command::Put { key: b"x", value: b"1" });
    /// ```
    pub fn lent(&self) -> Command<'_> {
        self.map(AsRef::as_ref)
    }

    /// The command, with a copy of its bytes.
    ///
    /// ```
    /// # use epaxos::{Command, OwnedCommand};
    /// assert_eq!(Command::Del { key: b"x" }.to_owned(), OwnedCommand::Del { key: b"x".to_vec() });
    /// ```
    pub fn to_owned(&self) -> OwnedCommand {
        self.map(|bytes| bytes.as_ref().to_vec())
    }
}

impl<'a> Command<'a> {
    /// Begins a command over many keys: what is required of some, what is asked for, and what is written, in any order.
    ///
    /// ```
    /// use epaxos::Command;
    ///
    /// // 10 go from one account to another, if both have what was read:
    /// let transfer = Command::tx()
    ///     .require(b"alice", b"30")
    ///     .require_absent(b"bob")
    ///     .put(b"alice", b"20")
    ///     .put(b"bob", b"10")
    ///     .build()?;
    /// # let mut replica = epaxos::Replica::new(epaxos::Cluster::Three, 0)?;
    /// # replica.ready()?.commit(&mut Vec::new())?;
    /// replica.propose(epaxos::Call::new(1, 1), transfer.lent())?;
    /// # Ok::<(), Box<dyn std::error::Error>>(())
    /// ```
    pub fn tx() -> TxBuilder<'a> {
        TxBuilder::new()
    }

    /// Its op, its keys, and its body if that lies in one piece. (A second key of no bytes is none.)
    fn parts(&self) -> (u8, &'a [u8], &'a [u8], &'a [u8]) {
        let none: &[u8] = &[];
        match *self {
            Command::Get { key } => (GET, key, none, none),
            Command::Put { key, value } => (PUT, key, none, value),
            Command::Del { key } => (DEL, key, none, none),
            Command::Swap { first, second } => (SWAP, first, second, none),
            Command::Cas { key, .. } => (CAS, key, none, none),
            Command::Opaque { is_reading, first, second, body } => {
                (if is_reading { ASK } else { ACT }, first, second.unwrap_or(none), body)
            }
            Command::Seal { value } => (SEAL, none, none, value),
            Command::Tx(tx) => (TX, none, none, tx.body()),
        }
    }

    /// Whether it can be spelled: the lengths of its keys and its values are in their ranges.
    pub(crate) fn check(&self) -> Result<(), Fault> {
        let (op, first, second, body) = self.parts();
        let keys = if op == SEAL || op == TX { 0..=0 } else { 1..=LONGEST_KEY };
        let others = match self {
            Command::Swap { .. } | Command::Opaque { second: Some(_), .. } => 1..=LONGEST_KEY,
            _ => 0..=0,
        };
        let longest = match self {
            Command::Cas { expected, new, .. } => [expected, new].into_iter().flatten().map(|it| it.len()).max(),
            // (whoever made it has looked at its values)
            Command::Tx(_) => None,
            _ => Some(body.len()),
        };
        let is_well = keys.contains(&first.len())
            && others.contains(&second.len())
            && longest.is_none_or(|it| it <= LONGEST_VALUE)
            && (second.is_empty() || first != second);
        if is_well { Ok(()) } else { Err(Fault::OutOfRange) }
    }

    /// Appends its bytes, as a proposal has them: the op, the lengths, the keys and the body. Of one whose lengths are out of range they are no command.
    ///
    /// ```
    /// # use epaxos::Command;
    /// let mut out = Vec::new();
    /// Command::Get { key: b"x" }.write(&mut out);
    /// assert_eq!(Command::read(&out), Some(Command::Get { key: b"x" }));
    /// ```
    pub fn write(&self, out: &mut Vec<u8>) {
        let (op, first, second, body) = self.parts();
        out.extend([op, first.len() as u8, second.len() as u8]);
        let at = out.len();
        out.extend((body.len() as u32).to_be_bytes());
        out.extend(first);
        out.extend(second);
        out.extend(body);
        if let Command::Cas { expected, new, .. } = self {
            let begin = out.len();
            push_part(out, *expected);
            push_part(out, *new);
            let length = (out.len() - begin) as u32;
            out[at..at + 4].copy_from_slice(&length.to_be_bytes());
        }
    }

    /// Reads one that [`write`](Command::write) has written, and nothing more. None where the bytes are none.
    ///
    /// ```
    /// # use epaxos::Command;
    /// assert_eq!(Command::read(&[4, 1, 0, 0, 0, 0, 0, b'x']), Some(Command::Del { key: b"x" }));
    /// assert_eq!(Command::read(b"DEL x"), None);
    /// ```
    pub fn read(bytes: &'a [u8]) -> Option<Command<'a>> {
        let mut fields = Fields::new(bytes);
        let (op, first, second, body) = (fields.u8()?, fields.u8()?, fields.u8()?, fields.u32()?);
        let key = fields.run(first.into())?;
        let other = fields.run(second.into())?;
        let body = fields.run(body as usize)?;
        fields.is_over().then_some(())?;
        let command = match op {
            GET => Command::Get { key },
            PUT => Command::Put { key, value: body },
            DEL => Command::Del { key },
            SWAP => Command::Swap { first: key, second: other },
            CAS => {
                let mut parts = Fields::new(body);
                let (expected, new) = (read_part(&mut parts)?, read_part(&mut parts)?);
                parts.is_over().then_some(Command::Cas { key, expected, new })?
            }
            ASK | ACT => {
                Command::Opaque { is_reading: op == ASK, first: key, second: (second > 0).then_some(other), body }
            }
            SEAL => Command::Seal { value: body },
            TX => Command::Tx(TxOf::read(body)?),
            _ => return None,
        };
        // (keys and a body are where the op has some)
        let is_whole = command.parts() == (op, key, other, if op == CAS { &[] } else { body });
        (is_whole && command.check().is_ok()).then_some(command)
    }
}

#[cfg(test)]
mod tests {
    use super::*;
    use crate::vectors::vector;

    fn bytes_of(command: Command) -> Vec<u8> {
        let mut out = Vec::new();
        command.write(&mut out);
        out
    }

    #[test]
    fn commands_word_for_word() {
        let one = Command::tx().require_absent(b"x").put(b"x", b"1").tell(b"y").build().unwrap();
        let all = Command::tx().tell(b"d").require_absent(b"c").del(b"c").del(b"b");
        let all = all.require(b"a", b"1").put(b"a", b"2").tell(b"a").build().unwrap();
        let spelled = [
            ("tx", one.lent()),
            ("tx-all", all.lent()),
            ("get", Command::Get { key: b"ab" }),
            ("put", Command::Put { key: b"c", value: b"v" }),
            ("del", Command::Del { key: b"c" }),
            ("swap", Command::Swap { first: b"c", second: b"de" }),
            ("cas", Command::Cas { key: b"c", expected: None, new: Some(b"v") }),
            ("ask", Command::Opaque { is_reading: true, first: b"c", second: None, body: &[9] }),
            ("act", Command::Opaque { is_reading: false, first: b"c", second: Some(b"d"), body: &[9] }),
            ("seal", Command::Seal { value: b"me" }),
        ];
        for (name, command) in spelled {
            let bytes = vector(name);
            assert_eq!(command.check(), Ok(()));
            assert_eq!(bytes_of(command), bytes, "{name}");
            assert_eq!(Command::read(&bytes), Some(command), "{name}");
            for cut in 0..bytes.len() {
                assert_eq!(Command::read(&bytes[..cut]), None, "{name}");
            }
            assert_eq!(Command::read(&[&bytes[..], &[0]].concat()), None, "{name}");
        }
        for name in ["no-op", "get", "put", "del", "swap", "swap-twice", "cas", "cas-part", "act", "seal"]
            .map(|it| format!("bad-{it}"))
        {
            assert_eq!(Command::read(&vector(&name)), None, "{name}");
        }
        for name in [
            "none", "empty", "nothing", "both", "flag", "order", "twice", "prefix", "guard", "left", "short", "told",
            "key",
        ]
        .map(|it| format!("bad-tx-{it}"))
        {
            assert_eq!(Command::read(&vector(&name)), None, "{name}");
        }
    }

    /// Bytes with one of them changed are no command, or spell another one.
    #[test]
    fn one_spelling() {
        let mut others = 0;
        for name in ["tx", "tx-all", "cas"] {
            let bytes = vector(name);
            for (at, byte) in (0..bytes.len()).flat_map(|at| (0..=255).map(move |byte| (at, byte))) {
                let mut changed = bytes.clone();
                changed[at] = byte;
                if let Some(command) = Command::read(&changed) {
                    assert_eq!(bytes_of(command), changed, "{name}: {byte} at {at}");
                    others += 1;
                }
            }
        }
        assert!(others > 1_000);
    }

    #[test]
    fn lengths_out_of_range() {
        let (key, long) = (vec![b'k'; LONGEST_KEY + 1], vec![0; LONGEST_VALUE + 1]);
        let refused = [
            Command::Get { key: b"" },
            Command::Get { key: &key },
            Command::Put { key: b"k", value: &long },
            Command::Put { key: b"", value: b"v" },
            Command::Swap { first: b"k", second: b"" },
            Command::Swap { first: b"k", second: b"k" },
            Command::Swap { first: b"k", second: &key },
            Command::Cas { key: b"k", expected: Some(&long), new: None },
            Command::Cas { key: b"k", expected: None, new: Some(&long) },
            Command::Opaque { is_reading: true, first: b"k", second: Some(b""), body: b"" },
            Command::Opaque { is_reading: true, first: b"k", second: Some(b"k"), body: b"" },
            Command::Opaque { is_reading: true, first: b"k", second: None, body: &long },
            Command::Seal { value: &long },
        ];
        for command in refused {
            assert_eq!(command.check(), Err(Fault::OutOfRange));
        }
        let (key, long) = (&key[1..], &long[1..]);
        for command in [
            Command::Put { key, value: long },
            Command::Cas { key, expected: Some(long), new: Some(long) },
            Command::Opaque { is_reading: false, first: key, second: Some(b"k"), body: long },
            Command::Seal { value: long },
        ] {
            assert_eq!(command.check(), Ok(()));
            assert_eq!(Command::read(&bytes_of(command)), Some(command));
        }
    }
}
