//! What a command was answered.
#![forbid(unsafe_code)]

use crate::ValuesOf;
use crate::bytes::{Fields, push_block};

/// An answer whose value is lent, as it is answered.
///
/// ```
/// # fn of(receipt: &epaxos::Receipt) {
/// let answer: epaxos::Answer = receipt.answer;
/// # let _ = answer;
/// # }
/// ```
pub type Answer<'a> = AnswerOf<&'a [u8]>;

/// An answer that has its value itself: to keep it, or to hand it to another thread.
///
/// ```
/// use epaxos::{Answer, OwnedAnswer};
///
/// assert_eq!(Answer::Present(b"1").to_owned(), OwnedAnswer::Present(b"1".to_vec()));
/// ```
pub type OwnedAnswer = AnswerOf<Vec<u8>>;

/// What a command was answered. [`Answer`] and [`OwnedAnswer`] are this, with a value that is lent, and with a value of its own.
///
/// ```
/// use epaxos::Answer;
///
/// assert_eq!(Answer::Present(b"1").value(), Some(&b"1"[..]));
/// assert_eq!(Answer::Absent.value(), None);
/// assert!(!Answer::Lost.is_done());
/// ```
#[derive(Clone, Copy, PartialEq, Eq, Hash, Debug)]
pub enum AnswerOf<B> {
    /// The key had no value before the command.
    Absent,
    /// The value that the key had before the command.
    Present(B),
    /// A no-op took its instance: it wasn't done, and never will be there. Propose it again, as a new request.
    Lost,
    /// It stands behind the seal: it wasn't done, and never will be in this generation.
    Closed,
    /// A command of a machine of your own has its place: it is your machine that answers.
    Ordered,
    /// A [`Tx`](crate::Command::Tx) found all that it requires, and was done: with what each of the keys that it asks
    /// for had before it.
    Done(ValuesOf<B>),
    /// A [`Tx`](crate::Command::Tx) didn't find all that it requires, and has written nothing: with what each of the
    /// keys that it asks for had, and has.
    Undone(ValuesOf<B>),
}

impl<B> AnswerOf<B> {
    /// Whether the command was done. One that is [`Undone`](AnswerOf::Undone) wasn't, though it has its place, and its
    /// answer is final.
    ///
    /// ```
    /// # use epaxos::{Answer, OwnedAnswer, OwnedValues};
    /// assert!(Answer::Ordered.is_done() && !Answer::Closed.is_done());
    /// assert!(!OwnedAnswer::Undone(OwnedValues::default()).is_done());
    /// ```
    pub fn is_done(&self) -> bool {
        !matches!(self, AnswerOf::Lost | AnswerOf::Closed | AnswerOf::Undone(_))
    }

    /// The same answer, its value put through `of`.
    fn map<'a, C>(&'a self, of: impl Fn(&'a B) -> C) -> AnswerOf<C> {
        match self {
            AnswerOf::Absent => AnswerOf::Absent,
            AnswerOf::Present(value) => AnswerOf::Present(of(value)),
            AnswerOf::Lost => AnswerOf::Lost,
            AnswerOf::Closed => AnswerOf::Closed,
            AnswerOf::Ordered => AnswerOf::Ordered,
            AnswerOf::Done(values) => AnswerOf::Done(values.map(of)),
            AnswerOf::Undone(values) => AnswerOf::Undone(values.map(of)),
        }
    }
}

impl<B: AsRef<[u8]>> AnswerOf<B> {
    /// The answer, with its value lent.
    ///
    /// ```
    /// # use epaxos::{Answer, OwnedAnswer};
    /// assert_eq!(OwnedAnswer::Present(b"1".to_vec()).lent(), Answer::Present(b"1"));
    /// ```
    pub fn lent(&self) -> Answer<'_> {
        self.map(AsRef::as_ref)
    }

    /// The answer, with a copy of its value.
    ///
    /// ```
    /// # use epaxos::{Answer, OwnedAnswer};
    /// assert_eq!(Answer::Lost.to_owned(), OwnedAnswer::Lost);
    /// ```
    pub fn to_owned(&self) -> OwnedAnswer {
        self.map(|value| value.as_ref().to_vec())
    }
}

impl<'a> Answer<'a> {
    /// The value that the command's first key had, if it has one. (What a [`Tx`](crate::Command::Tx) asks for is
    /// reported by its answer's [values](crate::ValuesOf).)
    ///
    /// ```
    /// # use epaxos::Answer;
    /// assert_eq!(Answer::Present(b"").value(), Some(&b""[..]));
    /// ```
    pub fn value(&self) -> Option<&'a [u8]> {
        match *self {
            Answer::Present(value) => Some(value),
            _ => None,
        }
    }

    /// Appends its bytes, as a receipt of a generation has them.
    ///
    /// ```
    /// # use epaxos::Answer;
    /// let mut out = Vec::new();
    /// Answer::Present(b"1").write(&mut out);
    /// assert_eq!(out, [1, 0, 0, 0, 1, b'1']);
    /// ```
    pub fn write(&self, out: &mut Vec<u8>) {
        match self {
            Answer::Absent => out.push(0),
            Answer::Present(value) => {
                out.push(1);
                push_block(out, value);
            }
            Answer::Lost => out.push(2),
            Answer::Closed => out.push(3),
            Answer::Ordered => out.push(4),
            Answer::Done(values) => {
                out.push(5);
                values.write(out);
            }
            Answer::Undone(values) => {
                out.push(6);
                values.write(out);
            }
        }
    }

    /// Reads one that [`write`](Answer::write) has written. None where the bytes are none.
    ///
    /// ```
    /// # use epaxos::{Answer, Fields};
    /// assert_eq!(Answer::read(&mut Fields::new(&[3])), Some(Answer::Closed));
    /// ```
    pub fn read(fields: &mut Fields<'a>) -> Option<Answer<'a>> {
        match fields.u8()? {
            0 => Some(Answer::Absent),
            1 => fields.block().map(Answer::Present),
            2 => Some(Answer::Lost),
            3 => Some(Answer::Closed),
            4 => Some(Answer::Ordered),
            5 => ValuesOf::read(fields).map(Answer::Done),
            6 => ValuesOf::read(fields).map(Answer::Undone),
            _ => None,
        }
    }
}
