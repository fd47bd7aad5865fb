//! What the library is asked by requests, and how it answers them (docs/FORMATS.md, section 10).
#![forbid(unsafe_code)]

use crate::bytes::{Fields, push_block};
use crate::{Fault, Instance, State};

/// The kinds of requests, and of answers.
const OF_STATE: u8 = 11;
const OF_INTERFERING: u8 = 16;
const OF_READ: u8 = 17;
const REFUSED: u8 = 2;
const MALFORMED: u8 = 7;
const STATE: u8 = 8;
const INTERFERING: u8 = 11;

/// What a replica is asked that is no event.
#[derive(Clone, Copy, PartialEq, Eq, Debug)]
pub(crate) enum Question<'a> {
    /// How far it is in its generation.
    State,
    /// Which instances interfere with a read of this key.
    Interfering(&'a [u8]),
    /// A read of this key that writes nothing, of which all that interferes with it was found.
    Read { key: &'a [u8], found: &'a [Instance] },
}

impl Question<'_> {
    /// Appends the request: its length, its kind and its body.
    pub(crate) fn push(self, out: &mut Vec<u8>) {
        let mut request = Vec::new();
        match self {
            Question::State => request.push(OF_STATE),
            Question::Interfering(key) => {
                request.push(OF_INTERFERING);
                request.extend(key);
            }
            Question::Read { key, found } => {
                // (a key that can't be has no length, so that the request is malformed)
                request.extend([OF_READ, u8::try_from(key.len()).unwrap_or(0)]);
                request.extend(key);
                request.extend((found.len() as u32).to_be_bytes());
                found.iter().for_each(|instance| request.extend(instance.bytes()));
            }
        }
        push_block(out, &request);
    }
}

/// The state that an answer has. None where it has none.
pub(crate) fn state(answer: &[u8]) -> Option<State> {
    body(answer, STATE, State::read)
}

/// The instances that an answer says interfere, in rising order. None where it says nothing of that.
pub(crate) fn interfering(answer: &[u8]) -> Option<Vec<Instance>> {
    body(answer, INTERFERING, |fields| (0..fields.u32()?).map(|_| Instance::read(fields)).collect())
}

/// Why an answer isn't the one that was asked for. None where it refuses nothing.
pub(crate) fn refusal(answer: &[u8]) -> Option<Fault> {
    match *answer.first()? {
        REFUSED => body(answer, REFUSED, |fields| Fault::of(fields.u8()?, Instance::read_or_none(fields)?)),
        // a number that isn't allowed, as the lengths are
        MALFORMED => Some(Fault::OutOfRange),
        _ => None,
    }
}

/// What `read` reads of an answer of this kind, to its end.
fn body<'a, T>(answer: &'a [u8], kind: u8, read: impl FnOnce(&mut Fields<'a>) -> Option<T>) -> Option<T> {
    let mut fields = Fields::new(answer);
    (fields.u8()? == kind).then_some(())?;
    let value = read(&mut fields)?;
    fields.is_over().then_some(value)
}
