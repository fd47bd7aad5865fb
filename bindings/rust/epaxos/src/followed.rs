//! What entries proposed and executed, as the library reports it (docs/FORMATS.md, section 10).
#![forbid(unsafe_code)]

use crate::bytes::Fields;
use crate::{Answer, Command, Executed, Instance, Proposed};

/// The kind of its answer.
const FOLLOWED: u8 = 13;
const PROPOSED: u8 = 1;
const EXECUTED: u8 = 2;
/// How many bytes name a client with its request, and an instance.
const CALLER: usize = 8;
const INSTANCE: usize = 3;

/// What entries proposed and executed. Its bytes are there, and well.
#[derive(Clone, Copy, Default, Debug)]
pub(crate) struct Followed<'a> {
    fields: Fields<'a>,
    proposed: usize,
    executed: usize,
}

enum Item<'a> {
    Proposed(Proposed),
    Executed(Executed<'a>),
}

impl<'a> Item<'a> {
    fn read(fields: &mut Fields<'a>) -> Option<Item<'a>> {
        match fields.u8()? {
            PROPOSED => {
                let (client, request, instance) = (fields.u32()?, fields.u32()?, Instance::read(fields)?);
                Some(Item::Proposed(Proposed { client, request, instance }))
            }
            EXECUTED => {
                let (instance, spelled) = (Instance::read(fields)?, fields.spanned(skip_command)?);
                let command = Command::read(spelled);
                Some(Item::Executed(Executed { instance, command, answer: Answer::read(fields)? }))
            }
            _ => None,
        }
    }
}

/// Reads over a command.
fn skip_command(fields: &mut Fields) -> Option<()> {
    fields.u8()?;
    let (first, second, body) = (fields.u8()?, fields.u8()?, fields.u32()?);
    fields.run(usize::from(first) + usize::from(second))?;
    fields.run(body as usize).map(|_| ())
}

impl<'a> Followed<'a> {
    /// Reads one. None where the bytes are none.
    pub(crate) fn read(answer: &'a [u8]) -> Option<Followed<'a>> {
        let mut fields = Fields::new(answer);
        (fields.u8()? == FOLLOWED).then_some(())?;
        let mut followed = Followed { fields, ..Followed::default() };
        while !fields.is_over() {
            let kind = fields.u8().filter(|kind| [PROPOSED, EXECUTED].contains(kind))?;
            if kind == PROPOSED {
                fields.run(CALLER + INSTANCE)?;
                followed.proposed += 1;
            } else {
                fields.run(INSTANCE)?;
                skip_command(&mut fields)?;
                Answer::read(&mut fields)?;
                followed.executed += 1;
            }
        }
        Some(followed)
    }

    /// What they proposed, in their order.
    pub(crate) fn proposed(&self) -> impl ExactSizeIterator<Item = Proposed> + use<'a> {
        let of = |item| if let Item::Proposed(proposed) = item { Some(proposed) } else { None };
        Counted { items: self.items().filter_map(of), left: self.proposed }
    }

    /// What they executed, here and at others, in their order.
    pub(crate) fn executed(&self) -> impl ExactSizeIterator<Item = Executed<'a>> + use<'a> {
        let of = |item| if let Item::Executed(executed) = item { Some(executed) } else { None };
        Counted { items: self.items().filter_map(of), left: self.executed }
    }

    fn items(&self) -> impl Iterator<Item = Item<'a>> + use<'a> {
        let mut fields = self.fields;
        std::iter::from_fn(move || Item::read(&mut fields))
    }
}

/// Items that were counted.
struct Counted<I> {
    items: I,
    left: usize,
}

impl<I: Iterator> Iterator for Counted<I> {
    type Item = I::Item;

    fn next(&mut self) -> Option<I::Item> {
        self.left = self.left.checked_sub(1)?;
        self.items.next()
    }

    fn size_hint(&self) -> (usize, Option<usize>) {
        (self.left, Some(self.left))
    }
}

impl<I: Iterator> ExactSizeIterator for Counted<I> {}

#[cfg(test)]
mod tests {
    use super::*;

    /// The op of a no-op.
    const NO_OP: u8 = 1;

    #[test]
    fn what_entries_did() {
        let put = Command::Put { key: b"x", value: b"1" };
        let (own, other) = (Instance { replica: 0, number: 1 }, Instance { replica: 1, number: 258 });
        let mut answer = vec![FOLLOWED, PROPOSED, 0, 0, 0, 7, 0, 0, 0, 9, 0, 0, 1, EXECUTED, 1, 1, 2];
        answer.extend([NO_OP, 0, 0, 0, 0, 0, 0]);
        Answer::Lost.write(&mut answer);
        answer.extend([EXECUTED, 0, 0, 1]);
        put.write(&mut answer);
        Answer::Present(b"0").write(&mut answer);
        let followed = Followed::read(&answer).unwrap();
        let (proposed, executed) = (followed.proposed(), followed.executed());
        assert_eq!((proposed.len(), executed.len()), (1, 2));
        assert_eq!(proposed.collect::<Vec<_>>(), [Proposed { client: 7, request: 9, instance: own }]);
        let expected = [
            Executed { instance: other, command: None, answer: Answer::Lost },
            Executed { instance: own, command: Some(put), answer: Answer::Present(b"0") },
        ];
        assert_eq!(executed.collect::<Vec<_>>(), expected);
        // (what is cut behind an item is whole)
        let whole = (0..answer.len()).filter(|cut| Followed::read(&answer[..*cut]).is_some()).collect::<Vec<_>>();
        assert_eq!(whole, [1, 13, 25]);
        assert!(Followed::read(&[&answer[..], &[3]].concat()).is_none() && Followed::read(&[9]).is_none());
    }
}
