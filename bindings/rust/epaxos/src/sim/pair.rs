//! Questions of two keys, asked by one command, each key's part of which is judged by itself.
use super::judge::{Asked, Kind};
use crate::{Command, OwnedAnswer, OwnedCommand, OwnedValues};

/// What a client asks of two keys.
#[derive(Clone, Copy, PartialEq, Eq, Debug)]
pub(super) enum Pair {
    /// Both are put.
    Both,
    /// The first is put where the second has nothing.
    Guarded,
}

impl Pair {
    /// The command, which reports both keys.
    pub(super) fn command(self, [first, second]: [&[u8]; 2], [one, other]: [&[u8]; 2]) -> Option<OwnedCommand> {
        let tx = Command::tx().put(first, one).tell(first).tell(second);
        let tx = match self {
            Pair::Both => tx.put(second, other),
            Pair::Guarded => tx.require_absent(second),
        };
        tx.build().ok()
    }

    /// What is asked of the second key, as far as that key goes.
    pub(super) fn of_second(self) -> Kind {
        match self {
            Pair::Both => Kind::Put,
            Pair::Guarded => Kind::Get,
        }
    }
}

/// What each of both keys had, by the answer. What isn't done to the first key is a read of it.
pub(super) fn had_before([first, second]: [&mut Asked; 2], answer: &OwnedAnswer) -> Option<[Option<u32>; 2]> {
    let values: &OwnedValues = match answer {
        OwnedAnswer::Done(values) => values,
        OwnedAnswer::Undone(values) => {
            first.kind = Kind::Get;
            values
        }
        _ => return None,
    };
    let number = |value: Option<&[u8]>| value.and_then(|it| it.try_into().ok()).map(u32::from_be_bytes);
    let mut all: Vec<Option<u32>> = values.iter().map(number).collect();
    // (an answer reports the lesser key first)
    if second.key_bytes() < first.key_bytes() {
        all.reverse();
    }
    all.try_into().ok()
}

#[cfg(test)]
mod tests {
    use super::*;

    fn asked(key: u32, kind: Kind) -> Asked {
        let (end, before, with) = (None, None, None);
        Asked { key, kind, value: 1, start: 0, end, before, is_refused: false, is_answered: false, at: (0, 1), with }
    }

    #[test]
    fn each_key_has_its_part() {
        let (mut first, mut second) = (asked(2, Kind::Put), asked(10, Pair::Guarded.of_second()));
        let values = OwnedValues::new([Some([0, 0, 0, 7]), None]).unwrap();
        // ("key 10" is less than "key 2")
        let done = had_before([&mut first, &mut second], &OwnedAnswer::Done(values.clone()));
        assert_eq!((done, first.kind, second.kind), (Some([None, Some(7)]), Kind::Put, Kind::Get));
        let undone = had_before([&mut first, &mut second], &OwnedAnswer::Undone(values));
        assert_eq!((undone, first.kind), (Some([None, Some(7)]), Kind::Get));
        assert_eq!(had_before([&mut first, &mut second], &OwnedAnswer::Absent), None);
    }
}
