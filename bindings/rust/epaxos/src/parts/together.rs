//! What clients write to different keys, proposed as one command of the protocol: it takes one instance, one frame to
//! each peer and one entry of each log. Its answer reports what each key had before, as that of a write by itself does.
//!
//! Only what is written whatever was there goes together. A comparison doesn't: in one command either all is done or
//! nothing, so one that finds another value would undo what everybody else has written.
use crate::{Command, LONGEST_KEY, LONGEST_VALUE, MOST_TOLD, OwnedAnswer, OwnedCommand};
use std::collections::HashSet;
use std::time::Duration;

/// So many bytes of keys and values go together at most: who has written little doesn't wait for much.
const MOST_BYTES: usize = 32 << 10;
/// Where the fast quorum is so far away each command goes by itself: where one of several conflicts, all of them take
/// another round trip.
pub const FAR: Duration = Duration::from_millis(20);

/// A client's command that waits to be proposed.
pub trait Asked {
    /// The command.
    fn command(&self) -> &OwnedCommand;
}

/// What is proposed as one command, and whose it is: in the order in which its answer has their keys.
pub struct Whole<M> {
    pub members: Vec<M>,
    pub command: OwnedCommand,
}

/// Commands that are to go together.
pub struct Together<M> {
    /// So many at most, which is no more than a command reports.
    most: usize,
    members: Vec<M>,
    keys: HashSet<Vec<u8>>,
    bytes: usize,
}

/// What a command writes whatever was there, and to which key. None where the core would refuse it.
fn written(command: &OwnedCommand) -> Option<(&[u8], Option<&[u8]>)> {
    let (key, value) = match command {
        OwnedCommand::Put { key, value } => (key, Some(&value[..])),
        OwnedCommand::Del { key } => (key, None),
        _ => return None,
    };
    let is_well = (1..=LONGEST_KEY).contains(&key.len()) && value.is_none_or(|value| value.len() <= LONGEST_VALUE);
    is_well.then_some((key, value))
}

impl<M: Asked> Together<M> {
    /// Nothing yet, of so many at most.
    pub fn new(most: usize) -> Together<M> {
        Together { most: most.min(MOST_TOLD), members: Vec::new(), keys: HashSet::new(), bytes: 0 }
    }

    /// Takes a command: what is to be proposed now, as it doesn't go with what comes.
    pub fn add(&mut self, member: M) -> Vec<Whole<M>> {
        let Some(member) = self.take(member) else { return Vec::new() };
        if self.most < 2 || written(member.command()).is_none() {
            return vec![Whole::of(member)];
        }
        // (its key is written there, or there is no room)
        let mut out: Vec<Whole<M>> = self.end().into_iter().collect();
        out.extend(self.take(member).map(Whole::of));
        out
    }

    /// Takes a command that goes with those that are there. Else it is given back.
    fn take(&mut self, member: M) -> Option<M> {
        let Some((key, value)) = self.fitting(member.command()) else { return Some(member) };
        self.bytes += key.len() + value.map_or(0, <[u8]>::len);
        self.keys.insert(key.to_vec());
        self.members.push(member);
        None
    }

    /// What a command writes to which key, where it goes with those that are there.
    fn fitting<'a>(&self, command: &'a OwnedCommand) -> Option<(&'a [u8], Option<&'a [u8]>)> {
        let (key, value) = written(command).filter(|_| self.most > 1 && self.members.len() < self.most)?;
        let bytes = self.bytes + key.len() + value.map_or(0, <[u8]>::len);
        (bytes <= MOST_BYTES && !self.keys.contains(key)).then_some((key, value))
    }

    /// Whether a command is proposed behind all that is there, and not with it.
    pub fn is_before(&self, command: &OwnedCommand) -> bool {
        !self.members.is_empty() && self.fitting(command).is_none()
    }

    /// All that is there, as one command; then there is nothing. None where there was nothing.
    pub fn end(&mut self) -> Option<Whole<M>> {
        let mut members = std::mem::replace(self, Together::new(self.most)).members;
        if members.len() < 2 {
            return members.pop().map(Whole::of);
        }
        members.sort_by(|one, other| written(one.command()).cmp(&written(other.command())));
        let mut tx = Command::tx();
        for (key, value) in members.iter().filter_map(|member| written(member.command())) {
            tx = match value {
                Some(value) => tx.put(key, value).tell(key),
                None => tx.del(key).tell(key),
            };
        }
        // (all its bounds are kept)
        let command = tx.build().ok()?;
        Some(Whole { members, command })
    }
}

impl<M: Asked> Whole<M> {
    /// One by itself.
    fn of(member: M) -> Whole<M> {
        Whole { command: member.command().clone(), members: vec![member] }
    }
}

/// What each of so many members is answered, in their order, where the whole was answered so.
pub fn answers(answer: OwnedAnswer, members: usize) -> Vec<OwnedAnswer> {
    match answer {
        OwnedAnswer::Done(values) if members > 1 => {
            let of = |value: Option<&[u8]>| value.map_or(OwnedAnswer::Absent, |it| OwnedAnswer::Present(it.to_vec()));
            values.iter().map(of).collect()
        }
        answer => vec![answer; members],
    }
}

#[cfg(test)]
mod tests {
    use super::*;
    use crate::OwnedValues;

    impl Asked for OwnedCommand {
        fn command(&self) -> &OwnedCommand {
            self
        }
    }

    fn put(key: &str, value: &str) -> OwnedCommand {
        OwnedCommand::Put { key: key.into(), value: value.into() }
    }

    fn del(key: &str) -> OwnedCommand {
        OwnedCommand::Del { key: key.into() }
    }

    #[test]
    fn what_is_written_to_different_keys_is_one() {
        let mut together = Together::new(16);
        for command in [put("b", "1"), del("c"), put("a", "2"), del("d")] {
            assert!(together.add(command).is_empty());
        }
        // What is compared goes by itself.
        let cas = OwnedCommand::Cas { key: b"e".to_vec(), expected: None, new: None };
        let alone = together.add(cas.clone()).pop().unwrap();
        assert_eq!((alone.command, alone.members), (cas.clone(), vec![cas]));
        // A key is written once: what was there is proposed before.
        let whole = together.add(put("b", "3")).pop().unwrap();
        assert_eq!(whole.members, [put("a", "2"), put("b", "1"), del("c"), del("d")]);
        let tx = Command::tx().put(b"a", b"2").put(b"b", b"1").del(b"c").del(b"d");
        let tx = [b"a", b"b", b"c", b"d"].into_iter().fold(tx, |tx, key| tx.tell(key));
        assert_eq!(whole.command, tx.build().unwrap());
        // One alone is itself.
        let last = together.end().unwrap();
        assert_eq!((last.command, last.members), (put("b", "3"), vec![put("b", "3")]));
        assert!(together.end().is_none());
    }

    #[test]
    fn each_gets_the_answer_of_its_key() {
        let values = OwnedValues::new([Some("1"), None]).unwrap();
        let whole = OwnedAnswer::Done(values);
        assert_eq!(answers(whole.clone(), 2), [OwnedAnswer::Present(b"1".to_vec()), OwnedAnswer::Absent]);
        assert_eq!(answers(whole.clone(), 1), [whole]);
        assert_eq!(answers(OwnedAnswer::Closed, 3), [OwnedAnswer::Closed, OwnedAnswer::Closed, OwnedAnswer::Closed]);
    }

    #[test]
    fn bounds() {
        let count = |most: usize, value: &str| {
            let mut together = Together::new(most);
            (1..200).take_while(|it| together.add(put(&format!("{it}"), value)).is_empty()).count()
        };
        assert_eq!((count(16, "v"), count(99, "v"), count(5, "v"), count(1, "v")), (16, 16, 5, 0));
        assert_eq!((count(16, &"v".repeat(10_000)), count(16, &"v".repeat(40_000))), (3, 0));
        // What is too long for others goes by itself, behind what was there; so does what the core refuses.
        let mut together = Together::new(16);
        assert!(together.add(put("a", "1")).is_empty());
        let alone = [del(""), put(&"k".repeat(256), "1")];
        assert!(alone.iter().all(|it| together.add(it.clone()).pop().unwrap().members == [it.clone()]));
        let long = put("b", &"v".repeat(40_000));
        let both: Vec<_> = together.add(long.clone()).into_iter().map(|it| it.members).collect();
        assert_eq!(both, [vec![put("a", "1")], vec![long]]);
    }
}
