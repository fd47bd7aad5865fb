//! Which keys have a deadline, and when, so that what is past it is found without a look at the whole map.
use crate::core::stored::deadline_in;
use epaxos::{Answer, Command, Executed};
use std::collections::{BTreeSet, HashMap};

/// The keys whose values have a deadline, after all that was executed.
#[derive(Default)]
pub struct Deadlines {
    of: HashMap<Vec<u8>, u64>,
    in_order: BTreeSet<(u64, Vec<u8>)>,
}

impl Deadlines {
    /// Something was executed.
    pub fn note(&mut self, executed: &Executed) {
        let before = match executed.answer {
            Answer::Present(value) => Some(value),
            _ => None,
        };
        match &executed.command {
            _ if !executed.answer.is_done() => {}
            Some(Command::Put { key, value }) => self.set(key, Some(value)),
            Some(Command::Del { key }) => self.set(key, None),
            Some(Command::Cas { key, expected, new }) if *expected == before => self.set(key, *new),
            Some(Command::Tx(tx)) if matches!(executed.answer, Answer::Done(_)) => {
                let written = tx.items().filter_map(|item| item.written.map(|value| (item.key, value)));
                written.for_each(|(key, value)| self.set(key, value));
            }
            // (no store proposes any other one that writes)
            _ => {}
        }
    }

    /// The key has this value from now on.
    pub fn set(&mut self, key: &[u8], value: Option<&[u8]>) {
        let deadline = value.and_then(deadline_in);
        if deadline.is_none() && self.of.is_empty() {
            return;
        }
        if let Some((key, before)) = self.of.remove_entry(key) {
            self.in_order.remove(&(before, key));
        }
        if let Some(deadline) = deadline {
            self.of.insert(key.to_vec(), deadline);
            self.in_order.insert((deadline, key.to_vec()));
        }
    }

    /// The keys that are past their deadlines then, in the order of these.
    pub fn over(&self, now: u64) -> impl Iterator<Item = &[u8]> {
        self.in_order.iter().take_while(move |(deadline, _)| *deadline <= now).map(|(_, key)| &key[..])
    }
}

#[cfg(test)]
mod tests {
    use super::*;
    use crate::core::stored::{Holder, Lock, Stored};
    use epaxos::parts::map::{Map, execute};
    use epaxos::parts::random::Random;
    use epaxos::{Instance, OwnedCommand, TxBuilder};

    fn value(number: u64) -> Vec<u8> {
        match number % 4 {
            0 => Stored::value(vec![number as u8]),
            1 => Stored::Lock(Lock { token: 1, holder: Some(Holder { owner: b"me".to_vec(), deadline: number }) }),
            _ => Stored::Value { content: b"v".to_vec(), deadline: Some(number) },
        }
        .into_bytes()
    }

    /// A command on some of few keys, of which half fit what the map has.
    fn command(random: &mut Random, map: &Map) -> OwnedCommand {
        let mut key = || format!("key-{}", random.below(6)).into_bytes();
        let (one, other, third) = (key(), key(), key());
        let new = value(random.below(40));
        let had = map.get(&one).cloned().filter(|_| random.below(2) == 0);
        match random.below(5) {
            0 => OwnedCommand::Del { key: one },
            1 => OwnedCommand::Cas { key: one, expected: had, new: Some(new).filter(|_| random.below(4) > 0) },
            2 if one != other && one != third && other != third => {
                let tx = TxBuilder::new().put(&other, &new).del(&third);
                let tx = match &had {
                    Some(value) => tx.require(&one, value),
                    None => tx.require_absent(&one),
                };
                tx.build().unwrap()
            }
            _ => OwnedCommand::Put { key: one, value: new },
        }
    }

    #[test]
    fn what_is_over_is_what_a_look_at_the_map_finds() {
        let (mut random, mut map, mut deadlines) = (Random::from_seed(7), Map::new(), Deadlines::default());
        for _ in 0..20_000 {
            let command = command(&mut random, &map);
            let answer = execute(&mut map, &command);
            let instance = Instance { replica: 0, number: 1 };
            deadlines.note(&Executed { instance, command: Some(command.lent()), answer: answer.lent() });
            let now = random.below(40);
            let mut found: Vec<&[u8]> = deadlines.over(now).collect();
            found.sort();
            let is_over = |(_, value): &(&Vec<u8>, &Vec<u8>)| Stored::read(value.to_vec()).is_over(now);
            assert_eq!(found, map.iter().filter(is_over).map(|(key, _)| &key[..]).collect::<Vec<_>>());
        }
        assert!(deadlines.of.len() > 1 && deadlines.of.len() == deadlines.in_order.len());
        // What comes behind a seal isn't done.
        let put = OwnedCommand::Put { key: b"late".to_vec(), value: value(2) };
        let before = deadlines.of.len();
        let instance = Instance { replica: 0, number: 1 };
        deadlines.note(&Executed { instance, command: Some(put.lent()), answer: Answer::Closed });
        assert_eq!(deadlines.of.len(), before);
    }
}
