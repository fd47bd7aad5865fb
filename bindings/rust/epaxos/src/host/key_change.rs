//! What commands have written.
use crate::host::Done;
use crate::{Answer, Command, Fault, Instance};

/// What a command has written in one key.
///
/// ```
/// use epaxos::host::KeyChange;
/// use std::collections::BTreeMap;
///
/// /// Keeps a copy of what is watched.
/// fn follow(copy: &mut BTreeMap<Vec<u8>, Vec<u8>>, change: KeyChange) {
///     match change.value {
///         Some(value) => _ = copy.insert(change.key, value),
///         None => _ = copy.remove(&change.key),
///     }
/// }
/// ```
#[derive(Clone, PartialEq, Eq, Debug)]
pub struct KeyChange {
    /// The key.
    pub key: Vec<u8>,
    /// What it has now; None where it is gone.
    pub value: Option<Vec<u8>>,
    /// The generation of the command,
    pub generation: u32,
    /// and its instance there. The two are the same at all replicas: they show whether one seen at another replica is
    /// this one.
    pub instance: Instance,
}

/// What was written by what was executed, in its order; and whether something is lacking behind that, as it isn't
/// known. `present` returns what a key has after all of it.
pub(super) fn changes(
    executed: &[Done],
    mut present: impl FnMut(&[u8]) -> Result<Option<Vec<u8>>, Fault>,
) -> Result<(Vec<KeyChange>, bool), Fault> {
    let mut all = Vec::new();
    for (place, done) in executed.iter().enumerate() {
        let (generation, instance) = (done.generation, done.instance);
        let mut write = |key: &[u8], value: Option<&[u8]>| {
            all.push(KeyChange { key: key.to_vec(), value: value.map(<[u8]>::to_vec), generation, instance });
        };
        let Some(command) = done.command.as_ref().map(|it| it.lent()) else { continue };
        match (command, done.answer.lent()) {
            (_, Answer::Lost | Answer::Closed) => {}
            (Command::Put { key, value }, _) => write(key, Some(value)),
            (Command::Del { key }, Answer::Present(_)) => write(key, None),
            (Command::Cas { key, expected, new }, had)
                if had.value() == expected && (expected, new) != (None, None) =>
            {
                write(key, new);
            }
            (Command::Swap { first, second }, had) => {
                let Some(other) = value_after(first, executed, place, &mut present)? else { return Ok((all, true)) };
                if (had.value(), &other) != (None, &None) {
                    write(first, other.as_deref());
                    write(second, had.value());
                }
            }
            (Command::Tx(tx), Answer::Done(_)) => {
                tx.items().for_each(|item| _ = item.written.map(|value| write(item.key, value)));
            }
            _ => {}
        }
    }
    Ok((all, false))
}

/// What a key had after the command in this place: what the next one that touches it has found, or what it has at the
/// end. None where that isn't known, as the next one wrote it without a look.
fn value_after(
    key: &[u8],
    executed: &[Done],
    place: usize,
    present: &mut impl FnMut(&[u8]) -> Result<Option<Vec<u8>>, Fault>,
) -> Result<Option<Option<Vec<u8>>>, Fault> {
    let mut key = key.to_vec();
    for done in &executed[place + 1..] {
        let Some(command) = done.command.as_ref().map(|it| it.lent()) else { continue };
        let answer = done.answer.lent();
        let found = |value: Option<&[u8]>| Ok(Some(value.map(<[u8]>::to_vec)));
        match (command, answer) {
            (_, Answer::Lost | Answer::Closed) => {}
            (
                Command::Get { key: it }
                | Command::Put { key: it, .. }
                | Command::Del { key: it }
                | Command::Cas { key: it, .. }
                | Command::Swap { first: it, .. },
                had,
            ) if it == key => return found(had.value()),
            // (what the second had is what the first has then)
            (Command::Swap { first, second }, _) if second == key => key = first.to_vec(),
            (Command::Tx(tx), Answer::Done(values) | Answer::Undone(values)) => {
                let is_done = matches!(answer, Answer::Done(_));
                let Some(item) = tx.items().find(|item| item.key == key) else { continue };
                let before =
                    tx.items().take_while(|item| item.key < key.as_slice()).filter(|item| item.is_told).count();
                match (item.is_told, item.required, item.written) {
                    (true, ..) => return found(values.get(before).flatten()),
                    (_, Some(required), _) if is_done => return found(required),
                    (_, _, Some(_)) if is_done => return Ok(None),
                    _ => {}
                }
            }
            _ => {}
        }
    }
    present(&key).map(Some)
}

#[cfg(test)]
mod tests {
    use super::*;
    use crate::OwnedCommand;
    use crate::parts::map::{Map, execute};

    /// A command by chance, over four keys.
    fn by_chance(random: &mut crate::parts::random::Random) -> OwnedCommand {
        let keys = [b"a", b"b", b"c", b"d"];
        let place = random.below(4) as usize;
        let (key, second) = (&keys[place][..], &keys[(place + 1 + random.below(3) as usize) % 4][..]);
        let values = [&b"1"[..], b"2", b"3"];
        let value = values[random.below(3) as usize];
        let some = |random: &mut crate::parts::random::Random| values.get(random.below(4) as usize).copied();
        match random.below(8) {
            0 => Command::Get { key }.to_owned(),
            1 => Command::Del { key }.to_owned(),
            2 => Command::Put { key, value }.to_owned(),
            3 => Command::Cas { key, expected: some(random), new: some(random) }.to_owned(),
            4 => Command::tx().put(key, value).build().unwrap(),
            5 => Command::tx().require(key, value).tell(second).del(second).put(key, b"3").build().unwrap(),
            _ => Command::Swap { first: key, second }.to_owned(),
        }
    }

    /// Whoever follows the changes has the map after each command; where something is lacking it is said.
    #[test]
    fn changes_lead_to_what_there_is() {
        let mut random = crate::parts::random::Random::from_seed(3);
        let (mut cut, mut swaps) = (0, 0);
        for round in 0..2_000 {
            let mut map = Map::new();
            map.insert(b"a".to_vec(), b"0".to_vec());
            let (mut copy, mut executed, mut after) = (map.clone(), Vec::new(), Vec::new());
            for number in 1..=random.below(12) as u16 {
                let command = by_chance(&mut random);
                swaps += u32::from(matches!(command, OwnedCommand::Swap { .. }));
                let answer = execute(&mut map, &command);
                let instance = Instance { replica: 0, number };
                executed.push(Done { generation: 1, instance, command: Some(command), answer });
                after.push(map.clone());
            }
            let (all, is_cut) = changes(&executed, |key| Ok(map.get(key).cloned())).unwrap();
            let last = all.last().map_or(0, |change| change.instance.number);
            for number in 1..=if is_cut { last } else { executed.len() as u16 } {
                for change in all.iter().filter(|it| it.instance.number == number) {
                    match &change.value {
                        Some(value) => _ = copy.insert(change.key.clone(), value.clone()),
                        None => _ = copy.remove(&change.key),
                    }
                }
                assert_eq!(copy, after[usize::from(number) - 1], "round {round}, command {number}: {executed:?}");
            }
            cut += u32::from(is_cut);
        }
        assert!(swaps > 1_000 && (1..200).contains(&cut), "{swaps} swaps, {cut} cut");
    }
}
