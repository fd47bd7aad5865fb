//! What commands of the protocol do to a map, by the table of docs/PROTOCOL.md: tests compare with it.
use crate::{Command, Item, OwnedAnswer, OwnedCommand, OwnedValues, Tx};
use std::collections::BTreeMap;

/// Keys with what they have.
pub type Map = BTreeMap<Vec<u8>, Vec<u8>>;

fn put(map: &mut Map, key: &[u8], value: Option<&[u8]>) -> Option<Vec<u8>> {
    match value {
        Some(value) => map.insert(key.to_vec(), value.to_vec()),
        None => map.remove(key),
    }
}

/// Does a command: its answer.
pub fn execute(map: &mut Map, command: &OwnedCommand) -> OwnedAnswer {
    let had = match command.lent() {
        Command::Get { key } => map.get(key).cloned(),
        Command::Put { key, value } => put(map, key, Some(value)),
        Command::Del { key } => put(map, key, None),
        Command::Cas { key, expected, new } => {
            let had = map.get(key).cloned();
            if had.as_deref() == expected {
                put(map, key, new);
            }
            had
        }
        Command::Swap { first, second } => {
            let (one, other) = (map.get(first).cloned(), map.get(second).cloned());
            put(map, first, other.as_deref());
            put(map, second, one.as_deref());
            one
        }
        Command::Tx(tx) => return execute_many(map, &tx),
        _ => return OwnedAnswer::Ordered,
    };
    had.map_or(OwnedAnswer::Absent, OwnedAnswer::Present)
}

/// Does a command of many keys: all that it writes if each key has what is required, else nothing.
fn execute_many(map: &mut Map, tx: &Tx) -> OwnedAnswer {
    let reported = tx.items().filter(|item| item.is_told).map(|item| map.get(item.key).cloned());
    let reported = OwnedValues::new(reported.collect::<Vec<_>>()).unwrap_or_default();
    let holds = |it: Item| it.required.is_none_or(|value| map.get(it.key).map(Vec::as_slice) == value);
    if !tx.items().all(holds) {
        return OwnedAnswer::Undone(reported);
    }
    for item in tx.items() {
        item.written.map(|value| put(map, item.key, value));
    }
    OwnedAnswer::Done(reported)
}
