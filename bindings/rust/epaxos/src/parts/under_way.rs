//! The commands that this replica has proposed for clients who wait.
use crate::parts::together::Whole;
use crate::{Instance, OwnedCommand};
use std::collections::BTreeMap;

/// So many bytes of keys and values are under way at most: a quarter of what may wait for one peer. One command of any
/// size may be.
const MOST_BYTES: usize = 2 << 20;

/// A command that is under way.
pub struct Waiting<M> {
    pub instance: Instance,
    /// Whose command it is, in the order in which its answer has their keys.
    pub members: Vec<M>,
    pub command: OwnedCommand,
    /// How many bytes its keys and its values have.
    bytes: usize,
}

impl<M> Waiting<M> {
    /// It was proposed, and took this instance.
    pub fn new(instance: Instance, Whole { members, command }: Whole<M>) -> Waiting<M> {
        Waiting { instance, members, bytes: length(&command), command }
    }
}

/// How many bytes the keys and values of a command have.
pub fn length(command: &OwnedCommand) -> usize {
    let of = |value: &Option<Vec<u8>>| value.as_ref().map_or(0, Vec::len);
    match command {
        OwnedCommand::Get { key } | OwnedCommand::Del { key } => key.len(),
        OwnedCommand::Put { key, value } => key.len() + value.len(),
        OwnedCommand::Swap { first, second } => first.len() + second.len(),
        OwnedCommand::Cas { key, expected, new } => key.len() + of(expected) + of(new),
        OwnedCommand::Opaque { first, second, body, .. } => first.len() + of(second) + body.len(),
        OwnedCommand::Seal { value } => value.len(),
        OwnedCommand::Tx(tx) => tx.lent().body().len(),
    }
}

/// By client and request.
pub struct UnderWay<M> {
    all: BTreeMap<(u32, u32), Waiting<M>>,
    bytes: usize,
}

impl<M> Default for UnderWay<M> {
    fn default() -> UnderWay<M> {
        UnderWay { all: BTreeMap::new(), bytes: 0 }
    }
}

impl<M> UnderWay<M> {
    /// Whether there is room for another one, behind some of so many bytes that are about to be proposed.
    pub fn has_room(&self, bytes: usize) -> bool {
        self.bytes + bytes < MOST_BYTES
    }

    pub fn insert(&mut self, call: (u32, u32), waiting: Waiting<M>) {
        self.bytes += waiting.bytes;
        if let Some(before) = self.all.insert(call, waiting) {
            self.bytes -= before.bytes;
        }
    }

    pub fn remove(&mut self, call: (u32, u32)) -> Option<Waiting<M>> {
        let waiting = self.all.remove(&call)?;
        self.bytes -= waiting.bytes;
        Some(waiting)
    }

    /// All of them; then there are none.
    pub fn take(&mut self) -> impl Iterator<Item = Waiting<M>> + use<M> {
        std::mem::take(self).all.into_values()
    }

    /// Whose commands they are.
    pub fn members_mut(&mut self) -> impl Iterator<Item = &mut M> {
        self.all.values_mut().flat_map(|waiting| &mut waiting.members)
    }

    pub fn count(&self) -> usize {
        self.all.len()
    }

    pub fn is_empty(&self) -> bool {
        self.all.is_empty()
    }
}

#[cfg(test)]
mod tests {
    use super::*;

    /// A command of so many bytes.
    fn of(bytes: usize) -> Waiting<()> {
        let command = OwnedCommand::Put { key: vec![1], value: vec![2; bytes - 1] };
        Waiting::new(Instance { replica: 0, number: 1 }, Whole { members: vec![()], command })
    }

    #[test]
    fn bytes_are_bounded() {
        let mut it = UnderWay::default();
        assert!(it.has_room((2 << 20) - 1) && !it.has_room(2 << 20));
        (0..34).for_each(|number| it.insert((1, number), of(60_000)));
        assert!(it.has_room(0) && !it.has_room(60_000));
        it.insert((1, 34), of(60_000));
        assert!(!it.has_room(0));
        // (a request that is there already is no further one)
        it.insert((1, 34), of(1));
        assert!(it.has_room(0) && it.count() == 35);
        assert!(it.remove((1, 0)).is_some() && it.remove((1, 0)).is_none());
        assert_eq!((it.take().count(), it.is_empty(), it.bytes), (34, true, 0));
    }
}
