//! Who follows what a machine's host reports as written.
use crate::Fault;
use crate::host::KeyChange;
use std::collections::BTreeMap;

/// The map is compared after so many turns.
const COMPARED: u32 = 8;

/// A map, as a host lists it.
type Contents = Vec<(Vec<u8>, Vec<u8>)>;

/// A copy of a machine's map, kept by the changes that its host reports.
#[derive(Default)]
pub(super) struct Watched {
    /// None until the map was read, and again once changes are lacking.
    copy: Option<BTreeMap<Vec<u8>, Vec<u8>>>,
    turns: u32,
}

impl Watched {
    /// Follows the changes of a turn; `lacks` says that behind them some are lacking.
    pub(super) fn follow(&mut self, changes: Vec<KeyChange>, lacks: bool) {
        if let Some(copy) = &mut self.copy {
            for KeyChange { key, value, .. } in changes {
                match value {
                    Some(value) => _ = copy.insert(key, value),
                    None => _ = copy.remove(&key),
                }
            }
        }
        self.copy.take_if(|_| lacks);
    }

    /// Compares the copy with what the map has after a turn, now and then, where that can be read. The first key, in
    /// words, that differs.
    pub(super) fn compare(&mut self, map: impl FnOnce() -> Result<Contents, Fault>) -> Result<(), String> {
        self.turns += 1;
        if self.turns % COMPARED > 0 {
            return Ok(());
        }
        let Ok(map) = map() else { return Ok(()) };
        let map: BTreeMap<_, _> = map.into_iter().collect();
        let differs = self.copy.as_ref().and_then(|copy| {
            let keys = map.keys().chain(copy.keys());
            keys.filter(|key| map.get(*key) != copy.get(*key)).min().map(|key| key.escape_ascii().to_string())
        });
        self.copy = Some(map);
        differs.map_or(Ok(()), Err)
    }
}

#[cfg(test)]
mod tests {
    use super::*;
    use crate::Instance;

    fn change(key: &[u8], value: Option<&[u8]>) -> KeyChange {
        let instance = Instance { replica: 0, number: 1 };
        KeyChange { key: key.to_vec(), value: value.map(<[u8]>::to_vec), generation: 1, instance }
    }

    fn compare(it: &mut Watched, map: &[(&[u8], &[u8])]) -> Result<(), String> {
        let map: Contents = map.iter().map(|(key, value)| (key.to_vec(), value.to_vec())).collect();
        (0..COMPARED).try_for_each(|_| it.compare(|| Ok(map.clone())))
    }

    #[test]
    fn a_copy_is_the_map_while_nothing_is_lacking() {
        let mut it = Watched::default();
        assert_eq!(compare(&mut it, &[(b"x", b"1"), (b"y", b"1")]), Ok(()));
        it.follow(vec![change(b"x", Some(b"2")), change(b"y", None)], false);
        assert_eq!(compare(&mut it, &[(b"x", b"2")]), Ok(()));
        it.follow(Vec::new(), false);
        assert_eq!(compare(&mut it, &[(b"x", b"3")]), Err("x".into()));
        it.follow(Vec::new(), true);
        assert_eq!(compare(&mut it, &[(b"x", b"4"), (b"z", b"1")]), Ok(()));
        it.follow(vec![change(b"z", Some(b"1"))], false);
        assert_eq!(compare(&mut it, &[(b"x", b"4")]), Err("z".into()));
    }
}
