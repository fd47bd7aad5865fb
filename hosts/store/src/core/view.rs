//! What a transaction's keys have while its steps are done, and what has to be known of them for that.
use crate::core::stored::Stored;
use std::collections::BTreeMap;

/// What keys have, in the bytes that replicas agree on.
pub type Values = BTreeMap<Vec<u8>, Option<Vec<u8>>>;

/// The keys that steps have looked at, or set.
pub struct View<'a> {
    /// What keys are taken to have at first.
    values: &'a Values,
    /// The time by which deadlines are judged.
    now: u64,
    /// Whether all that is to be known is among the values.
    is_whole: bool,
    pub keys: BTreeMap<Vec<u8>, Seen>,
}

/// What there is of a key.
#[derive(Default)]
pub struct Seen {
    /// What it has now. None: nobody knows.
    pub current: Option<Option<Stored>>,
    /// A reply depends on what it had.
    pub is_reported: bool,
    /// What is written depends on what it had: so it has to have that.
    pub is_known: bool,
    pub is_set: bool,
}

impl View<'_> {
    /// Steps are looked at before they are done: what they want to know of keys is noted.
    pub fn before(values: &Values, now: u64) -> View<'_> {
        View { values, now, is_whole: false, keys: BTreeMap::new() }
    }

    /// They were done, and the keys had these values.
    pub fn after(values: &Values, now: u64) -> View<'_> {
        View { values, now, is_whole: true, keys: BTreeMap::new() }
    }

    pub fn now(&self) -> u64 {
        self.now
    }

    fn read(&self, key: &[u8]) -> Option<Option<Stored>> {
        let value = self.values.get(key)?;
        let stored = value.clone().map(Stored::read);
        Some(stored.filter(|stored| !stored.is_over(self.now)))
    }

    fn seen(&mut self, key: &[u8]) -> &mut Seen {
        self.keys.entry(key.to_vec()).or_default()
    }

    /// What the key has, on which a reply depends and nothing else.
    pub fn look(&mut self, key: &[u8]) -> Option<Stored> {
        let value = if self.is_whole { self.read(key) } else { None };
        let seen = self.seen(key);
        if seen.current.is_none() {
            (seen.current, seen.is_reported) = (value, true);
        }
        seen.current.clone().flatten()
    }

    /// What the key has, on which it depends what is written. Nothing where that has to be read first.
    pub fn know(&mut self, key: &[u8]) -> Option<Stored> {
        let value = self.read(key);
        let seen = self.seen(key);
        if seen.current.is_none() {
            (seen.current, seen.is_known) = (value, true);
        }
        seen.current.clone().flatten()
    }

    /// The key has this from now on.
    pub fn set(&mut self, key: &[u8], stored: Option<Stored>) {
        let stored = stored.filter(|stored| !stored.is_over(self.now));
        let seen = self.seen(key);
        (seen.current, seen.is_set) = (Some(stored), true);
    }
}
