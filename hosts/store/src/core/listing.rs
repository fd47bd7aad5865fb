//! The keys that there are at this replica, after all that it knows to be committed.
use crate::client::command_fault::CommandFault;
use crate::client::commands::List;
use crate::client::glob::fits;
use crate::client::resp::Reply;
use crate::core::ask::{Ask, What};
use crate::core::event::Event;
use crate::core::outcome::Outcome;
use crate::core::outcome::Pairs;
use crate::core::reply_sender::ReplySender;
use crate::core::stored::{Stored, now};
use std::sync::mpsc::{SyncSender, channel};
use std::sync::{Arc, Mutex, PoisonError};
use std::time::{Duration, Instant};

/// A SCAN goes on in a list that isn't older than this.
const FRESH: Duration = Duration::from_secs(10);
/// So many keys that a list hides are removed by it.
const MOST_HIDDEN: usize = 1_000;
/// Cursors have so many bits, so that any client's integers can hold them.
const CURSOR_BITS: u32 = 48;

/// Lists keys, one list at a time.
pub struct Listing {
    /// To the driver.
    events: SyncSender<Event>,
    patience: Duration,
    last: Mutex<Option<(Instant, Arc<Vec<Listed>>)>>,
}

/// A key with what it has.
struct Listed {
    /// Its place in a scan, from 1: the same at all replicas and at all times.
    place: u64,
    key: Vec<u8>,
    stored: Stored,
}

impl Listing {
    /// By the driver, which has so long to answer.
    pub fn new(events: SyncSender<Event>, patience: Duration) -> Listing {
        Listing { events, patience, last: Mutex::new(None) }
    }

    /// The reply, and the keys that it hides, as they are past their deadlines: at most so many as are removed at once.
    pub fn answer(&self, list: &List) -> Result<(Reply, Vec<Vec<u8>>), CommandFault> {
        let mut last = self.last.lock().unwrap_or_else(PoisonError::into_inner);
        let goes_on = matches!(list, List::Scan { cursor: 1.., .. });
        let kept = last.take().filter(|(start, _)| goes_on && start.elapsed() < FRESH);
        let kept = match kept {
            Some(kept) => kept,
            None => (Instant::now(), Arc::new(self.list()?)),
        };
        let listed = kept.1.clone();
        // (a list is kept while a scan goes on)
        *last = Some(kept).filter(|_| matches!(list, List::Scan { .. }));
        drop(last);
        Ok((answer(list, &listed), hidden(list, &listed)))
    }

    /// The keys that are past their deadlines now.
    pub fn over(&self) -> Result<Vec<Vec<u8>>, CommandFault> {
        match self.ask(What::Over(now()))? {
            Outcome::Over(keys) => Ok(keys),
            outcome => Err(CommandFault::of(outcome)),
        }
    }

    fn list(&self) -> Result<Vec<Listed>, CommandFault> {
        match self.ask(What::Contents)? {
            Outcome::Contents(pairs) => Ok(by_places(pairs)),
            outcome => Err(CommandFault::of(outcome)),
        }
    }

    fn ask(&self, what: What) -> Result<Outcome, CommandFault> {
        let (sender, receiver) = channel();
        let reply = ReplySender::new(move |outcome| _ = sender.send(outcome));
        // (where the driver has ended, the sender reports it)
        let _ = self.events.send(Event::Ask(Ask { what, reply }));
        receiver.recv_timeout(self.patience).map_err(|_| CommandFault::NotInTime)
    }
}

/// Keys with what they have, by their places.
fn by_places(pairs: Pairs) -> Vec<Listed> {
    let listed = |(key, value): (Vec<u8>, Vec<u8>)| Listed { place: place(&key), key, stored: Stored::read(value) };
    let mut listed: Vec<_> = pairs.into_iter().map(listed).collect();
    listed.sort_by(|first, second| (first.place, &first.key).cmp(&(second.place, &second.key)));
    listed
}

/// The key's place in a scan, by the hash of Fowler, Noll and Vo (FNV-1a).
fn place(key: &[u8]) -> u64 {
    let hash = key
        .iter()
        .fold(0xcbf2_9ce4_8422_2325, |hash: u64, byte| (hash ^ u64::from(*byte)).wrapping_mul(0x0000_0100_0000_01b3));
    (hash >> (64 - CURSOR_BITS)).max(1)
}

/// From where to where a scan goes on.
fn window(cursor: u64, count: usize, listed: &[Listed]) -> (usize, usize) {
    let start = listed.partition_point(|it| it.place < cursor);
    let mut end = start.saturating_add(count).min(listed.len());
    // (keys of one place come together)
    while end > 0 && end < listed.len() && listed[end].place == listed[end - 1].place {
        end += 1;
    }
    (start, end)
}

/// What a list has passed over, as it is past its deadline.
fn hidden(list: &List, listed: &[Listed]) -> Vec<Vec<u8>> {
    let (start, end) = match list {
        List::Scan { cursor, count, .. } => window(*cursor, *count, listed),
        List::Size | List::Keys(_) => (0, listed.len()),
    };
    let now = now();
    let over = listed[start..end].iter().filter(|it| it.stored.is_over(now));
    over.take(MOST_HIDDEN).map(|it| it.key.clone()).collect()
}

fn answer(list: &List, listed: &[Listed]) -> Reply {
    let now = now();
    let there = |listed: &&Listed| !listed.stored.is_over(now);
    let bulk = |listed: &Listed| Reply::Bulk(listed.key.clone());
    match list {
        List::Size => Reply::Integer(listed.iter().filter(there).count() as i64),
        List::Keys(pattern) => {
            Reply::Array(listed.iter().filter(there).filter(|it| fits(pattern, &it.key)).map(bulk).collect())
        }
        List::Scan { cursor, pattern, count, kind } => {
            let (start, end) = window(*cursor, *count, listed);
            let next = listed.get(end).map_or(0, |it| it.place);
            let is_asked = |it: &&Listed| {
                pattern.as_ref().is_none_or(|pattern| fits(pattern, &it.key))
                    && kind.as_ref().is_none_or(|kind| it.stored.kind().as_bytes() == kind)
            };
            let keys = listed[start..end].iter().filter(there).filter(is_asked).map(bulk).collect();
            Reply::Array(vec![Reply::text(&next.to_string()), Reply::Array(keys)])
        }
    }
}

#[cfg(test)]
mod tests {
    use super::*;
    use std::collections::BTreeSet;

    fn listed(keys: impl IntoIterator<Item = String>) -> Vec<Listed> {
        by_places(keys.into_iter().map(|key| (key.into_bytes(), b"1".to_vec())).collect())
    }

    #[test]
    fn a_scan_lists_each_key_that_stays_once() {
        let name = |number: usize| format!("key-{number}");
        let mut found = Vec::new();
        let (mut cursor, mut round) = (0, 0);
        loop {
            // Meanwhile other keys come and go.
            let there = listed((0..100).map(name).chain((0..round).map(|number| format!("other-{number}"))));
            let list =
                List::Scan { cursor, pattern: Some(b"key-*".to_vec()), count: 7, kind: Some(b"string".to_vec()) };
            let Reply::Array(parts) = answer(&list, &there) else { panic!() };
            let [Reply::Bulk(next), Reply::Array(keys)] = &parts[..] else { panic!() };
            found.extend(keys.iter().map(|key| if let Reply::Bulk(key) = key { key.clone() } else { panic!() }));
            cursor = String::from_utf8(next.clone()).unwrap().parse().unwrap();
            round += 1;
            if cursor == 0 {
                break;
            }
        }
        assert!(round > 10);
        assert_eq!(found.len(), 100);
        assert_eq!(found.into_iter().collect::<BTreeSet<_>>(), (0..100).map(|it| name(it).into_bytes()).collect());
    }

    #[test]
    fn what_is_past_its_deadline_is_not_listed() {
        let over = b"\xff\x01\0\0\0\0\0\0\0\x01x".to_vec();
        let lock = [&b"\xff\x02\0\0\0\0\0\0\0\x01"[..], &[0; 8]].concat();
        let there = by_places(vec![(b"a".to_vec(), over), (b"lock".to_vec(), lock)]);
        assert_eq!(answer(&List::Size, &there), Reply::Integer(1));
        assert_eq!(answer(&List::Keys(b"*".to_vec()), &there), Reply::Array(vec![Reply::text("lock")]));
        let list =
            |kind: &str| List::Scan { cursor: 0, pattern: None, count: 10, kind: Some(kind.as_bytes().to_vec()) };
        let scanned = |keys| Reply::Array(vec![Reply::text("0"), Reply::Array(keys)]);
        assert_eq!(answer(&list("lock"), &there), scanned(vec![Reply::text("lock")]));
        assert_eq!(answer(&list("string"), &there), scanned(vec![]));
        // What is hidden is handed to whoever removes it.
        assert_eq!(hidden(&List::Keys(b"lock".to_vec()), &there), [b"a".to_vec()]);
        assert_eq!(hidden(&list("lock"), &there), [b"a".to_vec()]);
        let from = |cursor| List::Scan { cursor, pattern: None, count: 1, kind: None };
        let scanned = [hidden(&from(0), &there), hidden(&from(there[1].place), &there)].concat();
        assert_eq!(scanned, [b"a".to_vec()]);
    }
}
