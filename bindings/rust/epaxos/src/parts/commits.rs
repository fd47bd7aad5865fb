//! What is committed in a generation: here, and as far as peers report.
use crate::{Fields, Instance, MOST_INSTANCES};
use std::collections::{BTreeMap, BTreeSet};
use std::time::{Duration, Instant};

/// A Commit that was sent so long ago, and hasn't come, is lost, whatever else the peer has seen.
const FLIGHT: Duration = Duration::from_secs(10);

/// Some numbers of one replica's instances: all from 1 to `through`, and some above.
#[derive(Clone, Default, PartialEq, Eq, Debug)]
struct Numbers {
    through: u16,
    above: BTreeSet<u16>,
}

impl Numbers {
    fn insert(&mut self, number: u16) {
        if number > self.through {
            self.above.insert(number);
        }
        while self.above.remove(&(self.through + 1)) {
            self.through += 1;
        }
    }

    fn has(&self, number: u16) -> bool {
        (1..=self.through).contains(&number) || self.above.contains(&number)
    }

    /// Those above this number, rising.
    fn iter_above(&self, number: u16) -> impl Iterator<Item = u16> {
        (number + 1..=self.through).chain(self.above.range(number + 1..).copied())
    }
}

/// A set of instances that are committed.
#[derive(Clone, PartialEq, Eq, Debug)]
pub struct Committed(Vec<Numbers>);

impl Committed {
    /// None, of so many replicas.
    pub fn new(replicas: usize) -> Committed {
        Committed(vec![Numbers::default(); replicas])
    }

    /// Of how many replicas it is.
    pub fn replicas(&self) -> usize {
        self.0.len()
    }

    pub fn insert(&mut self, instance: Instance) {
        if let Some(numbers) = self.0.get_mut(usize::from(instance.replica)) {
            numbers.insert(instance.number);
        }
    }

    pub fn has(&self, instance: Instance) -> bool {
        self.0.get(usize::from(instance.replica)).is_some_and(|numbers| numbers.has(instance.number))
    }

    /// Those that it has and the other one hasn't, in rising order.
    pub fn beyond(&self, other: &Committed) -> impl Iterator<Item = Instance> {
        (0..).zip(&self.0).flat_map(move |(replica, numbers)| {
            let all = numbers.iter_above(other.through(replica)).map(move |number| Instance { replica, number });
            all.filter(move |instance| !other.has(*instance))
        })
    }

    /// The number up to which it has all of a replica's instances.
    fn through(&self, replica: u8) -> u16 {
        self.0.get(usize::from(replica)).map_or(0, |numbers| numbers.through)
    }

    /// Appends its bytes: of each replica the number up to which it has all, how many others there are, and these.
    pub fn write(&self, out: &mut Vec<u8>) {
        out.push(self.0.len() as u8);
        for Numbers { through, above } in &self.0 {
            out.extend(through.to_be_bytes());
            out.extend((above.len() as u16).to_be_bytes());
            above.iter().for_each(|number| out.extend(number.to_be_bytes()));
        }
    }

    /// None where the bytes spell none, or name an instance that there can't be. A set has one spelling.
    pub fn read(fields: &mut Fields) -> Option<Committed> {
        let replicas = fields.u8()?;
        let of = |_| {
            let (through, count) = (fields.u16()?, fields.u16()?);
            let mut above = BTreeSet::new();
            // (the next one would belong to those before)
            let mut last = through.checked_add(1)?;
            for _ in 0..count {
                let number = fields.u16().filter(|number| *number > last)?;
                above.insert(number);
                last = number;
            }
            let greatest = above.last().map_or(through, |number| *number);
            (greatest <= MOST_INSTANCES).then_some(Numbers { through, above })
        };
        (0..replicas).map(of).collect::<Option<_>>().map(Committed)
    }
}

/// What this replica knows of the generation's commits.
pub struct Commits {
    /// The instances that are committed here.
    pub here: Committed,
    /// Those whose Commits its node has sent: in which entry, and when. None: before this start.
    sent: BTreeMap<Instance, (u32, Option<Instant>)>,
    /// Of each replica the Commits that it was sent again last, and when.
    again: Vec<Option<(Instant, BTreeSet<Instance>)>>,
    /// When the connection to each one was opened last: what was sent before isn't on its way any more.
    opened: Vec<Option<Instant>>,
}

/// Commits that a peer is to get once more.
#[derive(PartialEq, Eq, Debug)]
pub struct Lacking {
    /// The first entry that sent one of them.
    pub entry: u32,
    pub instances: BTreeSet<Instance>,
}

impl Commits {
    /// None, of so many replicas.
    pub fn new(replicas: usize) -> Commits {
        let (again, opened) = (vec![None; replicas], vec![None; replicas]);
        Commits { here: Committed::new(replicas), sent: BTreeMap::new(), again, opened }
    }

    /// A connection to a peer was opened.
    pub fn open(&mut self, peer: u8, now: Instant) {
        if let Some(opened) = self.opened.get_mut(usize::from(peer)) {
            *opened = Some(now);
            self.again[usize::from(peer)] = None;
        }
    }

    /// An entry of this replica's node sends a Commit of an instance, now or before this start.
    pub fn send(&mut self, instance: Instance, entry: u32, when: Option<Instant>) {
        self.here.insert(instance);
        self.sent.entry(instance).or_insert((entry, when));
    }

    /// A peer has reported what is committed there, and the greatest entry of this replica that it has seen: what this
    /// replica has sent, and what should have come by now. Frames of one connection come in the order of their entries,
    /// however long they take. None where that is nothing, or where what was sent again is on its way.
    pub fn lacking(&self, peer: u8, there: &Committed, seen: u32, now: Instant) -> Option<Lacking> {
        let (again, opened) = (self.again.get(usize::from(peer))?, *self.opened.get(usize::from(peer))?);
        let is_coming = |(when, instances): &(Instant, BTreeSet<Instance>)| {
            now < *when + FLIGHT && !instances.iter().all(|instance| there.has(*instance))
        };
        if again.as_ref().is_some_and(is_coming) {
            return None;
        }
        let is_past = |entry: u32, when: Option<Instant>| {
            let is_old = |when: Instant| now >= when + FLIGHT || opened.is_some_and(|opened| when < opened);
            entry < seen || when.is_none_or(is_old)
        };
        let above = |replica| {
            let of = |number| Instance { replica, number };
            self.sent.range(of(there.through(replica))..=of(u16::MAX))
        };
        let all = (0..there.replicas() as u8).flat_map(above);
        let all = all.filter(|(instance, (entry, when))| is_past(*entry, *when) && !there.has(**instance));
        let entry = all.clone().map(|(_, (entry, _))| *entry).min()?;
        Some(Lacking { entry, instances: all.map(|(instance, _)| *instance).collect() })
    }

    /// A peer was sent these once more.
    pub fn send_again(&mut self, peer: u8, instances: BTreeSet<Instance>, now: Instant) {
        if let Some(again) = self.again.get_mut(usize::from(peer)) {
            *again = Some((now, instances));
        }
    }
}

#[cfg(test)]
mod tests {
    use super::*;

    fn set(instances: &[(u8, u16)]) -> Committed {
        let mut set = Committed::new(3);
        instances.iter().for_each(|(replica, number)| set.insert(Instance { replica: *replica, number: *number }));
        set
    }

    #[test]
    fn sets() {
        let one = set(&[(0, 2), (0, 1), (0, 5), (2, 7), (0, 1), (3, 1)]);
        assert_eq!(one.0[0], Numbers { through: 2, above: [5].into() });
        let of = |replica, number| Instance { replica, number };
        assert!(one.has(of(0, 2)) && one.has(of(0, 5)) && !one.has(of(0, 3)) && !one.has(of(3, 1)));
        let other = set(&[(0, 1), (1, 1), (2, 7), (0, 5)]);
        assert_eq!(one.beyond(&other).collect::<Vec<_>>(), [of(0, 2)]);
        assert_eq!(other.beyond(&one).collect::<Vec<_>>(), [of(1, 1)]);
        let filled = set(&[(0, 5), (0, 4), (0, 3), (0, 2), (0, 1)]);
        assert_eq!(filled.0[0], Numbers { through: 5, above: BTreeSet::new() });
    }

    #[test]
    fn word_for_word() {
        let mut out = Vec::new();
        let one = set(&[(0, 1), (0, 2), (0, 300), (2, 1)]);
        one.write(&mut out);
        assert_eq!(out, [3, 0, 2, 0, 1, 1, 44, 0, 0, 0, 0, 0, 1, 0, 0]);
        assert_eq!(Committed::read(&mut Fields::new(&out)), Some(one));
        for cut in 0..out.len() {
            assert_eq!(Committed::read(&mut Fields::new(&out[..cut])), None);
        }
        // 9,000 is the greatest number.
        for (bytes, is_one) in [([1, 35, 40, 0, 0], true), ([1, 35, 41, 0, 0], false)] {
            assert_eq!(Committed::read(&mut Fields::new(&bytes)).is_some(), is_one);
        }
        for odd in [[1, 0, 0, 0, 1, 35, 41], [1, 0, 5, 0, 1, 0, 6], [1, 0, 5, 0, 1, 0, 2]] {
            assert_eq!(Committed::read(&mut Fields::new(&odd)), None);
        }
        assert_eq!(Committed::read(&mut Fields::new(&[1, 0, 5, 0, 2, 0, 8, 0, 8])), None);
    }

    #[test]
    fn what_a_peer_lacks() {
        let start = Instant::now();
        let of = |replica, number| Instance { replica, number };
        let mut commits = Commits::new(3);
        assert_eq!(commits.lacking(1, &set(&[]), 0, start), None);
        commits.send(of(0, 1), 12, None);
        commits.send(of(0, 2), 9, None);
        commits.send(of(1, 4), 15, Some(start));
        let lacking =
            |entry, instances: &[Instance]| Some(Lacking { entry, instances: instances.iter().copied().collect() });
        // What was sent and not seen is on its way, unless that was long ago.
        assert_eq!(commits.lacking(1, &set(&[(0, 2)]), 15, start), lacking(12, &[of(0, 1)]));
        let later = start + FLIGHT;
        assert_eq!(commits.lacking(2, &set(&[(0, 1), (0, 2)]), 15, later - Duration::from_millis(1)), None);
        assert_eq!(commits.lacking(2, &set(&[(0, 1), (0, 2)]), 16, start), lacking(15, &[of(1, 4)]));
        assert_eq!(commits.lacking(2, &set(&[(0, 1), (2, 9)]), 0, later), lacking(9, &[of(0, 2), of(1, 4)]));
        // What was sent again likewise; once it is there, there may be more.
        commits.send_again(1, [of(0, 1)].into(), start);
        assert_eq!(commits.lacking(1, &set(&[(0, 2)]), 16, later - Duration::from_millis(1)), None);
        assert_eq!(commits.lacking(1, &set(&[(0, 1), (0, 2)]), 16, start), lacking(15, &[of(1, 4)]));
        assert_eq!(commits.lacking(1, &set(&[(0, 2)]), 0, later), lacking(12, &[of(0, 1), of(1, 4)]));
        // What was sent on another connection isn't on its way.
        commits.send(of(2, 1), 20, Some(later));
        let all_but_it = set(&[(0, 1), (0, 2), (1, 4)]);
        assert_eq!(commits.lacking(2, &all_but_it, 20, later), None);
        commits.open(2, later + Duration::from_millis(1));
        assert_eq!(commits.lacking(2, &all_but_it, 20, later + Duration::from_millis(1)), lacking(20, &[of(2, 1)]));
        let all = commits.here.clone();
        assert_eq!(commits.lacking(2, &all, 30, later + FLIGHT), None);
        assert_eq!(commits.lacking(3, &set(&[]), 30, later), None);
    }
}
