//! A machine's disk.
use crate::host::{Act, Name, Stored, Writes};
use crate::parts::random::Random;
use std::collections::{BTreeMap, VecDeque};
use std::io;

/// What is on a disk, by generation and name.
pub(super) type Content = BTreeMap<(u32, Name), Vec<u8>>;

/// A disk: what is on it for good, and what it was given and hasn't done.
#[derive(Clone, Default)]
pub(super) struct Disk {
    content: Content,
    given: VecDeque<Writes>,
    /// What was dropped, where it is kept for an audit.
    dropped: Option<Content>,
    /// Where it lies: what is on it for good, and what it says is there too.
    lie: Option<(Content, Vec<Act>)>,
    /// Whether it has lost what it had said was there.
    has_lied: bool,
}

fn act(content: &mut Content, act: &Act) {
    match act {
        Act::Append { generation, bytes } => content.entry((*generation, Name::Log)).or_default().extend(&**bytes),
        Act::Put { generation, name, bytes } => _ = content.insert((*generation, *name), bytes.clone()),
        Act::Drop { below } => content.retain(|(generation, _), _| *generation == 0 || generation >= below),
    }
}

impl Disk {
    /// One that keeps what is dropped, if that is wanted.
    pub(super) fn new(keeps: bool) -> Disk {
        Disk { dropped: keeps.then(Content::new), ..Disk::default() }
    }

    pub(super) fn content(&self) -> &Content {
        &self.content
    }

    /// What is on it, and what was dropped and kept.
    pub(super) fn whole(&self) -> Content {
        let mut all = self.dropped.clone().unwrap_or_default();
        all.extend(self.content.iter().map(|(file, bytes)| (*file, bytes.clone())));
        all
    }

    pub(super) fn replace(&mut self, content: Content) {
        (self.content, self.given) = (content, VecDeque::new());
        (self.lie, self.has_lied) = (None, false);
    }

    /// From now on it says that all is on it, and keeps nothing.
    pub(super) fn begin_lie(&mut self) {
        self.lie.get_or_insert_with(|| (self.content.clone(), Vec::new()));
    }

    pub(super) fn is_lying(&self) -> bool {
        self.lie.is_some()
    }

    /// What it would have, if its machine lost its power.
    pub(super) fn least(&self) -> &Content {
        self.lie.as_ref().map_or(&self.content, |(content, _)| content)
    }

    /// Whether it has lost what it had said was there, which is noticed once.
    pub(super) fn take_lied(&mut self) -> bool {
        std::mem::take(&mut self.has_lied)
    }

    fn act(&mut self, it: &Act) {
        if let (Act::Drop { below }, Some(dropped)) = (it, &mut self.dropped) {
            let is_dropped = |(generation, _): &(u32, Name)| *generation > 0 && generation < below;
            let files = self.content.iter().filter(|(file, _)| is_dropped(file));
            dropped.extend(files.map(|(file, bytes)| (*file, bytes.clone())));
        }
        if let Some((_, said)) = &mut self.lie {
            said.push(it.clone());
        }
        act(&mut self.content, it);
    }

    /// It is given acts, behind those that it has.
    pub(super) fn give(&mut self, writes: Writes) {
        self.given.push_back(writes);
    }

    /// Whether a generation begins with what it was given last.
    pub(super) fn begins(&self) -> bool {
        let is_it = |act: &Act| matches!(act, Act::Put { name: Name::Reference | Name::Opening, .. });
        self.given.back().is_some_and(|writes| writes.acts.iter().any(is_it))
    }

    /// It has done those that it was given first: their number.
    pub(super) fn sync(&mut self) -> Option<u64> {
        let Writes { number, acts } = self.given.pop_front()?;
        acts.iter().for_each(|it| self.act(it));
        Some(number)
    }

    /// A file was written beside.
    pub(super) fn put(&mut self, (generation, name): (u32, Name), bytes: Vec<u8>) {
        self.act(&Act::Put { generation, name, bytes });
    }

    /// The machine stops: of what wasn't synced some acts are done, in their order, and the last one in part. `done`:
    /// just so many. One that lies has none of it, and of what it said was there some.
    pub(super) fn crash(&mut self, random: &mut Random, done: Option<usize>) {
        let mut all: Vec<Act> = self.given.drain(..).flat_map(|writes| writes.acts).collect();
        let mut done = done;
        let lie = self.lie.take();
        let is_lying = lie.is_some();
        if let Some((content, said)) = lie {
            (self.content, all, done) = (content, said, None);
        }
        let count = done.unwrap_or_else(|| random.below(all.len() as u64 + 1) as usize).min(all.len());
        self.has_lied |= is_lying && count < all.len();
        all[..count].iter().for_each(|it| self.act(it));
        if let Some(Act::Append { generation, bytes }) = all.get(count) {
            let part = random.below(bytes.len() as u64 + 1) as usize;
            self.act(&Act::Append { generation: *generation, bytes: bytes[..part].to_vec().into() });
        }
    }
}

impl Stored for Disk {
    fn generations(&self) -> io::Result<Vec<u32>> {
        let mut all: Vec<u32> = self.content.keys().map(|(generation, _)| *generation).filter(|it| *it > 0).collect();
        all.dedup();
        Ok(all)
    }

    fn read(&self, generation: u32, name: Name) -> io::Result<Option<Vec<u8>>> {
        Ok(self.content.get(&(generation, name)).cloned())
    }
}

#[cfg(test)]
mod tests {
    use super::*;

    #[test]
    fn what_was_not_synced_is_lost_from_some_act_on() {
        let writes = |number, byte| {
            let put = Act::Put { generation: 1, name: Name::Left, bytes: vec![byte] };
            Writes { number, acts: vec![Act::Append { generation: 1, bytes: vec![byte; 9].into() }, put] }
        };
        let mut found = std::collections::BTreeSet::new();
        for seed in 0..200 {
            let mut disk = Disk::default();
            (1..3).for_each(|number| disk.give(writes(number, number as u8)));
            assert_eq!(disk.sync(), Some(1));
            disk.crash(&mut Random::from_seed(seed * 7_919), None);
            let log = disk.read(1, Name::Log).unwrap().unwrap();
            let left = disk.read(1, Name::Left).unwrap().unwrap();
            assert!(log.starts_with(&[1; 9]) && log[9..].iter().all(|byte| *byte == 2));
            found.insert((log.len(), left));
        }
        // (the second append whole or in part, and the put only behind all of it)
        assert!(found.contains(&(18, vec![2])) && found.contains(&(9, vec![1])) && found.len() > 8);
        assert!(found.iter().all(|(length, left)| *length == 18 || *left == [1]));
    }

    #[test]
    fn a_disk_that_lies_loses_what_it_said_was_there() {
        let append =
            |number, byte| Writes { number, acts: vec![Act::Append { generation: 1, bytes: vec![byte; 9].into() }] };
        let log = |disk: &Disk| disk.read(1, Name::Log).unwrap().unwrap();
        let mut lengths = std::collections::BTreeSet::new();
        for seed in 0..100 {
            let mut disk = Disk::default();
            disk.give(append(1, 1));
            assert_eq!(disk.sync(), Some(1));
            disk.begin_lie();
            disk.give(append(2, 2));
            assert_eq!((disk.sync(), log(&disk).len(), disk.least()[&(1, Name::Log)].len()), (Some(2), 18, 9));
            disk.put((1, Name::Left), vec![3]);
            disk.crash(&mut Random::from_seed(seed * 7_919), None);
            assert!(log(&disk).starts_with(&[1; 9]) && !disk.is_lying());
            let has_left = disk.read(1, Name::Left).unwrap().is_some();
            assert_eq!((disk.take_lied(), disk.take_lied()), (!has_left, false));
            assert!(!has_left || log(&disk).len() == 18);
            lengths.insert((log(&disk).len(), has_left));
        }
        assert!([(9, false), (18, false), (18, true)].iter().all(|it| lengths.contains(it)));
    }

    #[test]
    fn what_is_dropped_is_kept_where_that_is_wanted() {
        for keeps in [false, true] {
            let mut disk = Disk::new(keeps);
            let append = |generation| Act::Append { generation, bytes: vec![7].into() };
            disk.give(Writes { number: 1, acts: vec![append(1), append(2), Act::Drop { below: 2 }] });
            disk.sync();
            assert_eq!(disk.generations().unwrap(), [2]);
            assert_eq!(disk.whole().len(), 1 + usize::from(keeps));
        }
    }
}
