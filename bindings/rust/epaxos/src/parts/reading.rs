//! How reads go that write nothing: the closest others are asked what interferes, and it is looked into the core's map
//! once all of that is executed. What waits meanwhile is in [`Reads`].
use crate::parts::messages::{Message, Question};
use crate::parts::progress::Progress;
use crate::parts::queries::Queries;
use crate::parts::reads::{Again, Found, MOST_KEYS, Reads, Waits};
use crate::{Instance, MOST_INSTANCES, OwnedReading};
use std::collections::BTreeMap;
use std::time::{Duration, Instant};

/// What interferes is reported in messages of so many instances, or of one key's where that has more.
const MOST_REPORTED: usize = 20_000;

/// A fault that is planted in reads, so that a trial can be seen to find it. Never for use.
#[derive(Clone, Copy, PartialEq, Eq, Debug)]
pub enum Plant {
    /// One replica fewer is asked than has to be.
    Fewer,
    /// What the key has here is answered.
    Local,
    /// What the key had when the question was sent is answered.
    Before,
    /// A question serves reads that were asked later.
    Later,
    /// The last instance that was found isn't waited for.
    Partly,
    /// What interferes is reported of another generation.
    Foreign,
}

/// What planted reads go by.
#[derive(Default)]
struct Planted {
    /// What keys had when the question was sent.
    before: BTreeMap<Vec<u8>, OwnedReading>,
    /// What was found last of each key.
    found: BTreeMap<Vec<u8>, Vec<Instance>>,
}

/// A key's value, and who gets it.
pub type Answered<T> = (Vec<T>, Option<Vec<u8>>);

/// The reads of a replica, each with whom to answer.
pub struct Reading<T> {
    reads: Reads<T>,
    /// A number by which this start's questions are distinguished from those of others.
    start: u32,
    plant: Option<Plant>,
    planted: Planted,
    /// How many questions were asked, and how many were asked again.
    pub questions: u64,
    pub questions_again: u64,
}

impl<T> Reading<T> {
    /// None, at one of so many replicas.
    pub fn new(replicas: usize, start: u32, plant: Option<Plant>) -> Reading<T> {
        let reads = Reads::new(replicas);
        let reads = if plant == Some(Plant::Fewer) { reads.with_fewer() } else { reads };
        Reading { reads, start, plant, planted: Planted::default(), questions: 0, questions_again: 0 }
    }

    /// From now on there are so many replicas.
    pub fn resize(&mut self, replicas: usize) {
        self.reads.resize(replicas);
    }

    /// Another generation begins: all is asked anew in it.
    pub fn begin(&mut self) {
        self.reads.begin_anew();
        self.planted = Planted::default();
    }

    pub fn is_empty(&self) -> bool {
        self.reads.is_empty()
    }

    /// How many keys' reads wait.
    pub fn count(&self) -> usize {
        self.reads.count()
    }

    /// When a question is to be asked again.
    pub fn due(&self) -> Option<Instant> {
        self.reads.due()
    }

    /// All who read; then there are none.
    pub fn take(&mut self) -> Vec<T> {
        self.reads.take()
    }

    /// Lets go of those whose clients have given up.
    pub fn drop_where(&mut self, is_given_up: impl Fn(&T) -> bool) {
        self.reads.drop_where(is_given_up);
    }

    /// A client reads a key.
    pub fn ask(&mut self, key: Vec<u8>, reader: T) {
        match self.planted.found.get(&key).filter(|_| self.plant == Some(Plant::Later)).cloned() {
            Some(found) => self.reads.put_back(Found::of(key, vec![reader], found)),
            None => self.reads.ask(key, reader),
        }
    }

    /// What is reported to a peer that interferes here with reads of these keys, all of it on the disk. Of another
    /// generation nothing is reported: in a later one the reads are asked anew, and an earlier one may not know what
    /// has been done since.
    ///
    /// # Errors
    ///
    /// What befell the core, as of each question.
    pub fn report<Q: Queries>(
        &self,
        progress: &mut Progress,
        core: &mut Q,
        (generation, question): (u32, Question),
        keys: &[Vec<u8>],
    ) -> Result<Vec<Vec<u8>>, Q::Fault> {
        let mut messages = Vec::new();
        if generation != progress.generation.number && self.plant != Some(Plant::Foreign) {
            return Ok(messages);
        }
        if keys.len() > MOST_KEYS {
            progress.counts.refused += 1;
            return Ok(messages);
        }
        let keys: Vec<&[u8]> = keys.iter().map(Vec::as_slice).collect();
        let mut lists = core.interfering(&keys)?.into_iter().peekable();
        let mut first = 0;
        while lists.peek().is_some() {
            let (mut some, mut count) = (Vec::new(), 0);
            while let Some(list) = lists.next_if(|list| some.is_empty() || count + list.len() <= MOST_REPORTED) {
                count += list.len();
                some.push(list);
            }
            let next = first + some.len() as u16;
            messages.push(Message::Find { generation, question, first, lists: some }.write());
            first = next;
        }
        Ok(messages)
    }

    /// A peer has reported what interferes there.
    pub fn hear(
        &mut self,
        progress: &mut Progress,
        from: u8,
        (generation, question): (u32, Question),
        (first, lists): (u16, &[Vec<Instance>]),
    ) {
        let is_one = |instance: &Instance| {
            usize::from(instance.replica) < progress.place.replicas && (1..=MOST_INSTANCES).contains(&instance.number)
        };
        let is_rising = |list: &Vec<Instance>| list.is_sorted_by(|one, next| one < next) && list.iter().all(is_one);
        if !lists.iter().all(is_rising) {
            progress.counts.refused += 1;
        } else if generation == progress.generation.number && question.start == self.start {
            self.reads.hear(from, question.number, first.into(), lists);
        }
    }

    /// What is to be asked of peers now: what interferes with the reads that came, and again where that is due.
    pub fn questions<Q: Queries>(
        &mut self,
        progress: &Progress,
        core: &mut Q,
        now: Instant,
    ) -> Result<Vec<(u8, Vec<u8>)>, Q::Fault> {
        let mut asked = Vec::new();
        // (in a generation that ends they would only be answered that it has)
        while self.reads.has_next() && !progress.generation.is_holding() && !progress.is_alone() {
            let keys = self.reads.next();
            let own = core.interfering(&keys)?;
            if self.plant == Some(Plant::Before) {
                let reads: Vec<(&[u8], &[Instance])> = keys.iter().map(|key| (*key, &[][..])).collect();
                let values = core.read(&reads)?;
                self.planted.before.extend(keys.iter().map(|key| key.to_vec()).zip(values));
            }
            let keys: Vec<Vec<u8>> = keys.into_iter().map(<[u8]>::to_vec).collect();
            let closest = self.closest(progress, now);
            let takes = closest.iter().map(|(takes, _)| *takes).max().unwrap_or_default();
            let to: Vec<u8> = closest.into_iter().map(|(_, peer)| peer).collect();
            let number = self.reads.send(own, &to, takes, now);
            self.questions += 1;
            self.reads.settle();
            asked.extend(self.asking(progress, number, keys, to));
        }
        let there = if self.reads.questions() > 0 { progress.reached().collect() } else { Vec::new() };
        for Again { number, keys, to } in self.reads.late(&there, now) {
            self.questions_again += 1;
            asked.extend(self.asking(progress, number, keys, to));
        }
        Ok(asked)
    }

    fn asking(&self, progress: &Progress, number: u64, keys: Vec<Vec<u8>>, to: Vec<u8>) -> Vec<(u8, Vec<u8>)> {
        let (generation, question) = (progress.generation.number, Question { start: self.start, number });
        let bytes = Message::Ask { generation, question, keys }.write();
        to.into_iter().map(|peer| (peer, bytes.clone())).collect()
    }

    /// As many others as have to answer, with how long that takes: those that are reached and in this generation, the
    /// quickest ones first.
    fn closest(&self, progress: &Progress, now: Instant) -> Vec<(Duration, u8)> {
        let own = progress.generation.number;
        let of = |peer: u8| {
            let takes = progress.distances.takes(peer, now)?;
            let is_apart = progress.others.generation(peer) != own || progress.distances.is_silent(peer, now);
            Some((is_apart, takes, peer))
        };
        let mut peers: Vec<_> = progress.reached().filter_map(of).collect();
        peers.sort_unstable();
        peers.into_iter().take(self.reads.others()).map(|(_, takes, peer)| (takes, peer)).collect()
    }

    /// Whether all that a read waits for is committed here, or is by what the core takes next, so that it has to be
    /// executed.
    pub fn wants(&self, progress: &Progress, is_next: impl Fn(Instance) -> bool) -> bool {
        let is_here = |instance: &Instance| progress.commits.here.has(*instance) || is_next(*instance);
        self.reads.has_found(|found| found.waits.as_ref().is_some_and(|waits| waits.open.iter().all(is_here)))
    }

    /// Whether reads wait for something to be committed and executed.
    pub fn is_waiting(&self) -> bool {
        self.reads.has_found(|found| found.waits.is_some())
    }

    /// What reads wait for and isn't committed here.
    pub fn uncommitted(&self, progress: &Progress) -> Vec<Instance> {
        self.reads.uncommitted(|instance| progress.commits.here.has(instance))
    }

    /// Looks into the map for those of which all is known that interferes.
    pub fn look<Q: Queries>(&mut self, progress: &Progress, core: &mut Q) -> Result<Vec<Answered<T>>, Q::Fault> {
        let found = self.reads.take_found(|found| found.waits.is_none());
        self.look_for(found, progress, core)
    }

    /// Looks again for those that waited for something, where that may be executed by now.
    pub fn look_again<Q: Queries>(&mut self, progress: &Progress, core: &mut Q) -> Result<Vec<Answered<T>>, Q::Fault> {
        let is_here = |instance: &Instance| progress.commits.here.has(*instance);
        let is_due = |waits: &Waits| waits.entries != progress.generation.entries && waits.open.iter().all(is_here);
        let found = self.reads.take_found(|found| found.waits.as_ref().is_some_and(is_due));
        self.look_for(found, progress, core)
    }

    fn look_for<Q: Queries>(
        &mut self,
        mut all: Vec<Found<T>>,
        progress: &Progress,
        core: &mut Q,
    ) -> Result<Vec<Answered<T>>, Q::Fault> {
        let mut answered = Vec::new();
        if all.is_empty() {
            return Ok(answered);
        }
        if self.plant == Some(Plant::Partly) {
            all.iter_mut().for_each(|it| _ = it.found.pop());
        }
        if self.plant == Some(Plant::Local) {
            all.iter_mut().for_each(|it| it.found.clear());
        }
        let reads: Vec<(&[u8], &[Instance])> = all.iter().map(|it| (&it.key[..], &it.found[..])).collect();
        let mut readings = core.read(&reads)?;
        if self.plant == Some(Plant::Before) {
            let before =
                all.iter().zip(readings).map(|(it, reading)| self.planted.before.remove(&it.key).unwrap_or(reading));
            readings = before.collect();
        }
        for (found, reading) in all.into_iter().zip(readings) {
            if self.plant == Some(Plant::Later) {
                self.planted.found.insert(found.key.clone(), found.found.clone());
            }
            match reading {
                OwnedReading::Absent => answered.push((found.readers, None)),
                OwnedReading::Present(value) => answered.push((found.readers, Some(value))),
                OwnedReading::Closed => self.reads.ask_anew(found.key, found.readers),
                OwnedReading::Waits(_) => {
                    let open = found.found.iter().copied().filter(|instance| !progress.commits.here.has(*instance));
                    let waits = Waits { open: open.collect(), entries: progress.generation.entries };
                    self.reads.put_back(Found { waits: Some(waits), ..found });
                }
            }
        }
        Ok(answered)
    }
}
