//! Reads that write nothing, from when they are asked until their replies are known: which question each goes with, who
//! has answered it, and what was found.
//!
//! A read of a key is answered from this replica's map, once all is executed here that interferes with it as far as
//! this replica and F others know, each of whom was asked after the read was. One question serves all reads that were
//! asked before it was sent, and none that was asked later.
use crate::Instance;
use std::collections::{BTreeMap, VecDeque};
use std::time::{Duration, Instant};

/// A question is of so many keys at most, so that it fits into a message.
pub const MOST_KEYS: usize = 512;
/// Where an answer takes so much longer than it should, and at least twice as long, all others are asked too;
const LATE: Duration = Duration::from_millis(30);
/// and again and again, at most so long apart, as what was asked may be lost.
const LONGEST_PAUSE: Duration = Duration::from_secs(1);

/// Reads of one key that go together. Once enough have reported what interferes with them, they are out of the
/// question, where this keeps their place.
struct Reading<T> {
    key: Vec<u8>,
    readers: Vec<T>,
    /// Which replicas' answers are in `found`, by their bits.
    answered: u8,
    /// What interferes, rising.
    found: Vec<Instance>,
    is_known: bool,
}

/// What some replicas are asked.
struct Question<T> {
    number: u64,
    readings: Vec<Reading<T>>,
    /// Whom it was sent last, by their bits.
    asked: u8,
    /// When it is sent again, and how long after that.
    again: Instant,
    pause: Duration,
}

/// A read of which all that interferes is known.
pub struct Found<T> {
    pub key: Vec<u8>,
    pub readers: Vec<T>,
    pub found: Vec<Instance>,
    /// Where it was looked for in the map and has to wait: what of it wasn't committed here then, and how many entries
    /// there were.
    pub waits: Option<Waits>,
}

/// What a read waits for.
pub struct Waits {
    pub open: Vec<Instance>,
    pub entries: u32,
}

impl<T> Found<T> {
    /// One that wasn't looked for in the map yet.
    pub fn of(key: Vec<u8>, readers: Vec<T>, found: Vec<Instance>) -> Found<T> {
        Found { key, readers, found, waits: None }
    }
}

/// What is to be sent again, and to whom.
pub struct Again {
    pub number: u64,
    pub keys: Vec<Vec<u8>>,
    pub to: Vec<u8>,
}

/// All reads of this replica that wait, each with whom to answer.
pub struct Reads<T> {
    /// So many others have to answer.
    others: u32,
    /// Those that were asked since the last question was sent.
    waiting: BTreeMap<Vec<u8>, Vec<T>>,
    /// The oldest first.
    questions: VecDeque<Question<T>>,
    found: Vec<Found<T>>,
    /// How many questions there were.
    count: u64,
}

fn bit(replica: u8) -> u8 {
    1 << (replica % 8)
}

/// Adds the instances of one rising list to another one.
fn merge(into: &mut Vec<Instance>, more: &[Instance]) {
    let mut all = Vec::with_capacity(into.len() + more.len());
    let (mut own, mut others) = (into.iter().peekable(), more.iter().peekable());
    while let Some(next) = match (own.peek(), others.peek()) {
        (Some(first), Some(second)) if first > second => others.next(),
        (Some(first), Some(second)) if first == second => own.next().and(others.next()),
        (Some(_), _) => own.next(),
        (None, _) => others.next(),
    } {
        all.push(*next);
    }
    *into = all;
}

impl<T> Reads<T> {
    /// None, at one of so many replicas.
    pub fn new(replicas: usize) -> Reads<T> {
        let others = replicas as u32 / 2;
        Reads { others, waiting: BTreeMap::new(), questions: VecDeque::new(), found: Vec::new(), count: 0 }
    }

    /// The same, of which one answer fewer is taken: a fault that is planted.
    pub fn with_fewer(self) -> Reads<T> {
        Reads { others: self.others - 1, ..self }
    }

    /// From now on there are so many replicas. All is asked anew then ([`begin_anew`](Reads::begin_anew)).
    pub fn resize(&mut self, replicas: usize) {
        self.others = replicas as u32 / 2;
    }

    /// So many others have to answer a question.
    pub fn others(&self) -> usize {
        self.others as usize
    }

    /// A client asks what a key has.
    pub fn ask(&mut self, key: Vec<u8>, reader: T) {
        self.waiting.entry(key).or_default().push(reader);
    }

    pub fn is_empty(&self) -> bool {
        self.waiting.is_empty() && self.questions.is_empty() && self.found.is_empty()
    }

    /// How many keys' reads wait.
    pub fn count(&self) -> usize {
        self.waiting.len() + self.questions.iter().map(|it| it.readings.len()).sum::<usize>() + self.found.len()
    }

    /// How many questions aren't answered.
    pub fn questions(&self) -> usize {
        self.questions.len()
    }

    /// Whether some wait for a question.
    pub fn has_next(&self) -> bool {
        !self.waiting.is_empty()
    }

    /// The keys of the next question, as many as go into one.
    pub fn next(&self) -> Vec<&[u8]> {
        self.waiting.keys().take(MOST_KEYS).map(Vec::as_slice).collect()
    }

    /// These keys' reads go with a question that is sent now, to these replicas, whose answers take so long; `own` is
    /// what interferes here, as was looked just now. The question's number.
    pub fn send(&mut self, own: Vec<Vec<Instance>>, to: &[u8], takes: Duration, now: Instant) -> u64 {
        self.count += 1;
        let mut readings = Vec::with_capacity(own.len());
        for found in own {
            let Some((key, readers)) = self.waiting.pop_first() else { break };
            readings.push(Reading { key, readers, answered: 0, found, is_known: false });
        }
        let pause = takes + takes.max(LATE);
        let asked = to.iter().fold(0, |all, replica| all | bit(*replica));
        self.questions.push_back(Question { number: self.count, readings, asked, again: now + pause, pause });
        self.count
    }

    /// A replica has answered, to the question of this number, what interferes with the reads of its keys from one on.
    pub fn hear(&mut self, from: u8, number: u64, first: usize, lists: &[Vec<Instance>]) {
        let Some(question) = self.questions.iter_mut().find(|it| it.number == number) else { return };
        for (reading, list) in question.readings.iter_mut().skip(first).zip(lists) {
            if !reading.is_known && reading.answered & bit(from) == 0 {
                reading.answered |= bit(from);
                merge(&mut reading.found, list);
            }
        }
        self.settle();
    }

    /// Takes out what enough have answered.
    pub fn settle(&mut self) {
        let others = self.others;
        for question in &mut self.questions {
            let is_known = |reading: &&mut Reading<T>| !reading.is_known && reading.answered.count_ones() >= others;
            for reading in question.readings.iter_mut().filter(is_known) {
                reading.is_known = true;
                let (readers, found) = (std::mem::take(&mut reading.readers), std::mem::take(&mut reading.found));
                self.found.push(Found::of(reading.key.clone(), readers, found));
            }
        }
        self.questions.retain(|question| question.readings.iter().any(|reading| !reading.is_known));
    }

    /// The questions that are to be sent again: to all others that haven't answered, where time is up, or at once where
    /// one that was asked isn't there any more.
    pub fn late(&mut self, peers: &[u8], now: Instant) -> Vec<Again> {
        let there = peers.iter().fold(0, |all, replica| all | bit(*replica));
        let mut late = Vec::new();
        for question in &mut self.questions {
            let open = question.readings.iter().filter(|reading| !reading.is_known);
            let answered = open.fold(u8::MAX, |all, reading| all & reading.answered);
            let is_lost = question.asked & !answered & !there != 0;
            if now < question.again && !is_lost {
                continue;
            }
            question.pause = (question.pause * 2).min(LONGEST_PAUSE);
            question.again = now + question.pause;
            let to: Vec<u8> = peers.iter().copied().filter(|replica| answered & bit(*replica) == 0).collect();
            question.asked = there;
            let keys = question.readings.iter().map(|reading| reading.key.clone()).collect();
            late.push(Again { number: question.number, keys, to });
        }
        late
    }

    /// When a question is to be sent again.
    pub fn due(&self) -> Option<Instant> {
        self.questions.iter().map(|question| question.again).min()
    }

    /// Takes out the reads of which all that interferes is known, where `is_due` says so.
    pub fn take_found(&mut self, is_due: impl Fn(&Found<T>) -> bool) -> Vec<Found<T>> {
        self.found.extract_if(.., |found| is_due(found)).collect()
    }

    /// Whether there is one that is so.
    pub fn has_found(&self, is_so: impl Fn(&Found<T>) -> bool) -> bool {
        self.found.iter().any(is_so)
    }

    /// It waits.
    pub fn put_back(&mut self, found: Found<T>) {
        self.found.push(found);
    }

    /// What was found, and isn't committed here, as is asked of each.
    pub fn uncommitted(&self, is_committed: impl Fn(Instance) -> bool) -> Vec<Instance> {
        let all = self.found.iter().flat_map(|found| &found.waits).flat_map(|waits| &waits.open);
        all.copied().filter(|instance| !is_committed(*instance)).collect()
    }

    /// Another generation begins: all is asked anew in it.
    pub fn begin_anew(&mut self) {
        let asked = std::mem::take(&mut self.questions).into_iter().flat_map(|question| question.readings);
        let asked = asked.filter(|reading| !reading.is_known).map(|reading| (reading.key, reading.readers));
        let found = std::mem::take(&mut self.found).into_iter().map(|found| (found.key, found.readers));
        for (key, readers) in asked.chain(found) {
            self.ask_anew(key, readers);
        }
    }

    /// These are asked as if they came now: they go with the next question.
    pub fn ask_anew(&mut self, key: Vec<u8>, readers: Vec<T>) {
        self.waiting.entry(key).or_default().extend(readers);
    }

    /// Lets go of those whose clients have given up.
    pub fn drop_where(&mut self, is_given_up: impl Fn(&T) -> bool) {
        let keep = |readers: &mut Vec<T>| {
            readers.retain(|reader| !is_given_up(reader));
            !readers.is_empty()
        };
        self.waiting.retain(|_, readers| keep(readers));
        for question in &mut self.questions {
            question.readings.iter_mut().for_each(|reading| _ = keep(&mut reading.readers));
        }
        self.found.retain_mut(|found| keep(&mut found.readers));
    }

    /// All who read; then there are none.
    pub fn take(&mut self) -> Vec<T> {
        self.begin_anew();
        std::mem::take(&mut self.waiting).into_values().flatten().collect()
    }
}

#[cfg(test)]
mod tests {
    use super::*;
    const SOON: Duration = Duration::from_millis(1);

    fn instance(number: u16) -> Instance {
        Instance { replica: 1, number }
    }

    fn list(numbers: &[u16]) -> Vec<Instance> {
        numbers.iter().map(|number| instance(*number)).collect()
    }

    /// Readers are distinguished by numbers.
    fn ask(it: &mut Reads<u32>, key: &str, reader: u32) {
        it.ask(key.into(), reader);
    }

    /// What is known, by keys.
    fn known(it: &mut Reads<u32>) -> Vec<(String, usize, Vec<Instance>)> {
        let all = it.take_found(|_| true).into_iter();
        all.map(|it| (String::from_utf8(it.key).unwrap(), it.readers.len(), it.found)).collect()
    }

    #[test]
    fn a_question_serves_what_was_asked_before_it() {
        let (mut it, now) = (Reads::new(5), Instant::now());
        [("x", 1), ("y", 2), ("x", 3)].into_iter().for_each(|(key, reader)| ask(&mut it, key, reader));
        assert_eq!(it.next(), [b"x", b"y"]);
        let number = it.send(vec![list(&[2]), list(&[])], &[1, 2], SOON, now);
        ask(&mut it, "x", 4);
        it.hear(1, number, 0, &[list(&[1, 2, 5]), list(&[])]);
        // (an answer that comes twice counts once, as does one to another question)
        it.hear(1, number, 0, &[list(&[9]), list(&[9])]);
        it.hear(2, number + 1, 0, &[list(&[9]), list(&[9])]);
        assert!(known(&mut it).is_empty());
        // It may come in parts.
        it.hear(4, number, 1, &[list(&[3])]);
        assert_eq!(known(&mut it), [("y".into(), 1, list(&[3]))]);
        it.hear(4, number, 0, &[list(&[1, 4])]);
        assert_eq!(known(&mut it), [("x".into(), 2, list(&[1, 2, 4, 5]))]);
        assert_eq!((it.count(), it.questions(), it.next()), (1, 0, vec![&b"x"[..]]));
        it.hear(2, number, 0, &[list(&[9]), list(&[9])]);
        assert!(known(&mut it).is_empty());
    }

    #[test]
    fn what_is_late_or_lost_is_asked_of_others() {
        let (mut it, now) = (Reads::new(5), Instant::now());
        [("x", 1), ("y", 2)].into_iter().for_each(|(key, reader)| ask(&mut it, key, reader));
        let number = it.send(vec![list(&[]), list(&[])], &[1, 2], SOON, now);
        let due = now + SOON + LATE;
        assert_eq!(it.due(), Some(due));
        assert!(it.late(&[1, 2, 3, 4], due - SOON).is_empty());
        it.hear(1, number, 0, &[list(&[]), list(&[])]);
        let again = it.late(&[1, 2, 3, 4], due);
        assert_eq!((again[0].number, &again[0].to, again[0].keys.len()), (number, &vec![2, 3, 4], 2));
        assert!(it.late(&[1, 2, 3, 4], due).is_empty());
        // One of those that were asked is gone.
        let again = it.late(&[1, 2, 4], due);
        assert_eq!(again[0].to, [2, 4]);
        assert!(it.late(&[1, 2, 4], due).is_empty());
        it.hear(4, number, 0, &[list(&[]), list(&[])]);
        assert!(it.late(&[1], due + LONGEST_PAUSE).is_empty() && it.questions() == 0);
        // One that has answered may go.
        ask(&mut it, "z", 3);
        let number = it.send(vec![list(&[])], &[1, 2], SOON, now);
        it.hear(1, number, 0, &[list(&[])]);
        assert!(it.late(&[2, 3], now).is_empty());
    }

    #[test]
    fn where_there_are_more_replicas_more_have_to_answer() {
        let (mut it, now) = (Reads::new(3), Instant::now());
        for (replicas, others) in [(3, 1), (5, 2), (7, 3), (3, 1)] {
            it.resize(replicas);
            assert_eq!(it.others(), others);
            ask(&mut it, "x", 1);
            let number = it.send(vec![list(&[])], &[1, 2, 3], SOON, now);
            for from in 1..=others as u8 {
                assert!(known(&mut it).is_empty(), "{from} of {replicas}");
                it.hear(from, number, 0, &[list(&[u16::from(from)])]);
            }
            assert_eq!(known(&mut it).len(), 1);
        }
    }

    #[test]
    fn another_generation_asks_anew() {
        let (mut it, now) = (Reads::new(3), Instant::now());
        [("x", 1), ("y", 2), ("z", 3)].into_iter().for_each(|(key, reader)| ask(&mut it, key, reader));
        let number = it.send(vec![list(&[]), list(&[]), list(&[])], &[1], SOON, now);
        it.hear(1, number, 0, &[list(&[7])]);
        let found = it.take_found(|_| true).pop().unwrap();
        it.put_back(Found { waits: Some(Waits { open: list(&[7]), entries: 1 }), ..found });
        assert_eq!(it.uncommitted(|_| false), list(&[7]));
        assert!(it.uncommitted(|_| true).is_empty());
        it.begin_anew();
        assert_eq!((it.next().len(), it.questions(), it.count()), (3, 0, 3));
        // An answer to what was asked in the generation before is of no use.
        it.hear(1, number, 0, &[list(&[]), list(&[]), list(&[])]);
        assert!(known(&mut it).is_empty());
        // Nobody waits for one of them any more.
        it.ask(b"w".to_vec(), 4);
        it.drop_where(|reader| *reader == 4);
        assert_eq!(it.count(), 3);
        let mut all = it.take();
        all.sort_unstable();
        assert!(all == [1, 2, 3] && it.is_empty());
    }
}
