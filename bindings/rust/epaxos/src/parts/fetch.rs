//! An opening, or what leads to it, that is on its way to this replica: in pieces that it asks for, several at a time.
use crate::parts::messages::{LONGEST_PIECE, Message};
use std::collections::BTreeMap;
use std::io;
use std::time::{Duration, Instant};

/// So many pieces are under way at once.
pub const WINDOW: usize = 8;
/// A piece that hasn't come after so long is asked for again, or after four times what one took, if that is longer.
pub const PATIENCE: Duration = Duration::from_millis(500);
const PARTS: u32 = 4;
/// Once so many pieces that were asked for later have come it is asked for again at once: they come in order, where
/// none is lost.
const MOST_PASSED: u8 = 3;
/// A replica that answers nothing for so many times as long isn't asked any more.
pub const TIMES: u32 = 4;

/// Where what comes is put together.
pub trait Sink {
    /// Nothing of what was put counts any more.
    fn clear(&mut self) -> io::Result<()>;

    /// Puts bytes at their place.
    fn put(&mut self, offset: u64, bytes: &[u8]) -> io::Result<()>;
}

impl Sink for Vec<u8> {
    fn clear(&mut self) -> io::Result<()> {
        Vec::clear(self);
        Ok(())
    }

    fn put(&mut self, offset: u64, bytes: &[u8]) -> io::Result<()> {
        let begin = usize::try_from(offset).map_err(|_| io::ErrorKind::OutOfMemory)?;
        let end = begin.checked_add(bytes.len()).ok_or(io::ErrorKind::OutOfMemory)?;
        if self.len() < end {
            self.resize(end, 0);
        }
        self[begin..end].copy_from_slice(bytes);
        Ok(())
    }
}

/// What comes: an opening, or the bytes that lead to one (the last whole one, and the logs since).
#[derive(Clone, Copy, PartialEq, Eq, Debug)]
pub enum Form {
    Opening,
    Way,
}

/// An opening that is on its way to this replica, or what leads to it. All of it comes from one peer: another one's
/// file of the same generation may have another stamp, and its logs are others.
pub struct Fetch<S> {
    from: u8,
    form: Form,
    /// The generations from which and to which the bytes lead: of an opening the second one alone. 0 before the first
    /// piece.
    ends: (u32, u32),
    total: u64,
    /// Where the next piece begins that wasn't asked for yet.
    next: u64,
    /// Those that were asked for and haven't come, by where they begin.
    under_way: BTreeMap<u64, Wanted>,
    /// How many times something was asked for.
    count: u64,
    sink: S,
    /// What a piece took that was asked for once.
    took: Duration,
    heard: Instant,
}

/// A piece that was asked for.
struct Wanted {
    /// The how manieth it was, and when.
    number: u64,
    asked: Instant,
    is_again: bool,
    /// How many that were asked for later have come.
    passed: u8,
}

/// What comes of a piece.
#[derive(Debug)]
pub enum Step {
    /// This is to be asked of the replica that the piece is of.
    Ask(Vec<Message>),
    /// All of it is here, in the file; it is of this generation, or leads to it.
    Done(u32),
    /// It wasn't waited for.
    Ignored,
}

impl<S: Sink> Fetch<S> {
    /// Begins, with what is to be asked of a replica.
    pub fn begin(sink: S, form: Form, from: u8, now: Instant) -> (Fetch<S>, Message) {
        let mut fetch = Fetch {
            from,
            form,
            ends: (0, 0),
            total: 0,
            next: 0,
            under_way: BTreeMap::new(),
            count: 0,
            sink,
            took: Duration::ZERO,
            heard: now,
        };
        let first = fetch.want(0, now);
        (fetch, first)
    }

    /// What has come, once it is whole.
    pub fn into_sink(self) -> S {
        self.sink
    }

    /// Whom it is asked of.
    pub fn from(&self) -> u8 {
        self.from
    }

    /// Whether it is to be asked of another one, from the beginning.
    pub fn is_over(&self, now: Instant) -> bool {
        now.saturating_duration_since(self.heard) > TIMES * self.patience()
    }

    /// When something is to be asked again.
    pub fn due(&self) -> Instant {
        let first = self.under_way.values().map(|wanted| wanted.asked).min().unwrap_or(self.heard);
        first + self.patience()
    }

    /// What is to be asked again, as it hasn't come.
    pub fn again(&mut self, now: Instant) -> Vec<Message> {
        let patience = self.patience();
        let is_late =
            |wanted: &Wanted| wanted.passed >= MOST_PASSED || now.saturating_duration_since(wanted.asked) >= patience;
        let late: Vec<u64> = self.under_way.iter().filter(|(_, it)| is_late(it)).map(|(offset, _)| *offset).collect();
        late.into_iter().map(|offset| self.want(offset, now)).collect()
    }

    fn patience(&self) -> Duration {
        PATIENCE.max(PARTS * self.took)
    }

    fn want(&mut self, offset: u64, now: Instant) -> Message {
        let is_again = self.under_way.contains_key(&offset);
        self.count += 1;
        self.under_way.insert(offset, Wanted { number: self.count, asked: now, is_again, passed: 0 });
        self.next = self.next.max(offset + LONGEST_PIECE);
        self.ask(offset)
    }

    fn ask(&self, offset: u64) -> Message {
        let (first, generation) = self.ends;
        match self.form {
            Form::Opening => Message::Want { generation, offset },
            Form::Way => Message::Follow { first, generation, offset },
        }
    }

    /// A question whose answer has nothing: by it the replica learns that what it handed is still needed.
    pub fn word(&self) -> Message {
        self.ask(self.total)
    }

    /// Takes a piece of `total` bytes.
    pub fn take(&mut self, from: u8, piece: Message, now: Instant) -> io::Result<Step> {
        let (ends, total, offset, bytes) = match (self.form, piece) {
            (Form::Opening, Message::Piece { generation, total, offset, bytes }) => {
                ((0, generation), total, offset, bytes)
            }
            (Form::Way, Message::Part { first, generation, total, offset, bytes }) => {
                ((first, generation), total, offset, bytes)
            }
            _ => return Ok(Step::Ignored),
        };
        if from != self.from {
            return Ok(Step::Ignored);
        }
        if ends != self.ends && offset == 0 {
            // (the one before isn't there any more)
            (self.ends, self.total, self.next) = (ends, total, 0);
            self.under_way.clear();
            self.want(0, now);
            self.sink.clear()?;
        }
        let length = total.saturating_sub(offset).min(LONGEST_PIECE);
        let is_of_it = (ends, total, bytes.len() as u64) == (self.ends, self.total, length);
        let Some(wanted) = self.under_way.remove(&offset).filter(|_| is_of_it) else { return Ok(Step::Ignored) };
        self.sink.put(offset, &bytes)?;
        self.heard = now;
        if !wanted.is_again {
            self.took = now.saturating_duration_since(wanted.asked);
        }
        let earlier = self.under_way.values_mut().filter(|it| it.number < wanted.number);
        earlier.for_each(|it| it.passed = it.passed.saturating_add(1));
        let mut asked = self.again(now);
        while self.under_way.len() < WINDOW && self.next < total {
            asked.push(self.want(self.next, now));
        }
        Ok(if self.under_way.is_empty() { Step::Done(ends.1) } else { Step::Ask(asked) })
    }
}

#[cfg(test)]
mod tests {
    use super::*;
    use std::collections::VecDeque;

    const LENGTH: usize = 3_000_000;

    fn bytes() -> Vec<u8> {
        (0..LENGTH as u32).map(|at| ((at * 7) >> 3) as u8).collect()
    }

    /// What a replica answers that has these openings: of the newest one from its beginning, where it hasn't that one.
    fn answer(openings: &BTreeMap<u32, Vec<u8>>, ask: &Message) -> Message {
        let Message::Want { generation, offset } = *ask else { panic!() };
        let newest = || openings.last_key_value().map(|(generation, all)| (*generation, all, 0)).unwrap();
        let (generation, all, offset) = openings.get(&generation).map_or_else(newest, |all| (generation, all, offset));
        let rest = all.get(offset as usize..).unwrap_or_default();
        let bytes = rest[..rest.len().min(LONGEST_PIECE as usize)].to_vec();
        Message::Piece { generation, total: all.len() as u64, offset, bytes }
    }

    fn begin(now: Instant) -> (Fetch<Vec<u8>>, Message) {
        Fetch::begin(Vec::new(), Form::Opening, 1, now)
    }

    #[test]
    fn an_opening_is_handed_in_a_window() {
        let (openings, now) = (BTreeMap::from([(3, bytes())]), Instant::now());
        let (mut fetch, first) = begin(now);
        // All that is asked for in a round trip is answered together.
        let (mut asked, mut trips) = (vec![first], 0);
        let generation = 'trips: loop {
            trips += 1;
            for ask in std::mem::take(&mut asked) {
                let piece = answer(&openings, &ask);
                assert!(matches!(fetch.take(2, piece.clone(), now).unwrap(), Step::Ignored));
                match fetch.take(1, piece.clone(), now).unwrap() {
                    Step::Ask(more) => asked.extend(more),
                    Step::Done(generation) => break 'trips generation,
                    Step::Ignored => panic!(),
                }
                // Twice the same isn't taken twice.
                assert!(matches!(fetch.take(1, piece, now).unwrap(), Step::Ignored));
            }
            assert!(asked.len() <= WINDOW && !asked.is_empty());
        };
        // (23 pieces: the first one alone, as it says how many there are)
        assert_eq!((generation, trips), (3, 4));
        assert!(fetch.into_sink() == openings[&3]);
    }

    #[test]
    fn what_is_lost_is_asked_for_again_and_nothing_else() {
        let (openings, start) = (BTreeMap::from([(3, bytes())]), Instant::now());
        let (mut fetch, first) = begin(start);
        let (mut asked, mut count, mut lost) = (VecDeque::from([first]), 0, 0);
        let mut now = start;
        loop {
            let Some(ask) = asked.pop_front() else {
                // Nothing comes any more.
                assert!(fetch.due() > now && !fetch.is_over(now));
                now = fetch.due();
                asked.extend(fetch.again(now));
                assert!(!asked.is_empty());
                continue;
            };
            count += 1;
            if count % 5 == 0 {
                lost += 1;
                continue;
            }
            match fetch.take(1, answer(&openings, &ask), now).unwrap() {
                Step::Ask(more) => asked.extend(more),
                Step::Done(generation) => break assert_eq!(generation, 3),
                Step::Ignored => panic!(),
            }
        }
        assert_eq!(count, 23 + lost);
        assert!(fetch.into_sink() == openings[&3]);
        // A gap is seen by what comes behind it, without a wait.
        let (mut fetch, first) = begin(start);
        let Step::Ask(asked) = fetch.take(1, answer(&openings, &first), start).unwrap() else { panic!() };
        let steps: Vec<_> = asked[1..4].iter().map(|ask| fetch.take(1, answer(&openings, ask), start)).collect();
        let Ok(Step::Ask(more)) = &steps[2] else { panic!() };
        assert!(more.contains(&asked[0]), "{more:?}");
        // Who answers nothing for long is asked no more. What a piece takes counts.
        assert!(!fetch.is_over(start + TIMES * PATIENCE) && fetch.is_over(start + (TIMES + 1) * PATIENCE));
        let later = start + Duration::from_secs(1);
        assert!(matches!(fetch.take(1, answer(&openings, &asked[4]), later), Ok(Step::Ask(_))));
        assert!(!fetch.is_over(later + 15 * Duration::from_secs(1)));
    }

    #[test]
    fn a_generation_that_is_gone_is_begun_anew() {
        let (mut openings, now) = (BTreeMap::from([(3, bytes()), (4, bytes()[..10].to_vec())]), Instant::now());
        let (mut fetch, _) = begin(now);
        let first = Message::Want { generation: 3, offset: 0 };
        let Step::Ask(asked) = fetch.take(1, answer(&openings, &first), now).unwrap() else { panic!() };
        assert_eq!(asked.len(), WINDOW);
        // What was begun is gone at the peer: the newest one is handed from its beginning.
        openings.remove(&3);
        assert!(matches!(fetch.take(1, answer(&openings, &asked[0]), now).unwrap(), Step::Done(4)));
        assert!(matches!(fetch.take(1, answer(&openings, &asked[1]), now).unwrap(), Step::Ignored));
        assert!(fetch.into_sink() == openings[&4]);
    }
}
