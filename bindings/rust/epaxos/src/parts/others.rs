//! What is known of the other replicas: how far each is, what was seen of it, and frames that came before their time.
use std::collections::VecDeque;
use std::time::{Duration, Instant};

/// Frames of later generations are kept up to so many bytes; then the oldest are lost.
const MOST_EARLY: usize = 16 << 20;
/// A peer that lags is notified at most that often.
const BETWEEN_WORDS: Duration = Duration::from_millis(100);

#[derive(Clone, Default)]
struct Other {
    generation: u32,
    is_sealed: bool,
    /// Whether it has reported how far it is since this replica has started.
    is_heard: bool,
    /// The same of any machine under its number: before, this start has sent it no frame.
    was_heard: bool,
    /// Whether it has reported what it saw of this replica in the present generation, being in it.
    is_met: bool,
    /// The greatest number of an entry of it that was seen in the present generation.
    seen: u32,
    /// The same of this replica that it has reported it saw.
    sees: u32,
    greeted: Option<Instant>,
    /// Whether it has answered the last question.
    has_answered: bool,
}

/// All replicas, by their numbers; this one's place isn't used.
pub struct Others {
    all: Vec<Other>,
    /// With who sent it and its generation.
    early: VecDeque<(u8, u32, Vec<u8>)>,
    early_bytes: usize,
    /// The number of the last question.
    question: u64,
    /// Whether nothing that is seen is noted, where that is planted.
    pub is_blind: bool,
}

impl Others {
    /// Nothing is known of so many replicas.
    pub fn new(replicas: usize) -> Others {
        let early = VecDeque::new();
        Others { all: vec![Other::default(); replicas], early, early_bytes: 0, question: 0, is_blind: false }
    }

    /// From now on there are so many.
    pub fn resize(&mut self, replicas: usize) {
        self.all.resize(replicas, Other::default());
    }

    /// This generation begins, of which nothing was seen. (Who was there first has reported that it saw nothing.)
    pub fn begin(&mut self, generation: u32) {
        for other in &mut self.all {
            (other.seen, other.sees, other.is_met) = (0, 0, other.is_heard && other.generation == generation);
        }
    }

    /// An entry of a replica was seen in the present generation.
    pub fn see(&mut self, replica: u8, entry: u32) {
        if let Some(other) = self.all.get_mut(usize::from(replica))
            && entry > other.seen
            && !self.is_blind
        {
            other.seen = entry;
        }
    }

    pub fn seen(&self, replica: u8) -> u32 {
        self.all.get(usize::from(replica)).map_or(0, |other| other.seen)
    }

    /// A replica has reported the greatest entry of this one that it saw in the present generation.
    pub fn hear_seen(&mut self, replica: u8, entry: u32) {
        if let Some(other) = self.all.get_mut(usize::from(replica)) {
            (other.sees, other.is_met) = (entry, true);
        }
    }

    /// Whether it has reported so in the present generation, since this replica has started.
    pub fn is_met(&self, replica: u8) -> bool {
        self.all.get(usize::from(replica)).is_some_and(|other| other.is_met)
    }

    /// What it has reported so last.
    pub fn sees(&self, replica: u8) -> u32 {
        self.all.get(usize::from(replica)).map_or(0, |other| other.sees)
    }

    /// A replica has reported how far it is. Whether it is the first time.
    pub fn hear(&mut self, replica: u8, generation: u32, is_sealed: bool) -> bool {
        let Some(other) = self.all.get_mut(usize::from(replica)) else { return false };
        other.generation = generation;
        (other.is_sealed, other.was_heard) = (is_sealed, true);
        !std::mem::replace(&mut other.is_heard, true)
    }

    /// Whether a machine under this number has reported how far it is since this replica has started.
    pub fn was_heard(&self, replica: u8) -> bool {
        self.all.get(usize::from(replica)).is_some_and(|other| other.was_heard)
    }

    pub fn is_heard(&self, replica: u8) -> bool {
        self.all.get(usize::from(replica)).is_some_and(|other| other.is_heard)
    }

    /// Another machine has the replica's number.
    pub fn forget(&mut self, replica: u8) {
        if let Some(other) = self.all.get_mut(usize::from(replica)) {
            *other = Other { was_heard: other.was_heard, ..Other::default() };
        }
    }

    /// All are asked a question of this number, which has no other one.
    pub fn ask(&mut self, question: u64) {
        self.question = question;
        self.all.iter_mut().for_each(|other| other.has_answered = false);
    }

    /// The number of the last question.
    pub fn question(&self) -> u64 {
        self.question
    }

    /// A replica has answered the question of this number.
    pub fn hear_answer(&mut self, replica: u8, question: u64) {
        if let Some(other) = self.all.get_mut(usize::from(replica)).filter(|_| question == self.question) {
            other.has_answered = true;
        }
    }

    /// Whether a replica has answered the last question, so that it was there when it was asked, or later.
    pub fn has_answered(&self, replica: u8) -> bool {
        self.all.get(usize::from(replica)).is_some_and(|other| other.has_answered)
    }

    pub fn generation(&self, replica: u8) -> u32 {
        self.all.get(usize::from(replica)).map_or(0, |other| other.generation)
    }

    /// Whether a replica has executed the seal of this generation, as far as it has reported.
    pub fn has_sealed(&self, replica: u8, generation: u32) -> bool {
        let is_over =
            |other: &Other| other.generation > generation || (other.generation == generation && other.is_sealed);
        self.all.get(usize::from(replica)).is_some_and(is_over)
    }

    /// Whether a replica that lags is to be notified now.
    pub fn is_word_due(&mut self, replica: u8, now: Instant) -> bool {
        let Some(other) = self.all.get_mut(usize::from(replica)) else { return false };
        let is_due = other.greeted.is_none_or(|greeted| now >= greeted + BETWEEN_WORDS);
        if is_due {
            other.greeted = Some(now);
        }
        is_due
    }

    /// Keeps a frame of a later generation.
    pub fn keep_early(&mut self, from: u8, generation: u32, frame: Vec<u8>) {
        self.early_bytes += frame.len();
        self.early.push_back((from, generation, frame));
        while self.early_bytes > MOST_EARLY {
            let Some((.., oldest)) = self.early.pop_front() else { break };
            self.early_bytes -= oldest.len();
        }
    }

    /// A replica has another connection: of what came before nothing is waited for.
    pub fn drop_early(&mut self, from: u8) {
        self.early.retain(|(sender, ..)| *sender != from);
        self.early_bytes = self.early.iter().map(|(.., frame)| frame.len()).sum();
    }

    /// Takes the frames of this generation out, in the order in which they came. Those of earlier ones are dropped.
    pub fn take_early(&mut self, now: u32) -> Vec<(u8, Vec<u8>)> {
        if self.early.iter().all(|(_, generation, _)| *generation > now) {
            return Vec::new();
        }
        let mut taken = Vec::new();
        for (from, generation, frame) in std::mem::take(&mut self.early) {
            if generation > now {
                self.early.push_back((from, generation, frame));
                continue;
            }
            self.early_bytes -= frame.len();
            if generation == now {
                taken.push((from, frame));
            }
        }
        taken
    }
}

#[cfg(test)]
mod tests {
    use super::*;

    #[test]
    fn who_is_how_far() {
        let mut it = Others::new(3);
        assert!(!it.is_heard(1) && !it.has_sealed(1, 0));
        assert!(it.hear(1, 3, false) && !it.hear(1, 3, false));
        assert!(it.has_sealed(1, 2) && !it.has_sealed(1, 3));
        it.hear(1, 3, true);
        assert!(it.has_sealed(1, 3) && !it.has_sealed(1, 4));
        it.forget(1);
        assert!(!it.is_heard(1) && it.was_heard(1) && !it.was_heard(2));
        [(1, 7), (1, 6), (3, 9)].into_iter().for_each(|(replica, entry)| it.see(replica, entry));
        it.hear_seen(1, 5);
        assert_eq!([0, 1, 3].map(|replica| (it.seen(replica), it.sees(replica))), [(0, 0), (7, 5), (0, 0)]);
        assert!(it.is_met(1) && !it.is_met(2));
        it.hear(2, 5, false);
        it.begin(5);
        assert_eq!((it.seen(1), it.sees(1), it.is_met(1), it.is_met(2)), (0, 0, false, true));
        it.ask(7);
        [(1, 7), (2, 6), (3, 7)].into_iter().for_each(|(replica, question)| it.hear_answer(replica, question));
        assert_eq!([1, 2, 3].map(|replica| it.has_answered(replica)), [true, false, false]);
        it.forget(1);
        it.hear_answer(2, 7);
        assert!(!it.has_answered(1) && it.has_answered(2));
        it.ask(8);
        it.hear_answer(2, 7);
        assert!(!it.has_answered(2));
    }

    #[test]
    fn early_frames_wait_for_their_generation() {
        let mut it = Others::new(3);
        it.keep_early(1, 3, vec![3]);
        it.keep_early(2, 2, vec![2]);
        it.keep_early(1, 2, vec![1]);
        assert!(it.take_early(1).is_empty());
        assert_eq!(it.take_early(2), [(2, vec![2]), (1, vec![1])]);
        it.keep_early(1, 2, vec![9]);
        assert_eq!(it.take_early(3), [(1, vec![3])]);
        assert_eq!(it.early_bytes, 0);
        it.keep_early(1, 4, vec![4]);
        it.keep_early(2, 4, vec![4, 4]);
        it.drop_early(1);
        assert_eq!((it.early_bytes, it.take_early(4)), (2, vec![(2, vec![4, 4])]));
        for _ in 0..100 {
            it.keep_early(1, 9, vec![0; 200_000]);
        }
        assert!(it.early_bytes <= MOST_EARLY && it.early.len() == MOST_EARLY / 200_000);
    }
}
