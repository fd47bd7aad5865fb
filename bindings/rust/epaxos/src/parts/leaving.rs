//! How a replica leaves a generation: whom it waits for once it has executed a seal, and how long; and what it does
//! where others have left it before.
use crate::parts::generation::Stage;
use crate::parts::members::Members;
use crate::parts::progress::Progress;
use crate::parts::random::Random;
use std::time::{Duration, Instant};

/// A generation whose seal was executed is served so long, for peers that are reached and haven't executed it.
const MOST_WAIT_FOR_PEERS: Duration = Duration::from_millis(100);
/// And so long by a replica that takes part in the next one no more, for those that do: they may need its vote to end
/// this one. Before a majority of them has reported that it has executed the seal, it is served for longer: they may be
/// no majority of this generation, which nobody could end any more then.
const MOST_WAIT_AT_LEAVING: Duration = Duration::from_secs(10);
const MOST_WAIT_FOR_MAJORITY: Duration = Duration::from_secs(600);
/// A replica that lags closes by itself in this time, or takes the opening of another one.
const BEHIND: Duration = Duration::from_millis(150);

/// Whether a replica takes part no more once so many go on.
fn is_none_of(replica: u8, size: usize) -> bool {
    usize::from(replica) >= size
}

impl Progress {
    /// A seal was executed, and names these: so many go on. (What was only committed may be another seal, and count for
    /// nothing.)
    pub fn note_sealed(&mut self, members: Option<&Members>) {
        self.generation.next_size = members.map(|members| members.0.len());
    }

    /// Whether this replica takes part in the next generation no more, as far as it knows.
    pub fn leaves(&self) -> bool {
        self.generation.next_size.is_some_and(|size| is_none_of(self.place.replica, size))
    }

    /// Until when a generation is served at most whose seal was executed.
    pub fn served_until(&self) -> Option<Instant> {
        let Stage::Sealed(since) = self.generation.stage else { return None };
        Some(since + self.most_wait())
    }

    fn most_wait(&self) -> Duration {
        match self.leaves() {
            false => MOST_WAIT_FOR_PEERS,
            true if self.waits_for_majority() => MOST_WAIT_FOR_MAJORITY,
            true => MOST_WAIT_AT_LEAVING,
        }
    }

    /// Whether a generation whose seal was executed is still to be served, as others haven't executed it.
    pub fn serves_on(&self, now: Instant) -> bool {
        self.served_until().is_some_and(|until| now < until) && self.peers().any(|peer| self.is_waited_for(peer))
    }

    /// Whether a peer is to execute the seal first: one that is reached, and where this replica leaves, one that stays.
    fn is_waited_for(&self, peer: u8) -> bool {
        let stays = self.generation.next_size.is_none_or(|size| !is_none_of(peer, size));
        let is_concerned = if self.leaves() { stays } else { self.is_reached(peer) };
        is_concerned && !self.others.has_sealed(peer, self.generation.number)
    }

    /// Whether this replica leaves, and too few of those that stay have reported that they have executed the seal.
    pub fn waits_for_majority(&self) -> bool {
        self.leaves() && !self.is_sealed_by_majority()
    }

    /// Whether a majority of those that take part in the next generation has reported that it has executed the seal of
    /// this one.
    fn is_sealed_by_majority(&self) -> bool {
        let size = self.generation.next_size.unwrap_or(self.place.replicas);
        let has_sealed = |replica: &u8| self.others.has_sealed(*replica, self.generation.number);
        self.peers().filter(|peer| !is_none_of(*peer, size)).filter(has_sealed).count() > size / 2
    }

    /// The peers that are reached in a generation that fits.
    pub fn ahead(&self, fits: impl Fn(u32) -> bool) -> Vec<u8> {
        self.reached().filter(|peer| fits(self.others.generation(*peer))).collect()
    }
}

/// Since when peers are known to be in a later generation.
#[derive(Default)]
pub struct Lag(Option<Instant>);

impl Lag {
    /// This replica lags no more, or is handed what it lacks.
    pub fn end(&mut self) {
        self.0 = None;
    }

    /// When one of them is asked.
    pub fn due(&self) -> Option<Instant> {
        self.0.map(|since| since + BEHIND)
    }

    /// Which of these, who are ahead, is asked for what this replica lacks. It may close by itself first.
    pub fn whom(&mut self, ahead: &[u8], random: &mut Random, now: Instant) -> Option<u8> {
        if ahead.is_empty() {
            self.end();
            return None;
        }
        let since = *self.0.get_or_insert(now);
        (now >= since + BEHIND).then(|| ahead[random.below(ahead.len() as u64) as usize])
    }
}

#[cfg(test)]
mod tests {
    use super::*;
    use crate::State;
    use crate::parts::frames::Head;
    use crate::parts::members::Member;
    use crate::parts::place::Place;

    #[test]
    fn who_has_not_executed_the_seal_is_waited_for() {
        let start = Instant::now();
        let of = |replica, next_size: Option<usize>, heard: &[(u8, u32, bool)]| {
            let state = State { generation: 2, is_sealed: true, ..State::default() };
            let mut it = Progress::new(Place { replicas: 5, replica }, state, 1, start).unwrap();
            it.generation.next_size = next_size;
            for &(peer, generation, is_sealed) in heard {
                it.links[usize::from(peer)] = true;
                it.others.hear(peer, generation, is_sealed);
            }
            it
        };
        let (early, late) = (start + MOST_WAIT_FOR_PEERS / 2, start + MOST_WAIT_FOR_PEERS);
        // Of who isn't reached nothing is known.
        let it = of(0, None, &[(1, 2, false), (2, 2, true)]);
        assert_eq!((it.serves_on(early), it.serves_on(late), it.served_until()), (true, false, Some(late)));
        assert!(!of(0, None, &[(1, 3, false), (2, 2, true)]).serves_on(early));
        // Who leaves waits longer, for those that stay, whether or not they are reached.
        let it = of(4, Some(3), &[(1, 2, true), (3, 2, true)]);
        let leaving = start + MOST_WAIT_AT_LEAVING;
        assert!(it.leaves() && it.serves_on(leaving) && !it.serves_on(start + MOST_WAIT_FOR_MAJORITY));
        assert!(it.waits_for_majority());
        let it = of(4, Some(3), &[(1, 2, true), (2, 2, true)]);
        assert!(it.serves_on(late) && !it.serves_on(leaving) && !it.waits_for_majority());
        let mut it = of(4, Some(3), &[(0, 3, false), (1, 2, true), (2, 2, true), (3, 2, false)]);
        assert!(!it.serves_on(early));
        it.generation.stage = Stage::Committed;
        assert!(it.served_until().is_none() && !it.serves_on(early));
        assert_eq!((it.ahead(|there| there >= 2), it.ahead(|there| there > 2)), (vec![0, 1, 2, 3], vec![0]));
    }

    #[test]
    fn the_seal_that_was_executed_says_who_goes_on() {
        let of = |size: usize| Members(vec![Member::default(); size]);
        let commit = |number: u8, members: &Members| {
            let value = members.write().into_bytes();
            let mut frame = vec![0; 44];
            frame[..4].copy_from_slice(&[0x45, 0x50, 3, 5]);
            (frame[22], frame[34]) = (number, 9);
            [&frame[..], &(value.len() as u32).to_be_bytes(), &value].concat()
        };
        for (executed, heard_last) in [(3, 5), (5, 3)] {
            let now = Instant::now();
            let mut it = Progress::new(Place { replicas: 5, replica: 4 }, State::default(), 1, now).unwrap();
            for (number, size) in [(1, executed), (2, heard_last)] {
                let frame = commit(number, &of(size));
                it.take_in(0, &Head::read(&frame).unwrap(), now);
            }
            // (before one is executed nobody leaves)
            assert!(it.generation.is_holding() && !it.leaves());
            it.note_sealed(Some(&of(executed)));
            assert_eq!(it.leaves(), executed == 3);
        }
    }

    #[test]
    fn a_majority_of_those_that_stay_has_executed_the_seal() {
        let mut it = Progress::new(Place { replicas: 7, replica: 5 }, State::default(), 1, Instant::now()).unwrap();
        it.generation.number = 2;
        let mut is_sealed_after = |size, peer, generation, is_sealed| {
            it.generation.next_size = size;
            it.hear_hello(peer, (generation, is_sealed, 0));
            it.is_sealed_by_majority()
        };
        assert!(
            !is_sealed_after(Some(3), 0, 2, true)
                && !is_sealed_after(Some(3), 1, 2, false)
                && !is_sealed_after(Some(3), 6, 3, false)
        );
        assert!(
            is_sealed_after(Some(3), 1, 3, false)
                && !is_sealed_after(Some(5), 3, 1, true)
                && !is_sealed_after(None, 3, 2, false)
        );
        assert!(is_sealed_after(None, 4, 2, true));
    }

    #[test]
    fn who_lags_asks_after_a_while() {
        let (start, mut random) = (Instant::now(), Random::from_seed(1));
        let mut it = Lag::default();
        assert_eq!((it.whom(&[2], &mut random, start), it.due()), (None, Some(start + BEHIND)));
        assert_eq!(it.whom(&[2], &mut random, start + BEHIND), Some(2));
        assert_eq!((it.whom(&[], &mut random, start + BEHIND), it.due()), (None, None));
        assert_eq!(it.whom(&[1, 2], &mut random, start + BEHIND), None);
    }
}
