//! What is late in a cluster of a size that the library has not, as in tests: all that is open for a second or two.
use crate::parts::random::Random;
use crate::{Event, Instance};
use std::collections::BTreeMap;
use std::time::{Duration, Instant};

/// Each is waited for once to twice so long, again and again: longer than a round trip anywhere.
const WAIT: Duration = Duration::from_secs(1);
/// At most so many at once.
const MOST_LATE: usize = 64;

/// When each instance that is open is late.
pub struct Coarse {
    random: Random,
    dues: BTreeMap<Instance, Instant>,
}

impl Coarse {
    pub fn new(seed: u64) -> Coarse {
        Coarse { random: Random::from_seed(seed), dues: BTreeMap::new() }
    }

    /// What is late now, where just these are open.
    pub fn turn(&mut self, now: Instant, open: impl IntoIterator<Item = Instance>) -> Vec<Event<'static>> {
        let mut dues = BTreeMap::new();
        for instance in open {
            let due = self.dues.get(&instance).copied();
            dues.insert(instance, due.unwrap_or_else(|| now + self.random.from_once_to_twice(WAIT)));
        }
        self.dues = dues;
        let mut late = Vec::new();
        for (instance, due) in self.dues.iter_mut().filter(|(_, due)| **due <= now).take(MOST_LATE) {
            late.push(Event::Recover(*instance));
            *due = now + self.random.from_once_to_twice(WAIT);
        }
        late
    }

    /// When the next one is late.
    pub fn due(&self) -> Option<Instant> {
        self.dues.values().min().copied()
    }
}

#[cfg(test)]
mod tests {
    use super::*;

    #[test]
    fn what_stays_open_is_recovered_again_and_again() {
        let start = Instant::now();
        let [one, two] = [1, 2].map(|number| Instance { replica: 1, number });
        let mut it = Coarse::new(1);
        assert_eq!((it.turn(start, [one, two]), it.turn(start + WAIT / 2, [one, two])), (vec![], vec![]));
        assert!((start + WAIT..=start + 2 * WAIT).contains(&it.due().unwrap()));
        assert_eq!(it.turn(start + 2 * WAIT, [two]), [Event::Recover(two)]);
        assert_eq!(it.turn(start + 2 * WAIT, [two]), []);
        assert_eq!(it.turn(start + 4 * WAIT, [two]), [Event::Recover(two)]);
        assert_eq!((it.turn(start + 9 * WAIT, []), it.due()), (vec![], None));
    }
}
