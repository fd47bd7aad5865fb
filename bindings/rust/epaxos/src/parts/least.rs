//! The least of what was measured lately, as BBR has it of round trips.
use std::collections::VecDeque;
use std::time::{Duration, Instant};

/// So long what was measured counts, where nothing else is said.
const REMEMBERED: Duration = Duration::from_secs(60);
/// The window is divided into this many parts; of each only the least measurement is kept.
const PARTS: u32 = 30;
/// The least of so few may be no good one, as all of them may have met other work.
const FEWEST: u8 = 8;

/// The least of the last minute, or of another time.
#[derive(Clone)]
pub struct Least {
    remembered: Duration,
    /// When something was measured, and how long it took: each is less than all behind it.
    rising: VecDeque<(Instant, Duration)>,
    /// How many were measured, up to the fewest that count.
    count: u8,
}

impl Default for Least {
    fn default() -> Least {
        Least::of(REMEMBERED)
    }
}

impl Least {
    /// The least of so long a time.
    pub fn of(remembered: Duration) -> Least {
        Least { remembered, rising: VecDeque::new(), count: 0 }
    }

    /// Something took so long, which ended now.
    pub fn note(&mut self, took: Duration, now: Instant) {
        self.count = FEWEST.min(self.count + 1);
        while self.rising.front().is_some_and(|(at, _)| now >= *at + self.remembered) {
            self.rising.pop_front();
        }
        while self.rising.back().is_some_and(|(_, before)| *before >= took) {
            self.rising.pop_back();
        }
        if self.rising.back().is_none_or(|(at, _)| now >= *at + self.remembered / PARTS) {
            self.rising.push_back((now, took));
        }
    }

    /// The least. None: too few were measured.
    pub fn get(&self) -> Option<Duration> {
        (self.count == FEWEST).then(|| self.of_any())
    }

    /// The same of however few; nothing of none.
    pub fn of_any(&self) -> Duration {
        self.rising.front().map_or(Duration::ZERO, |(_, took)| *took)
    }
}

#[cfg(test)]
mod tests {
    use super::*;

    #[test]
    fn what_is_older_than_a_minute_is_forgotten() {
        let (start, mut it) = (Instant::now(), Least::default());
        let mut noted = |second: u64, took: u64| {
            it.note(Duration::from_millis(took), start + Duration::from_secs(second));
            assert!(it.rising.len() <= 31);
            it.get().map(|it| it.as_millis())
        };
        (1..=8).for_each(|count| assert_eq!(noted(0, 5), (count == 8).then_some(5)));
        assert_eq!([noted(10, 80), noted(30, 70), noted(31, 72), noted(59, 90)], [Some(5); 4]);
        assert_eq!([noted(60, 75), noted(89, 75)], [Some(70); 2]);
        // (what came soon after what is forgotten goes with it)
        assert_eq!([noted(90, 80), noted(91, 70), noted(92, 3), noted(200, 9)], [75, 70, 3, 9].map(Some));
        // Where each takes longer than the one before, what is kept is bounded.
        (201..999).for_each(|second| _ = noted(second, second));
        assert!((939..=942).contains(&noted(999, 999).unwrap()));
    }
}
