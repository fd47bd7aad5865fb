//! How many commands may be in flight: as many as keep the waits for answers near the least, by the rule of FAST TCP.
use std::time::{Duration, Instant};

/// So many more than the way holds by itself are in flight, and wait in its queues. Enough for machines side by side to
/// have work at all times; and those queues stay short.
const QUEUED: usize = 32;
/// At most so many: what is cut off uses up no more numbers.
const MOST: usize = 1_000;

/// How many commands may be in flight.
pub struct Window {
    size: usize,
    /// When it changes next: once each round trip.
    next: Option<Instant>,
}

impl Default for Window {
    fn default() -> Window {
        Window { size: QUEUED, next: None }
    }
}

impl Window {
    pub fn size(&self) -> usize {
        self.size
    }

    /// So many are in flight, whose answers take at least so long, and take so long now. Of a window in which the way
    /// holds one part, the other part waits: that is to be as many as may wait. One that isn't used doesn't grow.
    pub fn look(&mut self, in_flight: usize, (least, takes): (Duration, Duration), now: Instant) {
        if self.next.is_some_and(|next| now < next) {
            return;
        }
        self.next = Some(now + takes);
        let (least, takes) = (least.as_micros().max(1), takes.max(least).as_micros().max(1));
        let size = MOST.min((self.size as u128 * least / takes) as usize + QUEUED);
        if size < self.size || 2 * in_flight > self.size {
            self.size = size;
        }
    }
}

#[cfg(test)]
mod tests {
    use super::*;

    /// Over a way that takes so many milliseconds at least, and lets so many through in each: how many are in flight in
    /// the end, where so many clients want to, and how many milliseconds answers take then.
    fn settled(least: u64, rate: u64, wanted: usize) -> (usize, u64) {
        let (start, mut it, mut waits) = (Instant::now(), Window::default(), 0);
        for round in 0..100 {
            let in_flight = it.size().min(wanted);
            waits = (least * 1_000).max(in_flight as u64 * 1_000 / rate);
            let of = Duration::from_micros;
            it.look(in_flight, (of(least * 1_000), of(waits)), start + Duration::from_secs(round));
        }
        (it.size().min(wanted), waits / 1_000)
    }

    #[test]
    fn what_waits_is_as_much_as_may() {
        // On one machine and over distance: what the way holds, and 32 more.
        assert_eq!(settled(1, 20, 9_999), (52, 2));
        assert_eq!(settled(70, 5, 9_999), (382, 76));
        // What all want fits, and takes no longer than it has to.
        assert_eq!(settled(70, 5, 300), (300, 70));
        // However far it is, no more than so many.
        assert_eq!(settled(300, 50, 9_999), (1_000, 300));
    }

    #[test]
    fn it_changes_once_each_round_trip_and_grows_where_it_is_used() {
        let (start, ms) = (Instant::now(), Duration::from_millis);
        let mut it = Window::default();
        let mut size = |in_flight, takes, at| {
            it.look(in_flight, (ms(10), ms(takes)), start + ms(at));
            it.size()
        };
        assert_eq!([size(32, 10, 0), size(64, 10, 9), size(64, 10, 10), size(48, 10, 20)], [64, 64, 96, 96]);
        assert_eq!([size(96, 40, 30), size(96, 40, 69), size(9, 40, 70)], [56, 56, 46]);
        // (an answer that takes no time at all)
        assert_eq!(size(46, 0, 200), 78);
    }
}
