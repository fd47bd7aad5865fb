//! What is to happen, in the order of time, and of what was put in first.
use std::cmp::Reverse;
use std::collections::BinaryHeap;

/// What is to happen. Only times and places are put in order, as what happens may be large.
pub(super) struct Queue<T> {
    order: BinaryHeap<Reverse<(u64, u64, usize)>>,
    places: Vec<Option<T>>,
    free: Vec<usize>,
    /// How many were put in.
    count: u64,
}

impl<T> Queue<T> {
    pub(super) fn new() -> Queue<T> {
        Queue { order: BinaryHeap::new(), places: Vec::new(), free: Vec::new(), count: 0 }
    }

    pub(super) fn put(&mut self, at: u64, what: T) {
        self.count += 1;
        let place = self.free.pop().unwrap_or(self.places.len());
        if place == self.places.len() {
            self.places.push(None);
        }
        self.places[place] = Some(what);
        self.order.push(Reverse((at, self.count, place)));
    }

    /// What comes first, and when.
    pub(super) fn take(&mut self) -> Option<(u64, T)> {
        let Reverse((at, _, place)) = self.order.pop()?;
        self.free.push(place);
        self.places[place].take().map(|what| (at, what))
    }
}

#[cfg(test)]
mod tests {
    use super::*;

    #[test]
    fn what_comes_first_and_was_put_in_first_goes_first() {
        let mut queue = Queue::new();
        [(5, "e"), (1, "a"), (5, "f"), (1, "b")].into_iter().for_each(|(at, what)| queue.put(at, what));
        assert_eq!([queue.take(), queue.take()], [Some((1, "a")), Some((1, "b"))]);
        [(5, "g"), (2, "c"), (3, "d")].into_iter().for_each(|(at, what)| queue.put(at, what));
        let all: Vec<(u64, &str)> = std::iter::from_fn(|| queue.take()).collect();
        assert_eq!(all, [(2, "c"), (3, "d"), (5, "e"), (5, "f"), (5, "g")]);
        // (places are used again)
        assert!(queue.places.len() <= 5 && queue.free.len() == queue.places.len());
    }
}
