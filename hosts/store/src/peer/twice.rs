//! Whether two processes have one replica's number and identity at once, as where its folder was copied while it ran,
//! and the copy is started on another machine.
//!
//! A greeting has its process's *start*, and its answer another start of the same number, where one has greeted since
//! the greeter had greeted before. As a process that has ended greets nobody any more, that other one runs beside it.
//! (One greeting may be read long after its process has ended; so the later start goes by a second such answer.)
use epaxos::parts::identity::by_chance;
use std::collections::HashMap;
use std::io;
use std::sync::atomic::{AtomicU32, Ordering};
use std::sync::{Mutex, PoisonError};
use std::time::{SystemTime, UNIX_EPOCH};

/// How many bytes a start has.
pub const LENGTH: usize = 16;
/// So many starts of a number are remembered.
const MOST: usize = 4;
/// After so many answers the later start ends.
const ENOUGH: u32 = 2;

/// A start of a process: when it was, in milliseconds since 1970 by its machine's clock, and eight bytes by chance. So
/// they are ordered as they were made, as far as clocks are right.
#[derive(Clone, Copy, PartialEq, Eq, PartialOrd, Ord, Debug)]
pub struct Start(pub [u8; LENGTH]);

impl Start {
    /// That of this process, which starts now.
    pub fn now() -> io::Result<Start> {
        let time = SystemTime::now().duration_since(UNIX_EPOCH).unwrap_or_default().as_millis() as u64;
        let mut bytes = by_chance()?;
        bytes[..8].copy_from_slice(&time.to_be_bytes());
        Ok(Start(bytes))
    }
}

/// The starts that have greeted this process, by their replicas' numbers: who greeted last is last.
#[derive(Default)]
pub struct Starts(Mutex<HashMap<u8, Vec<Start>>>);

impl Starts {
    /// A start of this number greets. The earliest other one that has greeted since this one did.
    pub fn greet(&self, number: u8, start: Start) -> Option<Start> {
        let mut all = self.0.lock().unwrap_or_else(PoisonError::into_inner);
        let of = all.entry(number).or_default();
        let place = of.iter().position(|it| *it == start);
        let since = place.and_then(|place| of[place + 1..].iter().min().copied());
        of.retain(|it| *it != start);
        of.push(start);
        if of.len() > MOST {
            of.remove(0);
        }
        since
    }
}

/// What a process does that isn't the only one of its number.
#[derive(Clone, Copy, PartialEq, Eq, Debug)]
pub enum Beside {
    /// It goes on, since it was started first. Whether that is new.
    GoesOn(bool),
    /// It isn't sure yet.
    Waits,
    /// It ends.
    Ends,
}

/// What a process has learnt of others of its number.
pub struct Others {
    own: Start,
    later: AtomicU32,
    earlier: AtomicU32,
}

impl Others {
    pub fn new(own: Start) -> Others {
        Others { own, later: AtomicU32::new(0), earlier: AtomicU32::new(0) }
    }

    pub fn own(&self) -> Start {
        self.own
    }

    /// A peer has told of another start.
    pub fn hear(&self, other: Start) -> Beside {
        if other > self.own {
            return Beside::GoesOn(self.later.fetch_add(1, Ordering::Relaxed) == 0);
        }
        let told = self.earlier.fetch_add(1, Ordering::Relaxed) + 1;
        if told < ENOUGH { Beside::Waits } else { Beside::Ends }
    }
}

#[cfg(test)]
mod tests {
    use super::*;

    fn starts() -> [Start; 3] {
        [1, 2, 3].map(|first| Start([first; LENGTH]))
    }

    #[test]
    fn starts_are_ordered_by_time() {
        let before = Start::now().unwrap();
        std::thread::sleep(std::time::Duration::from_millis(5));
        assert!(before < Start::now().unwrap());
    }

    #[test]
    fn who_comes_back_runs_beside_who_came_meanwhile() {
        let (it, [one, two, three]) = (Starts::default(), starts());
        // A replica that is started again and again; and one that loses its connections.
        assert_eq!([one, one, two, three, three].map(|start| it.greet(1, start)), [None; 5]);
        // Another number's starts are its own.
        assert_eq!([it.greet(2, one), it.greet(2, three)], [None; 2]);
        assert_eq!([it.greet(1, one), it.greet(1, three), it.greet(1, one)], [Some(two), Some(one), Some(three)]);
        // Few are remembered.
        (10..14).for_each(|first| _ = it.greet(1, Start([first; LENGTH])));
        assert_eq!(it.greet(1, one), None);
    }

    #[test]
    fn the_later_one_ends_and_is_sure_before() {
        let ([one, two, three], hear) = (starts(), |it: &Others, other| it.hear(other));
        let it = Others::new(two);
        assert_eq!([three, three].map(|other| hear(&it, other)), [Beside::GoesOn(true), Beside::GoesOn(false)]);
        assert_eq!([one, one].map(|other| hear(&it, other)), [Beside::Waits, Beside::Ends]);
    }
}
