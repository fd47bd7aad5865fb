//! The generation that a replica is in: what of it is used up, and how far it is with its end.
use crate::{MOST_COMMANDS, State};
use std::time::{Duration, Instant};

/// A seal that isn't committed for so long is proposed again, and after twice as long each time, up to the longest.
const SEAL_PATIENCE: Duration = Duration::from_millis(500);
const LONGEST_SEAL_PATIENCE: Duration = Duration::from_secs(4);
/// A change of generation may take at most one part in so many of the time.
const SHARE_OF_CHANGES: u32 = 10;
/// From so many own numbers on it is sealed whatever a change takes,
const URGENT: u16 = MOST_COMMANDS - 100;
/// and from so many times the limit of dependencies on.
const URGENT_TIMES: u16 = 3;

/// When a generation is to be sealed: where one of these is reached.
#[derive(Clone, Copy, PartialEq, Eq, Debug)]
pub struct Limits {
    /// Own numbers.
    pub numbers: u16,
    /// Dependencies of an own command.
    pub dependencies: u16,
    /// Bytes of the log.
    pub log: u64,
}

/// How far it is with its end.
#[derive(Clone, Copy, PartialEq, Eq, Debug)]
pub enum Stage {
    Open,
    /// A seal is under way since then.
    Sealing(Instant),
    /// One is committed, and not executed here.
    Committed,
    /// One was executed here, then.
    Sealed(Instant),
}

/// The present generation.
pub struct Generation {
    pub number: u32,
    /// The number that the last own proposal took; and where seals count too, whose numbers stand above.
    pub used: u16,
    pub last: u16,
    /// The most that an own command has.
    pub dependencies: u16,
    /// How many entries the log has, and had when this replica went on with it.
    pub entries: u32,
    pub first_entries: u32,
    /// How many bytes the log had when it was last looked at.
    pub log: u64,
    pub stage: Stage,
    /// Whether its end was asked for.
    pub is_asked: bool,
    /// Whether commands wait for room in the map that the next generation shares out.
    pub is_short: bool,
    /// How many replicas go on, where a seal was executed that says so.
    pub next_size: Option<usize>,
    pub begun: Instant,
    /// When it may be sealed first, but where it is urgent.
    pub least: Instant,
    /// For how long a seal is waited for now.
    patience: Duration,
}

impl Generation {
    /// That of a node which has just begun to serve it. The change to it took so long.
    pub fn new(state: State, cost: Duration, now: Instant) -> Generation {
        Generation {
            number: state.generation,
            used: state.used,
            last: state.used,
            dependencies: state.dependencies,
            entries: state.entries,
            first_entries: state.entries,
            log: 0,
            stage: if state.is_sealed { Stage::Sealed(now) } else { Stage::Open },
            is_asked: false,
            is_short: false,
            next_size: None,
            begun: now,
            least: now + cost * SHARE_OF_CHANGES,
            patience: SEAL_PATIENCE,
        }
    }

    /// Whether what clients propose is held until the next generation. A seal that is under way stops nobody.
    pub fn is_holding(&self) -> bool {
        matches!(self.stage, Stage::Committed | Stage::Sealed(_))
    }

    /// Whether so many more commands have numbers.
    pub fn has_room(&self, more: usize) -> bool {
        usize::from(self.used) + more < usize::from(MOST_COMMANDS)
    }

    pub fn is_sealed(&self) -> bool {
        matches!(self.stage, Stage::Sealed(_))
    }

    /// Whether this replica is to propose a seal. While its opening is used it waits for as long as there are numbers.
    pub fn wants_seal(&self, limits: &Limits, is_opening_used: bool, now: Instant) -> bool {
        let is_free = match self.stage {
            Stage::Open => true,
            Stage::Sealing(since) => now >= since + self.patience,
            Stage::Committed | Stage::Sealed(_) => false,
        };
        let is_long = self.used >= limits.numbers || self.dependencies >= limits.dependencies || self.log >= limits.log;
        let is_full = is_long || self.is_short;
        let is_urgent = self.used >= URGENT || self.dependencies >= limits.dependencies.saturating_mul(URGENT_TIMES);
        is_free && (self.is_asked || is_urgent || (is_full && !is_opening_used && now >= self.least))
    }

    /// A seal is under way.
    pub fn note_seal(&mut self, now: Instant) {
        match self.stage {
            Stage::Open => self.stage = Stage::Sealing(now),
            Stage::Sealing(since) if now >= since + self.patience => {
                self.stage = Stage::Sealing(now);
                self.patience = LONGEST_SEAL_PATIENCE.min(self.patience * 2);
            }
            _ => {}
        }
    }

    /// The seal that was under way was lost.
    pub fn lose_seal(&mut self) {
        if let Stage::Sealing(_) = self.stage {
            self.stage = Stage::Open;
        }
    }

    /// A seal is committed: whether that is new.
    pub fn commit_seal(&mut self) -> bool {
        let is_new = !matches!(self.stage, Stage::Committed | Stage::Sealed(_));
        if is_new {
            self.stage = Stage::Committed;
        }
        is_new
    }
}

#[cfg(test)]
mod tests {
    use super::*;

    const LIMITS: Limits = Limits { numbers: 1_000, dependencies: 300, log: 1 << 20 };

    fn at(used: u16, dependencies: u16, now: Instant) -> Generation {
        let state = State { generation: 3, used, dependencies, ..State::default() };
        Generation::new(state, Duration::from_millis(50), now)
    }

    #[test]
    fn what_is_reached_seals() {
        let start = Instant::now();
        let now = start + Duration::from_millis(500);
        let wants = |used, dependencies, log| {
            let mut it = at(used, dependencies, start);
            it.log = log;
            it.wants_seal(&LIMITS, false, now)
        };
        assert!(!wants(999, 299, (1 << 20) - 1));
        assert!(wants(1_000, 0, 0) && wants(0, 300, 0) && wants(0, 0, 1 << 20));
        // A change took 50 ms, so that the next one comes 500 ms later at the earliest, but where numbers run out.
        assert!(!at(1_500, 300, start).wants_seal(&LIMITS, false, start + Duration::from_millis(499)));
        assert!(at(8_890, 0, start).wants_seal(&LIMITS, true, start));
        assert!(at(0, 900, start).wants_seal(&LIMITS, true, start));
        // While its opening is used a generation is longer.
        assert!(!at(1_500, 300, start).wants_seal(&LIMITS, true, now));
        let mut short = at(0, 0, start);
        short.is_short = true;
        assert!(!short.wants_seal(&LIMITS, false, start) && short.wants_seal(&LIMITS, false, now));
        let mut asked = at(0, 0, start);
        asked.is_asked = true;
        assert!(asked.wants_seal(&LIMITS, true, start));
    }

    #[test]
    fn a_seal_goes_its_way() {
        let start = Instant::now();
        let later = start + SEAL_PATIENCE;
        let mut it = at(1_900, 0, start);
        it.note_seal(start);
        // It stops nobody.
        assert!(!it.is_holding() && !it.wants_seal(&LIMITS, false, start));
        // It seems lost.
        assert!(!it.is_holding() && it.wants_seal(&LIMITS, false, later));
        it.note_seal(later);
        assert_eq!(it.stage, Stage::Sealing(later));
        // The next one is waited for twice as long.
        assert!(!it.wants_seal(&LIMITS, false, later + SEAL_PATIENCE));
        assert!(it.wants_seal(&LIMITS, false, later + SEAL_PATIENCE * 2));
        it.lose_seal();
        assert_eq!(it.stage, Stage::Open);
        assert!(it.commit_seal() && !it.commit_seal());
        it.lose_seal();
        assert!(it.is_holding() && !it.wants_seal(&LIMITS, false, later));
        it.stage = Stage::Sealed(later);
        assert!(!it.commit_seal() && it.is_sealed());
    }

    #[test]
    fn numbers_end() {
        assert!(at(8_988, 0, Instant::now()).has_room(1));
        assert!(!at(8_988, 0, Instant::now()).has_room(2));
    }
}
