//! What was seen of a run.
use std::ops::AddAssign;
use std::time::Duration;

/// What was seen of a run, or of several.
///
/// ```
/// use epaxos::sim::Seen;
///
/// let mut all = Seen { asks: 1, ..Seen::default() };
/// all += Seen { asks: 2, ..Seen::default() };
/// assert_eq!(all.asks, 3);
/// ```
#[derive(Clone, Copy, Default, PartialEq, Eq, Debug)]
pub struct Seen {
    /// How long it took, by the run's own clock.
    pub time: Duration,
    /// What was asked for, commands and reads.
    pub asks: u64,
    /// How many of these were answered.
    pub told: u64,
    /// How many were refused.
    pub refused: u64,
    /// How many of these their clients had given up.
    pub given_up: u64,
    /// Commands that were executed.
    pub commands: u64,
    /// Questions that went into commands with others.
    pub together: u64,
    /// The generations that the last one came to.
    pub generations: u64,
    /// Starts of machines.
    pub starts: u64,
    /// Machines that lost their power.
    pub crashes: u64,
    /// Machines that were asked to end, and had answered all who asked by then.
    pub ended: u64,
    /// Machines that were replaced.
    pub replaced: u64,
    /// Wishes for another number of machines that were granted.
    pub resized: u64,
    /// Machines that came back with an older copy of their disks.
    pub copies: u64,
    /// How many of these a host has noticed.
    pub older: u64,
    /// Disks that had lied, and lost what they had said was there.
    pub lies: u64,
    /// How many of these a host has noticed: peers say what it has forgotten, or what is on its disk isn't whole.
    pub lies_noticed: u64,
    /// How many of these nobody has noticed, in runs that were right all the same.
    pub lies_unseen: u64,
    /// Runs with such disks that the program `epaxos` refuses.
    pub lies_refused: u64,
    /// Runs with such disks that weren't right by anything else.
    pub lies_found: u64,
    /// Generations that the program `epaxos` has audited.
    pub audited: u64,
    /// Frames that were sent.
    pub frames: u64,
    /// Turns of hosts.
    pub turns: u64,
    /// All that happened.
    pub events: u64,
    /// A digest of all that came, and of all that was answered: the same plan gives the same one.
    pub digest: u64,
}

impl Seen {
    /// Something has come, or was answered.
    pub(super) fn note(&mut self, head: &[u8], bytes: &[u8]) {
        // (FNV-1a, by words)
        let mut add = |word: u64| self.digest = (self.digest ^ word).wrapping_mul(0x100_0000_01b3).rotate_left(29);
        let word = |first: u64, bytes: &[u8]| bytes.iter().fold(first, |word, byte| word << 8 | u64::from(*byte));
        let (words, rest) = bytes.as_chunks::<8>();
        words.iter().for_each(|word| add(u64::from_le_bytes(*word)));
        add(word(0, rest));
        add(word(bytes.len() as u64, head));
    }
}

impl AddAssign for Seen {
    fn add_assign(&mut self, other: Seen) {
        self.time += other.time;
        self.asks += other.asks;
        self.told += other.told;
        self.refused += other.refused;
        self.given_up += other.given_up;
        self.commands += other.commands;
        self.together += other.together;
        self.generations += other.generations;
        self.starts += other.starts;
        self.crashes += other.crashes;
        self.ended += other.ended;
        self.replaced += other.replaced;
        self.resized += other.resized;
        self.copies += other.copies;
        self.older += other.older;
        self.lies += other.lies;
        self.lies_noticed += other.lies_noticed;
        self.lies_unseen += other.lies_unseen;
        self.lies_refused += other.lies_refused;
        self.lies_found += other.lies_found;
        self.audited += other.audited;
        self.frames += other.frames;
        self.turns += other.turns;
        self.events += other.events;
        self.digest = self.digest.rotate_left(1) ^ other.digest;
    }
}
