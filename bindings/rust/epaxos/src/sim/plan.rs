//! What happens in a run, by a seed.
use super::mix::Mix;
use crate::Cluster;
use crate::parts::random::Random;
use std::fmt;

const MS: u64 = 1_000;
const S: u64 = 1_000_000;

/// All that a run goes by. The same plan gives the same run, to the byte.
///
/// ```
/// use epaxos::sim::Plan;
///
/// // ten clients who ask for one key
/// let plan = Plan { clients: 10, keys: 1, ..Plan::of_seed(1) };
/// # assert_eq!(plan.seed, 1);
/// ```
#[derive(Clone, PartialEq, Eq, Debug)]
pub struct Plan {
    /// Decides what is left to chance.
    pub seed: u64,
    /// How many hosts there are.
    pub cluster: Cluster,
    /// How many clients ask, each one thing at a time.
    pub clients: u32,
    /// How many keys there are.
    pub keys: u32,
    /// What they ask for.
    pub mix: Mix,
    /// How many commands and reads are asked for, by all clients.
    pub asks: u32,
    /// How long a client waits between two, up to, in microseconds.
    pub think: u64,
    /// How long frames take from each machine to each other one, in microseconds; each takes up to an eighth longer.
    pub delays: Vec<Vec<u64>>,
    /// So many of 1,000 frames are lost,
    pub lost: u64,
    /// so many come twice,
    pub twice: u64,
    /// and so many take up to ten times as long.
    pub late: u64,
    /// How long a sync takes at most, in microseconds.
    pub sync: u64,
    /// How many parts of 1,000 each machine's clock runs ahead or behind, at most.
    pub drift: u64,
    /// A generation has so many numbers.
    pub numbers: u16,
    /// An opening is written once logs have so many bytes.
    pub checkpoint: u64,
    /// So many writes go into one command at most.
    pub together: usize,
    /// So many of 1,000 questions are given up soon after they were asked.
    pub given_up: u64,
    /// Whether machines have identities, and are let in by somebody who runs the cluster.
    pub is_named: bool,
    /// What goes wrong, in the order of time.
    pub troubles: Vec<Trouble>,
}

/// Something that goes wrong.
///
/// ```
/// use epaxos::sim::{Plan, Trouble, What, run};
///
/// // a second after the begin machine 0 loses its power, for 300 ms
/// let crash = Trouble { at: 1_000_000, machine: 0, what: What::Crash, lasts: 300_000 };
/// let plan = Plan { troubles: vec![crash], ..Plan::of_seed(1) };
/// let (seen, failure) = run(&plan);
/// assert_eq!((seen.crashes, failure), (1, None));
/// ```
#[derive(Clone, PartialEq, Eq, Debug)]
pub struct Trouble {
    /// When, in microseconds since the run has begun.
    pub at: u64,
    /// At which machine.
    pub machine: u8,
    /// What.
    pub what: What,
    /// For how long, in microseconds.
    pub lasts: u64,
}

/// What goes wrong at a machine.
///
/// ```
/// use epaxos::sim::{Trouble, What};
///
/// let cut = Trouble { at: 1_000_000, machine: 0, what: What::Cut(2, true), lasts: 500_000 };
/// assert_eq!(cut.to_string(), "at 1000 ms machine 0 is cut off from 2, for 500 ms");
/// ```
#[derive(Clone, Copy, PartialEq, Eq, Debug)]
pub enum What {
    /// It loses its power: of what wasn't synced some is on its disk.
    Crash,
    /// The same, as soon as a generation begins on its disk: so many acts of that are done.
    CrashInChange(u8),
    /// It does nothing.
    Pause,
    /// Nothing goes from it to one other machine, nor comes from there. Whether both are notified that the link is
    /// lost.
    Cut(u8, bool),
    /// It loses its power, and so often again soon after each start, with calls under way that it was asked at once.
    CrashInCalls(u8),
    /// Nothing goes from it, nor comes to it.
    Apart(bool),
    /// The same of it and of one other machine, which reach one another.
    Split(u8, bool),
    /// It is gone for good, and another one takes its number.
    Replace,
    /// It loses its power, and comes back with an older copy of its disk. Where it notices that, it is replaced.
    Older(Age),
    /// Its disk says that all is on it and keeps nothing, and then it loses its power. No host is promised anything
    /// then: [`Plan::lying`].
    Lie,
    /// Somebody wishes the cluster to have so many machines.
    Resize(Cluster),
    /// It is asked to end, and ends once it has answered who asked, or after five seconds.
    End,
}

/// How much older a copy of a disk is. All others notice one that lacks entries that they have seen.
///
/// ```
/// use epaxos::sim::{Age, Trouble, What};
///
/// let older = Trouble { at: 1_000_000, machine: 0, what: What::Older(Age::Entries(1)), lasts: 0 };
/// # assert!(older.to_string().contains("older copy"));
/// ```
#[derive(Clone, Copy, PartialEq, Eq, Debug)]
pub enum Age {
    /// It was made three seconds before.
    Before,
    /// It lacks so many entries that all others have seen, or few more.
    Entries(u32),
    /// It lacks so many entries, or few more, and all others have left its generation before the machine comes back.
    Left(u32),
}

impl fmt::Display for Trouble {
    fn fmt(&self, f: &mut fmt::Formatter) -> fmt::Result {
        let (at, lasts) = (self.at / MS, self.lasts / MS);
        let what = match self.what {
            What::Crash => "loses its power".into(),
            What::CrashInChange(acts) => {
                format!("loses its power in a change of generation, of which {acts} acts are done")
            }
            What::CrashInCalls(times) => format!("loses its power, and {times} times more with calls under way"),
            What::Pause => "stands still".into(),
            What::Cut(other, is_reported) => {
                format!("is cut off from {other}{}", if is_reported { "" } else { " in silence" })
            }
            What::Apart(is_reported) => format!("is cut off from all{}", if is_reported { "" } else { " in silence" }),
            What::Split(other, is_reported) => {
                format!("is with {other} cut off from all others{}", if is_reported { "" } else { " in silence" })
            }
            What::Replace => "is replaced by another one".into(),
            What::Older(age) => format!("loses its power, and comes back with an older copy of its disk: {age:?}"),
            What::Lie => "has a disk that says what isn't so".into(),
            What::End => "is told to end".into(),
            What::Resize(cluster) => return write!(f, "at {at} ms {} machines are wished for", cluster.replicas()),
        };
        write!(f, "at {at} ms machine {} {what}, for {lasts} ms", self.machine)
    }
}

/// What decides a run, a line each.
impl fmt::Display for Plan {
    fn fmt(&self, f: &mut fmt::Formatter) -> fmt::Result {
        let Plan { cluster, clients, asks, keys, given_up, lost, twice, late, drift, numbers, .. } = self;
        let machines = cluster.replicas();
        write!(f, "{machines} machines, {clients} clients, {asks} questions, {keys} keys; ")?;
        writeln!(f, "of 1,000 questions {given_up} given up")?;
        write!(f, "of 1,000 frames {lost} lost, {twice} twice, {late} late; clocks {drift} of 1,000 apart; ")?;
        write!(f, "{numbers} numbers")?;
        self.troubles.iter().try_for_each(|trouble| write!(f, "\n{trouble}"))
    }
}

/// Round trips between five regions of EC2, in milliseconds: CA, VA, EU, OR, JP.
const REGIONS: [[u64; 5]; 5] = [
    [0, 72, 151, 59, 113],
    [72, 0, 88, 93, 162],
    [151, 88, 0, 145, 220],
    [59, 93, 145, 0, 121],
    [113, 162, 220, 121, 0],
];

impl Plan {
    /// That of a seed: a cluster near or far, with or without loss, and up to a dozen troubles; one in eight has none,
    /// and loses nothing; in one of four many clients ask at once.
    ///
    /// ```
    /// use epaxos::sim::Plan;
    ///
    /// assert_eq!(Plan::of_seed(7), Plan::of_seed(7));
    /// assert_ne!(Plan::of_seed(7), Plan::of_seed(8));
    /// ```
    pub fn of_seed(seed: u64) -> Plan {
        let mut random = Random::from_seed(mixed(seed));
        let cluster = [Cluster::Three, Cluster::Three, Cluster::Five, Cluster::Three, Cluster::Five, Cluster::Seven]
            [random.below(6) as usize];
        let is_calm = random.below(8) == 0;
        let delays = delays(&mut random, 7);
        let rate = |random: &mut Random, most| if is_calm || random.below(2) == 0 { 0 } else { random.below(most) };
        let asks = 100 + random.below(300) as u32;
        let think = [5 * MS, 50 * MS, 500 * MS][random.below(3) as usize];
        let mut plan = Plan {
            seed,
            cluster,
            clients: 2 + random.below(10) as u32,
            keys: 1 + random.below(6) as u32,
            mix: Mix::default(),
            asks,
            think,
            delays,
            lost: rate(&mut random, 60),
            twice: rate(&mut random, 60),
            late: rate(&mut random, 60),
            sync: [200, 2 * MS, 20 * MS][random.below(3) as usize],
            drift: random.below(3) * 50,
            numbers: [20, 60, 8_000][random.below(3) as usize],
            checkpoint: [1, 4_000, 40_000][random.below(3) as usize],
            together: [1, 3, 16][(mixed(seed ^ 0x7065) % 3) as usize],
            given_up: if mixed(seed ^ 0x7567) % 4 == 0 { 100 } else { 0 },
            is_named: mixed(seed ^ 0x6964) % 2 == 0,
            troubles: Vec::new(),
        };
        if mixed(seed ^ 0x6372) % 4 == 0 {
            plan.crowd();
        }
        if !is_calm {
            let length = (u64::from(asks / plan.clients) * (think + 100 * MS)).max(3 * S);
            let count = 1 + random.below(12);
            plan.troubles = (0..count).map(|_| plan.trouble(&mut random, length)).collect();
            plan.troubles.sort_by_key(|trouble| trouble.at);
            plan.end();
            plan.resize();
            plan.set_back();
            plan.split();
        }
        plan
    }

    /// Where there are five machines or more at last, some that would be cut off from all are so with another one.
    fn split(&mut self) {
        let resized = self
            .troubles
            .iter()
            .map(|trouble| if let What::Resize(cluster) = trouble.what { cluster } else { self.cluster });
        let most = resized.map(Cluster::replicas).max().unwrap_or_default();
        for (number, trouble) in (0..).zip(&mut self.troubles).filter(|_| most > 3) {
            let chance = mixed(self.seed ^ number << 32 ^ 0x7370);
            if let What::Apart(is_reported) = trouble.what
                && chance % 2 == 0
            {
                let other = (trouble.machine + 1 + (chance >> 8) as u8 % 4) % 5;
                trouble.what = What::Split(other, is_reported);
            }
        }
    }

    /// In one plan of four some that would lose their power are asked to end.
    fn end(&mut self) {
        let is_one = mixed(self.seed ^ 0x6c61) % 4 == 0;
        for (number, trouble) in (0..).zip(&mut self.troubles).filter(|_| is_one) {
            if trouble.what == What::Crash && mixed(self.seed ^ number << 32 ^ 0x6c61) % 4 > 0 {
                trouble.what = What::End;
            }
        }
    }

    /// Some of what goes wrong is a wish for another number of machines instead.
    fn resize(&mut self) {
        for (number, trouble) in (0..).zip(&mut self.troubles).filter(|_| self.is_named) {
            let chance = mixed(self.seed ^ number << 32 ^ 0x7369);
            if chance % 4 == 0 {
                trouble.what =
                    What::Resize([Cluster::Three, Cluster::Five, Cluster::Seven][(chance >> 8) as usize % 3]);
            }
        }
    }

    /// Of the older copies three in four are older by a number of entries: one, or up to a hundred.
    fn set_back(&mut self) {
        for (number, trouble) in (0..).zip(&mut self.troubles) {
            if trouble.what == What::Older(Age::Before) {
                let chance = mixed(self.seed ^ number << 32 ^ 0x6167);
                let most = 1 + (chance >> 8) as u32 % 100;
                let ages = [Age::Before, Age::Entries(1), Age::Entries(most), Age::Left(most)];
                trouble.what = What::Older(ages[chance as usize % 4]);
            }
        }
    }

    /// More ask, and for more: so some of it waits while a disk is at work, and goes into one command.
    fn crowd(&mut self) {
        (self.clients, self.keys) = (self.clients + 30, self.keys + 6);
        (self.asks, self.think) = (self.asks * 2, 5 * MS);
    }

    /// The same, in which the first thing that goes wrong, and some of the others, is a disk that lies: what it says is
    /// there is lost with the machine's power. A replica then has forgotten what it has sent, against which nothing is
    /// promised. So what isn't right from then on is no failure: [`Seen`](super::Seen) counts what noticed it.
    ///
    /// ```
    /// use epaxos::sim::{Plan, What, run};
    ///
    /// let plan = Plan::of_seed(1).lying();
    /// assert_eq!(plan.troubles[0].what, What::Lie);
    /// let (seen, failure) = run(&plan);
    /// assert_eq!(failure, None);
    /// assert!(seen.lies_noticed + seen.lies_unseen <= seen.lies);
    /// ```
    pub fn lying(mut self) -> Plan {
        for (number, trouble) in (0..).zip(&mut self.troubles) {
            if number == 0 || mixed(self.seed ^ number << 32 ^ 0x6c69) % 4 == 0 {
                trouble.what = What::Lie;
            }
        }
        self
    }

    fn trouble(&self, random: &mut Random, length: u64) -> Trouble {
        let replicas = u64::from(self.cluster.replicas());
        let machine = random.below(replicas) as u8;
        let other = ((u64::from(machine) + 1 + random.below(replicas - 1)) % replicas) as u8;
        let what = match random.below(20) {
            0..4 => What::Crash,
            4..7 => What::CrashInChange(random.below(5) as u8),
            7..9 => What::Pause,
            9..11 => What::Cut(other, random.below(2) == 0),
            11..13 => What::Apart(random.below(2) == 0),
            13..15 => What::Replace,
            15..17 => What::CrashInCalls(1 + random.below(3) as u8),
            _ => What::Older(Age::Before),
        };
        let lasts = [20 * MS, 300 * MS, 2 * S, 8 * S][random.below(4) as usize];
        Trouble { at: S + random.below(length), machine, what, lasts: lasts + random.below(lasts) }
    }

    /// A day of a cluster of five in five regions, whose clients ask for so much, with a trouble an hour.
    ///
    /// ```
    /// # use epaxos::sim::Plan;
    /// assert_eq!(Plan::day(1, 10_000).troubles.len(), 24);
    /// ```
    pub fn day(seed: u64, asks: u32) -> Plan {
        let mut random = Random::from_seed(mixed(seed));
        let (clients, day) = (20, 86_400 * S);
        let delays = (0..5).map(|from| (0..5).map(|to| REGIONS[from][to] * 500 + 200).collect()).collect();
        let mut plan = Plan {
            seed,
            cluster: Cluster::Five,
            clients,
            keys: 1_000,
            mix: Mix::default(),
            asks,
            think: (day / u64::from(asks.div_ceil(clients))).saturating_sub(100 * MS) * 2,
            delays,
            lost: 1,
            twice: 1,
            late: 1,
            sync: 2 * MS,
            drift: 0,
            numbers: 1_000,
            checkpoint: 4 << 20,
            together: 16,
            given_up: 10,
            is_named: false,
            troubles: Vec::new(),
        };
        plan.troubles = (0..24).map(|_| plan.trouble(&mut random, day)).collect();
        plan.troubles.sort_by_key(|trouble| trouble.at);
        plan.set_back();
        plan
    }

    /// How many machines there are, those too that come in later.
    ///
    /// ```
    /// use epaxos::Cluster;
    /// use epaxos::sim::Plan;
    ///
    /// let plan = Plan { cluster: Cluster::Five, troubles: Vec::new(), ..Plan::of_seed(1) };
    /// assert_eq!(plan.machines(), 5);
    /// ```
    pub fn machines(&self) -> u8 {
        let is_resize = |trouble: &Trouble| matches!(trouble.what, What::Resize(_));
        if self.troubles.iter().any(is_resize) { 7 } else { self.cluster.replicas() }
    }

    /// Whether nothing goes wrong in it.
    ///
    /// ```
    /// # use epaxos::sim::Plan;
    /// assert!((1..100).any(|seed| Plan::of_seed(seed).is_calm()));
    /// ```
    pub fn is_calm(&self) -> bool {
        self.troubles.is_empty() && self.lost + self.twice + self.late == 0
    }
}

/// Seeds that stand side by side give plans that have nothing in common.
pub(super) fn mixed(seed: u64) -> u64 {
    let seed = seed.wrapping_add(0x9e37_79b9_7f4a_7c15);
    let seed = (seed ^ (seed >> 30)).wrapping_mul(0xbf58_476d_1ce4_e5b9);
    let seed = (seed ^ (seed >> 27)).wrapping_mul(0x94d0_49bb_1331_11eb);
    seed ^ (seed >> 31)
}

fn delays(random: &mut Random, replicas: u8) -> Vec<Vec<u64>> {
    let is_far = random.below(3) == 0;
    let near = [50, 500, 5 * MS][random.below(3) as usize];
    let of = |from: usize, to: usize| if is_far { REGIONS[from % 5][to % 5] * 500 + 200 } else { near };
    (0..usize::from(replicas)).map(|from| (0..usize::from(replicas)).map(|to| of(from, to)).collect()).collect()
}
