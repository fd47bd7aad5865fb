//! How much the map may grow, where it is bounded, so that it never passes what it may have: a generation begins with a
//! map whose length all know, and each replica's commands may add its share of the room that there is then. What a
//! command has changed its answer says, so nothing is estimated.
use crate::parts::opening::OF_A_KEY;
use crate::{Answer, Command, Item, OwnedCommand, Tx, Values};
use std::time::{Duration, Instant};

/// Where a generation begins with one part in so many of room at least, the next one may share out what is left; with
/// less the map is full.
const LEAST_PART: u64 = 16;
/// Where the map is full, the next generation shows what others have deleted, so long after the present one has begun.
pub const FULL_PAUSE: Duration = Duration::from_secs(30);

/// What comes of a command.
#[derive(Clone, Copy, PartialEq, Eq, Debug)]
pub enum Judgement {
    Fits,
    /// It may fit once those that are under way are answered.
    Waits,
    /// It fits in the next generation, maybe.
    NextGeneration,
    Full,
}

impl Judgement {
    /// Whether a generation that began then is to end for it.
    pub fn ends(self, begun: Instant, now: Instant) -> bool {
        match self {
            Judgement::NextGeneration => true,
            // (others may have deleted something since it began)
            Judgement::Full => now >= begun + FULL_PAUSE,
            Judgement::Fits | Judgement::Waits => false,
        }
    }
}

/// The room of a generation.
#[derive(Default)]
pub struct Room {
    /// How many bytes the map may have, where that is bounded.
    most: Option<u64>,
    /// How many it had when the generation began.
    pub map: u64,
    /// A replica's share of the room that there was then.
    fresh: i64,
    /// By how many bytes this replica's commands may make the map longer,
    share: i64,
    /// by how many those that were answered have,
    grown: i64,
    /// and those may that are under way.
    reserved: i64,
}

impl Room {
    pub fn new(most: Option<u64>) -> Room {
        Room { most, ..Room::default() }
    }

    /// A generation begins, of so many replicas.
    pub fn begin(&mut self, map: u64, replicas: usize) {
        let share = self.most.map_or(0, |most| most.saturating_sub(map)) / replicas.max(1) as u64;
        *self = Room { map, fresh: signed(share), share: signed(share), ..Room::new(self.most) };
    }

    /// This replica goes on with a generation, and has forgotten what its commands have added.
    pub fn resume(&mut self, map: u64, replicas: usize) {
        self.begin(map, replicas);
        self.share = 0;
    }

    /// What comes of a command that is to be proposed.
    pub fn judge(&self, command: &OwnedCommand) -> Judgement {
        let (Some(most), cost @ 1..) = (self.most, cost(command)) else { return Judgement::Fits };
        if self.grown + self.reserved + cost <= self.share {
            Judgement::Fits
        } else if self.grown + cost <= self.share {
            Judgement::Waits
        } else if cost <= self.fresh && most.saturating_sub(self.map) >= most / LEAST_PART {
            Judgement::NextGeneration
        } else {
            Judgement::Full
        }
    }

    /// A command is proposed.
    pub fn reserve(&mut self, command: &OwnedCommand) {
        self.reserved += cost(command);
    }

    /// It was answered, or is not under way any more.
    pub fn settle(&mut self, command: &OwnedCommand, answer: Option<&Answer>) {
        self.reserved -= cost(command);
        self.grown += answer.map_or(0, |answer| growth(&command.lent(), answer));
    }
}

fn signed(bytes: u64) -> i64 {
    i64::try_from(bytes).unwrap_or(i64::MAX / 4)
}

/// What a key takes that has this value.
fn length(key: &[u8], value: Option<&[u8]>) -> i64 {
    value.map_or(0, |value| signed(OF_A_KEY + key.len() as u64 + value.len() as u64))
}

/// By how many bytes a command may make the map longer. (What a `put` finds isn't known before.)
fn cost(command: &OwnedCommand) -> i64 {
    match command {
        OwnedCommand::Put { key, value } => length(key, Some(value)),
        OwnedCommand::Cas { key, expected, new } => {
            (length(key, new.as_deref()) - length(key, expected.as_deref())).max(0)
        }
        OwnedCommand::Tx(tx) => {
            let of = |item: Item| match (item.written, item.required) {
                (Some(new), before) => (length(item.key, new) - length(item.key, before.flatten())).max(0),
                (None, _) => 0,
            };
            tx.items().map(of).sum()
        }
        _ => 0,
    }
}

/// By how many bytes a command has made it longer, which was answered so.
pub(crate) fn growth(command: &Command, answer: &Answer) -> i64 {
    if let (Command::Tx(tx), Answer::Done(values)) = (command, answer) {
        return growth_of(tx, values);
    }
    let before = match answer {
        Answer::Present(value) => Some(*value),
        Answer::Absent => None,
        // (it wasn't done)
        _ => return 0,
    };
    match *command {
        Command::Put { key, value } => length(key, Some(value)) - length(key, before),
        Command::Del { key } => -length(key, before),
        Command::Cas { key, expected, new } if expected == before => length(key, new) - length(key, before),
        _ => 0,
    }
}

/// Likewise of one over many keys that was done. What is written to more keys than it reports, and had nothing
/// required of it, counts as new: so the map has grown by this at most.
fn growth_of(tx: &Tx, values: &Values) -> i64 {
    let mut values = values.iter();
    let of = |item: Item| {
        let reported = if item.is_told { values.next().flatten() } else { None };
        let before = item.required.unwrap_or(reported);
        item.written.map_or(0, |new| length(item.key, new) - length(item.key, before))
    };
    tx.items().map(of).sum()
}

#[cfg(test)]
mod tests {
    use super::*;
    use crate::parts::map::{Map, execute};
    use crate::parts::random::Random;
    use crate::{OwnedAnswer, OwnedValues};

    fn put(key: &str, length: usize) -> OwnedCommand {
        OwnedCommand::Put { key: key.into(), value: vec![1; length] }
    }

    fn del(key: &str) -> OwnedCommand {
        OwnedCommand::Del { key: key.into() }
    }

    #[test]
    fn a_share_is_used_up() {
        let mut room = Room::new(Some(3_100));
        room.begin(100, 3);
        // A key of a byte with a value of 494 takes 500 of 1,000.
        let (first, second, small) = (put("a", 494), put("b", 494), put("c", 0));
        assert_eq!(room.judge(&first), Judgement::Fits);
        room.reserve(&first);
        room.reserve(&second);
        assert_eq!((room.judge(&small), room.judge(&del("a"))), (Judgement::Waits, Judgement::Fits));
        // The first one has changed nothing in length.
        room.settle(&first, Some(&Answer::Present(&[2; 494])));
        assert_eq!(room.judge(&first), Judgement::Fits);
        room.settle(&second, Some(&Answer::Absent));
        room.reserve(&first);
        room.settle(&first, Some(&Answer::Absent));
        assert_eq!(room.judge(&small), Judgement::NextGeneration);
        // What isn't done adds nothing.
        room.settle(&put("d", 9), Some(&Answer::Closed));
        room.reserve(&put("d", 9));
        assert_eq!(room.judge(&small), Judgement::NextGeneration);
        let gone = del("a");
        room.reserve(&gone);
        room.settle(&gone, Some(&Answer::Present(&[1; 494])));
        assert_eq!(room.judge(&first), Judgement::Fits);
        // Compared values change by what they differ in.
        let longer = OwnedCommand::Cas { key: b"b".into(), expected: Some(vec![1; 494]), new: Some(vec![1; 994]) };
        let shorter = OwnedCommand::Cas { key: b"b".into(), expected: Some(vec![1; 494]), new: None };
        assert_eq!((cost(&longer), cost(&shorter)), (500, 0));
        assert_eq!(growth(&longer.lent(), &Answer::Present(&[2; 494])), 0);
        assert_eq!(growth(&shorter.lent(), &Answer::Present(&[1; 494])), -500);
        // After a start nobody knows what was added: the next generation shows it.
        room.resume(100, 3);
        assert_eq!((room.judge(&small), room.judge(&del("a"))), (Judgement::NextGeneration, Judgement::Fits));
        // A sixteenth is left, and less; or no share of it takes the command.
        for (map, of, judged) in [
            (2_900, &small, Judgement::NextGeneration),
            (2_900, &first, Judgement::Full),
            (2_910, &small, Judgement::Full),
            (9_999, &small, Judgement::Full),
        ] {
            room.resume(map, 3);
            assert_eq!(room.judge(of), judged);
        }
        let mut any = Room::new(None);
        any.begin(1 << 60, 3);
        assert_eq!(any.judge(&first), Judgement::Fits);
    }

    #[test]
    fn of_several_keys_each_counts() {
        let tx = Command::tx().require(b"a", &[1; 10]).put(b"a", &[1; 30]).tell(b"b").put(b"b", &[1; 5]);
        let command = tx.put(b"c", &[1; 5]).del(b"d").tell(b"d").build().unwrap();
        // A key of a byte takes six with its value: a gets 20 longer, b and c may be new.
        assert_eq!(cost(&command), 20 + 11 + 11);
        let values = OwnedValues::new([Some(vec![1; 7]), Some(vec![1; 4])]).unwrap();
        let growth = |answer: OwnedAnswer| growth(&command.lent(), &answer.lent());
        // (b had 2 more, c counts as new, and d had 10)
        assert_eq!(growth(OwnedAnswer::Done(values.clone())), 20 - 2 + 11 - 10);
        assert_eq!(growth(OwnedAnswer::Undone(values)), 0);
    }

    /// Replicas in turns, whose commands are done on one map in another order than they were judged in.
    #[test]
    fn the_map_never_passes_what_it_may_have() {
        let most = 4_000;
        let bytes = |map: &Map| map.iter().map(|(key, value)| length(key, Some(value))).sum::<i64>() as u64;
        for seed in 1..50 {
            let (mut random, mut map, mut greatest) = (Random::from_seed(seed), Map::new(), 0);
            for _ in 0..20 {
                let mut rooms = [0; 3].map(|_| Room::new(Some(most)));
                rooms.iter_mut().for_each(|room| room.begin(bytes(&map), 3));
                let mut under_way: Vec<(usize, OwnedCommand)> = Vec::new();
                for _ in 0..100 {
                    let (replica, key) = (random.below(3) as usize, format!("{}", random.below(60)));
                    let command = match random.below(4) {
                        0 => del(&key),
                        1 => OwnedCommand::Cas {
                            key: key.clone().into(),
                            expected: map.get(key.as_bytes()).cloned(),
                            new: Some(vec![2; random.below(300) as usize]),
                        },
                        _ => put(&key, random.below(300) as usize),
                    };
                    if rooms[replica].judge(&command) == Judgement::Fits {
                        rooms[replica].reserve(&command);
                        under_way.push((replica, command));
                    }
                    if under_way.len() > 5 {
                        let (replica, command) = under_way.remove(random.below(5) as usize);
                        let answer = execute(&mut map, &command);
                        rooms[replica].settle(&command, Some(&answer.lent()));
                        greatest = greatest.max(bytes(&map));
                    }
                }
                for (_, command) in under_way {
                    execute(&mut map, &command);
                    greatest = greatest.max(bytes(&map));
                }
            }
            assert!((most * 8 / 10..=most).contains(&greatest), "{greatest}");
        }
    }
}
