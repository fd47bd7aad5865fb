//! What is asked of the next generation: who takes part in it, and how many do. A seal's value says it
//! ([`Members`](crate::parts::members::Members)).
use crate::parts::identity::{Identity, digits};
use crate::parts::members::{Member, Members};
use crate::parts::place::Place;
use std::collections::BTreeSet;
use std::fmt;

/// Who asked for something is answered no once so many generations have begun without it.
const MOST_GENERATIONS: u32 = 3;

/// What is asked for.
///
/// ```
/// use epaxos::host::Wish;
///
/// let address = Some("10.0.0.9:7000".into());
/// let wish = Wish::Replace { replica: 2, identity: [7; 16], address, is_forced: false };
/// # let _ = wish;
/// ```
#[derive(Clone, PartialEq, Eq, Debug)]
pub enum Asked {
    /// The next generation, as the present one is.
    Seal,
    /// From the next generation on the replica is the machine of this identity, which waits to be let in; with the
    /// address where it listens for its peers, if that is another one. A replica that is reached is replaced only if
    /// that is forced.
    Replace { replica: u8, identity: Identity, address: Option<String>, is_forced: bool },
    /// From the next generation on there are so many replicas: 3, 5 or 7. Each new one by its number, its machine's
    /// identity and its address.
    Resize { size: u8, new: Vec<(u8, Identity, Option<String>)> },
}

/// What is to be otherwise in the next generation.
#[derive(Clone, Default, PartialEq, Eq, Debug)]
pub struct Change {
    /// How many replicas are wanted, where that was asked.
    pub size: Option<u8>,
    /// Who is to be the replica of a number.
    pub members: Vec<(u8, Member)>,
    /// Whether a replica is replaced though it is reached.
    pub is_forced: bool,
}

/// Why a change isn't made.
///
/// ```
/// use epaxos::host::WishFault;
///
/// assert_eq!(WishFault::NoReplica(3).to_string(), "there is no replica 3");
/// ```
#[derive(Clone, PartialEq, Eq, Debug)]
pub enum ChangeFault {
    /// There is no replica of this number.
    NoReplica(u8),
    /// The replica that is to be replaced is the one that was asked.
    ThisOne,
    /// The replica that is to be replaced is reached.
    Reached(u8),
    /// The machine that this generation names as the replica is there, and about to come in.
    Coming(u8, Identity),
    /// There can't be so many replicas, or the new ones aren't those that are named.
    NotASize,
    /// No machine of this identity waits to be let in under this number.
    NotWaiting(u8, Identity),
    /// Of so many replicas so few are reached: the generation can't be ended.
    Alone { reached: usize, replicas: usize },
    /// Of so many replicas of the next generation so few are reached, or wait.
    NoMajority { reached: usize, replicas: usize },
    /// Generations have begun in which others' wishes are so, and not this one.
    Overruled,
}

/// What a replica knows of the machines now.
pub trait Machines {
    /// Which replica it is, of how many.
    fn place(&self) -> Place;

    /// The members whom the last seal named; none, where it named none.
    fn named(&self) -> &Members;

    /// Whether a peer is reached.
    fn is_reached(&self, peer: u8) -> bool;

    /// Who is known under a number, this replica itself too.
    fn known(&self, replica: u8) -> Option<Identity>;

    /// Whether a machine of this identity waits to be let in under a number.
    fn is_waiting(&self, replica: u8, identity: &Identity) -> bool;

    /// Whether a peer counts for a majority. One that is reached may have fallen silent just now.
    fn counts(&self, peer: u8) -> bool {
        self.is_reached(peer)
    }

    /// Likewise a machine of this identity that waits.
    fn counts_waiting(&self, replica: u8, identity: &Identity) -> bool {
        self.is_waiting(replica, identity)
    }
}

/// Something that was asked for, until a generation begins in which it is so.
struct Wish<T> {
    /// In which generation it was asked.
    generation: u32,
    change: Change,
    asker: T,
}

/// What is asked for.
pub struct Wishes<T>(Vec<Wish<T>>);

impl<T> Default for Wishes<T> {
    fn default() -> Wishes<T> {
        Wishes(Vec::new())
    }
}

impl Change {
    /// Makes it, where these are to take part.
    pub fn make(&self, members: &mut Members) {
        if let Some(size) = self.size {
            members.0.resize(size.into(), Member::default());
        }
        for (replica, member) in &self.members {
            if let Some(place) = members.0.get_mut(usize::from(*replica)) {
                *place = member.clone();
            }
        }
    }
}

impl<T> Wishes<T> {
    /// Whether nothing is asked for.
    pub fn is_empty(&self) -> bool {
        self.0.is_empty()
    }

    /// How much is asked for.
    pub fn len(&self) -> usize {
        self.0.len()
    }

    /// Forgets all that is asked for.
    pub fn clear(&mut self) {
        self.0.clear();
    }

    /// Who is to take part in the next generation, as far as this replica is asked.
    pub fn next(&self, machines: &impl Machines) -> Members {
        let mut members = present(machines);
        self.0.iter().for_each(|wish| wish.change.make(&mut members));
        members
    }

    /// The change that is asked for. None: it is so by now.
    pub fn change(&self, asked: Asked, machines: &impl Machines) -> Result<Option<Change>, ChangeFault> {
        let Place { replicas, replica: me } = machines.place();
        let change = match asked {
            Asked::Seal => Change::default(),
            Asked::Resize { size, new } => {
                let is_here = |(replica, identity, _): &(u8, Identity, Option<String>)| {
                    machines.known(*replica) == Some(*identity)
                };
                if usize::from(size) == replicas && new.iter().all(is_here) {
                    return Ok(None);
                }
                resize(replicas as u8, size, new)?
            }
            Asked::Replace { replica, .. } if usize::from(replica) >= replicas => {
                return Err(ChangeFault::NoReplica(replica));
            }
            Asked::Replace { replica, .. } if replica == me => return Err(ChangeFault::ThisOne),
            Asked::Replace { replica, identity, address, is_forced } => {
                let is_so = |named: &Member| {
                    named.identity == Some(identity) && (address.is_none() || named.address == address)
                };
                if machines.named().0.get(usize::from(replica)).is_some_and(is_so) {
                    return Ok(None);
                }
                Change { size: None, members: vec![(replica, Member { identity: Some(identity), address })], is_forced }
            }
        };
        let mut next = self.next(machines);
        change.make(&mut next);
        judge(&change, &next, machines).map(|()| Some(change))
    }

    /// It was asked for in this generation.
    pub fn ask(&mut self, generation: u32, change: Change, asker: T) {
        self.0.push(Wish { generation, change, asker });
    }

    /// Whether all of it can be made.
    pub fn all_fit(&self, machines: &impl Machines) -> bool {
        let mut next = present(machines);
        self.0.iter().all(|wish| {
            wish.change.make(&mut next);
            judge(&wish.change, &next, machines).is_ok()
        })
    }

    /// Before a seal: who asked for a change that can't be made any more, and why. Who is reached may have changed
    /// since it was asked.
    pub fn drop_unfit(&mut self, machines: &impl Machines) -> Vec<(T, ChangeFault)> {
        let (mut next, mut dropped) = (present(machines), Vec::new());
        for wish in std::mem::take(&mut self.0) {
            let mut with = next.clone();
            wish.change.make(&mut with);
            match judge(&wish.change, &with, machines) {
                Ok(()) => {
                    next = with;
                    self.0.push(wish);
                }
                Err(fault) => dropped.push((wish.asker, fault)),
            }
        }
        dropped
    }

    /// A generation has begun that names these: who asked for something that is so by now, or that others have
    /// overruled. The rest is asked for again.
    pub fn fulfil(&mut self, generation: u32, named: &Members) -> Vec<(T, Result<(), ChangeFault>)> {
        let mut outcomes = Vec::new();
        for wish in std::mem::take(&mut self.0) {
            let is_named = |(replica, member): &(u8, Member)| named.0.get(usize::from(*replica)) == Some(member);
            let has_size = wish.change.size.is_none_or(|size| usize::from(size) == named.0.len());
            if generation > wish.generation && has_size && wish.change.members.iter().all(is_named) {
                outcomes.push((wish.asker, Ok(())));
            } else if generation >= wish.generation + MOST_GENERATIONS {
                outcomes.push((wish.asker, Err(ChangeFault::Overruled)));
            } else {
                self.0.push(wish);
            }
        }
        outcomes
    }

    /// All that is asked for, with the size that is wanted, where one is; then nothing is.
    pub fn take(&mut self) -> impl Iterator<Item = (T, Option<u8>)> + use<T> {
        std::mem::take(&mut self.0).into_iter().map(|wish| (wish.asker, wish.change.size))
    }
}

/// Who takes part in this generation, as far as this replica knows.
pub fn present(machines: &impl Machines) -> Members {
    let mut members = machines.named().clone();
    members.0.resize(machines.place().replicas, Member::default());
    for (replica, member) in (0..).zip(&mut members.0) {
        member.identity = machines.known(replica);
    }
    members
}

/// Why a change isn't made, by which the next generation would have these members. A generation of which no
/// majority is reached, or waits, can't be ended any more.
fn judge(change: &Change, next: &Members, machines: &impl Machines) -> Result<(), ChangeFault> {
    for (replica, member) in &change.members {
        let known = known(*replica, machines);
        let Some(identity) = member.identity.filter(|identity| known != Some(*identity)) else { continue };
        if !change.is_forced && machines.is_reached(*replica) {
            return Err(ChangeFault::Reached(*replica));
        }
        let coming = known.filter(|known| !change.is_forced && machines.is_waiting(*replica, known));
        if let Some(coming) = coming {
            return Err(ChangeFault::Coming(*replica, coming));
        }
        if !machines.is_waiting(*replica, &identity) {
            return Err(ChangeFault::NotWaiting(*replica, identity));
        }
    }
    let majority = |members: &Members| {
        let (reached, replicas) = (reached(members, machines), members.0.len());
        if reached > replicas / 2 { Ok(()) } else { Err((reached, replicas)) }
    };
    let alone = majority(&present(machines));
    alone.map_err(|(reached, replicas)| ChangeFault::Alone { reached, replicas })?;
    majority(next).map_err(|(reached, replicas)| ChangeFault::NoMajority { reached, replicas })
}

/// From so many replicas to so many, of which these are new.
fn resize(now: u8, size: u8, new: Vec<(u8, Identity, Option<String>)>) -> Result<Change, ChangeFault> {
    let numbers: BTreeSet<u8> = new.iter().map(|(replica, ..)| *replica).collect();
    let is_each_new_once = numbers.len() == new.len() && numbers == (now..size).collect();
    if ![3, 5, 7].contains(&size) || size == now || !is_each_new_once {
        return Err(ChangeFault::NotASize);
    }
    let member = |(replica, identity, address)| (replica, Member { identity: Some(identity), address });
    Ok(Change { size: Some(size), members: new.into_iter().map(member).collect(), is_forced: false })
}

/// Who is known under a number now. Who had one that is no replica's has left, and has to wait as anybody else.
fn known(replica: u8, machines: &impl Machines) -> Option<Identity> {
    machines.known(replica).filter(|_| usize::from(replica) < machines.place().replicas)
}

/// How many of these are reached now, or wait to be let in.
fn reached(members: &Members, machines: &impl Machines) -> usize {
    let me = machines.place().replica;
    let is_reached = |(replica, member): &(u8, &Member)| match known(*replica, machines) {
        known if known == member.identity => *replica == me || machines.counts(*replica),
        _ => member.identity.is_some_and(|identity| machines.counts_waiting(*replica, &identity)),
    };
    (0..).zip(&members.0).filter(is_reached).count()
}

impl fmt::Display for ChangeFault {
    fn fmt(&self, f: &mut fmt::Formatter) -> fmt::Result {
        match self {
            ChangeFault::NoReplica(replica) => write!(f, "there is no replica {replica}"),
            ChangeFault::ThisOne => f.write_str("this is that replica, and it runs: ask another one"),
            ChangeFault::Reached(replica) => write!(f, "replica {replica} is reachable: stop it before you replace it"),
            ChangeFault::Coming(replica, identity) => write!(
                f,
                "the machine with identity {} was let in as replica {replica} before, and is about to come: wait for \
                 it, or stop it",
                digits(identity)
            ),
            ChangeFault::NotASize => f.write_str("3, 5 or 7 replicas are possible, and each new one has to be named"),
            ChangeFault::NotWaiting(replica, identity) => {
                write!(f, "no machine with identity {} waits to join as replica {replica}", digits(identity))
            }
            ChangeFault::Alone { reached, replicas } => {
                write!(f, "no majority: {reached} of {replicas} replicas can be reached, this one included")
            }
            ChangeFault::NoMajority { reached, replicas } => write!(
                f,
                "the next generation would have no majority: {reached} of its {replicas} replicas can be reached"
            ),
            ChangeFault::Overruled => f.write_str("others asked for something else"),
        }
    }
}

impl std::error::Error for ChangeFault {}

#[cfg(test)]
mod tests {
    use super::*;

    /// Replica 0 of these, which reaches these peers, and knows these machines that wait.
    struct At {
        known: Vec<Option<Identity>>,
        reached: Vec<u8>,
        waiting: Vec<(u8, Identity)>,
        named: Members,
        replicas: usize,
    }

    impl Machines for At {
        fn place(&self) -> Place {
            Place { replicas: self.replicas, replica: 0 }
        }

        fn named(&self) -> &Members {
            &self.named
        }

        fn is_reached(&self, peer: u8) -> bool {
            self.reached.contains(&peer)
        }

        fn known(&self, replica: u8) -> Option<Identity> {
            self.known.get(usize::from(replica)).copied().flatten()
        }

        fn is_waiting(&self, replica: u8, identity: &Identity) -> bool {
            self.waiting.contains(&(replica, *identity))
        }
    }

    fn three(reached: &[u8], waiting: &[(u8, Identity)]) -> At {
        let known = (0..3).map(|it| Some([it; 16])).collect();
        At { known, reached: reached.into(), waiting: waiting.into(), named: Members(Vec::new()), replicas: 3 }
    }

    fn replace(replica: u8, identity: u8, is_forced: bool) -> Asked {
        Asked::Replace { replica, identity: [identity; 16], address: None, is_forced }
    }

    fn grow(size: u8, new: &[u8]) -> Asked {
        Asked::Resize { size, new: new.iter().map(|it| (*it, [*it; 16], None)).collect() }
    }

    #[test]
    fn a_machine_that_waits_takes_a_number() {
        let mut wishes = Wishes::default();
        let mut machines = three(&[1], &[(2, [9; 16])]);
        let change = wishes.change(replace(2, 9, false), &machines).unwrap().unwrap();
        wishes.ask(4, change, "a");
        let identities = |members: &Members| members.0.iter().map(|it| it.identity.unwrap()[0]).collect::<Vec<_>>();
        assert_eq!(identities(&wishes.next(&machines)), [0, 1, 9]);
        // It is so once a seal has named it, and isn't asked for twice.
        assert!(wishes.fulfil(5, &present(&machines)).is_empty() && !wishes.is_empty());
        machines.named = wishes.next(&machines);
        assert_eq!(wishes.fulfil(6, &machines.named), [("a", Ok(()))]);
        assert_eq!(wishes.change(replace(2, 9, false), &machines), Ok(None));
        // Another machine for the same number is refused while the one that was let in comes.
        let mut both = three(&[1], &[(2, [8; 16]), (2, [9; 16])]);
        (both.known[2], both.named) = (Some([9; 16]), machines.named.clone());
        assert_eq!(wishes.change(replace(2, 8, false), &both), Err(ChangeFault::Coming(2, [9; 16])));
        assert!(matches!(wishes.change(replace(2, 8, true), &both), Ok(Some(_))));
        both.waiting.remove(1);
        assert!(matches!(wishes.change(replace(2, 8, false), &both), Ok(Some(_))));
        // Who is overruled is answered so.
        wishes.ask(6, Change { size: Some(5), ..Change::default() }, "b");
        assert!(wishes.fulfil(8, &machines.named).is_empty());
        assert_eq!(wishes.fulfil(9, &machines.named), [("b", Err(ChangeFault::Overruled))]);
    }

    #[test]
    fn what_would_end_the_cluster_is_refused() {
        let wishes = Wishes::<()>::default();
        let change = |asked, reached: &[u8], waiting: &[u8]| {
            let waiting: Vec<(u8, Identity)> = waiting.iter().map(|it| (*it, [*it; 16])).collect();
            wishes.change(asked, &three(reached, &waiting)).map(|change| change.is_some())
        };
        assert_eq!(change(Asked::Seal, &[1], &[]), Ok(true));
        assert_eq!(change(Asked::Seal, &[], &[]), Err(ChangeFault::Alone { reached: 1, replicas: 3 }));
        assert_eq!(change(replace(3, 9, false), &[1], &[]), Err(ChangeFault::NoReplica(3)));
        assert_eq!(change(replace(0, 9, false), &[1], &[]), Err(ChangeFault::ThisOne));
        assert_eq!(change(replace(1, 9, false), &[1, 2], &[]), Err(ChangeFault::Reached(1)));
        assert_eq!(change(replace(1, 9, true), &[1, 2], &[]), Err(ChangeFault::NotWaiting(1, [9; 16])));
        assert_eq!(change(grow(5, &[3, 4]), &[1, 2], &[3, 4]), Ok(true));
        assert_eq!(change(grow(5, &[3, 4]), &[1, 2], &[3]), Err(ChangeFault::NotWaiting(4, [4; 16])));
        let other = Asked::Resize { size: 3, new: vec![(2, [7; 16], None)] };
        for asked in [grow(4, &[3]), grow(5, &[3]), grow(5, &[3, 3]), other, grow(9, &[3, 4, 5, 6, 7, 8])] {
            assert_eq!(change(asked, &[1, 2], &[]), Err(ChangeFault::NotASize));
        }
        // Of five the two that stay aren't enough, where the others of three aren't reached.
        let wishes = Wishes::<()>::default();
        let known = (0..5).map(|it| Some([it; 16])).collect();
        let (waiting, named) = (Vec::new(), Members(Vec::new()));
        let mut machines = At { known, reached: vec![3, 4], waiting, named, replicas: 5 };
        let fault = ChangeFault::NoMajority { reached: 1, replicas: 3 };
        assert_eq!(wishes.change(grow(3, &[]), &machines), Err(fault.clone()));
        machines.reached.push(1);
        let change = wishes.change(grow(3, &[]), &machines).unwrap().unwrap();
        assert_eq!(wishes.change(Asked::Resize { size: 5, new: Vec::new() }, &machines), Ok(None));
        // Who had a number, and has left, has to wait as anybody else.
        let mut left = three(&[1, 2], &[(4, [4; 16])]);
        left.known.extend([Some([3; 16]), None]);
        assert_eq!(wishes.change(grow(5, &[3, 4]), &left), Err(ChangeFault::NotWaiting(3, [3; 16])));
        // What can't be made any more is dropped before a seal.
        let mut wishes = wishes;
        wishes.ask(1, change, ());
        assert!(wishes.drop_unfit(&machines).is_empty() && wishes.next(&machines).0.len() == 3);
        machines.reached.pop();
        assert_eq!(wishes.drop_unfit(&machines), [((), fault)]);
        assert!(wishes.is_empty() && wishes.next(&machines).0.len() == 5);
    }
}
