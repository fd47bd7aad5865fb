//! Calls, from when they are asked until they are answered: held until they may be proposed, put together, and under
//! way.
use crate::parts::batch::{Proposal, Request};
use crate::parts::opening::Opening;
use crate::parts::progress::Progress;
use crate::parts::room::{Judgement, Room};
use crate::parts::together::{Asked, FAR, Together, Whole};
use crate::parts::under_way::{UnderWay, Waiting, length};
use crate::parts::window::Window;
use crate::{Answer, Call, Fault, Instance, MOST_COMMANDS, Proposed};
use std::collections::VecDeque;
use std::time::{Duration, Instant};

/// Where no majority is reached, calls are held for so long since then: a peer may just be starting.
pub const ALONE_PATIENCE: Duration = Duration::from_secs(1);

/// A call.
pub trait Called: Asked {
    /// When it was asked.
    fn since(&self) -> Instant;

    /// Whether whoever asked waits for it no more.
    fn is_given_up(&self) -> bool {
        false
    }

    /// It is proposed now: whether it may be.
    fn begin(&self) -> bool {
        true
    }

    /// It wasn't proposed, and waits again.
    fn take_back(&self) {}
}

/// Why a call isn't proposed.
#[derive(Clone, Copy, PartialEq, Eq, Debug)]
pub enum Refusal {
    /// It waited for too long, or was given up.
    Late,
    /// No majority is reached.
    Alone,
    /// The map has no room for it.
    MapFull,
}

/// What comes of the calls that are held.
pub struct Released<M> {
    /// What is to be proposed now. Its room is reserved.
    pub wholes: Vec<Whole<M>>,
    pub refused: Vec<(M, Refusal)>,
    /// Whether reads are refused too, as no majority is reached.
    pub is_alone: bool,
}

/// What came of what the core was asked to take.
pub enum Accepted<M> {
    /// Nothing that anybody is answered.
    Nothing,
    /// A proposal is under way, under this client's number and request's.
    UnderWay((u32, u32)),
    /// What was to be proposed as this call's waits for the next generation: in this one there is no number for it.
    Held(Call),
    /// A proposal was refused, with those whose command it is.
    Refused(Call, Vec<M>, Fault),
}

/// What became of a command that was under way as its generation ended.
#[derive(Clone, Copy, PartialEq, Eq, Debug)]
pub enum Fate {
    /// It was done, and what it was answered isn't known.
    Unseen,
    /// It wasn't done, nor will be.
    Undone,
    /// Nobody knows.
    Doubtful,
}

/// The calls of a replica.
pub struct Calls<M> {
    pub held: VecDeque<M>,
    pub waiting: UnderWay<M>,
    /// How many of these there may be.
    pub window: Window,
    /// Whether some were held when there was no more room: what waits goes together, however far others are.
    pub waits: bool,
    /// How much the map may grow.
    pub room: Room,
    /// Since when no majority is known to be reached.
    pub alone_since: Option<Instant>,
    /// For so long a call is held.
    pub patience: Duration,
    /// Of what is written to one key each so many go together at most.
    pub most_together: usize,
    /// How many went with others, since the start.
    pub together: u64,
}

impl<M: Called> Calls<M> {
    pub fn new(patience: Duration, most_together: usize, most_map: Option<u64>) -> Calls<M> {
        Calls {
            held: VecDeque::new(),
            waiting: UnderWay::default(),
            window: Window::default(),
            waits: false,
            room: Room::new(most_map),
            alone_since: None,
            patience,
            most_together,
            together: 0,
        }
    }

    /// Whether there is none.
    pub fn is_empty(&self) -> bool {
        self.held.is_empty() && self.waiting.is_empty()
    }

    /// How many there are.
    pub fn count(&self) -> usize {
        self.held.len() + self.waiting.count()
    }

    /// How many more calls are of use now: as many as may be proposed, and as many as go together more, so that it is
    /// seen where others wait.
    pub fn wanted(&self) -> usize {
        let free = self.window.size().saturating_sub(self.waiting.count());
        ((free + 1) * self.most_together.max(1)).saturating_sub(self.held.len())
    }

    /// When calls that are held are to be looked at: those that wait for too long, or without a majority.
    pub fn due(&self) -> Option<Instant> {
        let late = self.held.front().map(|held| held.since() + self.patience)?;
        Some(self.alone_since.map_or(late, |since| late.min(since + ALONE_PATIENCE)))
    }

    /// These wait again, before all others.
    pub fn hold_again(&mut self, members: Vec<M>) {
        for held in members.into_iter().rev() {
            held.take_back();
            self.held.push_front(held);
        }
    }

    /// What comes of the calls that are held. Where no majority is reached they are held for a while and then refused:
    /// each proposal uses up a number, and nothing would come of it. At the end of a generation they are held until the
    /// next one.
    pub fn release(&mut self, progress: &mut Progress, now: Instant) -> Released<M> {
        let mut refused = Vec::new();
        let is_over = |held: &M| now >= held.since() + self.patience || held.is_given_up();
        while self.held.front().is_some_and(is_over) {
            refused.extend(self.held.pop_front().map(|held| (held, Refusal::Late)));
        }
        let mut released = Released { wholes: Vec::new(), refused, is_alone: false };
        if progress.is_alone() {
            released.is_alone = now >= *self.alone_since.get_or_insert(now) + ALONE_PATIENCE;
            if released.is_alone {
                released.refused.extend(self.held.drain(..).map(|held| (held, Refusal::Alone)));
            }
            return released;
        }
        self.alone_since = None;
        if self.held.is_empty() || progress.generation.is_holding() || progress.is_behind() {
            return released;
        }
        if let Some(waits) = progress.distances.waits() {
            self.window.look(self.waiting.count(), waits, now);
        }
        let is_apart = progress.distances.quorum().is_some_and(|takes| takes >= FAR);
        let mut together = Together::new(if is_apart && !self.waits { 1 } else { self.most_together });
        let (mut count, mut bytes, mut left) = (0, 0, VecDeque::new());
        while let Some(held) = self.held.front() {
            // (one that doesn't go with those before it comes behind them)
            let before = released.wholes.len() + usize::from(together.is_before(held.command()));
            if !progress.generation.has_room(count) || !self.has_room(before, bytes) {
                break;
            }
            let Some(held) = self.held.pop_front() else { break };
            let judgement = self.room.judge(held.command());
            progress.generation.is_short |= judgement.ends(progress.generation.begun, now);
            match judgement {
                Judgement::Waits | Judgement::NextGeneration => left.push_back(held),
                Judgement::Full => released.refused.push((held, Refusal::MapFull)),
                Judgement::Fits if !held.begin() => released.refused.push((held, Refusal::Late)),
                Judgement::Fits => {
                    (count, bytes) = (count + 1, bytes + length(held.command()));
                    self.room.reserve(held.command());
                    released.wholes.extend(together.add(held));
                }
            }
        }
        released.wholes.extend(together.end());
        let more = released.wholes.iter().map(|whole| whole.members.len() as u64).filter(|count| *count > 1);
        self.together += more.sum::<u64>();
        self.waits = !self.held.is_empty();
        // (what finds no room in the map stands before what came later)
        if !left.is_empty() {
            left.append(&mut self.held);
            self.held = left;
        }
        released
    }

    /// Whether another one may be in flight, behind so many that are about to be proposed, of so many bytes.
    fn has_room(&self, count: usize, bytes: usize) -> bool {
        self.waiting.count() + count < self.window.size() && self.waiting.has_room(bytes)
    }

    /// What came of a request. `proposed` has the instances of those that are proposals, in their order. None where
    /// it doesn't.
    pub fn accept(
        &mut self,
        progress: &mut Progress,
        (request, done): (Request<M>, Result<(), Fault>),
        proposed: &mut impl Iterator<Item = Proposed>,
        now: Instant,
    ) -> Option<Accepted<M>> {
        match (request, done) {
            (Request::Propose(Proposal { call, command, spared }, members), Ok(())) => {
                let instance = own_instance(progress, (call, spared), proposed, now)?;
                let (call, whole) = ((call.client, call.request), Whole { members, command });
                self.waiting.insert(call, Waiting::new(instance, whole));
                return Some(Accepted::UnderWay(call));
            }
            (Request::Seal(Proposal { call, spared, .. }), Ok(())) => {
                own_instance(progress, (call, spared), proposed, now)?;
            }
            (Request::Frame(from, head, _), Ok(())) => progress.take_in(from, &head, now),
            (Request::Propose(Proposal { call, command, .. }, members), Err(fault)) => {
                self.room.settle(&command, None);
                if fault != Fault::SpaceFull {
                    return Some(Accepted::Refused(call, members, fault));
                }
                progress.generation.used = MOST_COMMANDS;
                self.hold_again(members);
                return Some(Accepted::Held(call));
            }
            (Request::Seal(_), Err(_)) => progress.generation.lose_seal(),
            // (nothing of such a frame is believed)
            (Request::Frame(..), Err(_)) => progress.counts.refused += 1,
            (Request::GiveUp(instance) | Request::Recover(instance), Err(Fault::AlreadyCommitted)) => {
                progress.watch.forget(instance);
            }
            (Request::GiveUp(_) | Request::Recover(_), _) => {}
        }
        Some(Accepted::Nothing)
    }

    /// A command was answered. None where nobody waits for it: it was proposed before this start.
    pub fn answer(&mut self, call: (u32, u32), answer: &Answer) -> Option<Waiting<M>> {
        let waiting = self.waiting.remove(call)?;
        self.room.settle(&waiting.command, Some(answer));
        Some(waiting)
    }

    /// What became of the commands that were under way in the generation before: the opening of the next one lists the
    /// instances that were done there; `is_own`: whether what was done in one of this replica is surely what this start
    /// proposed. Then none is.
    pub fn settle(&mut self, opening: &Opening, before: u32, is_own: bool) -> Vec<(Fate, Waiting<M>)> {
        let fate = |instance: &Instance| match opening.executed.contains(instance) {
            _ if opening.generation != before + 1 => Fate::Doubtful,
            true if is_own => Fate::Unseen,
            true => Fate::Doubtful,
            false => Fate::Undone,
        };
        self.waiting.take().map(|waiting| (fate(&waiting.instance), waiting)).collect()
    }
}

/// The instance that a proposal took, which is the next one that is reported.
fn own_instance(
    progress: &mut Progress,
    (call, spared): (Call, Option<u8>),
    proposed: &mut impl Iterator<Item = Proposed>,
    now: Instant,
) -> Option<Instance> {
    let of_call = |it: &Proposed| (it.client, it.request) == (call.client, call.request);
    let Proposed { instance, .. } = proposed.next().filter(of_call)?;
    progress.propose(instance, spared, now);
    Some(instance)
}

#[cfg(test)]
mod tests {
    use super::*;
    use crate::parts::place::Place;
    use crate::{OwnedCommand, State};
    use std::cell::Cell;
    use std::rc::Rc;

    /// A call, which was asked then, with whether it waits no longer, and whether it was proposed.
    #[derive(Debug)]
    struct Ask(Instant, OwnedCommand, Rc<Cell<(bool, bool)>>);

    impl Asked for Ask {
        fn command(&self) -> &OwnedCommand {
            &self.1
        }
    }

    impl Called for Ask {
        fn since(&self) -> Instant {
            self.0
        }

        fn is_given_up(&self) -> bool {
            self.2.get().0
        }

        fn begin(&self) -> bool {
            self.2.set((self.2.get().0, !self.2.get().0));
            self.2.get().1
        }

        fn take_back(&self) {
            self.2.set((self.2.get().0, false));
        }
    }

    fn put(key: u8, now: Instant) -> Ask {
        Ask(now, OwnedCommand::Put { key: vec![key], value: vec![0; 94] }, Rc::default())
    }

    /// Those of one replica of so many, and how far that is.
    fn calls(replicas: usize, now: Instant) -> (Calls<Ask>, Progress) {
        let progress = Progress::new(Place { replicas, replica: 0 }, State::default(), 1, now).unwrap();
        (Calls::new(Duration::from_secs(5), 2, Some(1_000)), progress)
    }

    fn keys(released: &Released<Ask>) -> (Vec<Vec<u8>>, Vec<(u8, Refusal)>) {
        let key = |ask: &Ask| if let OwnedCommand::Put { key, .. } = &ask.1 { key[0] } else { 0 };
        let wholes = released.wholes.iter().map(|whole| whole.members.iter().map(key).collect());
        (wholes.collect(), released.refused.iter().map(|(ask, why)| (key(ask), *why)).collect())
    }

    fn request(whole: Whole<Ask>, number: u32) -> Request<Ask> {
        Request::Propose(Proposal { call: Call::new(9, number), command: whole.command, spared: None }, whole.members)
    }

    #[test]
    fn what_is_held_goes_together_or_waits_or_is_refused() {
        let start = Instant::now();
        let (mut it, mut progress) = calls(1, start);
        it.room.begin(0, 1);
        let asked: Vec<Ask> = (1..=12).map(|key| put(key, start)).collect();
        // (the first one and the fifth are given up)
        [0, 4].into_iter().for_each(|at: usize| asked[at].2.set((true, false)));
        let begun: Vec<_> = asked.iter().map(|ask| ask.2.clone()).collect();
        it.held.extend(asked);
        let (wholes, refused) = keys(&it.release(&mut progress, start));
        // Each takes 100 bytes of a thousand: nothing is left for those that come then.
        assert_eq!(wholes, [vec![2, 3], vec![4, 6], vec![7, 8], vec![9, 10], vec![11, 12]]);
        assert_eq!((refused, it.together), (vec![(1, Refusal::Late), (5, Refusal::Late)], 10));
        assert_eq!(begun.iter().filter(|begun| begun.get().1).count(), 10);
        it.held.extend([put(13, start), put(14, start + Duration::from_secs(1))]);
        assert_eq!(keys(&it.release(&mut progress, start)), (vec![], vec![]));
        assert_eq!((it.count(), it.due()), (2, Some(start + Duration::from_secs(5))));
        let late = keys(&it.release(&mut progress, start + Duration::from_secs(5)));
        assert_eq!(late, (vec![], vec![(13, Refusal::Late)]));
        it.room.begin(950, 1);
        assert_eq!(keys(&it.release(&mut progress, start)), (vec![], vec![(14, Refusal::MapFull)]));
        // While a generation ends they wait for the next one.
        it.room.begin(0, 1);
        it.held.push_back(put(15, start));
        progress.commit_seal();
        assert_eq!((keys(&it.release(&mut progress, start)), it.is_empty()), ((vec![], vec![]), false));
    }

    #[test]
    fn as_many_as_the_window_are_in_flight_and_what_waits_goes_together() {
        let start = Instant::now();
        let (_, mut progress) = calls(3, start);
        let reach = |progress: &mut Progress| {
            [1, 2].into_iter().for_each(|peer| {
                progress.links[usize::from(peer)] = true;
                progress.hear_hello(peer, (0, false, 0));
            });
        };
        reach(&mut progress);
        // Replica 2 is spared. The other one is far.
        (0..8).for_each(|_| progress.distances.note(1, FAR, start));
        let mut it = Calls::new(Duration::from_secs(5), 16, None);
        // (all that may be proposed together, and one command more)
        assert_eq!(it.wanted(), 33 * 16);
        it.held.extend((0..68).map(|key| put(key, start)));
        let first = keys(&it.release(&mut progress, start)).0;
        assert_eq!((first.len(), first.iter().all(|whole| whole.len() == 1), it.held.len()), (32, true, 36));
        let instance = Instance { replica: 0, number: 1 };
        let whole = |key: u8| Whole { members: Vec::new(), command: put(key, start).1 };
        (0..32).for_each(|key| it.waiting.insert((9, u32::from(key)), Waiting::new(instance, whole(key))));
        assert!(keys(&it.release(&mut progress, start)).0.is_empty() && it.wanted() == 0);
        it.held.truncate(10);
        assert_eq!(it.wanted(), 6);
        it.held.extend((10..36).map(|key| put(key, start)));
        (0..2).for_each(|request| _ = it.answer((9, request), &Answer::Absent));
        let next = keys(&it.release(&mut progress, start)).0;
        assert_eq!(next.iter().map(Vec::len).collect::<Vec<_>>(), [16, 16]);
        // What is near goes together at once, whatever queues there are later.
        (0..32).for_each(|request| _ = it.answer((9, request), &Answer::Absent));
        it.release(&mut progress, start);
        assert!(it.held.is_empty() && !it.waits);
        it.held.extend([put(1, start), put(2, start)]);
        assert_eq!(keys(&it.release(&mut progress, start)).0, [[1], [2]]);
        progress.distances.note(1, FAR / 2, start);
        (0..100).for_each(|_| progress.distances.note(1, FAR * 5, start));
        it.held.extend([put(1, start), put(2, start)]);
        assert_eq!(keys(&it.release(&mut progress, start)).0, [[1, 2]]);
    }

    #[test]
    fn without_a_majority_they_are_held_for_a_while() {
        let start = Instant::now();
        let (mut it, mut progress) = calls(3, start);
        it.held.push_back(put(1, start));
        let released = it.release(&mut progress, start);
        assert_eq!((keys(&released), released.is_alone), ((vec![], vec![]), false));
        assert_eq!(it.due(), Some(start + ALONE_PATIENCE));
        let released = it.release(&mut progress, start + ALONE_PATIENCE);
        assert_eq!((keys(&released).1, released.is_alone), (vec![(1, Refusal::Alone)], true));
    }

    #[test]
    fn what_comes_of_proposals() {
        let now = Instant::now();
        let (mut it, mut progress) = calls(1, now);
        it.room.begin(0, 1);
        it.most_together = 1;
        it.held.extend((1..=5).map(|key| put(key, now)));
        let mut wholes = it.release(&mut progress, now).wholes.into_iter();
        let proposed =
            |request: u32, number| Proposed { client: 9, request, instance: Instance { replica: 0, number } };
        let mut instances = [proposed(1, 7), proposed(2, 8), proposed(9, 9)].into_iter();
        for number in [1, 2] {
            let asked = (request(wholes.next().unwrap(), number), Ok(()));
            let accepted = it.accept(&mut progress, asked, &mut instances, now);
            assert!(matches!(accepted, Some(Accepted::UnderWay((9, it))) if it == number));
        }
        // An instance of another proposal isn't its own.
        let other = (request(wholes.next().unwrap(), 3), Ok(()));
        assert!(it.accept(&mut progress, other, &mut instances, now).is_none());
        let refused = (request(wholes.next().unwrap(), 4), Err(Fault::Memory));
        let accepted = it.accept(&mut progress, refused, &mut instances, now);
        assert!(matches!(accepted, Some(Accepted::Refused(_, members, Fault::Memory)) if members.len() == 1));
        // One without a number waits again, and may be given up.
        let full = (request(wholes.next().unwrap(), 5), Err(Fault::SpaceFull));
        assert!(matches!(it.accept(&mut progress, full, &mut instances, now), Some(Accepted::Held(_))));
        assert!(!it.held[0].2.get().1 && !progress.generation.has_room(1));
        assert!(it.answer((9, 1), &Answer::Absent).is_some() && it.answer((9, 1), &Answer::Absent).is_none());
        // What was under way the next opening has.
        let instance = Instance { replica: 0, number: 8 };
        let fate = |it: &mut Calls<Ask>, (generation, is_own), executed: &[Instance]| {
            let command = OwnedCommand::Get { key: vec![1] };
            it.waiting.insert((9, 2), Waiting::new(instance, Whole { members: Vec::new(), command }));
            let opening = Opening { generation, executed: executed.iter().copied().collect(), ..Opening::default() };
            let all: Vec<Fate> = it.settle(&opening, 3, is_own).into_iter().map(|(fate, _)| fate).collect();
            (all, it.waiting.is_empty())
        };
        assert_eq!(fate(&mut it, (4, true), &[instance]), (vec![Fate::Unseen], true));
        assert_eq!(fate(&mut it, (4, false), &[instance]), (vec![Fate::Doubtful], true));
        assert_eq!(fate(&mut it, (4, false), &[]), (vec![Fate::Undone], true));
        assert_eq!(fate(&mut it, (5, true), &[instance]), (vec![Fate::Doubtful], true));
    }
}
