//! Whether what clients of one key, or of two, were answered is what one register, or two, would have answered them:
//! each command at some moment between its question and its answer, and those of a pipeline in their order. The search
//! is that of Wing and Gong, with Lowe's memory of what was tried.
use std::collections::{BTreeMap, BTreeSet, HashSet};
use std::hash::Hash;

/// What was asked of the key, and answered. Values are numbers, each set at most once.
#[derive(Clone, Copy, PartialEq, Eq, Debug)]
pub enum Action {
    Set(u32),
    /// The value that it was answered.
    Get(Option<u32>),
    /// Whether the key was there; None: nothing was answered.
    Del(Option<bool>),
    /// Set, and answered what was there before; None: nothing was answered.
    Exchange(u32, Option<Option<u32>>),
    /// Set where nothing is there, and answered whether it was set; None: nothing was answered.
    New(u32, Option<bool>),
}

/// What was asked of two keys, and answered.
#[derive(Clone, Copy, PartialEq, Eq, Debug)]
pub enum OfPair {
    /// Of the first, or of the second alone.
    First(Action),
    Second(Action),
    /// Both are set at one moment.
    Both([u32; 2]),
    /// What both had at one moment.
    Look([Option<u32>; 2]),
}

/// What is asked of an object, and answered.
pub trait Act: Copy {
    /// What the object has.
    type State: Copy + Eq + Hash + Default;

    /// What it has afterwards, if it may answer what was answered.
    fn apply(self, state: Self::State) -> Option<Self::State>;

    /// Whether it only reads.
    fn only_reads(self) -> bool;

    /// Which keys it is of: those of a pipeline that share one are done in their order.
    fn keys(self) -> [bool; 2];

    /// The values that it sets,
    fn sets(self) -> [Option<u32>; 2];

    /// those that it was answered,
    fn shows(self) -> [Option<u32>; 2];

    /// and whether it was answered that something was there, whatever it was.
    fn shows_some(self) -> bool;
}

impl Act for Action {
    type State = Option<u32>;

    fn apply(self, state: Option<u32>) -> Option<Option<u32>> {
        match self {
            Action::Set(value) => Some(Some(value)),
            Action::Get(shown) => (shown == state).then_some(state),
            Action::Del(shown) => shown.is_none_or(|shown| shown == state.is_some()).then_some(None),
            Action::Exchange(value, shown) => shown.is_none_or(|shown| shown == state).then_some(Some(value)),
            Action::New(value, shown) => {
                shown.is_none_or(|shown| shown == state.is_none()).then_some(state.or(Some(value)))
            }
        }
    }

    fn only_reads(self) -> bool {
        matches!(self, Action::Get(_))
    }

    fn keys(self) -> [bool; 2] {
        [true, false]
    }

    fn sets(self) -> [Option<u32>; 2] {
        match self {
            Action::Set(value) | Action::Exchange(value, _) | Action::New(value, _) => [Some(value), None],
            Action::Get(_) | Action::Del(_) => [None; 2],
        }
    }

    fn shows(self) -> [Option<u32>; 2] {
        match self {
            Action::Get(shown) | Action::Exchange(_, Some(shown)) => [shown, None],
            _ => [None; 2],
        }
    }

    fn shows_some(self) -> bool {
        matches!(self, Action::Del(Some(true)) | Action::New(_, Some(false)))
    }
}

impl Act for OfPair {
    type State = [Option<u32>; 2];

    fn apply(self, [first, second]: [Option<u32>; 2]) -> Option<[Option<u32>; 2]> {
        match self {
            OfPair::First(action) => action.apply(first).map(|after| [after, second]),
            OfPair::Second(action) => action.apply(second).map(|after| [first, after]),
            OfPair::Both(values) => Some(values.map(Some)),
            OfPair::Look(shown) => (shown == [first, second]).then_some(shown),
        }
    }

    fn only_reads(self) -> bool {
        match self {
            OfPair::First(action) | OfPair::Second(action) => action.only_reads(),
            OfPair::Both(_) => false,
            OfPair::Look(_) => true,
        }
    }

    fn keys(self) -> [bool; 2] {
        match self {
            OfPair::First(_) => [true, false],
            OfPair::Second(_) => [false, true],
            OfPair::Both(_) | OfPair::Look(_) => [true, true],
        }
    }

    fn sets(self) -> [Option<u32>; 2] {
        match self {
            OfPair::First(action) | OfPair::Second(action) => action.sets(),
            OfPair::Both(values) => values.map(Some),
            OfPair::Look(_) => [None; 2],
        }
    }

    fn shows(self) -> [Option<u32>; 2] {
        match self {
            OfPair::First(action) | OfPair::Second(action) => action.shows(),
            OfPair::Both(_) => [None; 2],
            OfPair::Look(shown) => shown,
        }
    }

    fn shows_some(self) -> bool {
        matches!(self, OfPair::First(action) | OfPair::Second(action) if action.shows_some())
    }
}

/// A command of one object, with its moments. Without an end nothing was answered: it may have been done at any moment
/// since its start, or not at all.
#[derive(Clone, Copy, PartialEq, Eq, Debug)]
pub struct Operation<A = Action> {
    pub action: A,
    pub start: u64,
    pub end: Option<u64>,
    /// The pipeline that it was sent in: its commands that were answered and share a key are done in their order.
    pub pipeline: Option<u32>,
}

/// What was found out.
#[derive(Clone, Copy, PartialEq, Eq, Debug)]
pub enum Verdict {
    Linearizable,
    NotLinearizable,
    /// The search was broken off.
    TooLong,
}

/// After so many steps the search is broken off.
const MOST_STEPS: u64 = 50_000_000;
/// Most orders are found nearly straight on: within so many steps an operation it isn't noted what was tried.
const STEPS_UNNOTED: u64 = 8;

/// Looks for an order. `operations` are all those of one object, which has no value at first.
pub fn check<A: Act>(operations: &[Operation<A>]) -> Verdict {
    let mut operations = without_unseen(operations);
    // (so those that have their place are nearly a beginning of all)
    operations.sort_by_key(|operation| operation.start);
    match Search::new(&operations).run(STEPS_UNNOTED * operations.len() as u64, false) {
        Verdict::TooLong => Search::new(&operations).run(MOST_STEPS, true),
        found => found,
    }
}

/// Without the sets that were shown to nobody, neither themselves nor by a value: where nobody is answered that
/// something was there, an order with one of these is one without it, too.
fn without_unseen<A: Act>(operations: &[Operation<A>]) -> Vec<Operation<A>> {
    let is_some_shown = operations.iter().any(|operation| operation.action.shows_some());
    let shown: HashSet<u32> = operations.iter().flat_map(|operation| operation.action.shows()).flatten().collect();
    let is_shown = |action: A| action.sets().iter().flatten().any(|value| shown.contains(value));
    let is_needed = |operation: &Operation<A>| match (operation.action, operation.end) {
        (_, Some(_)) => true,
        (action, None) if action.only_reads() => false,
        (action, None) if action.sets() == [None; 2] => true,
        (action, None) => is_some_shown || is_shown(action),
    };
    operations.iter().copied().filter(is_needed).collect()
}

/// Of each those that come before it in its pipeline, of those that were answered: of each key that it is of the last.
fn predecessors<A: Act>(operations: &[Operation<A>]) -> Vec<[Option<usize>; 2]> {
    let mut last: BTreeMap<(u32, usize), usize> = BTreeMap::new();
    let mut before = |(place, operation): (usize, &Operation<A>)| {
        let pipeline = operation.pipeline.filter(|_| operation.end.is_some());
        let keys = operation.action.keys();
        [0, 1].map(|key| last.insert((pipeline.filter(|_| keys[key])?, key), place))
    };
    operations.iter().enumerate().map(&mut before).collect()
}

/// The moments that are left, in order: a list of starts and ends, linked both ways. Node 0 is its head.
struct Moments {
    next: Vec<usize>,
    before: Vec<usize>,
}

impl Moments {
    fn remove(&mut self, node: usize) {
        let (before, next) = (self.before[node], self.next[node]);
        self.next[before] = next;
        self.before[next] = before;
    }

    /// Puts the node back that was removed last.
    fn restore(&mut self, node: usize) {
        let (before, next) = (self.before[node], self.next[node]);
        self.next[before] = node;
        self.before[next] = node;
    }
}

struct Search<'a, A> {
    operations: &'a [Operation<A>],
    /// Which have to have their place before each.
    predecessors: Vec<[Option<usize>; 2]>,
    moments: Moments,
    /// Whose start a node is; None: it is an end.
    starts: Vec<Option<usize>>,
    /// Each operation's nodes.
    nodes: Vec<(usize, Option<usize>)>,
    /// Those that have no place in the order yet.
    unplaced: BTreeSet<usize>,
    /// The greatest that had its place before each one got its own, and at last now.
    greatest: Vec<usize>,
    /// How many that were answered have none yet.
    left: usize,
}

impl<'a, A: Act> Search<'a, A> {
    fn new(operations: &'a [Operation<A>]) -> Search<'a, A> {
        let mut moments = Vec::new();
        for (place, operation) in operations.iter().enumerate() {
            // Of equal moments starts go first: so they overlap.
            moments.push((operation.start, 0, place));
            moments.extend(operation.end.map(|end| (end, 1, place)));
        }
        moments.sort_unstable();
        let mut starts = vec![None];
        let mut nodes = vec![(0, None); operations.len()];
        for (place, moment) in moments.iter().enumerate() {
            let (_, is_end, operation) = *moment;
            starts.push((is_end == 0).then_some(operation));
            if is_end == 0 {
                nodes[operation].0 = place + 1;
            } else {
                nodes[operation].1 = Some(place + 1);
            }
        }
        let count = starts.len();
        let next = (0..count).map(|node| (node + 1) % count).collect();
        let before = (0..count).map(|node| (node + count - 1) % count).collect();
        let left = operations.iter().filter(|operation| operation.end.is_some()).count();
        let unplaced = (0..operations.len()).collect();
        let moments = Moments { next, before };
        let predecessors = predecessors(operations);
        Search { operations, predecessors, moments, starts, nodes, unplaced, greatest: vec![0], left }
    }

    /// Which have their place: all up to the greatest, but for these.
    fn placed(&self) -> (usize, Vec<usize>) {
        let greatest = self.greatest.last().copied().unwrap_or_default();
        (greatest, self.unplaced.range(..=greatest).copied().collect())
    }

    fn put_in(&mut self, operation: usize) {
        self.unplaced.remove(&operation);
        let greatest = self.greatest.last().copied().unwrap_or_default().max(operation);
        self.greatest.push(greatest);
    }

    fn put_out(&mut self, operation: usize) {
        self.unplaced.insert(operation);
        self.greatest.pop();
    }

    fn place(&mut self, operation: usize) {
        let (start, end) = self.nodes[operation];
        self.moments.remove(start);
        if let Some(end) = end {
            self.moments.remove(end);
            self.left -= 1;
        }
    }

    fn take_back(&mut self, operation: usize) {
        let (start, end) = self.nodes[operation];
        if let Some(end) = end {
            self.moments.restore(end);
            self.left += 1;
        }
        self.moments.restore(start);
        self.put_out(operation);
    }

    /// Those that may come next: each that has started before the first end of all. A read that fits is the only one:
    /// where there is an order, there is one with it here. Else those that end first go first, so that what may wait
    /// waits.
    fn candidates(&self, state: A::State) -> Vec<usize> {
        let mut all = Vec::new();
        let mut node = self.moments.next[0];
        while let Some(operation) = self.starts[node] {
            node = self.moments.next[node];
            if self.predecessors[operation].iter().flatten().any(|before| self.unplaced.contains(before)) {
                continue;
            }
            let action = self.operations[operation].action;
            if action.only_reads() && action.apply(state).is_some() {
                return vec![operation];
            }
            all.push(operation);
        }
        all.sort_by_key(|operation| self.operations[*operation].end.unwrap_or(u64::MAX));
        all
    }

    /// Searches for so many steps, and notes what was tried, or not.
    fn run(mut self, steps: u64, notes: bool) -> Verdict {
        let mut tried = HashSet::new();
        let mut state = A::State::default();
        // What may come at each place of the order, the next one to be tried last; and what has come there, with the
        // state before it.
        let mut order: Vec<(usize, A::State)> = Vec::new();
        let mut open = vec![self.reversed(state)];
        for _ in 0..=steps {
            if self.left == 0 {
                return Verdict::Linearizable;
            }
            let Some(operation) = open.last_mut().and_then(Vec::pop) else {
                // Nothing fits here: the one before mustn't be there.
                open.pop();
                let Some((operation, before)) = order.pop() else { return Verdict::NotLinearizable };
                state = before;
                self.take_back(operation);
                continue;
            };
            let Some(after) = self.operations[operation].action.apply(state) else { continue };
            self.put_in(operation);
            if !notes || tried.insert((self.placed(), after)) {
                order.push((operation, state));
                state = after;
                self.place(operation);
                open.push(self.reversed(state));
            } else {
                self.put_out(operation);
            }
        }
        Verdict::TooLong
    }

    fn reversed(&self, state: A::State) -> Vec<usize> {
        self.candidates(state).into_iter().rev().collect()
    }
}

#[cfg(test)]
mod tests {
    use super::*;
    use crate::parts::random::Random;
    use Action::{Del, Exchange, Get, New, Set};

    fn at(action: Action, start: u64, end: u64) -> Operation {
        Operation { action, start, end: Some(end), pipeline: None }
    }

    fn unanswered(action: Action, start: u64) -> Operation {
        Operation { action, start, end: None, pipeline: None }
    }

    fn is_linearizable(operations: &[Operation]) -> bool {
        check(operations) == Verdict::Linearizable
    }

    #[test]
    fn one_after_the_other() {
        assert!(is_linearizable(&[]));
        assert!(is_linearizable(&[at(Get(None), 0, 1), at(Set(1), 2, 3), at(Get(Some(1)), 4, 5)]));
        assert!(is_linearizable(&[at(Set(1), 0, 1), at(Del(Some(true)), 2, 3), at(Del(Some(false)), 4, 5)]));
        assert!(!is_linearizable(&[at(Set(1), 0, 1), at(Get(None), 2, 3)]));
        assert!(!is_linearizable(&[at(Set(1), 0, 1), at(Set(2), 2, 3), at(Get(Some(1)), 4, 5)]));
        assert!(!is_linearizable(&[at(Del(Some(true)), 0, 1)]));
        assert!(!is_linearizable(&[at(Get(Some(7)), 0, 1)]));
    }

    #[test]
    fn at_the_same_time() {
        let sets = [at(Set(1), 0, 10), at(Set(2), 0, 10)];
        for value in [Some(1), Some(2), None] {
            let get = at(Get(value), 5, 6);
            assert!(is_linearizable(&[sets[0], sets[1], get]));
        }
        // Both orders are possible, but only one of them was.
        let reads = [at(Get(Some(1)), 11, 12), at(Get(Some(2)), 13, 14)];
        assert!(!is_linearizable(&[sets[0], sets[1], reads[0], reads[1]]));
        // A read that came before is over when the one begins that sees less.
        assert!(!is_linearizable(&[at(Set(1), 0, 10), at(Get(Some(1)), 1, 2), at(Get(None), 3, 4)]));
        assert!(is_linearizable(&[at(Set(1), 0, 10), at(Get(Some(1)), 1, 3), at(Get(None), 2, 4)]));
    }

    #[test]
    fn what_was_not_answered_may_be_done_or_not() {
        let set = unanswered(Set(1), 0);
        assert!(is_linearizable(&[set, at(Get(None), 5, 6)]));
        assert!(is_linearizable(&[set, at(Get(None), 5, 6), at(Get(Some(1)), 7, 8)]));
        assert!(!is_linearizable(&[set, at(Get(Some(1)), 5, 6), at(Get(None), 7, 8)]));
        assert!(is_linearizable(&[set, unanswered(Del(None), 0), at(Get(Some(1)), 5, 6), at(Get(None), 7, 8)]));
        assert!(is_linearizable(&[set, at(Del(Some(true)), 5, 6)]));
        assert!(!is_linearizable(&[unanswered(Set(1), 9), at(Del(Some(true)), 5, 6)]));
        assert!(!is_linearizable(&[unanswered(Set(1), 9), at(Get(Some(1)), 5, 6)]));
        assert!(is_linearizable(&[unanswered(Get(Some(9)), 0)]));
    }

    /// What a command of this place may be asked and answered, where it was answered something.
    fn by_chance(random: &mut Random, place: u32, is_answered: bool) -> Action {
        let drawn = random.below(3) as u32;
        let value = if drawn == 0 { None } else { Some(drawn) };
        match random.below(5) {
            0 => Set(place + 1),
            1 => Get(value),
            2 => Exchange(place + 1, is_answered.then_some(value)),
            3 => New(place + 1, is_answered.then_some(drawn == 0)),
            _ => Del(is_answered.then_some(drawn == 0)),
        }
    }

    /// Five operations with these actions; some belong to one pipeline, and begin together.
    fn drawn<A>(random: &mut Random, mut action: impl FnMut(&mut Random, u32, bool) -> A) -> Vec<Operation<A>> {
        let mut last = random.below(6);
        let mut one = |place: u32| {
            let pipeline = (random.below(3) == 0).then_some(1);
            let start = if pipeline.is_some() { 2 } else { random.below(12) };
            let takes = 1 + random.below(6);
            let is_answered = random.below(5) > 0;
            let end = if pipeline.is_some() { last.max(start) + takes } else { start + takes };
            last = if pipeline.is_some() { end } else { last };
            Operation { action: action(random, place, is_answered), start, end: is_answered.then_some(end), pipeline }
        };
        (0..5).map(&mut one).collect()
    }

    /// Against all orders of a few operations.
    fn compare<A: Act + std::fmt::Debug>(draw: impl Fn(&mut Random, u32, bool) -> A) {
        let mut random = Random::from_seed(7);
        let mut counts = [0, 0];
        for _ in 0..6_000 {
            let operations = drawn(&mut random, &draw);
            let expected = some_order(&operations, &mut vec![false; 5], A::State::default());
            assert_eq!(check(&operations) == Verdict::Linearizable, expected, "{operations:?}");
            counts[usize::from(expected)] += 1;
        }
        assert!(counts.iter().all(|count| *count > 300), "{counts:?}");
    }

    #[test]
    fn as_all_orders_say() {
        compare(by_chance);
    }

    #[test]
    fn of_two_keys_as_all_orders_say() {
        compare(|random, place, is_answered| match random.below(5) {
            0 => OfPair::Both([place + 1, place + 1]),
            1 if is_answered => OfPair::Look([0, 0].map(|_| Some(random.below(4) as u32).filter(|it| *it > 0))),
            2 | 3 => OfPair::First(by_chance(random, place, is_answered)),
            _ => OfPair::Second(by_chance(random, place, is_answered)),
        });
    }

    #[test]
    fn two_keys_change_at_one_moment() {
        let both = Operation { action: OfPair::Both([1, 1]), start: 0, end: Some(10), pipeline: None };
        let look = |shown, start| Operation { action: OfPair::Look(shown), start, end: Some(start + 1), ..both };
        let one = |action, start| Operation { action, start, end: Some(start + 1), ..both };
        assert_eq!(check(&[both, look([None, None], 1), look([Some(1), Some(1)], 3)]), Verdict::Linearizable);
        assert_eq!(check(&[both, look([Some(1), None], 1)]), Verdict::NotLinearizable);
        let reads = [one(OfPair::First(Get(Some(1))), 1), one(OfPair::Second(Get(None)), 3)];
        assert_eq!(check(&[both, reads[0], reads[1]]), Verdict::NotLinearizable);
    }

    #[test]
    fn a_pipeline_is_done_in_its_order() {
        let sent = |action, end, pipeline| Operation { action, start: 0, end, pipeline };
        let get_then_set = [sent(Get(Some(1)), Some(5), Some(1)), sent(Set(1), Some(6), Some(1))];
        assert!(!is_linearizable(&get_then_set));
        assert!(is_linearizable(&get_then_set.map(|it| Operation { pipeline: None, ..it })));
        // (what is in doubt may be done behind what was sent after it)
        let in_doubt = [sent(Set(1), None, Some(1)), sent(Get(None), Some(5), Some(1))];
        assert!(is_linearizable(&[in_doubt[0], in_doubt[1], at(Get(Some(1)), 7, 8)]));
    }

    fn some_order<A: Act>(operations: &[Operation<A>], placed: &mut Vec<bool>, state: A::State) -> bool {
        let is_left = |place: usize, placed: &[bool]| !placed[place] && operations[place].end.is_some();
        if !(0..operations.len()).any(|place| is_left(place, placed)) {
            return true;
        }
        for place in 0..operations.len() {
            let is_late = |other: usize| {
                let (it, other_one) = (&operations[place], &operations[other]);
                let shares = (0..2).any(|key| it.action.keys()[key] && other_one.action.keys()[key]);
                let is_before =
                    shares && it.end.is_some() && it.pipeline.is_some() && it.pipeline == other_one.pipeline;
                (is_before && other < place) || other_one.end.is_some_and(|end| end < it.start)
            };
            if placed[place] || (0..operations.len()).any(|other| is_left(other, placed) && is_late(other)) {
                continue;
            }
            if let Some(after) = operations[place].action.apply(state) {
                placed[place] = true;
                let found = some_order(operations, placed, after);
                placed[place] = false;
                if found {
                    return true;
                }
            }
        }
        false
    }
}
