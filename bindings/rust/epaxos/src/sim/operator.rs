//! Who runs the cluster: has machines that come in the place of others let in, and the cluster resized.
use super::failure::Failure;
use super::world::{Event, How, MS, S, World};
use crate::Cluster;
use crate::host::{Identity, Told, Wish};
use std::collections::VecDeque;

/// Tokens of wishes: no client's is so great.
const WISHES: u64 = 1 << 40;
/// A wish without an answer for so long is asked for elsewhere, and so soon one that was refused.
const PATIENCE: u64 = 4 * S;
const AGAIN: u64 = 300 * MS;
/// Whatever goes wrong, each is granted within so long.
const BOUND: u64 = 600 * S;

/// What is to be done.
#[derive(Clone, Copy, PartialEq, Eq, Debug)]
pub(super) enum Task {
    /// The machine that has come under this number is let in.
    Replace(u8),
    /// There are to be so many machines.
    Resize(Cluster),
}

/// Who does one task after the other.
pub(super) struct Operator {
    /// How many machines take part, by what was answered.
    pub(super) size: u8,
    tasks: VecDeque<Task>,
    /// The last wish, with the machine that was asked, and at which start; and whether it is too early: none of the
    /// machines that it names is there.
    asked: Option<(u64, u8, u32)>,
    is_early: bool,
    /// Whether it has no answer yet.
    is_open: bool,
    count: u64,
    machine: u8,
    /// The newest generation that an answer had.
    newest: u32,
    /// When the first task was begun.
    since: u64,
    /// Of each machine that was asked for it, which ones have sent it something since, by bits, its own among them.
    heard: [u8; 8],
}

impl Operator {
    pub(super) fn new(size: u8) -> Operator {
        Operator {
            size,
            tasks: VecDeque::new(),
            asked: None,
            is_early: false,
            is_open: false,
            count: 0,
            machine: 0,
            newest: 0,
            since: 0,
            heard: [0; 8],
        }
    }

    /// Something that a machine has sent has come to another one.
    pub(super) fn hear(&mut self, from: u8, to: u8) {
        if let Some(heard) = self.heard.get_mut(usize::from(to)).filter(|heard| **heard != 0) {
            *heard |= 1 << from;
        }
    }

    /// Whether a machine that was asked for so many machines may have known majorities to be there, of these and of
    /// those before. Who is new waits, as far as is known.
    fn may_grant(&self, size: u8) -> bool {
        let new = (self.size..size).fold(0, |all, machine| all | 1 << machine);
        let has = |heard: u8, of: u8| (heard & ((1_u16 << of) - 1) as u8).count_ones() > u32::from(of / 2);
        self.heard.iter().any(|heard| has(*heard, self.size) && has(heard | new, size))
    }

    pub(super) fn is_idle(&self) -> bool {
        self.tasks.is_empty()
    }

    pub(super) fn is_its(&self, token: u64) -> bool {
        token >= WISHES
    }

    pub(super) fn next(&mut self) -> u64 {
        self.count += 8;
        WISHES + self.count
    }
}

impl World<'_> {
    /// The identity of the machine that has this number now.
    pub(super) fn identity(&self, machine: u8) -> Identity {
        let mut identity = [machine + 1; 16];
        identity[0] = self.machines[usize::from(machine)].before;
        identity
    }

    /// Something is to be done. What goes wrong isn't mended before.
    pub(super) fn wish(&mut self, task: Task) {
        self.operator.tasks.push_back(task);
        if self.operator.tasks.len() == 1 {
            self.begin_task();
        }
    }

    fn begin_task(&mut self) {
        // (now and then before the machines are there)
        self.operator.is_early = self.random.below(2) == 0;
        (self.operator.asked, self.operator.since) = (None, self.now);
        self.operator.heard = [0; 8];
        if let Some(Task::Resize(cluster)) = self.operator.tasks.front() {
            // (who was left out before, and doesn't know it yet, must not come back: another machine does)
            for machine in self.operator.size..cluster.replicas() {
                if self.machine(machine).how != How::Outside {
                    self.leave(machine);
                }
            }
        }
        self.after(MS, Event::Operate(0));
    }

    fn end_task(&mut self) {
        self.operator.tasks.pop_front();
        self.unhealed -= 1;
        if !self.operator.is_idle() {
            self.begin_task();
        }
    }

    /// Asks for what is to be done, where the last question was this one.
    ///
    /// # Errors
    ///
    /// [`Failure::Stuck`], where it isn't done for too long.
    pub(super) fn operate(&mut self, token: u64) -> Result<(), Failure> {
        if !self.operator.is_idle() && self.now > self.operator.since + BOUND {
            return Err(Failure::Stuck(format!("what is wished isn't granted: {:?}", self.operator.tasks.front())));
        }
        self.go_about(token);
        Ok(())
    }

    fn go_about(&mut self, token: u64) {
        if let Some((asked, machine, start)) = self.operator.asked {
            let it = self.machine(machine);
            let knows = it.host.is_some() && it.start == start;
            if asked != token {
                return;
            }
            if knows && self.operator.is_open {
                // (who is asked elsewhere too may get it twice, the second time when it isn't wished any more)
                return self.after(PATIENCE, Event::Operate(token));
            }
        }
        let size = self.operator.size;
        let wish = match self.operator.tasks.front() {
            None => return,
            Some(Task::Replace(machine)) if *machine >= size => {
                // (it has left meanwhile)
                let machine = *machine;
                self.machine(machine).how = How::Outside;
                return self.end_task();
            }
            Some(Task::Replace(machine)) => {
                let identity = self.identity(*machine);
                Wish::Replace { replica: *machine, identity, address: None, is_forced: false }
            }
            Some(Task::Resize(cluster)) => {
                let wanted = cluster.replicas();
                if !self.operator.is_early {
                    (size..wanted).for_each(|machine| self.come(machine));
                }
                let new = (size..wanted).map(|machine| (machine, self.identity(machine), None)).collect();
                Wish::Resize { size: wanted, new }
            }
        };
        let token = self.operator.next();
        self.operator.machine = (self.operator.machine + 1) % size;
        let machine = self.operator.machine;
        let now = self.clock(machine, self.now);
        let start = self.machine(machine).start;
        (self.operator.asked, self.operator.is_open) = (Some((token, machine, start)), true);
        let is_up = self.machine(machine).host.is_some();
        if let Some(host) = &mut self.machine(machine).host {
            host.wish(token, wish, now);
            self.turn_soon(machine);
            self.operator.heard[usize::from(machine)] |= 1 << machine;
        }
        self.after(if is_up { PATIENCE } else { AGAIN }, Event::Operate(token));
    }

    /// A machine comes, and waits to be let in.
    fn come(&mut self, machine: u8) {
        let it = self.machine(machine);
        if it.how == How::Outside {
            it.how = How::Joins;
            self.after(MS, Event::Start(machine));
        }
    }

    /// What was wished is answered. What is granted before the machines are there leaves the cluster without them.
    ///
    /// # Errors
    ///
    /// [`Failure::NoMajority`], where a majority of those that go on has sent nothing since it was wished.
    pub(super) fn operator_answered(&mut self, token: u64, outcome: &Told) -> Result<(), Failure> {
        if self.operator.asked.is_none_or(|(asked, ..)| asked != token) {
            return Ok(());
        }
        self.operator.is_open = false;
        // (what was so in an earlier generation, where somebody is still, may not be so any more)
        let generation = if let Told::Changed(generation) = outcome { *generation } else { 0 };
        if generation == 0 || generation < self.operator.newest {
            self.operator.is_early = false;
            self.after(AGAIN, Event::Operate(token));
            return Ok(());
        }
        self.operator.newest = generation;
        if let Some(Task::Resize(cluster)) = self.operator.tasks.front() {
            let size = cluster.replicas();
            // (where there are so many by now nobody is asked)
            if size != self.operator.size && !self.operator.may_grant(size) {
                return Err(Failure::NoMajority(size));
            }
            self.operator.size = size;
            self.seen.resized += 1;
        }
        self.end_task();
        Ok(())
    }

    /// Whether a machine may take part no more.
    pub(super) fn may_leave(&self, machine: u8) -> bool {
        let is_wished = |task: &Task| matches!(task, Task::Resize(cluster) if machine >= cluster.replicas());
        machine >= self.operator.size || self.operator.tasks.front().is_some_and(is_wished)
    }

    /// It takes part no more.
    pub(super) fn leave(&mut self, machine: u8) {
        self.stop(machine, None);
        self.take_out(machine);
        self.machine(machine).how = How::Outside;
    }
}
