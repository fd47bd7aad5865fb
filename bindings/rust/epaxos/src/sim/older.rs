//! Machines that come back with an older copy of their disks. Who can notice one is judged by what was delivered, and
//! not by what hosts say that they have seen.
use super::disk::Content;
use super::failure::Failure;
use super::judge::Kind;
use super::plan::Age;
use super::world::{Event, How, MS, S, World};
use crate::Instance;
use crate::host::{Name, Wish};
use crate::parts::frames::Head;
use std::collections::{BTreeSet, VecDeque};

/// So long after the trouble it comes back, or as soon as it can be judged after that, tried so often.
const OLDER: u64 = 3 * S;
const TRIES: u8 = 20;
/// Its power is gone for so long.
const OFF: u64 = 5 * S;
/// An older copy is to be noticed within so long.
const NOTICED: u64 = 4 * S;
/// So many of its last states are known of a disk.
const MOST_MARKS: usize = 512;
/// So much it is asked at once, where the others have left its generation. (What is never answered costs the judge.)
const AT_ONCE: usize = 4;

/// What a disk had when something was synced: how many entries the log of this generation had, and bytes, and the count
/// of starts.
#[derive(Clone)]
pub(super) struct Mark {
    generation: u32,
    pub(super) entries: u32,
    length: usize,
    starts: Option<Vec<u8>>,
}

/// What is known of a machine for older copies of its disk.
#[derive(Default)]
pub(super) struct Older {
    marks: VecDeque<Mark>,
    /// A copy of its disk, with its generation and how many entries that has.
    pub(super) copy: Option<(Content, u32, u32)>,
    /// Its disk is an older copy, of this generation, and with so many entries.
    pub(super) is: Option<(u32, u32)>,
    /// The greatest entry of each other machine that was delivered to it since its start, with its generation.
    delivered: [(u32, u32); 8],
    /// What it was delivered a Commit of, or has sent one of, in the present generation.
    committed: BTreeSet<(u32, Instance)>,
}

impl Older {
    /// The machine loses its power: what was delivered may be lost.
    pub(super) fn stop(&mut self) {
        (self.delivered, self.committed) = Default::default();
    }

    /// The machine sends a frame.
    pub(super) fn send(&mut self, frame: &[u8]) {
        Head::read(frame).into_iter().for_each(|head| _ = self.is_new(&head));
    }

    /// Whether a frame says something new: a Commit of what is committed is nothing to a host.
    fn is_new(&mut self, head: &Head) -> bool {
        if head.is_commit() && self.committed.first().is_some_and(|(generation, _)| *generation != head.generation) {
            self.committed.clear();
        }
        !head.is_commit() || self.committed.insert((head.generation, head.instance))
    }

    /// A frame is delivered in this generation.
    pub(super) fn deliver(&mut self, from: u8, frame: &[u8], generation: u32) {
        let Some(head) = Head::read(frame).filter(|head| head.generation == generation) else { return };
        if !self.is_new(&head) {
            return;
        }
        let last = &mut self.delivered[usize::from(from)];
        *last = (*last).max((generation, head.entry));
    }

    /// How many of a machine's entries in this generation were delivered.
    fn delivered_of(&self, from: u8, generation: u32) -> u32 {
        let (of, entry) = self.delivered[usize::from(from)];
        if of == generation { entry } else { 0 }
    }
}

impl World<'_> {
    /// Something is on the disk of a machine.
    pub(super) fn mark(&mut self, machine: u8) {
        let it = self.machine(machine);
        let Some(host) = &it.host else { return };
        let (generation, entries) = (host.generation(), host.status_entries());
        let content = it.disk.content();
        let Some(length) = content.get(&(generation, Name::Log)).map(Vec::len) else { return };
        let starts = content.get(&(0, Name::Starts)).cloned();
        let marks = &mut it.older.marks;
        if marks.back().is_some_and(|last| last.generation != generation) {
            marks.clear();
        } else if marks.len() == MOST_MARKS {
            marks.pop_front();
        }
        marks.push_back(Mark { generation, entries, length, starts });
    }

    /// A machine is to come back with an older copy.
    pub(super) fn begin_older(&mut self, machine: u8, age: Age) {
        let now = self.now;
        let it = self.machine(machine);
        let is_still = it.is_busy || it.paused > now;
        let Some(host) = it.host.as_ref().filter(|_| !is_still || age != Age::Before) else {
            self.unhealed -= 1;
            return;
        };
        // (a host that stands still since it was started doesn't know yet what its disk has)
        let (generation, entries) = (host.generation(), host.status_entries());
        it.older.copy = (age == Age::Before).then(|| (it.disk.content().clone(), generation, entries));
        self.after(OLDER, Event::Back(machine, age, TRIES));
    }

    /// A machine comes back with an older copy, where it is known who can notice it; else it is tried again.
    pub(super) fn come_back(&mut self, machine: u8, age: Age, tries: u8) {
        let is_up = self.machine(machine).host.is_some() && self.machine(machine).how == How::Again;
        let older = if is_up && self.may_lose(machine) { self.older_copy(machine, age) } else { None };
        let Some((content, older)) = older else {
            if tries > 0 && self.left > 0 && age != Age::Before {
                return self.after(S, Event::Back(machine, age, tries - 1));
            }
            self.unhealed -= 1;
            self.machine(machine).older.copy = None;
            return;
        };
        self.unhealed -= 1;
        self.stop(machine, None);
        if self.keeps {
            // (what it had is what it sent)
            let newest = self.machine(machine).disk.whole();
            self.gone.push((machine, newest));
        }
        self.machine(machine).disk.replace(content);
        self.machine(machine).older.is = Some(older);
        self.seen.copies += 1;
        match age {
            Age::Left(_) => {
                self.unhealed += 1;
                self.after(MS, Event::Left(machine, TRIES));
            }
            _ => self.after(OFF, Event::Start(machine)),
        }
    }

    /// The copy with which a machine comes back, its generation, and how many entries it has there.
    fn older_copy(&mut self, machine: u8, age: Age) -> Option<(Content, (u32, u32))> {
        let generation = self.machine(machine).host.as_ref()?.generation();
        let others = (0..self.operator.size).filter(|other| *other != machine);
        let all = others.map(|other| &self.machines[usize::from(other)]);
        let seen = all.map(|it| it.older.delivered_of(machine, generation)).min()?;
        let it = self.machine(machine);
        let most = match age {
            Age::Before => {
                let (content, generation, entries) = it.older.copy.take()?;
                let is_known = self.others_saw(machine, (generation, entries)).all(|saw| saw);
                return (generation > 0 && is_known).then_some((content, (generation, entries)));
            }
            Age::Entries(fewer) => seen.checked_sub(fewer)?,
            Age::Left(fewer) => it.older.marks.back()?.entries.checked_sub(fewer)?,
        };
        let mark =
            it.older.marks.iter().rev().find(|mark| mark.generation == generation && mark.entries <= most)?.clone();
        let mut content = it.disk.content().clone();
        content.get_mut(&(generation, Name::Log))?.truncate(mark.length);
        content.extend(mark.starts.map(|starts| ((0, Name::Starts), starts)));
        Some((content, (generation, mark.entries)))
    }

    /// Has the others leave the generation of a machine whose power is gone. Then it comes back, and is asked at once.
    pub(super) fn leave_behind(&mut self, machine: u8, tries: u8) -> Result<(), Failure> {
        let Some((generation, _)) = self.machine(machine).older.is else {
            self.unhealed -= 1;
            return Ok(());
        };
        if self.all_left(machine, generation) || tries == 0 {
            self.unhealed -= 1;
            self.start(machine)?;
            if self.machine(machine).host.is_some() && self.machine(machine).older.is.is_some() {
                for _ in 0..AT_ONCE {
                    let key = self.random.below(self.plan.keys.into()) as u32;
                    self.put_question(machine, (key, Kind::Put, 0));
                }
            }
            return Ok(());
        }
        let token = self.operator.next();
        for other in (0..self.operator.size).filter(|other| *other != machine) {
            let now = self.clock(other, self.now);
            if let Some(host) = self.machine(other).host.as_mut().filter(|host| host.generation() == generation) {
                host.wish(token + u64::from(other), Wish::Seal, now);
                self.turn_soon(other);
                break;
            }
        }
        self.after(S, Event::Left(machine, tries - 1));
        Ok(())
    }

    /// Whether all others are in a later generation.
    fn all_left(&self, machine: u8, generation: u32) -> bool {
        let others = (0..self.operator.size).zip(&self.machines).filter(|(number, _)| *number != machine);
        others.map(|(_, it)| it).all(|it| it.host.as_ref().is_some_and(|host| host.generation() > generation))
    }

    /// Of each other machine whether it has seen that this one has had more than so many entries of this generation.
    fn others_saw(&self, machine: u8, (generation, entries): (u32, u32)) -> impl Iterator<Item = bool> {
        let others = (0..self.operator.size).zip(&self.machines).filter(move |(number, _)| *number != machine);
        others.map(move |(_, it)| {
            it.host.as_ref().is_some_and(|host| {
                let there = host.generation();
                let more = if there == generation { entries } else { 0 };
                there >= generation && it.older.delivered_of(machine, there) > more
            })
        })
    }

    /// Whether a machine may start with the copy that it has: whoever it meets notices it, or it is of a generation
    /// that all others have left.
    pub(super) fn may_start(&self, machine: u8) -> bool {
        self.machines[usize::from(machine)]
            .older
            .is
            .is_none_or(|older| self.others_saw(machine, older).all(|saw| saw) || self.all_left(machine, older.0))
    }

    /// A machine has started, with whatever copy.
    pub(super) fn look_after(&mut self, machine: u8) {
        if self.machine(machine).older.is.is_some() {
            let start = self.machine(machine).start;
            self.after(NOTICED, Event::Check(machine, start));
        }
    }

    /// Whether it was noticed that a machine has an older copy, where it is one of a generation that isn't over.
    pub(super) fn check_older(&mut self, machine: u8, start: u32) -> Result<(), Failure> {
        let it = &self.machines[usize::from(machine)];
        let Some(host) = it.host.as_ref().filter(|_| it.start == start) else { return Ok(()) };
        match it.older.is.filter(|(generation, _)| *generation == host.generation()) {
            // (a generation that all have left needs nothing of it any more)
            None => self.machine(machine).older.is = None,
            Some(_) if host.status().reached.is_empty() || it.paused + NOTICED > self.now => {
                // (it stood still meanwhile, or was cut off, so that nobody could notify it)
                self.after(NOTICED, Event::Check(machine, start));
            }
            Some(older) if self.others_saw(machine, older).any(|saw| saw) => return Err(Failure::Older(machine)),
            Some((generation, _)) if self.all_left(machine, generation) => {
                self.after(NOTICED, Event::Check(machine, start));
            }
            Some(_) => {
                // (meanwhile the others have gone on, and have seen nothing of it since)
                self.stop(machine, None);
                self.replace(machine);
                self.after(S, Event::Start(machine));
            }
        }
        Ok(())
    }
}
