//! Replies of one connection: written in the order of its commands, whatever finishes first.
use crate::client::command_fault::CommandFault;
use crate::client::memory::Share;
use crate::client::outbox::{Message, Outbox};
use crate::client::resp::{Reply, Version};
use crate::core::keys::Keys;
use crate::ops::metrics::Metrics;
use std::collections::VecDeque;
use std::io::{self, ErrorKind, Write};
use std::sync::Arc;
use std::sync::atomic::{AtomicBool, AtomicUsize, Ordering};
use std::thread;
use std::time::{Duration, Instant};

/// So much of a connection may be under way.
const MOST_UNDER_WAY: usize = 1_024;
/// Replies wait where their client hasn't taken so many bytes of those before.
const MOST_UNSENT: usize = 64 << 10;
/// So much is sent to a connection in its turn: who takes much keeps nobody else waiting for all of it.
pub const SLICE: usize = 16 << 10;
/// Replies that may get long are asked for as long as they likely have so much together: who takes none of them has
/// cost no more.
const BURST: usize = 2 << 20;
/// As long a reply likely is before the first one has come; and each that is shorter than is likely changes that by one
/// part in so many.
const LIKELY: usize = 64 << 10;
const PARTS: usize = 16;
/// A longer reply may be a long one.
const SHORT: usize = 1 << 10;
/// A client that takes nothing for so long is gone; one whose replies take half as much as one may have, sooner.
const WRITE_PATIENCE: Duration = Duration::from_secs(30);
const SHORT_PATIENCE: Duration = Duration::from_secs(5);
/// After so long it is looked again for a reply that is on its way as its time is over.
const SOON: Duration = Duration::from_millis(1);

/// The replies that clients of all connections are due, so that a store ends once they have them.
#[derive(Default)]
pub struct Due {
    count: AtomicUsize,
    is_over: AtomicBool,
}

impl Due {
    /// Counts one more, until it is let go.
    pub fn begin(self: &Arc<Due>) -> OneDue {
        self.count.fetch_add(1, Ordering::Relaxed);
        OneDue(self.clone())
    }

    /// Whether no connection takes commands any more.
    pub fn is_over(&self) -> bool {
        self.is_over.load(Ordering::Relaxed)
    }

    /// From now on no connection takes commands. Waits until all that are due were written, for so long at most.
    pub fn end(&self, patience: Duration) {
        self.is_over.store(true, Ordering::Relaxed);
        let start = Instant::now();
        while self.count.load(Ordering::Relaxed) > 0 && start.elapsed() < patience {
            thread::sleep(Duration::from_millis(2));
        }
    }
}

/// A reply that is due.
pub struct OneDue(Arc<Due>);

impl Drop for OneDue {
    fn drop(&mut self) {
        self.0.count.fetch_sub(1, Ordering::Relaxed);
    }
}

/// Where a reply goes.
pub struct ReplyTo {
    /// None: nobody waits for it.
    outbox: Option<Arc<Outbox>>,
    /// The connection's number.
    pub connection: u64,
    place: Place,
}

/// What the reply is, to its connection.
#[derive(Clone, Copy)]
enum Place {
    /// A part of the reply to its command of this number, from 0.
    Part(u64, usize),
    /// What was past its deadline was removed, for its look of this number.
    Look(u64),
}

impl ReplyTo {
    /// As this part of the reply to a connection's command.
    pub fn part(outbox: Arc<Outbox>, connection: u64, command: u64, part: usize) -> ReplyTo {
        ReplyTo { outbox: Some(outbox), connection, place: Place::Part(command, part) }
    }

    /// For a connection's look.
    pub fn look(outbox: Arc<Outbox>, connection: u64, look: u64) -> ReplyTo {
        ReplyTo { outbox: Some(outbox), connection, place: Place::Look(look) }
    }

    /// Nobody waits for it.
    pub fn nobody() -> ReplyTo {
        ReplyTo { outbox: None, connection: 0, place: Place::Look(0) }
    }

    pub fn send(self, reply: Reply) {
        let Some(outbox) = self.outbox else { return };
        // (where the connection has ended nobody takes it)
        outbox.put(
            self.connection,
            match self.place {
                Place::Part(command, part) => Message::Part(command, part, reply),
                Place::Look(look) => Message::Removed(look, reply),
            },
        );
    }
}

/// How the parts of a reply are put together.
#[derive(Clone, Copy, PartialEq, Eq, Debug)]
pub enum Combine {
    One,
    Sum,
    List,
    /// `OK`.
    All,
}

impl Combine {
    pub fn combine(self, mut parts: Vec<Reply>) -> Reply {
        let several = parts.len() > 1;
        if let Some(place) = parts.iter().position(|part| matches!(part, Reply::Error(_))) {
            return match parts.swap_remove(place) {
                Reply::Error(fault) if several => Reply::Error(CommandFault::AtKey(Box::new(fault), place + 1)),
                fault => fault,
            };
        }
        match self {
            Combine::One => parts.pop().unwrap_or(Reply::Nil),
            Combine::List => Reply::Array(parts),
            Combine::All => Reply::Simple("OK"),
            Combine::Sum => Reply::Integer(
                parts.iter().map(|part| if let Reply::Integer(number) = part { *number } else { 0 }).sum(),
            ),
        }
    }
}

/// How many parts a reply has, and how many bytes one has at most.
#[derive(Clone, Copy, PartialEq, Eq, Debug)]
pub struct Needs {
    pub parts: usize,
    pub longest: usize,
}

/// A command whose reply isn't written yet.
pub struct Slot {
    pub combine: Combine,
    pub parts: Vec<Part>,
    /// How many bytes a part has at most that hasn't come.
    pub longest: usize,
    pub version: Version,
    pub begun: Instant,
    /// When its client waits no longer and gets an error.
    pub deadline: Instant,
    /// What its words and its reply take.
    pub share: Option<Share>,
    /// Whether its wait is one: what is answered at once isn't.
    pub is_counted: bool,
    pub due: OneDue,
}

pub enum Part {
    Come(Reply),
    /// Asked of a key, under a number.
    Asked(Vec<u8>, u64),
    /// A transaction, of this number.
    Joint(u64),
    /// Asked of the driver, and of no use once its client waits no longer, who gets this then.
    Wanted(Option<Reply>),
}

impl Part {
    fn is_expected(&self) -> bool {
        !matches!(self, Part::Come(_))
    }
}

impl Slot {
    fn is_ready(&self) -> bool {
        !self.parts.iter().any(Part::is_expected)
    }

    /// How many parts haven't come.
    fn count_expected(&self) -> usize {
        self.parts.iter().filter(|part| part.is_expected()).count()
    }

    /// The whole reply, what it takes, and that it is due.
    fn reply(self) -> (Reply, Option<Share>, OneDue) {
        let come = |part| if let Part::Come(reply) = part { Some(reply) } else { None };
        (self.combine.combine(self.parts.into_iter().filter_map(come).collect()), self.share, self.due)
    }
}

/// The replies of one connection that aren't sent yet.
pub struct Replies {
    keys: Arc<Keys>,
    metrics: Arc<Metrics>,
    slots: VecDeque<Slot>,
    /// The number of the first of these commands.
    first: u64,
    /// How much is under way, which is bounded.
    under_way: usize,
    out: Vec<u8>,
    /// How many of these bytes are sent.
    sent: usize,
    /// How many bytes were written in all, and what is let go of once so many are sent.
    written: u64,
    held: VecDeque<(u64, OneDue, Option<Share>)>,
    /// What all that isn't sent takes, words and replies, and what it may take.
    bytes: usize,
    most: usize,
    /// What those parts of replies take at most that haven't come, how many of them may be long, and how long one of
    /// these likely is.
    expected: usize,
    long: usize,
    likely: usize,
    /// Since when the client takes nothing, if it doesn't.
    stuck: Option<Instant>,
}

impl Replies {
    /// None yet. So many bytes may be unsent.
    pub fn new(keys: Arc<Keys>, metrics: Arc<Metrics>, most: usize) -> Replies {
        Replies {
            keys,
            metrics,
            slots: VecDeque::new(),
            first: 0,
            under_way: 0,
            out: Vec::new(),
            sent: 0,
            written: 0,
            held: VecDeque::new(),
            bytes: 0,
            most,
            expected: 0,
            long: 0,
            likely: LIKELY,
            stuck: None,
        }
    }

    /// Whether there is room for a command, however long its reply gets, or nothing is under way. Of a client that
    /// takes no replies none is taken.
    pub fn has_room(&self, needs: Needs) -> bool {
        let bytes = self.bytes + self.expected + needs.parts * needs.longest;
        let likely = self.bytes + (self.long + needs.parts) * self.likely.min(needs.longest);
        let is_little = needs.longest <= SHORT || likely <= self.most.min(BURST);
        let fits = bytes <= self.most && is_little && self.under_way + needs.parts <= MOST_UNDER_WAY;
        self.stuck.is_none() && (self.under_way == 0 || fits)
    }

    /// So many parts of a reply, of so many bytes at most, are expected no more.
    fn note_come(&mut self, parts: usize, longest: usize) {
        self.expected -= parts * longest;
        self.long -= if longest > SHORT { parts } else { 0 };
    }

    /// What all that isn't sent takes.
    pub fn bytes(&self) -> usize {
        self.bytes
    }

    /// Whether nothing is under way.
    pub fn is_settled(&self) -> bool {
        self.under_way == 0
    }

    /// Whether all that has begun is sent.
    pub fn is_over(&self) -> bool {
        self.slots.is_empty() && self.out.is_empty()
    }

    /// A command has begun: its number.
    pub fn begin(&mut self, slot: Slot) -> u64 {
        self.under_way += slot.parts.len();
        let parts = slot.count_expected();
        self.expected += parts * slot.longest;
        self.long += if slot.longest > SHORT { parts } else { 0 };
        self.bytes += slot.share.as_ref().map_or(0, Share::bytes);
        self.slots.push_back(slot);
        self.first + self.slots.len() as u64 - 1
    }

    /// A part of a command's reply has come.
    pub fn take(&mut self, command: u64, part: usize, reply: Reply) {
        // (what comes too late is of no use)
        let place = command.checked_sub(self.first).map(|place| place as usize);
        let Some(slot) = place.and_then(|place| self.slots.get_mut(place)) else { return };
        let (bytes, longest) = (reply.size(), slot.longest);
        if let Some(share) = &mut slot.share {
            share.count(bytes);
            self.bytes += bytes;
        }
        let Some(part) = slot.parts.get_mut(part) else { return };
        if std::mem::replace(part, Part::Come(reply)).is_expected() {
            self.note_come(1, longest);
        }
        if longest > SHORT {
            self.likely = bytes.max(self.likely - self.likely / PARTS);
        }
    }

    /// Sends what may be sent, as far as the client takes it, and so many bytes at most.
    pub fn send(&mut self, mut stream: impl Write, slice: &mut usize) -> io::Result<()> {
        loop {
            self.write_ready();
            if !self.is_sending() || *slice == 0 {
                return Ok(());
            }
            let end = self.out.len().min(self.sent.saturating_add(*slice));
            match stream.write(&self.out[self.sent..end]) {
                Ok(0) => return Err(ErrorKind::WriteZero.into()),
                Ok(length) => {
                    *slice -= length;
                    self.note_sent(length);
                }
                Err(error) if error.kind() == ErrorKind::WouldBlock => self.stuck = Some(Instant::now()),
                Err(error) if error.kind() == ErrorKind::Interrupted => {}
                Err(error) => return Err(error),
            }
        }
    }

    /// The client may take more by now.
    pub fn unstick(&mut self) {
        self.stuck = None;
    }

    /// So many more bytes are sent.
    fn note_sent(&mut self, length: usize) {
        self.sent += length;
        if self.sent == self.out.len() {
            self.out.clear();
            self.out.shrink_to(MOST_UNSENT);
            self.sent = 0;
        } else if self.sent >= MOST_UNSENT && 2 * self.sent >= self.out.len() {
            self.out.drain(..self.sent);
            self.sent = 0;
        }
        let sent = self.written - (self.out.len() - self.sent) as u64;
        while let Some((.., share)) = self.held.pop_front_if(|(end, ..)| *end <= sent) {
            self.bytes -= share.as_ref().map_or(0, Share::bytes);
        }
    }

    /// Writes what is ready, to the bytes that are to be sent.
    fn write_ready(&mut self) {
        while self.out.len() - self.sent < MOST_UNSENT
            && let Some(slot) = self.slots.pop_front_if(|slot| slot.is_ready())
        {
            self.first += 1;
            self.under_way -= slot.parts.len();
            let (version, begun, is_counted) = (slot.version, slot.begun, slot.is_counted);
            let (reply, share, due) = slot.reply();
            if is_counted {
                self.metrics.waits.note(begun.elapsed());
                let is_fault = matches!(reply, Reply::Error(_));
                if is_fault { &self.metrics.refused } else { &self.metrics.answered }.add(1);
            }
            let before = self.out.len();
            // (memory takes all of it)
            let _ = reply.write(&mut self.out, version);
            self.written += (self.out.len() - before) as u64;
            self.held.push_back((self.written, due, share));
        }
    }

    /// When something is to be done though nothing comes.
    pub fn due(&self) -> Option<Instant> {
        self.slots.front().map(|slot| slot.deadline).into_iter().chain(self.lost_from()).min()
    }

    /// Whether there is more to be sent, as far as is known.
    pub fn is_sending(&self) -> bool {
        !self.out.is_empty() && self.stuck.is_none()
    }

    /// Whether the client takes nothing now.
    pub fn is_stuck(&self) -> bool {
        self.stuck.is_some()
    }

    /// Whether the client takes nothing any more.
    pub fn is_lost(&self, now: Instant) -> bool {
        self.lost_from().is_some_and(|from| now >= from)
    }

    fn lost_from(&self) -> Option<Instant> {
        let patience = if 2 * self.bytes > self.most.min(BURST) { SHORT_PATIENCE } else { WRITE_PATIENCE };
        self.stuck.map(|since| since + patience)
    }

    /// The client of the first command waits no longer, where its time is over.
    pub fn withdraw(&mut self, now: Instant) {
        let Some(slot) = self.slots.front_mut().filter(|slot| slot.deadline <= now) else { return };
        let before = slot.count_expected();
        for part in &mut slot.parts {
            let reply = match part {
                Part::Come(_) => None,
                // Where there is none the reply is under way.
                Part::Asked(key, id) => self.keys.withdraw(*id, key).map(Reply::Error),
                Part::Joint(number) => self.keys.withdraw_transaction(*number).map(Reply::Error),
                Part::Wanted(other) => Some(other.take().unwrap_or(Reply::Error(CommandFault::NotInTime))),
            };
            if let Some(reply) = reply {
                *part = Part::Come(reply);
            }
        }
        slot.deadline = now + SOON;
        let (parts, longest) = (before - slot.count_expected(), slot.longest);
        self.note_come(parts, longest);
    }
}

#[cfg(test)]
mod tests {
    use super::*;
    use crate::client::memory::Memory;
    use crate::core::keys::tests::Store;

    /// A client that takes so many bytes more.
    struct Taking(Vec<u8>, usize);

    impl Write for Taking {
        fn write(&mut self, bytes: &[u8]) -> io::Result<usize> {
            let length = bytes.len().min(self.1);
            self.0.extend(&bytes[..length]);
            self.1 -= length;
            if length == 0 { Err(ErrorKind::WouldBlock.into()) } else { Ok(length) }
        }

        fn flush(&mut self) -> io::Result<()> {
            Ok(())
        }
    }

    fn slot((parts, longest): (usize, usize), share: Option<Share>, due: &Arc<Due>) -> Slot {
        let (begun, version) = (Instant::now(), Version::Two);
        let (parts, combine) = ((0..parts).map(|_| Part::Wanted(None)).collect(), Combine::List);
        Slot { combine, parts, longest, version, begun, deadline: begun, share, is_counted: true, due: due.begin() }
    }

    #[test]
    fn what_isnt_sent_is_bounded_however_long_replies_get() {
        let (store, memory, due) = (Store::new(), Memory::new(1 << 30), Arc::<Due>::default());
        let (most, longest) = (100 << 10, 20 << 10);
        let mut replies = Replies::new(store.keys.clone(), Arc::default(), most);
        let has_room = |replies: &Replies, parts, longest| replies.has_room(Needs { parts, longest });
        // Before any has come each may be as long as it can get.
        replies.begin(slot((2, longest), memory.share(0), &due));
        assert!(has_room(&replies, 3, longest) && !has_room(&replies, 4, longest));
        replies.begin(slot((3, longest), memory.share(0), &due));
        assert!(has_room(&replies, MOST_UNDER_WAY - 5, 0) && !has_room(&replies, 1, 1));
        // One that was short makes room, one that was long doesn't.
        replies.take(0, 1, Reply::Nil);
        assert!(has_room(&replies, 1, longest - size_of::<Reply>()) && !has_room(&replies, 1, longest));
        replies.take(0, 0, Reply::Bulk(vec![b'v'; longest - size_of::<Reply>()]));
        assert!(!has_room(&replies, 1, longest));
        replies.withdraw(Instant::now());
        (0..3).for_each(|part| replies.take(1, part, Reply::Nil));
        replies.send(&mut Taking(Vec::new(), usize::MAX), &mut usize::MAX.clone()).unwrap();
        assert!((replies.bytes(), replies.expected, memory.used()) == (0, 0, 0));
        // (whose time is over has no reply that may get long; and by itself any command is taken)
        replies.begin(slot((1, most), memory.share(0), &due));
        replies.withdraw(Instant::now());
        assert!(has_room(&replies, 5, longest));
        replies.send(&mut Taking(Vec::new(), usize::MAX), &mut usize::MAX.clone()).unwrap();
        assert!(has_room(&replies, 2, most));
        // Of who takes nothing no more is taken, and it has less time once it has much.
        let stuck = |replies: &mut Replies, parts| {
            let number = replies.begin(slot((parts, longest), memory.share(0), &due));
            (0..parts).for_each(|part| replies.take(number, part, Reply::Bulk(vec![b'v'; longest])));
            replies.send(&mut Taking(Vec::new(), 10), &mut usize::MAX.clone()).unwrap();
            replies.is_lost(Instant::now() + SHORT_PATIENCE)
        };
        assert!(!stuck(&mut replies, 1) && replies.is_stuck() && !has_room(&replies, 1, 0));
        assert!(stuck(&mut replies, 2));
    }

    #[test]
    fn long_replies_are_asked_for_few_at_a_time() {
        let (store, memory, due) = (Store::new(), Memory::new(1 << 30), Arc::<Due>::default());
        let (most, longest) = (32 << 20, 65_525);
        let mut replies = Replies::new(store.keys.clone(), Arc::default(), most);
        let mut count = |length| {
            let numbers: Vec<u64> = (0..MOST_UNDER_WAY)
                .map_while(|_| {
                    let has_room = replies.has_room(Needs { parts: 1, longest });
                    has_room.then(|| replies.begin(slot((1, longest), memory.share(0), &due)))
                })
                .collect();
            numbers.iter().for_each(|number| replies.take(*number, 0, Reply::Bulk(vec![b'v'; length])));
            replies.send(&mut Taking(Vec::new(), usize::MAX), &mut usize::MAX.clone()).unwrap();
            assert!((replies.expected, replies.long, replies.bytes()) == (0, 0, 0));
            numbers.len()
        };
        // Nobody knows how long they get; they are short, and so more are asked for, as far as they can't get too long.
        assert_eq!([count(100), count(100)], [32, 252]);
        assert_eq!([count(100), count(60_000), count(60_000)], [512, 512, 34]);
    }

    #[test]
    fn who_takes_much_gets_a_slice_in_its_turn() {
        let (store, memory, due) = (Store::new(), Memory::new(1 << 30), Arc::<Due>::default());
        let mut replies = Replies::new(store.keys.clone(), Arc::default(), usize::MAX);
        let mut client = Taking(Vec::new(), usize::MAX);
        for number in 0..50 {
            replies.begin(slot((1, 0), memory.share(10), &due));
            replies.take(number, 0, Reply::Bulk(vec![b'v'; 60_000]));
        }
        for turn in 1..180 {
            replies.send(&mut client, &mut SLICE.clone()).unwrap();
            assert!(client.0.len() == turn * SLICE && replies.is_sending());
        }
        (0..9).for_each(|_| replies.send(&mut client, &mut SLICE.clone()).unwrap());
        assert!(replies.is_over() && !replies.is_sending() && memory.used() == 0);
    }

    #[test]
    fn they_are_sent_in_order_as_far_as_they_are_taken() {
        let (store, memory, due) = (Store::new(), Memory::new(1 << 30), Arc::<Due>::default());
        let mut replies = Replies::new(store.keys.clone(), Arc::default(), usize::MAX);
        let mut client = Taking(Vec::new(), 100);
        let has_room = |replies: &Replies, parts| replies.has_room(Needs { parts, longest: 0 });
        let numbers = [2, 1].map(|parts| replies.begin(slot((parts, 0), memory.share(10), &due)));
        assert!(numbers == [0, 1] && has_room(&replies, MOST_UNDER_WAY - 3) && !has_room(&replies, MOST_UNDER_WAY - 2));
        replies.take(1, 0, Reply::Integer(3));
        replies.take(0, 1, Reply::Integer(2));
        replies.send(&mut client, &mut usize::MAX.clone()).unwrap();
        assert!(client.0.is_empty() && !replies.is_settled());
        replies.take(0, 0, Reply::Integer(1));
        replies.send(&mut client, &mut usize::MAX.clone()).unwrap();
        assert_eq!(client.0, b"*2\r\n:1\r\n:2\r\n*1\r\n:3\r\n");
        assert!(replies.is_over() && memory.used() == 0 && due.count.load(Ordering::Relaxed) == 0);
        // What isn't taken is bounded: the rest stays as it came, and all of it counts until it is sent.
        client.1 = 10;
        let long = vec![b'v'; MOST_UNSENT / 2];
        for number in 2..8 {
            replies.begin(slot((1, 0), memory.share(10), &due));
            replies.take(number, 0, Reply::Bulk(long.clone()));
        }
        replies.send(&mut client, &mut usize::MAX.clone()).unwrap();
        assert!(replies.slots.len() == 4 && replies.out.len() < 2 * MOST_UNSENT && replies.due().is_some());
        assert!(memory.used() > 6 * long.len() && due.count.load(Ordering::Relaxed) == 6);
        assert!(!replies.is_lost(Instant::now()) && replies.is_lost(Instant::now() + WRITE_PATIENCE));
        client.1 = 2 * long.len();
        replies.send(&mut client, &mut usize::MAX.clone()).unwrap();
        assert_eq!((client.1, replies.slots.len()), (2 * long.len(), 4));
        replies.unstick();
        replies.send(&mut client, &mut usize::MAX.clone()).unwrap();
        assert!(replies.slots.len() < 3 && due.count.load(Ordering::Relaxed) == 5);
        (replies.unstick(), client.1 = usize::MAX);
        replies.send(&mut client, &mut usize::MAX.clone()).unwrap();
        assert!(replies.is_over() && memory.used() == 0 && due.count.load(Ordering::Relaxed) == 0);
    }
}
