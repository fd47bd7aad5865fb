//! What clients ask the thread that serves. Connections take turns, with one command or read each: who asks for
//! thousands at once keeps nobody else waiting for all of these. A command that couldn't be begun within a part of its
//! client's patience is refused at once.
use crate::core::ask::{Ask, What};
use crate::core::event::Event;
use crate::core::outcome::Outcome;
use std::collections::{HashMap, VecDeque};
use std::sync::mpsc::SyncSender;
use std::sync::{Arc, Mutex, MutexGuard, PoisonError};
use std::time::{Duration, Instant};

/// A command may wait here for this part of its client's patience.
const PART: u32 = 2;
/// How fast commands are taken is measured over so long at least, while some wait at all times.
const MEASURED: Duration = Duration::from_secs(1);

/// All that is asked and wasn't taken yet.
pub struct Asks {
    queues: Mutex<Queues>,
    events: SyncSender<Event>,
    patience: Duration,
}

#[derive(Default)]
struct Queues {
    /// What is to be proposed, and all else.
    commands: Turns,
    others: Turns,
    pace: Pace,
    /// Whether the thread knows that something was asked since it took some.
    is_known: bool,
    /// Whether it has ended.
    is_over: bool,
}

/// A queue for each connection.
#[derive(Default)]
struct Turns {
    of: HashMap<u64, VecDeque<Ask>>,
    /// Those connections that have something in theirs, whose turn is next first.
    next: VecDeque<u64>,
}

/// How fast commands are taken.
#[derive(Default)]
struct Pace {
    /// Since when some wait, or it was measured last, and how many were taken since.
    since: Option<Instant>,
    taken: usize,
    /// How long one takes. None: they don't wait for long enough.
    each: Option<Duration>,
}

impl Pace {
    /// So many were taken, and others wait or don't.
    fn note(&mut self, taken: usize, waits: bool, now: Instant) {
        if !waits {
            *self = Pace::default();
            return;
        }
        let Some(since) = self.since else {
            self.since = Some(now);
            return;
        };
        self.taken += taken;
        let time = now.saturating_duration_since(since);
        // (where none is taken all stands still, which says nothing of how fast they are)
        if time >= MEASURED && self.taken > 0 {
            *self = Pace { since: Some(now), taken: 0, each: Some(time / self.taken as u32) };
        }
    }
}

impl Turns {
    /// How many are taken before the next one of a connection that may be in its queue.
    fn count_before(&self, connection: u64) -> usize {
        let own = self.of.get(&connection).map_or(0, VecDeque::len);
        self.of.values().map(|queue| queue.len().min(own + 1)).sum()
    }

    fn put(&mut self, connection: u64, ask: Ask) {
        let queue = self.of.entry(connection).or_default();
        if queue.is_empty() {
            self.next.push_back(connection);
        }
        queue.push_back(ask);
    }

    /// The first one of the connection whose turn it is.
    fn take(&mut self) -> Option<Ask> {
        let connection = self.next.pop_front()?;
        let queue = self.of.get_mut(&connection)?;
        let ask = queue.pop_front();
        if queue.is_empty() {
            self.of.remove(&connection);
        } else {
            self.next.push_back(connection);
        }
        ask
    }
}

impl Asks {
    /// The thread that serves takes these events.
    pub fn new(events: SyncSender<Event>, patience: Duration) -> Arc<Asks> {
        Arc::new(Asks { queues: Mutex::default(), events, patience })
    }

    fn queues(&self) -> MutexGuard<'_, Queues> {
        self.queues.lock().unwrap_or_else(PoisonError::into_inner)
    }

    /// A connection asks. Nothing here waits.
    pub fn put(&self, connection: u64, ask: Ask) {
        let mut queues = self.queues();
        if queues.is_over {
            drop(queues);
            return ask.refuse();
        }
        let is_command = matches!(ask.what, What::Propose(_));
        if is_command && self.is_crowded(&queues, connection) {
            drop(queues);
            return ask.reply.send(Outcome::Crowded);
        }
        let turns = if is_command { &mut queues.commands } else { &mut queues.others };
        turns.put(connection, ask);
        if !std::mem::replace(&mut queues.is_known, true) {
            // (where there is no room among its events it is awake, and looks here behind these)
            let _ = self.events.try_send(Event::Asked);
        }
    }

    /// Whether a connection's next command would wait for too long.
    fn is_crowded(&self, queues: &Queues, connection: u64) -> bool {
        let Some(each) = queues.pace.each else { return false };
        let waits = |count: usize| each.saturating_mul(count.try_into().unwrap_or(u32::MAX));
        let own = queues.commands.of.get(&connection).map_or(0, VecDeque::len);
        // (mostly it is seen without counting all queues)
        let most = waits((own + 1) * (queues.commands.of.len() + 1));
        most > self.patience / PART && waits(queues.commands.count_before(connection)) > self.patience / PART
    }

    /// Takes so many commands, and so many others.
    pub fn take(&self, commands: usize, others: usize, now: Instant) -> Vec<Ask> {
        let mut queues = self.queues();
        queues.is_known = false;
        let mut all: Vec<Ask> = (0..others).map_while(|_| queues.others.take()).collect();
        let before = all.len();
        all.extend((0..commands).map_while(|_| queues.commands.take()));
        let (taken, waits) = (all.len() - before, !queues.commands.of.is_empty());
        queues.pace.note(taken, waits, now);
        all
    }

    /// Nothing serves any more: what is asked, from now on too, isn't done.
    pub fn end(&self) {
        let mut queues = self.queues();
        queues.is_over = true;
        let left = [std::mem::take(&mut queues.commands), std::mem::take(&mut queues.others)];
        drop(queues);
        left.into_iter().flat_map(|turns| turns.of.into_values()).flatten().for_each(Ask::refuse);
    }
}

impl Ask {
    /// It isn't done, as nothing serves any more.
    pub fn refuse(self) {
        if !matches!(self.what, What::Info | What::Manage(..)) {
            self.reply.send(Outcome::Ending);
        }
    }
}

#[cfg(test)]
mod tests {
    use super::*;
    use crate::core::reply_sender::ReplySender;
    use epaxos::OwnedCommand;
    use std::sync::mpsc::{channel, sync_channel};

    const PATIENCE: Duration = Duration::from_secs(10);

    fn ask(what: What) -> Ask {
        Ask { what, reply: ReplySender::new(|_| ()) }
    }

    fn put_of(key: u64) -> What {
        What::Propose(OwnedCommand::Del { key: key.to_be_bytes().into() })
    }

    fn key(ask: &Ask) -> u64 {
        let key = match &ask.what {
            What::Propose(OwnedCommand::Del { key }) | What::Get(key) => key,
            _ => panic!(),
        };
        u64::from_be_bytes(key[..].try_into().unwrap())
    }

    #[test]
    fn nobody_waits_for_all_of_another_one() {
        let (sender, events) = sync_channel(1);
        let asks = Asks::new(sender, PATIENCE);
        // Four connections ask for a thousand commands and reads each; the fifth one for one of each, later.
        for number in 0..4_000 {
            asks.put(number % 4, ask(put_of(number)));
            asks.put(number % 4, ask(What::Get(number.to_be_bytes().into())));
        }
        assert!(matches!(events.try_recv(), Ok(Event::Asked)) && events.try_recv().is_err());
        assert_eq!(asks.take(3, 2, Instant::now()).iter().map(key).collect::<Vec<_>>(), [0, 1, 0, 1, 2]);
        asks.put(9, ask(put_of(9_000)));
        asks.put(9, ask(What::Get(9_001_u64.to_be_bytes().into())));
        assert!(matches!(events.try_recv(), Ok(Event::Asked)));
        let next: Vec<u64> = asks.take(5, 5, Instant::now()).iter().map(key).collect();
        assert_eq!(next, [2, 3, 4, 5, 9_001, 3, 4, 5, 6, 9_000]);
        // Each connection's are in the order in which it asked.
        let all = asks.take(usize::MAX, 0, Instant::now());
        let of_one = all.iter().map(key).filter(|key| key % 4 == 1);
        assert_eq!(of_one.collect::<Vec<_>>(), (2..1_000).map(|place| 4 * place + 1).collect::<Vec<_>>());
    }

    /// Who asks for so much that it couldn't be begun within half of the patience is told at once that it isn't done;
    /// who asks for little goes on.
    #[test]
    fn what_cant_be_begun_in_time_is_refused_at_once() {
        let (asks, (told, outcomes)) = (Asks::new(sync_channel(1).0, PATIENCE), channel());
        let put = |connection, count: u64| {
            for number in 0..count {
                let told = told.clone();
                let send = move |outcome| _ = told.send(matches!(outcome, Outcome::Crowded));
                asks.put(connection, Ask { what: put_of(number), reply: ReplySender::new(send) });
            }
            outcomes.try_iter().filter(|is_crowded| *is_crowded).count()
        };
        let refused: usize = (0..10).map(|connection| put(connection, 600)).sum();
        // Nobody knows how fast it goes.
        assert_eq!(refused, 0);
        let start = Instant::now();
        let after = |tenths: u32| start + Duration::from_millis(100) * tenths;
        // A hundred in each tenth of a second: 5,000 in half of the patience.
        (0..=10).for_each(|tenths| _ = asks.take(100, 0, after(tenths)));
        assert_eq!([put(0, 10), put(10, 1), put(11, 400)], [0, 0, 0]);
        // Connection 0 has 500 left, as the others have 490: its next one comes behind some 5,800.
        let waits = |connection: u64| asks.queues().commands.of[&connection].len();
        assert_eq!((waits(0), waits(1)), (500, 490));
        assert_eq!([put(0, 3), put(11, 3), put(10, 3)], [3, 0, 0]);
        // It stands still for a while: that says nothing. Once none waits nobody knows any more how fast it goes.
        asks.take(0, 0, after(100));
        assert_eq!(put(12, 300), 0);
        asks.take(usize::MAX, 0, after(101));
        assert_eq!((put(0, 3_000), asks.queues().commands.count_before(0)), (0, 3_000));
    }

    #[test]
    fn in_the_end_all_are_refused() {
        let (sender, events) = sync_channel(1);
        let (asks, (told, outcomes)) = (Asks::new(sender, PATIENCE), channel());
        let put = |connection, what| {
            let told = told.clone();
            let send = move |outcome| told.send((connection, matches!(outcome, Outcome::Ending))).unwrap();
            asks.put(connection, Ask { what, reply: ReplySender::new(send) });
        };
        put(1, put_of(1));
        put(2, What::Info);
        asks.end();
        put(3, put_of(3));
        let mut outcomes: Vec<(u64, bool)> = outcomes.try_iter().collect();
        outcomes.sort();
        // (of INFO it is said that the store has ended)
        assert_eq!(outcomes, [(1, true), (2, false), (3, true)]);
        assert!(matches!(events.try_recv(), Ok(Event::Asked)) && events.try_recv().is_err());
    }
}
