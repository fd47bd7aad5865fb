//! How far the peers are, by pings, and which of them proposals spare: the farthest one, or one that isn't reached; and
//! which have fallen silent. What of this is wrong costs time alone: any quorum that is named is a right one.
use crate::parts::least::Least;
use std::collections::VecDeque;
use std::time::{Duration, Instant};

/// Between two pings of a peer.
const BETWEEN_PINGS: Duration = Duration::from_millis(250);
/// At most so many are waited for.
const MOST_PINGS: usize = 32;
/// Where this replica was away for so long, what came meanwhile may have come long ago.
const AWAY: Duration = Duration::from_millis(500);
/// Whom proposals spare goes by the least round trip of so long a time: a queue that empties now and then is no reason
/// to spare a peer, and one that is suddenly far is spared soon.
const RECENT: Duration = Duration::from_secs(2);
/// Another peer is spared only where its answers take longer by one part in so many, and by so much: so the choice
/// stays among peers that are about as far.
const PARTS: u32 = 16;
const LEAST_MARGIN: Duration = Duration::from_millis(3);
/// A peer that owes an answer is silent once nothing has come from it for so much longer than an answer takes, or for
/// four times as long as answers vary.
const SILENCE: Duration = Duration::from_millis(300);
/// Where this replica looks so much later than it wanted to, or was busy for so long, what others owe may be here and
/// not be handled.
const LATE: Duration = Duration::from_millis(100);
/// Of what a peer owes so much is kept, at least so long apart: the first counts.
const MOST_OWED: usize = 64;
const BETWEEN_OWED: Duration = Duration::from_millis(10);

/// What is known of a peer.
#[derive(Clone)]
struct Distance {
    is_reached: bool,
    /// The smoothed round-trip time of pings, as RFC 6298 has it, and the least lately, since it is reached.
    smoothed: Option<Duration>,
    recent: Least,
    /// The pings that it hasn't answered, with their numbers, and when the next one is due.
    pings: VecDeque<(u64, Instant)>,
    due: Instant,
    /// How far it is: the least round trip of pings and of proposals. All others have queues in them, and whoever takes
    /// a queue for distance makes it longer.
    distance: Least,
    /// The least time that proposals took it, syncs included, and the smoothed one.
    least: Least,
    answers: Option<Duration>,
    /// How much its pongs vary, likewise.
    variation: Duration,
    /// When it was sent something that wants an answer, where nothing has come since that it can have sent later.
    owed: VecDeque<Instant>,
}

/// The peers, and the one that is spared.
pub struct Distances {
    peers: Vec<Distance>,
    me: u8,
    spared: u8,
    /// How many pings there were.
    sent: u64,
    /// When it was last looked which are due.
    looked: Instant,
}

impl Distances {
    /// Of so many replicas this one has this number. Nothing is known yet, and the one just below it is spared, as
    /// where a proposal names none.
    pub fn new(replicas: usize, me: u8, now: Instant) -> Distances {
        let peer = Distance {
            is_reached: false,
            smoothed: None,
            recent: Least::of(RECENT),
            pings: VecDeque::new(),
            due: now,
            distance: Least::default(),
            least: Least::default(),
            answers: None,
            variation: Duration::ZERO,
            owed: VecDeque::new(),
        };
        Distances { peers: vec![peer; replicas], me, spared: usual(replicas, me), sent: 0, looked: now }
    }

    fn peer(&mut self, peer: u8) -> Option<&mut Distance> {
        self.peers.get_mut(usize::from(peer)).filter(|_| peer != self.me)
    }

    /// Whether frames to a peer arrive. How far one is that is reached again isn't known.
    pub fn reach(&mut self, peer: u8, is_reached: bool, now: Instant) {
        let Some(peer) = self.peer(peer).filter(|peer| peer.is_reached != is_reached) else { return };
        (peer.is_reached, peer.smoothed, peer.due) = (is_reached, None, now);
        peer.recent = Least::of(RECENT);
        peer.pings.clear();
        peer.owed.clear();
    }

    /// It is looked which pings are due, as was wanted for that time at the latest: those from before this replica was
    /// away show nothing.
    pub fn look(&mut self, now: Instant, wanted: Instant) {
        if now > self.looked + AWAY {
            self.peers.iter_mut().for_each(|peer| peer.pings.clear());
        }
        if now > self.looked.max(wanted) + LATE {
            self.peers.iter_mut().for_each(|peer| peer.owed.clear());
        }
        self.looked = now;
    }

    /// A peer is sent something that wants an answer.
    pub fn owe(&mut self, peer: u8, now: Instant) {
        let Some(peer) = self.peer(peer) else { return };
        if peer.owed.len() < MOST_OWED && peer.owed.back().is_none_or(|last| now >= *last + BETWEEN_OWED) {
            peer.owed.push_back(now);
        }
    }

    /// Something has come from a peer.
    pub fn hear(&mut self, peer: u8, now: Instant) {
        let Some(peer) = self.peer(peer) else { return };
        let takes = peer.distance.of_any();
        while peer.owed.front().is_some_and(|sent| *sent + takes <= now) {
            peer.owed.pop_front();
        }
    }

    /// Whether a peer that is reached owes an answer, and nothing comes from it any more. One that is slow, and sends
    /// other things, isn't silent.
    pub fn is_silent(&self, peer: u8, now: Instant) -> bool {
        let of = self.peers.get(usize::from(peer));
        of.and_then(Distance::silent_from).is_some_and(|from| now >= from)
    }

    /// The number of the ping that is to be sent to a peer now, where one is due.
    pub fn ping(&mut self, to: u8, now: Instant) -> Option<u64> {
        let number = self.sent + 1;
        let peer = self.peer(to).filter(|peer| peer.is_reached && peer.due <= now)?;
        if peer.pings.len() == MOST_PINGS {
            peer.pings.pop_front();
        }
        peer.pings.push_back((number, now));
        peer.due = now + BETWEEN_PINGS;
        self.sent = number;
        self.owe(to, now);
        Some(number)
    }

    /// When the next ping is due, or a peer may have fallen silent.
    pub fn due(&self, now: Instant) -> Option<Instant> {
        let pings = self.peers.iter().filter(|peer| peer.is_reached).map(|peer| peer.due);
        let silent = self.peers.iter().filter_map(Distance::silent_from).filter(|from| *from > now);
        pings.chain(silent).min()
    }

    /// A peer has answered the ping of this number, where it was waited for. Earlier ones are lost. Of the peer that is
    /// spared, how long a proposal would take it: as long, and at least as long as others take, whose answers have
    /// syncs and queues in them. None until there are such.
    pub fn answer(&mut self, peer: u8, number: u64, now: Instant) -> Option<Duration> {
        if now > self.looked + AWAY {
            return None;
        }
        let of = self.peer(peer)?;
        let place = of.pings.iter().position(|(sent, _)| *sent == number)?;
        let (_, sent) = of.pings.drain(..=place).next_back()?;
        let took = now.saturating_duration_since(sent);
        of.variation = of.smoothed.map_or(took / 2, |before| (of.variation * 3 + before.abs_diff(took)) / 4);
        of.smoothed = smoothed(of.smoothed, took);
        of.distance.note(took, now);
        of.recent.note(took, now);
        self.hear(peer, now);
        let answers = self.peers.iter().filter_map(|peer| peer.answers).max()?;
        Some(took.max(answers)).filter(|_| peer == self.spared)
    }

    /// A proposal to a peer and its answer, which came now, took so long.
    pub fn note(&mut self, peer: u8, took: Duration, now: Instant) {
        let Some(of) = self.peer(peer) else { return };
        of.answers = smoothed(of.answers, took);
        of.least.note(took, now);
        of.distance.note(took, now);
        self.hear(peer, now);
    }

    /// How long an answer of this peer took at least in the last minute. None: too few have come.
    pub fn shortest(&self, peer: u8) -> Option<Duration> {
        self.peers.get(usize::from(peer)).and_then(|peer| peer.distance.get())
    }

    /// How far those are that proposals ask: the farthest one. None: too few answers have come.
    pub fn quorum(&self) -> Option<Duration> {
        self.asked().filter_map(|peer| peer.distance.get()).max()
    }

    /// How long their answers to proposals took at least in the last minute, and take now. None: too few have come.
    pub fn waits(&self) -> Option<(Duration, Duration)> {
        let least = self.asked().filter_map(|peer| peer.least.get()).max()?;
        Some((least, self.asked().filter_map(|peer| peer.answers).max()?))
    }

    /// Those whom proposals ask.
    fn asked(&self) -> impl Iterator<Item = &Distance> {
        let is_asked = |place: usize| place != usize::from(self.me) && place != usize::from(self.spared);
        self.peers.iter().enumerate().filter(move |(place, _)| is_asked(*place)).map(|(_, peer)| peer)
    }

    /// The replica that proposals spare, by what is known now: one that isn't reached, or else the farthest one, or one
    /// that owes an answer for longer.
    pub fn choose(&mut self, now: Instant) -> u8 {
        let is_peer =
            |(number, peer): (usize, &Distance)| (number as u8 != self.me).then(|| (number as u8, peer.takes(now)));
        let peers: Vec<(u8, Takes)> = self.peers.iter().enumerate().filter_map(is_peer).collect();
        let of_spared = peers.iter().find(|(number, _)| *number == self.spared).map(|(_, takes)| *takes);
        let farthest = peers.into_iter().max_by_key(|(number, takes)| (*takes, std::cmp::Reverse(*number)));
        if let (Some(takes), Some((number, most))) = (of_spared, farthest)
            && most.is_beyond(takes)
        {
            self.spared = number;
        }
        self.spared
    }

    /// How long the answer of a peer takes, as far as is known now; none of one that isn't reached.
    pub fn takes(&self, peer: u8, now: Instant) -> Option<Duration> {
        match self.peers.get(usize::from(peer))?.takes(now) {
            Takes::Unknown => Some(Duration::ZERO),
            Takes::So(takes) => Some(takes),
            Takes::Ever => None,
        }
    }

    /// The one that was chosen last.
    pub fn spared(&self) -> u8 {
        self.spared
    }

    /// The same as a proposal names it: none where it is the one that it spares by itself.
    pub fn named(&self) -> Option<u8> {
        Some(self.spared).filter(|spared| *spared != usual(self.peers.len(), self.me))
    }
}

/// A smoothed time (RFC 6298's SRTT) after one measurement more.
fn smoothed(before: Option<Duration>, took: Duration) -> Option<Duration> {
    Some(before.map_or(took, |before| (before * 7 + took) / 8))
}

/// The replica just below, or the last one: the one that a proposal spares which names none.
fn usual(replicas: usize, me: u8) -> u8 {
    me.checked_sub(1).unwrap_or(replicas.saturating_sub(1) as u8)
}

/// How long a peer's answers take, as far as that decides who is spared.
#[derive(Clone, Copy, PartialEq, Eq, PartialOrd, Ord)]
enum Takes {
    /// It wasn't measured since it is reached.
    Unknown,
    So(Duration),
    /// It isn't reached.
    Ever,
}

impl Takes {
    /// Whether this one is spared in place of that one.
    fn is_beyond(self, other: Takes) -> bool {
        match (self, other) {
            (Takes::So(long), Takes::So(short)) => long > short + (short / PARTS).max(LEAST_MARGIN),
            (Takes::Ever, Takes::Ever) => false,
            // (one that isn't measured yet may be far: it stays spared while it is)
            (takes, _) => takes == Takes::Ever,
        }
    }
}

impl Distance {
    /// When it is silent where nothing comes from it before. None: it owes nothing, or isn't reached.
    fn silent_from(&self) -> Option<Instant> {
        let sent = self.owed.front().filter(|_| self.is_reached)?;
        let takes = self.smoothed.max(self.answers)?;
        Some(*sent + takes + SILENCE.max(self.variation * 4))
    }

    fn takes(&self, now: Instant) -> Takes {
        let waits = self.pings.front().map_or(Duration::ZERO, |(_, sent)| now.saturating_duration_since(*sent));
        match self.smoothed {
            _ if !self.is_reached => Takes::Ever,
            None => Takes::Unknown,
            Some(_) => Takes::So(self.recent.of_any().max(waits)),
        }
    }
}

#[cfg(test)]
mod tests {
    use super::*;

    fn ms(count: u64) -> Duration {
        Duration::from_millis(count)
    }

    /// A peer is pinged, and answers after so long.
    fn measure(it: &mut Distances, peer: u8, took: Duration, now: &mut Instant) {
        *now += BETWEEN_PINGS;
        it.look(*now, *now);
        let number = it.ping(peer, *now).unwrap();
        assert_eq!(it.answer(peer, number, *now + took), None);
    }

    /// Replica 0 of three, whose peers are reached and take so long.
    fn measured(one: u64, two: u64) -> (Distances, Instant) {
        let mut now = Instant::now();
        let mut it = Distances::new(3, 0, now);
        [1, 2].into_iter().for_each(|peer| it.reach(peer, true, now));
        measure(&mut it, 1, ms(one), &mut now);
        measure(&mut it, 2, ms(two), &mut now);
        (it, now)
    }

    #[test]
    fn the_farthest_is_spared_and_equals_stay() {
        assert_eq!([3, 5].map(|replicas| Distances::new(replicas, 0, Instant::now()).spared()), [2, 4]);
        assert_eq!(Distances::new(5, 3, Instant::now()).named(), None);
        for (one, two, spared) in [(72, 151, 2), (151, 72, 1), (76, 72, 2), (77, 72, 1), (4, 1, 2), (5, 1, 1)] {
            let (mut it, now) = measured(one, two);
            assert_eq!((it.choose(now), it.named()), (spared, Some(spared).filter(|it| *it == 1)), "{one} {two}");
        }
        // It takes as much more to come back.
        let (mut it, mut now) = measured(151, 72);
        assert_eq!(it.choose(now), 1);
        (0..30).for_each(|_| measure(&mut it, 2, ms(160), &mut now));
        assert_eq!(it.choose(now), 1);
        (0..30).for_each(|_| measure(&mut it, 2, ms(162), &mut now));
        assert_eq!(it.choose(now), 2);
    }

    #[test]
    fn who_has_a_queue_now_and_then_isnt_spared_for_it() {
        let (mut it, mut now) = measured(1, 2);
        assert_eq!(it.choose(now), 2);
        // The queues before one peer, and then before the other one, get long and empty again.
        for round in 0..200 {
            let long = |peer: u64| if (round + peer) % 4 == 0 { peer } else { 20 + (round / 20 + peer) % 2 * 60 };
            [1, 2].into_iter().for_each(|peer| measure(&mut it, peer, ms(long(peer.into())), &mut now));
            assert_eq!(it.choose(now), 2, "{round}");
        }
        // One that is suddenly far is spared within seconds.
        let begin = now;
        while it.choose(now) == 2 {
            [(1, 200), (2, 2)].into_iter().for_each(|(peer, took)| measure(&mut it, peer, ms(took), &mut now));
        }
        assert!(now - begin <= RECENT + 2 * BETWEEN_PINGS);
    }

    #[test]
    fn pongs_say_of_the_spared_one_no_less_than_answers_of_others() {
        let (mut it, mut now) = measured(72, 151);
        it.note(1, ms(200), now);
        for (peer, took, expected) in [(2, 151, Some(200)), (2, 201, Some(201)), (1, 300, None)] {
            now += BETWEEN_PINGS;
            it.look(now, now);
            let number = it.ping(peer, now).unwrap();
            assert_eq!(it.answer(peer, number, now + ms(took)), expected.map(ms));
        }
    }

    #[test]
    fn who_is_not_reached_is_spared() {
        let (mut it, mut now) = measured(72, 151);
        it.reach(1, false, now);
        assert_eq!((it.choose(now), it.ping(1, now + ms(999)), it.named()), (1, None, Some(1)));
        it.reach(2, false, now);
        assert_eq!((it.choose(now), it.due(now)), (1, None));
        // (once it is back, its first answer decides)
        [1, 2].into_iter().for_each(|peer| it.reach(peer, true, now));
        measure(&mut it, 2, ms(151), &mut now);
        assert_eq!(it.choose(now), 1);
        measure(&mut it, 1, ms(72), &mut now);
        assert_eq!(it.choose(now), 2);
        // A cluster of one has nobody to spare.
        let mut alone = Distances::new(1, 0, now);
        alone.reach(0, true, now);
        assert_eq!((alone.choose(now), alone.named(), alone.due(now), alone.ping(0, now)), (0, None, None, None));
    }

    #[test]
    fn who_does_not_answer_is_spared() {
        let (mut it, now) = measured(72, 151);
        let sent = now + BETWEEN_PINGS;
        it.look(sent, sent);
        let lost = it.ping(1, sent).unwrap();
        assert_eq!((it.choose(sent + ms(160)), it.choose(sent + ms(161))), (2, 1));
        // Another one is sent all the same, and its answer ends the wait for both.
        it.look(sent + BETWEEN_PINGS, sent);
        let next = it.ping(1, sent + BETWEEN_PINGS).unwrap();
        it.answer(1, next, sent + BETWEEN_PINGS + ms(72));
        it.look(sent + ms(700), sent);
        assert_eq!((it.answer(1, lost, sent + ms(900)), it.choose(sent + ms(900))), (None, 2));
        for number in 0..100 {
            it.ping(1, sent + BETWEEN_PINGS * (2 + number));
        }
        assert_eq!(it.peers[1].pings.len(), MOST_PINGS);
    }

    #[test]
    fn who_owes_an_answer_and_sends_nothing_is_silent() {
        let (mut it, mut now) = measured(72, 151);
        for _ in 0..30 {
            [(1, 72), (2, 151)].into_iter().for_each(|(peer, took)| measure(&mut it, peer, ms(took), &mut now));
        }
        let silent = |it: &Distances, at: Instant| [1, 2].map(|peer| it.is_silent(peer, at));
        // Who owes nothing may say nothing.
        assert_eq!(silent(&it, now + ms(9_000)), [false, false]);
        let sent = now + ms(500);
        it.look(sent, sent);
        it.owe(1, sent);
        let from = sent + ms(372);
        assert_eq!((silent(&it, from - ms(1)), silent(&it, from)), ([false; 2], [true, false]));
        // What it can have sent before it had this shows nothing; what comes later shows that it is slow.
        it.hear(1, sent + ms(71));
        assert!(it.is_silent(1, from));
        it.owe(1, sent + ms(60));
        it.hear(1, sent + ms(72));
        assert_eq!((it.is_silent(1, from), it.is_silent(1, from + ms(60))), (false, true));
        // Where this replica was late, what is owed may have come.
        it.look(sent + ms(100), sent);
        assert!(it.is_silent(1, from + ms(60)));
        it.look(sent + ms(300), sent + ms(150));
        assert!(!it.is_silent(1, from + ms(60)));
        // One that isn't reached is lost, and one that is reached again owes nothing.
        it.owe(2, now);
        it.reach(2, false, now);
        it.reach(2, true, now);
        assert!(!it.is_silent(2, now + ms(9_000)));
        // (an answer that is faster than any before ends it too)
        it.owe(1, sent + ms(400));
        it.note(1, ms(20), sent + ms(420));
        assert!(!it.is_silent(1, sent + ms(9_000)));
        (0..1_000).for_each(|number| it.owe(1, sent + ms(number)));
        assert!(it.peers[1].owed.len() <= MOST_OWED);
    }

    #[test]
    fn what_came_while_it_was_away_says_nothing() {
        let (mut it, now) = measured(151, 72);
        let sent = now + BETWEEN_PINGS;
        it.look(sent, sent);
        let number = it.ping(1, sent).unwrap();
        it.ping(2, sent);
        let later = sent + ms(8_000);
        // (what has come is handled before it is looked which are due)
        assert_eq!(it.answer(1, number, later), None);
        it.look(later, sent);
        assert_eq!((it.answer(1, number, later), it.choose(later)), (None, 1));
        assert!(it.peers.iter().all(|peer| peer.pings.is_empty() && peer.distance.of_any() < ms(200)));
    }

    #[test]
    fn a_queue_is_no_distance() {
        let start = Instant::now();
        let mut it = Distances::new(3, 0, start);
        let mut noted = |took: u64, at: u64| {
            it.note(1, ms(took), start + ms(at));
            (it.quorum().map(|it| it.as_millis()), it.waits().map(|(least, now)| [least, now].map(|it| it.as_millis())))
        };
        // (few may all have met other work)
        (0..7).for_each(|at| assert_eq!(noted(5, at), (None, None)));
        assert_eq!(noted(5, 7), (Some(5), Some([5, 5])));
        // All that comes for almost a minute has waited in one, however much that is.
        for at in 8..60_000 {
            let (far, waits) = noted(11 + at % 98, at);
            assert_eq!((far, waits.map(|[least, _]| least)), (Some(5), Some(5)));
        }
        assert_eq!([1, 2, 9].map(|replica| it.shortest(replica)), [Some(ms(5)), None, None]);
        // Pings, which wait for no sync, show how far it is, and not how long proposals take at least.
        let now = start + ms(59_999);
        it.reach(1, true, start);
        it.look(now, now);
        let number = it.ping(1, now).unwrap();
        it.answer(1, number, now + ms(2));
        assert_eq!((it.quorum(), it.waits().unwrap().0), (Some(ms(2)), ms(5)));
    }
}
