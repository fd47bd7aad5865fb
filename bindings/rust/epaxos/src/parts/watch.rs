//! Watches over open instances. What is late, and what is done about it, the library's patience decides, by the round
//! trips that are measured here.
//!
//! The core finds all that is open by passes over all that it knows. A host that notes here what frames name has it
//! look so but now and then, for what others depend on and no frame named.
use crate::parts::coarse::Coarse;
use crate::parts::place::Place;
use crate::parts::presence::Presence;
use crate::parts::round_trips::RoundTrips;
use crate::{Cluster, Event, Instance, Leading, OpenFault, OpenInstance, Patience, Phase, Waits};
use std::collections::{BTreeMap, BTreeSet};
use std::time::{Duration, Instant};

/// Between two looks for open instances, each of which takes the core several passes over all that it knows.
const BETWEEN_LOOKS: Duration = Duration::from_millis(30);
/// The same where it is noted what frames report, and what executions wait for.
const BETWEEN_WHOLE_LOOKS: Duration = Duration::from_secs(5);
/// Looking may take at most one part in so many of the time.
const SHARE_OF_LOOKS: u32 = 40;
/// What is on its way is waited for by time-outs only after so long, while all are there on whom it depends: the leader
/// of another's instance, or the members that were asked for their votes on an own one. A machine that is overloaded
/// gets slow; the same work once more would make it slower.
const TRUST: Duration = Duration::from_secs(3);
/// An answer that took longer counts as so long: its machine stood still, which shows nothing of how far it is. Else
/// what is lost next would be waited for by time-outs as long.
const MOST_MEASURED: Duration = TRUST;
/// What a replica leads that is gone is recovered so long after, as what it has sent may still come: by the next one
/// behind it, and by each further one so much later, as those before it may not know of the instance. What they begin
/// is reported meanwhile.
const AFTER_LOSS: Duration = Duration::from_millis(20);
const BETWEEN_HEIRS: Duration = Duration::from_millis(150);
/// At most so many at once.
const MOST_INHERITED: usize = 64;

/// What decides what is late.
enum Judge {
    Patience(Patience),
    /// The cluster has no size that the library has, as in tests.
    Coarse(Coarse),
}

/// The open instances that are known of, and when to look for more.
pub struct Watch {
    place: Place,
    judge: Judge,
    /// Times are given to the library since then.
    start: Instant,
    round_trips: RoundTrips,
    /// Of each replica whether it is there, since when, and when the connection to it was opened last.
    peers: Vec<(Presence, Instant, Instant)>,
    /// What the last whole look found, and what was noted, that isn't committed since, rising.
    open: Vec<OpenInstance>,
    /// When the library is to be asked again, as something was noted. None: nothing was.
    noted: Option<Instant>,
    asked: Instant,
    /// Those that a peer reports to be committed. The node may know nothing of them, so that no look finds them.
    committed: BTreeSet<Instance>,
    /// Since when others' instances were seen open.
    since: BTreeMap<Instance, Instant>,
    /// What somebody has begun to recover: nobody is heir to it any more.
    inherited: BTreeSet<Instance>,
    /// Whether nothing is trusted to come.
    is_hurried: bool,
    /// What the look that is under way has found, rising.
    found: Vec<OpenInstance>,
    is_looking: bool,
    /// Whether something was taken since the last look began.
    is_changed: bool,
    next_look: Instant,
    /// Whether the library is to be asked for what is late, and when it is in any case.
    is_due: bool,
    due: Option<Instant>,
}

impl Watch {
    /// At the start any instance may be open. `seed`: for what is left to chance.
    ///
    /// # Errors
    ///
    /// Why the library gives no patience: it is out of memory, say.
    pub fn new(place: Place, now: Instant, seed: u64) -> Result<Watch, OpenFault> {
        let cluster = u8::try_from(place.replicas).ok().and_then(|count| Cluster::try_from(count).ok());
        let judge = match cluster {
            Some(cluster) => Judge::Patience(Patience::new(cluster, place.replica, Waits::MICROSECONDS, seed)?),
            None => Judge::Coarse(Coarse::new(seed)),
        };
        Ok(Watch {
            place,
            judge,
            start: now,
            round_trips: RoundTrips::default(),
            peers: vec![(Presence::There, now, now); place.replicas],
            open: Vec::new(),
            noted: None,
            asked: now,
            committed: BTreeSet::new(),
            since: BTreeMap::new(),
            inherited: BTreeSet::new(),
            is_hurried: false,
            found: Vec::new(),
            is_looking: false,
            is_changed: true,
            next_look: now,
            is_due: false,
            due: None,
        })
    }

    /// Whether it goes by measured round trips.
    pub fn is_measured(&self) -> bool {
        matches!(self.judge, Judge::Patience(_))
    }

    /// Another generation begins. How far the peers are stays.
    pub fn begin(&mut self, now: Instant) {
        self.open.clear();
        self.noted = None;
        self.committed.clear();
        self.since.clear();
        self.inherited.clear();
        self.found.clear();
        self.is_hurried = false;
        self.round_trips.begin();
        (self.is_looking, self.is_changed, self.next_look, self.is_due) = (false, true, now, true);
    }

    /// The node has taken something.
    pub fn change(&mut self) {
        self.is_changed = true;
    }

    /// When there is something to do next; None: not before something comes.
    pub fn next(&self) -> Option<Instant> {
        let look = (self.is_looking || self.is_changed).then_some(self.next_look);
        look.into_iter().chain(self.due).chain(self.noted).min()
    }

    /// Whether something was taken since the last look.
    pub fn is_changed(&self) -> bool {
        self.is_looking || self.is_changed
    }

    pub fn is_look_due(&self, now: Instant) -> bool {
        (self.is_looking || self.is_changed) && self.next_look <= now
    }

    /// The instance above which to look.
    pub fn after(&mut self) -> Option<Instance> {
        if !self.is_looking {
            self.is_looking = true;
            self.is_changed = false;
        }
        self.found.last().map(|it| it.instance)
    }

    /// The look found these next.
    pub fn find(&mut self, found: &[OpenInstance]) {
        self.found.extend(found);
    }

    /// It found all that there are.
    pub fn find_no_more(&mut self, now: Instant) {
        self.open = std::mem::take(&mut self.found);
        let (mut before, me) = (std::mem::take(&mut self.since), self.place.replica);
        let others = self.open.iter().map(|open| open.instance).filter(|instance| instance.replica != me);
        self.since = others.map(|instance| (instance, before.remove(&instance).unwrap_or(now))).collect();
        (self.is_looking, self.is_due) = (false, true);
    }

    /// The look took so long.
    pub fn end_look(&mut self, cost: Duration, now: Instant) {
        self.next_look = now + BETWEEN_LOOKS.max(cost * SHARE_OF_LOOKS);
    }

    /// The same, where what frames report is noted.
    pub fn end_whole_look(&mut self, cost: Duration, now: Instant) {
        self.next_look = now + BETWEEN_WHOLE_LOOKS.max(cost * SHARE_OF_LOOKS);
    }

    /// What is known to be open above this instance, which a look that was broken off there hasn't seen.
    pub fn keep_above(&mut self, last: Instance) {
        let from = self.open.partition_point(|open| open.instance <= last);
        self.found.extend(&self.open[from..]);
    }

    /// A frame names an instance that isn't committed here. `led`: how it is led here now, if the frame changes
    /// that.
    pub fn note(&mut self, instance: Instance, led: Option<Option<Phase>>, now: Instant) {
        let leading = |phase: Phase| Leading { phase, answers: 0 };
        match self.open.binary_search_by_key(&instance, |it| it.instance) {
            Ok(place) => led.into_iter().for_each(|led| self.open[place].led = led.map(leading)),
            Err(place) => {
                let led = led.flatten().map(leading);
                self.open.insert(place, OpenInstance { instance, since: None, led, spared: None });
                if instance.replica != self.place.replica {
                    self.since.entry(instance).or_insert(now);
                }
                self.noted = self.noted.or(Some(now.max(self.asked + BETWEEN_LOOKS)));
            }
        }
    }

    /// An own proposal of this instance spares this replica, if it names one.
    pub fn propose(&mut self, instance: Instance, spared: Option<u8>) {
        self.round_trips.propose(instance, spared);
    }

    /// A member of the fast quorum is asked for its vote on an own proposal: the frame goes to the network now.
    pub fn ask(&mut self, instance: Instance, member: u8, now: Instant) {
        self.round_trips.ask(instance, member, now);
    }

    /// A member's answer was handled: how long it took, as far as that counts.
    pub fn answer(&mut self, instance: Instance, member: u8, now: Instant) -> Option<Duration> {
        let took = self.round_trips.answer(instance, member, now)?.min(MOST_MEASURED);
        self.measure(member, took);
        // (where somebody is lost there may be enough answers now to wait no longer)
        if self.peers.iter().any(|(presence, ..)| *presence != Presence::There) {
            self.due = Some(now);
        }
        Some(took)
    }

    /// An answer of a peer took so long.
    pub fn measure(&mut self, peer: u8, took: Duration) {
        if let Judge::Patience(patience) = &mut self.judge {
            // (there is such a peer)
            let _ = patience.measure(peer, took.min(MOST_MEASURED).as_micros() as u32);
        }
    }

    /// This replica has begun a second phase of an own instance, or its recovery.
    pub fn pass_first(&mut self, instance: Instance) {
        self.round_trips.pass_first(instance);
    }

    /// This replica or a peer has begun to recover an instance, at a ballot of this counter, or goes on with it.
    pub fn put_off(&mut self, instance: Instance, ballot: u16, now: Instant) {
        self.inherited.insert(instance);
        let time = self.time(now);
        if let Judge::Patience(patience) = &mut self.judge {
            // (there is such an instance; the library may be asked for nothing now, and never too late)
            let _ = patience.put_off(instance, ballot, time);
        }
    }

    /// A peer reports that these are committed, which they aren't here.
    pub fn hear(&mut self, instances: impl IntoIterator<Item = Instance>) {
        let before = self.committed.len();
        self.committed.extend(instances);
        self.is_due |= self.committed.len() > before;
    }

    /// It is committed.
    pub fn forget(&mut self, instance: Instance) {
        self.committed.remove(&instance);
        self.since.remove(&instance);
        self.inherited.remove(&instance);
        if let Ok(place) = self.open.binary_search_by_key(&instance, |it| it.instance) {
            self.open.remove(place);
        }
        if let Ok(place) = self.found.binary_search_by_key(&instance, |it| it.instance)
            && place + 1 < self.found.len()
        {
            // (the last one shows where the look goes on)
            self.found.remove(place);
        }
    }

    /// Whether a peer is there.
    pub fn reach(&mut self, peer: u8, presence: Presence, now: Instant) {
        let Some((before, since, _)) = self.peers.get_mut(usize::from(peer)).filter(|it| it.0 != presence) else {
            return;
        };
        (*before, *since) = (presence, now);
        self.inherited.retain(|instance| instance.replica != peer);
        self.is_due = true;
        if let Judge::Patience(patience) = &mut self.judge {
            let _ = patience.reach(peer, presence == Presence::There);
        }
    }

    /// A connection to a peer was opened: what it was asked before may be lost.
    pub fn open(&mut self, peer: u8, now: Instant) {
        if let Some((.., opened)) = self.peers.get_mut(usize::from(peer)) {
            *opened = now;
            self.is_due = true;
        }
    }

    fn is_there(&self, replica: u8) -> bool {
        self.peers.get(usize::from(replica)).is_some_and(|(presence, ..)| *presence == Presence::There)
    }

    /// Until when an instance isn't waited for by time-outs.
    fn trusted_until(&self, instance: Instance) -> Option<Instant> {
        if self.is_hurried || !self.is_measured() {
            return None;
        }
        if instance.replica != self.place.replica {
            return self.since.get(&instance).filter(|_| self.is_there(instance.replica)).map(|since| *since + TRUST);
        }
        let comes = |(member, asked): &(u8, Instant)| {
            let opened = self.peers.get(usize::from(*member)).is_some_and(|(.., opened)| opened <= asked);
            opened && self.is_there(*member)
        };
        // (with as many answers as may fail it can be given up, for the others' that are slow)
        let answers = self.round_trips.answers(instance).filter(|it| usize::from(*it) < self.place.replicas / 2);
        let asked = self.round_trips.asked(instance).filter(|asked| answers.is_some() && asked.iter().all(comes))?;
        asked.iter().map(|(_, asked)| *asked + TRUST).max()
    }

    /// When this replica recovers what another one leads without more ado: where that one is gone, after those between
    /// both that are there.
    fn inherits_from(&self, replica: u8) -> Option<Instant> {
        let (me, replicas) = (self.place.replica, self.place.replicas as u8);
        let (_, since, _) = self.peers.get(usize::from(replica)).filter(|it| it.0 == Presence::Gone)?;
        let there = (0..replicas).filter(|it| *it == me || self.is_there(*it)).count();
        let behind = (1..replicas).map(|step| (replica + step) % replicas).take_while(|it| *it != me);
        let before = behind.filter(|it| self.is_there(*it)).count() as u32;
        (there > self.place.replicas / 2).then_some(*since + AFTER_LOSS + BETWEEN_HEIRS * before)
    }

    /// Which open instances this replica recovers so now.
    fn inherit(&mut self, now: Instant, late: &[Event]) -> Vec<Event<'static>> {
        let is_due = |instance: &Instance| self.inherits_from(instance.replica).is_some_and(|due| due <= now);
        let is_new = |instance: &Instance| {
            let is_asked = |event: &Event| matches!(event, Event::Recover(asked) if asked == instance);
            !self.inherited.contains(instance) && !late.iter().any(is_asked)
        };
        let all = self.open.iter().map(|open| open.instance).filter(is_new).filter(is_due);
        let all: Vec<Instance> = all.take(MOST_INHERITED).collect();
        self.is_due |= all.len() == MOST_INHERITED;
        self.inherited.extend(&all);
        all.into_iter().map(Event::Recover).collect()
    }

    /// What waits for long needn't any more.
    pub fn hurry(&mut self) {
        (self.is_hurried, self.is_due, self.next_look) = (true, true, self.start);
        if let Judge::Patience(patience) = &mut self.judge {
            patience.hurry();
        }
    }

    /// What is late, each of which waits again.
    pub fn take_late(&mut self, now: Instant) -> Vec<Event<'static>> {
        let is_past = |due: Option<Instant>| due.is_some_and(|due| due <= now);
        if !std::mem::take(&mut self.is_due) && !is_past(self.due) && !is_past(self.noted) {
            return Vec::new();
        }
        (self.noted, self.asked) = (None, now);
        let (time, round_trips, me) = (self.time(now), &self.round_trips, self.place.replica);
        for open in self.open.iter_mut().filter(|open| open.instance.replica == me) {
            open.spared = round_trips.spared(open.instance);
            // (what has come since the look counts)
            if let Some(answers) = round_trips.answers(open.instance) {
                open.led = Some(Leading { phase: Phase::Proposing, answers });
            }
        }
        let is_waited_for = |open: &&OpenInstance| self.trusted_until(open.instance).is_none_or(|until| until <= now);
        let open: Vec<OpenInstance> = self.open.iter().filter(is_waited_for).copied().collect();
        let mut late = match &mut self.judge {
            Judge::Patience(patience) => {
                let committed: Vec<Instance> = self.committed.iter().copied().collect();
                // (where there is no memory, it is asked again)
                patience.turn(time, &open, &committed).unwrap_or_default()
            }
            Judge::Coarse(coarse) => {
                coarse.turn(now, open.iter().map(|open| open.instance).chain(self.committed.iter().copied()))
            }
        };
        late.extend(self.inherit(now, &late));
        self.learn_due(now);
        late
    }

    /// How many aren't committed here, where the node reports that these are open.
    pub fn count_with(&self, open: &[OpenInstance]) -> usize {
        let is_open = |instance: &Instance| open.iter().any(|it| it.instance == *instance);
        open.len() + self.committed.iter().filter(|instance| !is_open(instance)).count()
    }

    pub fn count(&self) -> usize {
        let is_open = |instance: &&Instance| self.open.binary_search_by_key(*instance, |it| it.instance).is_ok();
        self.open.len() + self.committed.len() - self.committed.iter().filter(is_open).count()
    }

    fn time(&self, now: Instant) -> u64 {
        now.saturating_duration_since(self.start).as_micros() as u64
    }

    fn learn_due(&mut self, now: Instant) {
        let judged = match &mut self.judge {
            Judge::Patience(patience) => patience.next_due().map(|due| self.start + Duration::from_micros(due)),
            Judge::Coarse(coarse) => coarse.due(),
        };
        let open = self.open.iter().map(|open| open.instance);
        let trusted = open.clone().filter_map(|instance| self.trusted_until(instance)).filter(|until| *until > now);
        let is_new = |instance: &Instance| !self.inherited.contains(instance);
        let heirs = open.filter(is_new).filter_map(|instance| self.inherits_from(instance.replica));
        let inherited = heirs.filter(|due| *due > now);
        self.due = judged.into_iter().chain(trusted).chain(inherited).min();
    }
}

#[cfg(test)]
mod tests {
    use super::*;

    const OWN: Instance = Instance { replica: 0, number: 3 };
    const OTHER: Instance = Instance { replica: 1, number: 1 };

    fn open(instance: Instance) -> OpenInstance {
        let led = (instance.replica == 0).then_some(Leading { phase: Phase::Proposing, answers: 0 });
        OpenInstance { instance, since: Some(1), led, spared: None }
    }

    fn watch(replicas: usize, now: Instant) -> Watch {
        Watch::new(Place { replicas, replica: 0 }, now, 1).unwrap()
    }

    fn look(it: &mut Watch, found: &[Instance], now: Instant) {
        assert_eq!(it.after(), None);
        it.find(&found.iter().map(|instance| open(*instance)).collect::<Vec<_>>());
        it.find_no_more(now);
        it.end_look(Duration::ZERO, now);
    }

    /// What the library refuses is reported, and nothing goes by constants in its place.
    #[test]
    fn where_there_is_no_patience_there_is_no_watch() {
        let made = Watch::new(Place { replicas: 3, replica: 3 }, Instant::now(), 1);
        assert!(matches!(made, Err(OpenFault::OutOfRange)));
    }

    #[test]
    fn nothing_open_is_idle() {
        let now = Instant::now();
        let mut it = watch(1, now);
        assert!(it.is_look_due(now));
        look(&mut it, &[], now);
        assert_eq!((it.next(), it.take_late(now)), (None, vec![]));
        it.change();
        assert_eq!(it.next(), Some(now + BETWEEN_LOOKS));
        assert!(!it.is_look_due(now) && it.is_look_due(now + BETWEEN_LOOKS));
        // A look that took long has the next one wait.
        it.end_look(Duration::from_millis(2), now);
        assert_eq!(it.next(), Some(now + Duration::from_millis(80)));
    }

    #[test]
    fn a_look_goes_on_where_it_was_though_that_is_committed() {
        let now = Instant::now();
        let mut it = watch(1, now);
        let of = |number| Instance { replica: 2, number };
        assert_eq!(it.after(), None);
        it.find(&[OWN, OTHER, of(1)].map(open));
        [OTHER, of(1)].into_iter().for_each(|instance| it.forget(instance));
        assert_eq!(it.after(), Some(of(1)));
        it.find(&[of(9)].map(open));
        it.find_no_more(now);
        assert_eq!(it.count(), 3);
        it.forget(of(1));
        assert_eq!(it.count(), 2);
    }

    #[test]
    fn what_a_peer_has_committed_is_open() {
        let now = Instant::now();
        let mut it = watch(1, now);
        look(&mut it, &[OWN], now);
        it.hear([OTHER, OWN]);
        assert_eq!((it.count(), it.count_with(&[open(OWN)]), it.count_with(&[])), (2, 2, 2));
        [OTHER, OWN].into_iter().for_each(|instance| it.forget(instance));
        assert_eq!((it.count(), it.count_with(&[])), (0, 0));
        it.hear([OTHER]);
        it.begin(now);
        assert_eq!(it.count(), 0);
    }

    /// What frames name is open as what a look has found is, and the library is asked as often.
    #[test]
    fn what_is_noted_is_open() {
        let now = Instant::now();
        let mut it = watch(3, now);
        assert!(it.is_measured());
        look(&mut it, &[], now);
        it.end_whole_look(Duration::ZERO, now);
        assert_eq!((it.take_late(now), it.count(), it.next()), (vec![], 0, None));
        it.note(OTHER, None, now);
        it.note(OWN, Some(Some(Phase::Proposing)), now);
        it.note(OWN, None, now);
        let later = now + BETWEEN_LOOKS;
        assert_eq!((it.count(), it.next()), (2, Some(later)));
        let leads = |it: &Watch| it.open.iter().map(|open| open.led.map(|led| led.phase)).collect::<Vec<_>>();
        assert_eq!(leads(&it), [Some(Phase::Proposing), None]);
        // Who begins to recover an own one leads it.
        it.note(OWN, Some(None), now);
        assert_eq!(leads(&it), [None, None]);
        assert_eq!((it.take_late(later), it.since.get(&OTHER)), (vec![], Some(&now)));
        assert!(it.next().is_some_and(|due| due > later));
        // A look that finds as many as can be reported leaves those above.
        it.change();
        assert!(it.is_changed() && !it.is_look_due(later) && it.is_look_due(now + BETWEEN_WHOLE_LOOKS));
        assert_eq!(it.after(), None);
        it.find(&[open(OWN)]);
        it.keep_above(OWN);
        it.find_no_more(later);
        assert_eq!(it.open.iter().map(|open| open.instance).collect::<Vec<_>>(), [OWN, OTHER]);
        it.end_whole_look(Duration::from_secs(1), later);
        it.change();
        assert!(!it.is_look_due(later + Duration::from_secs(39)) && it.is_look_due(later + Duration::from_secs(40)));
        // At the end of a generation it looks at once.
        it.hurry();
        assert!(it.is_look_due(later));
        [OWN, OTHER].into_iter().for_each(|instance| it.forget(instance));
        assert_eq!(it.count(), 0);
    }

    /// What was trusted until just now is asked for, though another one is put off before.
    #[test]
    fn who_is_put_off_hides_nothing_that_is_due() {
        let now = Instant::now();
        let mut it = watch(3, now);
        assert!(it.is_measured());
        look(&mut it, &[], now);
        it.note(OTHER, None, now);
        assert!(it.take_late(now + BETWEEN_LOOKS).is_empty());
        assert_eq!(it.next(), Some(now + TRUST));
        it.put_off(OWN, 1, now + TRUST + Duration::from_millis(1));
        assert_eq!(it.next(), Some(now + TRUST));
    }

    /// What is lost after a machine stood still for long is recovered within a minute.
    #[test]
    fn a_machine_that_stood_still_is_no_farther() {
        let (start, seconds) = (Instant::now(), Duration::from_secs);
        let mut it = watch(3, start);
        assert!(it.is_measured());
        let [first, lost] = [1, 2].map(|number| Instance { replica: 0, number });
        it.ask(first, 1, start);
        let now = start + seconds(12);
        assert_eq!(it.answer(first, 1, now), Some(MOST_MEASURED));
        it.measure(2, seconds(12));
        look(&mut it, &[], now);
        it.ask(lost, 1, now);
        it.note(lost, Some(Some(Phase::Proposing)), now);
        let (mut at, mut late) = (now, Vec::new());
        while late.is_empty() && at < now + seconds(60) {
            late = it.take_late(at);
            at = it.next().unwrap();
        }
        assert_eq!(late, [Event::Recover(lost)]);
    }

    /// With five replicas two others' answers are enough to give an own command up, once the time-out of the slowest
    /// member is over.
    #[test]
    fn measured_round_trips_decide_what_is_late() {
        let (start, ms) = (Instant::now(), Duration::from_millis);
        let mut it = watch(5, start);
        assert!(it.is_measured());
        // (ten commands, so that how long the answers take is known well)
        for number in 10..20 {
            let instance = Instance { replica: 0, number };
            [1, 2, 3].into_iter().for_each(|member| it.ask(instance, member, start));
            for (member, took) in [(1, 50), (2, 80), (3, 400)] {
                it.answer(instance, member, start + ms(took));
            }
        }
        let later = start + ms(1_000);
        [1, 2, 3].into_iter().for_each(|member| it.ask(OWN, member, later));
        look(&mut it, &[OWN], later);
        [1, 2].into_iter().for_each(|member| _ = it.answer(OWN, member, later + ms(80)));
        assert_eq!(it.take_late(later), []);
        // (a turn each 30 ms, as after looks)
        let turns = |it: &mut Watch, from: u64, to: u64| {
            let all = (from..to).step_by(30).map(|at| {
                it.is_due = true;
                it.take_late(later + ms(at))
            });
            all.flatten().collect::<Vec<_>>()
        };
        assert_eq!(turns(&mut it, 30, 480), []);
        assert_eq!(turns(&mut it, 480, 700), [Event::GiveUp(OWN)]);
    }

    /// What others lead is left to them for a while, and own proposals to those that were asked, as long as they are
    /// there. One who is silent isn't waited for.
    #[test]
    fn who_is_there_is_trusted() {
        let (start, ms) = (Instant::now(), Duration::from_millis);
        let mut it = watch(3, start);
        assert!(it.is_measured());
        // (all answer at once, so that their time-outs are 100 ms)
        [1, 2].into_iter().for_each(|peer| it.measure(peer, Duration::ZERO));
        let turns = |it: &mut Watch, from: Instant, to: Instant| {
            let mut all = Vec::new();
            let mut now = from;
            while now < to {
                it.is_due = true;
                all.extend(it.take_late(now));
                now += ms(30);
            }
            all
        };
        let ask = |it: &mut Watch, now: Instant| {
            it.begin(now);
            it.propose(OWN, Some(1));
            it.ask(OWN, 2, now);
            look(it, &[OWN, OTHER], now);
        };
        ask(&mut it, start);
        assert_eq!(turns(&mut it, start, start + TRUST), []);
        assert!(it.next().is_some_and(|due| due <= start + TRUST + ms(200)));
        let late = turns(&mut it, start + TRUST, start + TRUST + ms(700));
        assert!([OTHER, OWN].iter().all(|instance| late.contains(&Event::Recover(*instance))), "{late:?}");
        // The one that was asked has fallen silent: it is recovered at once. The other's leader is there.
        let now = start + ms(20_000);
        ask(&mut it, now);
        it.reach(2, Presence::Silent, now);
        assert_eq!(it.take_late(now), [Event::Recover(OWN)]);
        it.reach(2, Presence::There, now);
        // A leader that is silent is waited for by time-outs.
        it.reach(1, Presence::Silent, now);
        let late = turns(&mut it, now, now + ms(230));
        assert_eq!(late.iter().filter(|event| **event == Event::Recover(OTHER)).count(), 1, "{late:?}");
        it.reach(1, Presence::There, now);
        // What was asked on another connection may be lost.
        let now = start + ms(40_000);
        ask(&mut it, now);
        it.open(2, now + ms(1));
        assert_eq!(turns(&mut it, now + ms(30), now + ms(700)), [Event::Recover(OWN)]);
        // Once a seal is committed nothing is left to anybody.
        let now = start + ms(60_000);
        ask(&mut it, now);
        it.hurry();
        let late = turns(&mut it, now, now + ms(700));
        assert!([OTHER, OWN].iter().all(|instance| late.contains(&Event::Recover(*instance))), "{late:?}");
    }

    /// What a replica leads that is gone the next one recovers at once; the others later, one after the other.
    #[test]
    fn what_is_left_by_who_is_gone_is_recovered_soon() {
        let start = Instant::now();
        let watch = |me: u8, gone: &[u8]| {
            let mut it = Watch::new(Place { replicas: 5, replica: me }, start, 1).unwrap();
            look(&mut it, &[OTHER], start);
            gone.iter().for_each(|peer| it.reach(*peer, Presence::Gone, start));
            assert_eq!(it.take_late(start), []);
            it
        };
        // When each one recovers it, where these are gone.
        let late = |me: u8, gone: &[u8]| {
            let mut it = watch(me, gone);
            let step = Duration::from_millis(10);
            (1..50).find(|count| it.take_late(start + step * *count) == [Event::Recover(OTHER)]).map(|count| count * 10)
        };
        assert_eq!([2, 3].map(|me| late(me, &[1])), [Some(20), Some(170)]);
        assert_eq!([3, 4].map(|me| late(me, &[1, 2])), [Some(20), Some(170)]);
        // (without a majority nothing comes of it)
        assert_eq!(late(2, &[1, 3, 4]), None);
        // What somebody has begun is left to him; and it begins anew where the other one was back meanwhile.
        let (mut it, now) = (watch(3, &[1]), start + AFTER_LOSS + BETWEEN_HEIRS);
        it.put_off(OTHER, 1, start + AFTER_LOSS);
        assert_eq!(it.take_late(now), []);
        it.reach(1, Presence::There, now);
        it.reach(1, Presence::Gone, now);
        let later = now + AFTER_LOSS + BETWEEN_HEIRS;
        assert_eq!((it.take_late(later), it.take_late(later)), (vec![Event::Recover(OTHER)], vec![]));
    }

    /// Who goes on with a recovery, by whichever phase, isn't disturbed by his own time-outs.
    #[test]
    fn what_is_being_recovered_is_put_off() {
        let (start, ms) = (Instant::now(), Duration::from_millis);
        let mut it = watch(3, start);
        assert!(it.is_measured());
        (0..20).for_each(|_| it.measure(1, ms(151)));
        it.reach(2, Presence::Gone, start);
        it.propose(OWN, Some(1));
        it.ask(OWN, 2, start);
        look(&mut it, &[OWN], start);
        assert_eq!(it.take_late(start), [Event::Recover(OWN)]);
        for phase in 0..3 {
            let now = start + ms(151) * phase;
            it.pass_first(OWN);
            it.put_off(OWN, 1, now);
            it.is_due = true;
            assert_eq!(it.take_late(now + ms(150)), []);
        }
    }

    /// A proposal that spares a replica is given up once the time-out of the slowest one to which it goes is over,
    /// however slow the spared one is; and at once where one of those is lost.
    #[test]
    fn whom_a_proposal_spares_is_not_waited_for() {
        let (start, ms) = (Instant::now(), Duration::from_millis);
        for (spared, lost, is_at_once) in [(Some(3), 3, false), (Some(3), 4, true), (None, 4, false), (None, 3, true)] {
            let mut it = watch(5, start);
            assert!(it.is_measured());
            for _ in 0..10 {
                [(1, 50), (2, 80), (3, 9_000), (4, 60)].into_iter().for_each(|(peer, took)| it.measure(peer, ms(took)));
            }
            it.propose(OWN, spared);
            [1, 2, 3, 4].into_iter().filter(|it| Some(*it) != spared).for_each(|member| it.ask(OWN, member, start));
            [1, 2].into_iter().for_each(|member| _ = it.answer(OWN, member, start));
            look(&mut it, &[OWN], start);
            assert_eq!(it.take_late(start), []);
            it.reach(lost, Presence::Gone, start);
            let late = it.take_late(start + ms(1));
            assert_eq!(late, if is_at_once { vec![Event::GiveUp(OWN)] } else { vec![] }, "{spared:?} {lost}");
        }
    }
}
