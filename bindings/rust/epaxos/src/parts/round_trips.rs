//! How long the answers to own proposals take: from when a proposal's frame is handed to the network, after the sync,
//! until the answer is handled.
use crate::Instance;
use std::collections::HashMap;
use std::time::{Duration, Instant};

/// A proposal of this replica.
#[derive(Default)]
struct Proposal {
    /// The members that were asked and haven't answered, and when.
    asked: Vec<(u8, Instant)>,
    answers: u8,
    /// The replica that it names as the spared one, if it names one.
    spared: Option<u8>,
    /// Whether something else was begun for it than the first phase.
    is_past_first: bool,
}

/// The proposals of a generation.
#[derive(Default)]
pub struct RoundTrips {
    proposals: HashMap<Instance, Proposal>,
}

impl RoundTrips {
    /// Another generation begins, and the proposals of the one before are over.
    pub fn begin(&mut self) {
        self.proposals.clear();
    }

    /// An own proposal spares this replica, if it names one.
    pub fn propose(&mut self, instance: Instance, spared: Option<u8>) {
        self.proposals.entry(instance).or_default().spared = spared;
    }

    /// The replica that a proposal names as the spared one, if it names one.
    pub fn spared(&self, instance: Instance) -> Option<u8> {
        self.proposals.get(&instance).and_then(|it| it.spared)
    }

    /// A member is asked for its vote on an own proposal.
    pub fn ask(&mut self, instance: Instance, member: u8, now: Instant) {
        self.proposals.entry(instance).or_default().asked.push((member, now));
    }

    /// A member has answered. How long that took; None where it wasn't asked, or has answered before.
    pub fn answer(&mut self, instance: Instance, member: u8, now: Instant) -> Option<Duration> {
        let proposal = self.proposals.get_mut(&instance)?;
        let place = proposal.asked.iter().position(|(asked, _)| *asked == member)?;
        let (_, asked) = proposal.asked.swap_remove(place);
        proposal.answers += 1;
        Some(now.saturating_duration_since(asked))
    }

    /// The members that were asked for their votes and haven't answered, and when.
    pub fn asked(&self, instance: Instance) -> Option<&[(u8, Instant)]> {
        self.proposals.get(&instance).map(|it| &it.asked[..])
    }

    /// This replica has begun a second phase, or a recovery.
    pub fn pass_first(&mut self, instance: Instance) {
        if let Some(proposal) = self.proposals.get_mut(&instance) {
            proposal.is_past_first = true;
        }
    }

    /// How many members have answered a proposal that is in its first phase.
    pub fn answers(&self, instance: Instance) -> Option<u8> {
        self.proposals.get(&instance).filter(|it| !it.is_past_first).map(|it| it.answers)
    }
}

#[cfg(test)]
mod tests {
    use super::*;

    const OWN: Instance = Instance { replica: 0, number: 7 };

    #[test]
    fn answers_are_measured_once() {
        let (start, ms) = (Instant::now(), Duration::from_millis);
        let mut it = RoundTrips::default();
        assert_eq!((it.spared(OWN), it.answers(OWN)), (None, None));
        it.propose(OWN, Some(4));
        [1, 2, 3].into_iter().for_each(|member| it.ask(OWN, member, start));
        assert_eq!(it.answers(OWN), Some(0));
        assert_eq!(it.answer(OWN, 2, start + ms(88)), Some(ms(88)));
        assert_eq!(it.answer(OWN, 2, start + ms(90)), None);
        assert_eq!(it.answer(OWN, 4, start + ms(90)), None);
        assert_eq!(it.answers(OWN), Some(1));
        // One that comes late shows how far its sender is all the same.
        it.pass_first(OWN);
        assert_eq!((it.answer(OWN, 1, start + ms(500)), it.answers(OWN)), (Some(ms(500)), None));
        assert_eq!(it.spared(OWN), Some(4));
        it.begin();
        assert_eq!((it.answer(OWN, 3, start), it.answers(OWN), it.spared(OWN)), (None, None, None));
    }
}
