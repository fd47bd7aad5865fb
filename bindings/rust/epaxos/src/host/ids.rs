//! The numbers under which a host proposes.
use crate::host::StartFault;
use crate::parts::random::Random;

/// At most so many commands are under way at once, each under a client's number of its own.
pub(super) const LANES: u16 = 1_024;
/// So many starts have numbers.
const STARTS: u32 = 1 << 19;

/// A start draws what the requests of each client begin at, below this.
const FIRST_REQUESTS: u64 = 1 << 31;

/// The numbers of one start, which no other start and no other replica has: also where the count of starts was set
/// back, as requests begin by chance. A client's requests follow one another.
pub(super) struct Ids {
    base: u32,
    /// The last request of each one.
    requests: Vec<u32>,
    /// Those that wait for no answer.
    free: Vec<u16>,
}

impl Ids {
    /// Those of the replica of this number at its start of this one, from 1.
    pub(super) fn new(me: u8, start: u32, random: &mut Random) -> Result<Ids, StartFault> {
        if !(1..STARTS).contains(&start) {
            return Err(StartFault::OutOfRange);
        }
        let base = start << 13 | u32::from(me);
        let requests = (0..LANES).map(|_| random.below(FIRST_REQUESTS) as u32).collect();
        Ok(Ids { base, requests, free: (1..LANES).rev().collect() })
    }

    /// The same numbers, none of which waits for an answer any more.
    pub(super) fn free_all(&mut self) {
        self.free = (1..LANES).rev().collect();
    }

    /// The client and the request of a seal.
    pub(super) fn seal(&mut self) -> (u32, u32) {
        self.requests[0] += 1;
        (self.base, self.requests[0])
    }

    /// The client that proposes seals: one number for each start.
    pub(super) fn sealer(&self) -> u32 {
        self.base
    }

    /// The client and the request of a command. None: all wait.
    pub(super) fn take(&mut self) -> Option<(u32, u32)> {
        let lane = self.free.pop()?;
        let request = &mut self.requests[usize::from(lane)];
        *request += 1;
        Some((self.base | u32::from(lane) << 3, *request))
    }

    /// The client waits no longer.
    pub(super) fn give_back(&mut self, client: u32) {
        self.free.push((client >> 3) as u16 % LANES);
    }
}

#[cfg(test)]
mod tests {
    use super::*;

    #[test]
    fn no_two_starts_and_no_two_replicas_have_a_number() {
        let random = |seed| Random::from_seed(seed);
        assert!(Ids::new(0, 0, &mut random(1)).is_err() && Ids::new(0, STARTS, &mut random(1)).is_err());
        let mut all = std::collections::BTreeSet::new();
        // (the last one has the number of one before)
        for (seed, (me, start)) in (1..).zip([(0, 1), (6, 1), (0, 2), (6, STARTS - 1), (0, 1)]) {
            let mut ids = Ids::new(me, start, &mut random(seed << 8)).unwrap();
            assert!(all.insert(ids.seal()));
            (1..LANES).for_each(|_| assert!(all.insert(ids.take().unwrap())));
            assert_eq!(ids.take(), None);
            let client = all.last().unwrap().0;
            let ids_client = (client & !0x1fff) >> 13;
            if ids_client == start {
                ids.give_back(client);
                assert_eq!(ids.take(), Some((client, all.last().unwrap().1 + 1)));
            }
        }
    }
}
