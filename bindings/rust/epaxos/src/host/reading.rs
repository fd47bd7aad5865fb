//! Reads that write nothing.
use super::held::Batch;
use super::here::Here;
use super::{Host, HostFault};
use crate::LONGEST_KEY;
use crate::host::{Refusal, Told};
use crate::parts::messages::Question;
use crate::parts::reading::Answered;
use std::time::Instant;

impl Host {
    /// A client asks what a key has, after all that was answered before anywhere. It is answered under this number,
    /// once: [`Told::Value`]. Nothing is written.
    ///
    /// ```
    /// # use epaxos::{Cluster, host::{Host, Settings}, service::MemoryDisk};
    /// # use std::time::Instant;
    /// use epaxos::host::{Refusal, Reply, Told};
    ///
    /// # fn main() -> Result<(), Box<dyn std::error::Error>> {
    /// let now = Instant::now();
    /// let mut host = Host::join(&Settings::new(Cluster::Three, 0), &MemoryDisk::default(), now)?;
    /// host.read(7, b"x".into(), now);
    /// assert_eq!(host.turn(now)?.replies[0], Reply { token: 7, told: Told::Refused(Refusal::Joining) });
    /// # Ok(()) }
    /// ```
    pub fn read(&mut self, token: u64, key: Vec<u8>, now: Instant) {
        let waiting = self.calls.held.len() + self.reads.count();
        self.due = self.due.min(now);
        let refusal = match key.len() {
            1..=LONGEST_KEY if self.acting.is_none() => Refusal::Joining,
            1..=LONGEST_KEY if self.has_left() => Refusal::Left,
            1..=LONGEST_KEY if self.ends => Refusal::Ending,
            1..=LONGEST_KEY if waiting >= self.settings.most => Refusal::Full,
            1..=LONGEST_KEY => return self.reads.ask(key, token),
            _ => Refusal::Fault(crate::Fault::OutOfRange),
        };
        self.reply(token, Told::Refused(refusal));
    }

    /// A client asks what a key has here, after all that this replica knows to be committed: that may be old, and is
    /// answered at once, without the others, also by a replica that takes part no more, as long as it is there. It is
    /// answered under this number, once: [`Told::Value`].
    ///
    /// ```
    /// # use epaxos::{Cluster, host::{Host, Settings}, service::MemoryDisk};
    /// # use std::time::Instant;
    /// use epaxos::host::{Reply, Told};
    ///
    /// # fn main() -> Result<(), Box<dyn std::error::Error>> {
    /// let now = Instant::now();
    /// let mut host = Host::begin(&Settings::new(Cluster::Three, 0), &MemoryDisk::default(), now)?;
    /// let writes = host.turn(now)?.writes.ok_or("nothing to write")?;
    /// host.synced(writes.number, now)?;
    /// host.read_here(7, b"x".into(), now);
    /// assert_eq!(host.turn(now)?.replies, [Reply { token: 7, told: Told::Value(None) }]);
    /// # Ok(()) }
    /// ```
    pub fn read_here(&mut self, token: u64, key: Vec<u8>, now: Instant) {
        match key.len() {
            1..=LONGEST_KEY => self.ask_here(token, Some(key), now),
            _ => self.reply(token, Told::Refused(Refusal::Fault(crate::Fault::OutOfRange))),
        }
    }

    /// The same of all keys, in their order: [`Told::All`].
    ///
    /// ```
    /// # use epaxos::{Cluster, host::{Host, Settings}, service::MemoryDisk};
    /// # use std::time::Instant;
    /// use epaxos::host::{Refusal, Told};
    ///
    /// # fn main() -> Result<(), Box<dyn std::error::Error>> {
    /// let now = Instant::now();
    /// let mut host = Host::join(&Settings::new(Cluster::Three, 0), &MemoryDisk::default(), now)?;
    /// host.read_all_here(7, now);
    /// assert_eq!(host.turn(now)?.replies[0].told, Told::Refused(Refusal::Joining));
    /// # Ok(()) }
    /// ```
    pub fn read_all_here(&mut self, token: u64, now: Instant) {
        self.ask_here(token, None, now);
    }

    fn ask_here(&mut self, token: u64, key: Option<Vec<u8>>, now: Instant) {
        self.due = self.due.min(now);
        let refusal = match () {
            () if self.acting.is_none() => Refusal::Joining,
            () if self.ends => Refusal::Ending,
            () if self.here.len() >= self.settings.most => Refusal::Full,
            () => return self.here.push(Here { token, key, is_due: false }),
        };
        self.reply(token, Told::Refused(refusal));
    }

    /// Answers who asked for what is here, where all was executed that was known to be committed then.
    pub(super) fn answer_here(&mut self) -> Result<(), HostFault> {
        let Some(acting) = self.acting.as_mut().filter(|_| !self.here.is_empty()) else { return Ok(()) };
        let (due, rest) = std::mem::take(&mut self.here).into_iter().partition(|here| here.is_due);
        self.here = rest;
        let mut outcomes = Vec::new();
        for Here { token, key, .. } in Vec::<Here>::from(due) {
            let it = match key {
                Some(key) => Told::Value(acting.replica.get(&key)?.map(<[u8]>::to_vec)),
                None => {
                    let all = acting.replica.contents()?;
                    Told::All(all.map(|(key, value)| (key.to_vec(), value.to_vec())).collect())
                }
            };
            outcomes.push((token, it));
        }
        outcomes.into_iter().for_each(|(token, it)| self.reply(token, it));
        Ok(())
    }

    /// Sends a peer what interferes with reads of these keys.
    pub(super) fn send_interfering(
        &mut self,
        to: u8,
        asked: (u32, Question),
        keys: &[Vec<u8>],
    ) -> Result<(), HostFault> {
        let Some(acting) = &mut self.acting else { return Ok(()) };
        let messages = self.reads.report(&mut self.progress, &mut acting.replica, asked, keys)?;
        messages.into_iter().for_each(|bytes| self.send(to, bytes));
        Ok(())
    }

    /// Asks what interferes with the reads that came, asks again where that is due, and answers those of which all is
    /// known and executed.
    pub(super) fn read_all(&mut self, now: Instant) -> Result<(), HostFault> {
        self.look_again()?;
        let Some(acting) = self.acting.as_mut().filter(|_| !self.reads.is_empty()) else { return Ok(()) };
        let asked = self.reads.questions(&self.progress, &mut acting.replica, now)?;
        let answered = self.reads.look(&self.progress, &mut acting.replica)?;
        asked.into_iter().for_each(|(to, bytes)| self.send(to, bytes));
        self.answer(answered);
        Ok(())
    }

    /// Whether something has to be executed that a read waits for.
    pub(super) fn reads_want(&self, batch: &Batch) -> bool {
        let may_be = self.executions.is_due() || batch.has_commits();
        may_be && self.reads.wants(&self.progress, |instance| batch.commits(instance))
    }

    /// Answers reads that waited for something, where that is executed by now.
    pub(super) fn look_again(&mut self) -> Result<(), HostFault> {
        let Some(acting) = self.acting.as_mut().filter(|_| self.reads.is_waiting()) else { return Ok(()) };
        let answered = self.reads.look_again(&self.progress, &mut acting.replica)?;
        self.answer(answered);
        Ok(())
    }

    fn answer(&mut self, answered: Vec<Answered<u64>>) {
        for (readers, value) in answered {
            readers.into_iter().for_each(|token| self.reply(token, Told::Value(value.clone())));
        }
    }
}
