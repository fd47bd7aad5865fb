//! What peers send: frames for the core, and what their hosts report.
use super::{Host, HostFault, Plant};
use crate::parts::commits::Committed;
use crate::parts::frames::Head;
use crate::parts::hearing::{self, Heard};
use crate::parts::messages::Message;
use crate::parts::place::MOST_REPLICAS;
use crate::parts::progress::Came;
use std::time::Instant;

impl Host {
    pub(super) fn greet_all(&mut self) {
        for peer in 0..MOST_REPLICAS {
            self.greet(peer);
        }
    }

    /// Sends a peer what is committed here, so that both get what they lack.
    pub(super) fn send_commits(&mut self, peer: u8) {
        if self.progress.is_reached(peer) && self.acting.is_some() {
            self.send(peer, self.progress.committed());
        }
    }

    /// Notifies a peer that lags, now and then.
    fn greet_late(&mut self, peer: u8, now: Instant) {
        if self.progress.others.is_word_due(peer, now) {
            self.say_hello(peer);
        }
    }

    /// Hears what has come.
    pub(super) fn hear(&mut self, from: u8, bytes: Vec<u8>, now: Instant) -> Result<(), HostFault> {
        if !Message::is_one(&bytes) {
            self.take_frame(from, bytes, now);
            return Ok(());
        }
        // (how many entries there are isn't known before the first turn's acts are done)
        let is_starting = self.busy.as_ref().is_some_and(|busy| matches!(busy.change, Some(super::Change::Start)));
        let message = match hearing::hear(&mut self.progress, &mut self.reads, (from, bytes), now) {
            Heard::Nothing => return Ok(()),
            Heard::Answer(bytes) => {
                self.send(from, bytes);
                return Ok(());
            }
            Heard::Message(message) => message,
        };
        match message {
            Message::Hello { generation, is_sealed, seen } if !is_starting => {
                self.hear_hello(from, (generation, is_sealed, seen), now)?;
            }
            Message::Want { generation, offset } => self.hand_piece(from, (generation, offset), now),
            Message::Follow { first, generation, offset } => self.hand_part(from, ((first, generation), offset), now),
            Message::Piece { .. } | Message::Part { .. } => self.take_piece(from, message, now),
            Message::Machine { identity, waits } => self.hear_machine(from, (identity, waits), now),
            Message::Hello { .. } | Message::Ask { .. } | Message::Committed { .. } => {
                self.asked.push_back((from, message));
            }
            _ => {}
        }
        Ok(())
    }

    /// What the core has to answer; while this start is still listening, only how far peers are is heard.
    pub(super) fn hear_asked(&mut self, now: Instant) -> Result<(), HostFault> {
        for (from, message) in std::mem::take(&mut self.asked) {
            match message {
                Message::Hello { generation, is_sealed, seen } => {
                    self.hear_hello(from, (generation, is_sealed, seen), now)?;
                }
                _ if self.is_listening(now) => self.asked.push_back((from, message)),
                Message::Ask { generation, question, keys } => {
                    self.send_interfering(from, (generation, question), &keys)?;
                }
                Message::Committed { generation, committed } if generation == self.progress.generation.number => {
                    self.hear_commits(from, &committed, now)?;
                }
                _ => {}
            }
        }
        Ok(())
    }

    fn take_frame(&mut self, from: u8, bytes: Vec<u8>, now: Instant) {
        let is_dropped = |head: Head| self.busy.is_some() && head.entry % 16 == 0;
        if self.settings.has(Plant::DropsWhileBusy) && Head::read(&bytes).is_some_and(is_dropped) {
            return;
        }
        match self.progress.hear_frame(from, bytes) {
            Came::Frame(head, bytes) => self.pending.batch.0.push(super::Request::Frame(from, head, bytes)),
            Came::Late => self.greet_late(from, now),
            Came::Nothing => {}
        }
    }

    /// A peer reports how far it is, and what it has seen of this replica.
    fn hear_hello(
        &mut self,
        peer: u8,
        (generation, is_sealed, seen): (u32, bool, u32),
        now: Instant,
    ) -> Result<(), HostFault> {
        let spared = if self.settings.has(Plant::ForgetsFew) { 5 } else { 0 };
        let forgotten = self.progress.forgotten(peer, generation, seen.saturating_sub(spared));
        if let Some(entries) = forgotten.filter(|_| !self.settings.has(Plant::Forgetful)) {
            return Err(HostFault::Forgotten { peer, generation, seen, entries });
        }
        if self.progress.hear_hello(peer, (generation, is_sealed, seen)) {
            self.say_hello(peer);
            self.send_commits(peer);
        }
        let own = self.progress.generation.number;
        if generation < own {
            self.greet_late(peer, now);
        }
        if let Some(generations) = &mut self.joins
            && generation > 0
            && self.settings.identity.is_none()
        {
            generations.entry(peer).or_insert(generation);
            let majority = self.progress.place.replicas / 2 + 1;
            if generations.len() >= majority && self.least == 0 {
                // (the machine before was in none after the one that follows these: a seal of that would be known to
                // one of them)
                let early = self.settings.has(Plant::JoinsEarly);
                self.least = generations.values().max().copied().unwrap_or(0) + if early { 0 } else { 2 };
            }
        }
        // (a machine that joins waits for a later generation)
        self.progress.generation.is_asked |= generation == 0 && own > 0 && self.settings.identity.is_none();
        Ok(())
    }

    /// A peer has reported what is committed there.
    fn hear_commits(&mut self, from: u8, there: &Committed, now: Instant) -> Result<(), HostFault> {
        // (before a peer has reported what it saw of this replica it is sent no frame)
        let is_taken = self.progress.others.is_heard(from) && !self.settings.has(Plant::NoCommitsAgain);
        let Some(acting) = self.acting.as_mut().filter(|_| is_taken) else { return Ok(()) };
        let again = self.progress.hear_commits(from, there, &mut acting.replica, now)?;
        again.into_iter().for_each(|frame| self.send(from, frame));
        Ok(())
    }
}
