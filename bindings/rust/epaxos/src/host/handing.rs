//! Openings: written beside the log, handed to peers that lag, and taken from them.
use super::{Act, Host, Name, Plant, Trail, Work};
use crate::Checkpoint;
use crate::parts::fetch::Step;
use crate::parts::messages::{LONGEST_PIECE, Message};
use std::time::{Duration, Instant};

/// Who gets an opening asks for its pieces, and has all of it once it hasn't asked for so long.
const HANDING: Duration = Duration::from_secs(1);

/// For a peer an opening is written where the logs in its place have so many bytes, and so many times its own.
const LONG_LOGS: u64 = 4 << 20;
const PARTS_OF_LOGS: u64 = 2;

/// A peer is notified that what it handed is still needed, so often.
const BETWEEN_WORDS: Duration = Duration::from_millis(250);

/// What a peer has handed, and is being gone through.
pub(super) struct Going {
    from: u8,
    generation: u32,
    /// What notifies the peer that it is still needed, and when it was sent last.
    word: Vec<u8>,
    sent_at: Instant,
}

impl Going {
    /// When the peer is to be notified again.
    pub(super) fn due(&self) -> Instant {
        self.sent_at + BETWEEN_WORDS
    }
}

impl Host {
    /// Whether an opening is being written, or handed to a peer: then the generation is to last.
    pub(super) fn is_opening_used(&self, now: Instant) -> bool {
        self.files.writing.is_some() || self.is_handing(now)
    }

    fn is_handing(&self, now: Instant) -> bool {
        self.handed.is_some_and(|handed| now < handed + HANDING)
    }

    /// Has what isn't needed any more dropped, once no peer is handed any of it.
    pub(super) fn drop_left(&mut self, now: Instant) {
        if !self.is_handing(now)
            && let Some(below) = self.drops_below.take()
        {
            self.lead.end();
            self.acts.push(Act::Drop { below });
        }
    }

    /// Has the opening of the present generation written, where it isn't and nothing else is being written.
    pub(super) fn write_opening(&mut self) {
        if self.files.writing.is_some() {
            return;
        }
        let Some((reference, checkpoint)) = self.files.unwritten.take() else { return };
        let generation = reference.generation();
        self.files.writing = Some(reference);
        if self.settings.has(Plant::DropsEarly) {
            self.acts.push(Act::Drop { below: generation });
        }
        self.begin_late();
        let lacks_it = self.settings.has(Plant::LacksMachine);
        let machine = self.applying.as_ref().filter(|_| !lacks_it).map(|it| it.begun().to_vec());
        self.out.work.push(Work::Write { generation, machine, checkpoint });
    }

    /// What was left of the generation before this one is let go ([`Work::LetGo`]).
    ///
    /// ```
    /// use epaxos::host::{Host, Work};
    /// use std::time::Instant;
    ///
    /// fn let_go(host: &mut Host, work: Work) {
    ///     if let Work::LetGo { generation, mut checkpoint } = work {
    ///         checkpoint.let_go();
    ///         host.let_go(generation, checkpoint, Instant::now());
    ///     }
    /// }
    /// ```
    pub fn let_go(&mut self, generation: u32, checkpoint: Checkpoint, now: Instant) {
        let Some(reference) = self.files.letting.take_if(|it| it.generation() == generation) else { return };
        self.files.unwritten = Some((reference, checkpoint));
        self.due = self.due.min(now);
        // (before that generation is on the disk nothing of it is written)
        let has_begun = generation == self.progress.generation.number;
        if has_begun && (self.files.is_due(self.settings.checkpoint, self.progress.place) || !self.wanting.is_empty()) {
            self.write_opening();
        }
    }

    /// The opening of this generation is on the disk ([`Work::Write`]): its last 32 bytes, and how many it has.
    ///
    /// ```
    /// use epaxos::host::{Host, Work};
    /// use epaxos::service::Disk;
    /// use std::time::Instant;
    ///
    /// fn write(host: &mut Host, disk: &mut impl Disk, work: Work) -> std::io::Result<()> {
    ///     if let Work::Write { generation, checkpoint, .. } = work {
    ///         let (digest, bytes) = disk.write_opening(generation, checkpoint)?;
    ///         host.opening_written(generation, &digest, bytes, Instant::now());
    ///     }
    ///     Ok(())
    /// }
    /// ```
    pub fn opening_written(&mut self, generation: u32, digest: &[u8; 32], bytes: u64, now: Instant) {
        let Some(reference) = self.files.writing.take_if(|it| it.generation() == generation) else { return };
        self.due = self.due.min(now);
        self.acts.push(Act::Put { generation, name: Name::Whole, bytes: reference.binding(digest) });
        self.files.keep(generation, bytes, Some(reference));
        self.note_left();
        if generation == self.progress.generation.number {
            self.hand_wanted(now);
        } else if !self.wanting.is_empty() {
            self.write_opening();
        }
    }

    /// The opening of this generation can't be written ([`Work::Write`]): the logs are there, and the next one may be.
    ///
    /// ```
    /// use epaxos::host::{Host, Work};
    /// use epaxos::service::Disk;
    /// use std::time::Instant;
    ///
    /// fn write(host: &mut Host, disk: &mut impl Disk, work: Work) {
    ///     if let Work::Write { generation, checkpoint, .. } = work {
    ///         match disk.write_opening(generation, checkpoint) {
    ///             Ok((digest, bytes)) => host.opening_written(generation, &digest, bytes, Instant::now()),
    ///             Err(_) => host.opening_failed(generation, Instant::now()),
    ///         }
    ///     }
    /// }
    /// ```
    pub fn opening_failed(&mut self, generation: u32, now: Instant) {
        if self.files.writing.take_if(|it| it.generation() == generation).is_some() {
            self.due = self.due.min(now);
            self.hand_wanted(now);
        }
    }

    /// Hands what was wanted before it was written.
    fn hand_wanted(&mut self, now: Instant) {
        for peer in std::mem::take(&mut self.wanting) {
            match self.applying {
                Some(_) => self.hand_piece(peer, (0, 0), now),
                None => self.hand_part(peer, ((0, 0), 0), now),
            }
        }
    }

    /// What may be dropped: all but the last generations that are to stay, and those on which the present one rests.
    pub(super) fn note_left(&mut self) {
        let kept = self.progress.generation.number.saturating_sub(self.settings.kept);
        let below = self.files.whole.0.min(kept);
        if below > self.dropped.max(1) {
            (self.drops_below, self.dropped) = (Some(below), below);
        }
    }

    /// A part of an opening was read ([`Work::Read`]), of which there are so many bytes in all.
    ///
    /// ```
    /// use epaxos::host::{Host, Work};
    /// use epaxos::service::Disk;
    /// use std::time::Instant;
    ///
    /// fn read(host: &mut Host, disk: &mut impl Disk, work: Work) -> std::io::Result<()> {
    ///     if let Work::Read { generation, offset, length } = work {
    ///         let part = disk.read_opening(generation, offset, length)?;
    ///         host.opening_read(generation, offset, part, Instant::now());
    ///     }
    ///     Ok(())
    /// }
    /// ```
    pub fn opening_read(&mut self, generation: u32, offset: u64, part: (u64, Vec<u8>), now: Instant) {
        let (mut total, mut bytes) = part;
        let front = self.front().len() as u64;
        let is_it = |one: &(u8, u32, u64)| (one.1, one.2.saturating_sub(front)) == (generation, offset);
        let to: Vec<(u8, u64)> = self.reading.iter().filter(|one| is_it(one)).map(|one| (one.0, one.2)).collect();
        self.reading.retain(|one| !is_it(one));
        self.due = self.due.min(now);
        if self.settings.has(Plant::WrongOpening)
            && let Some(less) = crate::parts::opening::lacking(&bytes, |count| count - 1)
        {
            (total, bytes) = (less.len() as u64, less);
        }
        // (of an earlier generation nothing more is handed: it is asked for anew)
        if generation == self.progress.generation.number {
            to.into_iter().for_each(|(peer, offset)| self.send_piece(peer, offset, (front + total, &bytes)));
        }
    }

    /// What of the present generation is handed before its opening: the state of the machine, where there is one.
    fn front(&self) -> &[u8] {
        self.applying.as_ref().map_or(&[], |it| it.begun())
    }

    /// Sends a peer the piece at this place, of so many bytes in all: what there is of the front, and then these.
    fn send_piece(&mut self, to: u8, offset: u64, (total, bytes): (u64, &[u8])) {
        let front = usize::try_from(offset).ok().and_then(|offset| self.front().get(offset..)).unwrap_or_default();
        let front = &front[..front.len().min(LONGEST_PIECE as usize)];
        let (generation, bytes) = (self.progress.generation.number, [front, bytes].concat());
        self.send(to, Message::Piece { generation, total, offset, bytes }.write());
    }

    /// Hands a peer the piece of an opening that it wants: of the present generation's, from its beginning where
    /// another one's was begun. It is written first, where it isn't there. What stands before it has its place before
    /// it.
    pub(super) fn hand_piece(&mut self, to: u8, (asked, offset): (u32, u64), now: Instant) {
        let generation = self.progress.generation.number;
        self.handed = Some(now);
        if self.files.whole.0 != generation || self.acting.is_none() {
            self.wanting.insert(to);
            self.write_opening();
            return;
        }
        self.begin_late();
        let front = self.front().len() as u64;
        let total = front + self.files.whole.1;
        let offset = if asked == generation { offset.min(total) } else { 0 };
        let of_front = front.saturating_sub(offset);
        let one = (to, generation, offset);
        if of_front >= LONGEST_PIECE {
            self.send_piece(to, offset, (total, &[]));
        } else if !self.reading.contains(&one) {
            self.reading.push(one);
            let (offset, length) = (offset.saturating_sub(front), LONGEST_PIECE - of_front);
            self.out.work.push(Work::Read { generation, offset, length });
        }
    }

    /// By a fault that is planted, the machine's state is that of now.
    fn begin_late(&mut self) {
        if let Some(applying) = self.applying.as_mut().filter(|_| self.settings.has(Plant::LateSnapshot)) {
            applying.begin(self.progress.generation.number);
        }
    }

    /// Whether the opening of the present generation is so much shorter than the logs that lead to it that it is
    /// written for a peer.
    fn is_better_written(&self) -> bool {
        let logs = self.files.logs();
        self.files.can_be_whole() && logs >= LONG_LOGS && self.calls.room.map <= logs / PARTS_OF_LOGS
    }

    /// Hands a peer the piece that it wants of what leads to the present generation: of what was begun for it, as long
    /// as that is there. Nothing is written for it, but where logs are long and the map is short.
    pub(super) fn hand_part(&mut self, to: u8, (ends, offset): ((u32, u32), u64), now: Instant) {
        if self.acting.is_none() {
            return;
        }
        self.handed = Some(now);
        if ends == (0, 0) && self.is_better_written() {
            self.wanting.insert(to);
            return self.write_opening();
        }
        let begun = self.lead.begun(to, ends, offset);
        let piece = begun.unwrap_or_else(|| self.lead.begin(to, self.files.way(), (ends, offset)));
        self.gathered += 1;
        let (number, spans) = (self.gathered, piece.spans.clone());
        self.gathering.insert(number, (to, piece));
        self.out.work.push(Work::Gather { number, spans });
    }

    /// The bytes of this number were read ([`Work::Gather`]), all of them, or they can't be.
    ///
    /// ```
    /// use epaxos::host::{Host, Work};
    /// use epaxos::service::Disk;
    /// use std::time::Instant;
    ///
    /// fn gather(host: &mut Host, disk: &impl Disk, work: Work) {
    ///     if let Work::Gather { number, spans } = work {
    ///         let bytes: std::io::Result<Vec<_>> = spans.iter().map(|span| disk.read_span(span)).collect();
    ///         host.gathered(number, bytes.ok().map(|all| all.concat()), Instant::now());
    ///     }
    /// }
    /// ```
    pub fn gathered(&mut self, number: u64, bytes: Option<Vec<u8>>, now: Instant) {
        let Some((to, piece)) = self.gathering.remove(&number) else { return };
        self.due = self.due.min(now);
        match bytes {
            Some(bytes) => self.send(to, piece.with(&bytes).write()),
            // (it asks again, and gets another one)
            None => self.lead.lose(to),
        }
    }

    /// What a peer has handed was gone through ([`Work::Follow`]): it leads to this opening of the generation, or to
    /// none. [`Trail`] shows how.
    pub fn followed(&mut self, generation: u32, opening: Option<Vec<u8>>, now: Instant) {
        if self.going.take_if(|going| going.generation == generation).is_none() {
            return;
        }
        self.due = self.due.min(now);
        let wrong = self.settings.has(Plant::WrongOpening);
        let less = |bytes: &Vec<u8>| crate::parts::opening::lacking(bytes, |count| count - 1).filter(|_| wrong);
        match opening {
            Some(bytes) => self.taken = Some((generation, less(&bytes).unwrap_or(bytes))),
            None => self.lag.end(),
        }
    }

    /// Notifies the peer now and then that what it has handed is still needed.
    pub(super) fn say_going(&mut self, now: Instant) {
        let Some(going) = self.going.as_mut().filter(|going| now >= going.due()) else { return };
        going.sent_at = now;
        let (from, word) = (going.from, going.word.clone());
        self.send(from, word);
    }

    /// A piece has come of an opening that this replica has asked for, or of what leads to one.
    pub(super) fn take_piece(&mut self, from: u8, piece: Message, now: Instant) {
        let Some(fetch) = &mut self.fetch else { return };
        match fetch.take(from, piece, now) {
            Ok(Step::Ask(more)) => more.into_iter().for_each(|message| self.send(from, message.write())),
            Ok(Step::Done(generation)) => {
                let Some(fetch) = self.fetch.take() else { return };
                if self.applying.is_some() {
                    self.taken = Some((generation, fetch.into_sink()));
                    return;
                }
                let word = fetch.word().write();
                self.send(from, word.clone());
                self.going = Some(Going { from, generation, word, sent_at: now });
                let trail = Trail::of(from, fetch.into_sink(), self.settings.sums);
                self.out.work.push(Work::Follow { generation, trail });
            }
            Ok(Step::Ignored) => {}
            Err(_) => self.fetch = None,
        }
    }
}
