//! What a host does with its folder, for who traces that and has the power lost (.ci/disks/hosts.py):
//! cargo run --example power -- FOLDER new|serve|begin|again
//!
//! With `new` three hosts take turns in this thread, the first with the folder, the others with disks in memory. Its
//! client asks for one thing after the other, through changes of generation and openings that are written; for a while
//! it is cut off, and takes an opening then. Before anything goes out of it a line says on what that rests: the
//! generation, how many entries its log has, and what its client was answered last of a key and of the machine. With
//! `again` it goes on with the folder, alone, and lines say what it has; or why it doesn't start. With `begin` it does
//! so as a new one. With `serve` three services are asked, each with its threads.
#![forbid(unsafe_code)]

use epaxos::host::{Act, Host, Machine, Name, Ordered, Settings, Start, Status, Told, Turn, Work};
use epaxos::service::{CallFault, Disk, Folder, LocalNetwork, MemoryDisk, Service, SystemClock};
use epaxos::{Cluster, OwnedCommand};
use std::error::Error;
use std::io::{self, Write};
use std::path::Path;
use std::thread;
use std::time::{Duration, Instant};

type Res<T> = Result<T, Box<dyn Error>>;

/// So much is asked for. From one number on the first host is cut off, until the others have changed twice.
const ASKS: u64 = 60;
const AWAY: u64 = 40;
/// So much is asked of services at most.
const MOST_ASKS: u64 = 3_000;
/// So many turns after it was begun an opening is written.
const LATE: u32 = 40;
const MOST_TURNS: u32 = 100_000;

/// It counts what it was asked.
struct Count(u64);

impl Machine for Count {
    fn apply(&mut self, _: &Ordered) -> Vec<u8> {
        self.0 += 1;
        self.snapshot()
    }

    fn snapshot(&self) -> Vec<u8> {
        self.0.to_be_bytes().into()
    }

    fn restore(&mut self, snapshot: &[u8]) -> io::Result<()> {
        self.0 = u64::from_be_bytes(snapshot.try_into().map_err(io::Error::other)?);
        Ok(())
    }
}

/// Those of a host whose generations are short, and which writes an opening after some of them.
fn settings(me: u8) -> Settings {
    Settings { seed: me.into(), numbers: 12, checkpoint: 9_000, ..Settings::new(Cluster::Three, me) }
}

/// A host, with its disk, and what is to be done beside the log, with the turn in which it is.
struct One<D> {
    host: Host,
    disk: D,
    work: Vec<(u32, Work)>,
}

impl<D: Disk> One<D> {
    fn start(me: u8, start: Start, disk: D, now: Instant) -> Res<One<D>> {
        let host = Host::with_machine(&settings(me), start, &disk, Box::new(Count(0)), now)?;
        Ok(One { host, disk, work: Vec::new() })
    }

    /// Its turn. First goes out what there is, and then what it was to write is written.
    fn turn(&mut self, number: u32, now: Instant, go_out: impl FnOnce(&Host, &Turn) -> Res<()>) -> Res<Turn> {
        let (due, later) = std::mem::take(&mut self.work).into_iter().partition(|(at, _)| *at <= number);
        self.work = later;
        let due: Vec<(u32, Work)> = due;
        due.into_iter().try_for_each(|(_, work)| self.carry_out(work, now))?;
        let mut turn = self.host.turn(now)?;
        let late = |work: &Work| if matches!(work, Work::Write { .. }) { LATE } else { 0 };
        self.work.extend(std::mem::take(&mut turn.work).into_iter().map(|work| (number + late(&work), work)));
        go_out(&self.host, &turn)?;
        if let Some(writes) = &turn.writes {
            self.disk.carry_out(&writes.acts)?;
            self.host.synced(writes.number, now)?;
        }
        Ok(turn)
    }

    /// As a service does it.
    fn carry_out(&mut self, work: Work, now: Instant) -> Res<()> {
        match work {
            Work::Write { generation, machine, checkpoint } => {
                let put = machine.map(|bytes| Act::Put { generation, name: Name::Machine, bytes });
                self.disk.carry_out(put.as_slice())?;
                let (digest, bytes) = self.disk.write_opening(generation, checkpoint)?;
                self.host.opening_written(generation, &digest, bytes, now);
            }
            Work::Prepare { generation } => self.disk.prepare(generation)?,
            Work::Read { generation, offset, length } => {
                let part = self.disk.read_opening(generation, offset, length)?;
                self.host.opening_read(generation, offset, part, now);
            }
            Work::LetGo { generation, mut checkpoint } => {
                checkpoint.let_go();
                self.host.let_go(generation, checkpoint, now);
            }
            Work::Gather { number, spans } => {
                let parts = spans.iter().map(|span| self.disk.read_span(span)).collect::<Result<Vec<_>, _>>()?;
                self.host.gathered(number, Some(parts.concat()), now);
            }
            Work::Follow { generation, trail } => self.host.followed(generation, trail.opening().ok(), now),
        }
        Ok(())
    }
}

/// Reports on what that rests which goes out now.
fn report(status: &Status, [key, machine]: [u64; 2]) -> io::Result<()> {
    // (in one write)
    let line = format!("{} {} {key} {machine}\n", status.generation, status.entries);
    io::stdout().write_all(line.as_bytes())
}

/// The number that these bytes are.
fn number_in(bytes: &[u8]) -> Res<u64> {
    Ok(u64::from_be_bytes(bytes.try_into()?))
}

/// What is asked for: the key gets the number, or the machine counts one more.
fn ask(asked: u64) -> OwnedCommand {
    match asked % 3 {
        0 => OwnedCommand::Opaque { is_reading: false, first: b"count".into(), second: None, body: Vec::new() },
        _ => OwnedCommand::Put { key: b"x".into(), value: asked.to_be_bytes().into() },
    }
}

fn live(folder: Folder) -> Res<()> {
    let mut now = Instant::now();
    let mut first = One::start(0, Start::New, folder, now)?;
    let other = |me: u8| One::start(me, Start::New, MemoryDisk::default(), now);
    let mut others = [other(1)?, other(2)?];
    let link = |host: &mut Host, me: u8| (0..3).filter(|it| *it != me).for_each(|it| host.link_opened(it, now));
    link(&mut first.host, 0);
    (1..).zip(&mut others).for_each(|(me, it)| link(&mut it.host, me));
    let (mut asked, mut open, mut answered, mut away, mut away_from) = (0, None, [0, 0], false, 0);
    for number in 0..MOST_TURNS {
        let newest = others[0].host.status().generation;
        if asked == AWAY && open.is_none() && away_from == 0 {
            (away, away_from) = (true, newest);
        }
        away &= newest < away_from + 2;
        let is_back = first.host.status().generation >= newest;
        if open.is_none() && asked == ASKS && is_back && first.work.is_empty() {
            return Ok(());
        }
        if open.is_none() && asked < ASKS && (away || is_back) {
            asked += u64::from(!away);
            open = Some(asked);
            let asks = if away { &mut others[0].host } else { &mut first.host };
            asks.call(asked, ask(asked), now);
        }
        let mut frames = Vec::new();
        for me in 0..3 {
            let go_out = |host: &Host, turn: &Turn| {
                for reply in &turn.replies {
                    open = None;
                    match &reply.told {
                        _ if me > 0 => {}
                        Told::Done(_) => answered[0] = asked,
                        Told::Replied(count) => answered[1] = number_in(count)?,
                        other => return Err(format!("{other:?}").into()),
                    }
                }
                // (who greets others in its first turn has nothing on its disk)
                let is_some = me == 0 && number > 0 && (!turn.frames.is_empty() || !turn.replies.is_empty());
                if is_some { Ok(report(&host.status(), answered)?) } else { Ok(()) }
            };
            let sent = match me {
                0 => first.turn(number, now, go_out)?.frames,
                _ => others[me - 1].turn(number, now, go_out)?.frames,
            };
            frames.extend(sent.into_iter().map(|(to, bytes)| (me as u8, to, bytes)));
        }
        for (from, to, bytes) in frames.into_iter().filter(|(from, to, _)| !away || *from != 0 && *to != 0) {
            match to {
                0 => first.host.receive(from, bytes, now)?,
                _ => others[usize::from(to) - 1].host.receive(from, bytes, now)?,
            }
        }
        now += Duration::from_millis(1);
    }
    Err("it comes to no end".into())
}

/// Asks, until a later generation was reported and the first is dropped, however long threads take for that.
fn serve(place: &str) -> Res<()> {
    let folder = Folder::open(place)?;
    let (network, mut answered) = (LocalNetwork::new(Cluster::Three), [0, 0]);
    let link = |me: u8| (settings(me), network.link(me));
    let (own, link_of_first) = link(0);
    let first = Service::with_machine(&own, Start::New, (folder, link_of_first), SystemClock, Count(0))?;
    let other = |me: u8| {
        let (settings, link) = link(me);
        Service::with_machine(&settings, Start::New, (MemoryDisk::default(), link), SystemClock, Count(0))
    };
    let (_others, mut reported) = ([other(1)?, other(2)?], 0);
    for asked in 1..=MOST_ASKS {
        if asked > ASKS && reported > 3 && !Path::new(place).join("1").exists() {
            break;
        }
        loop {
            let done = match ask(asked) {
                command @ OwnedCommand::Opaque { .. } => {
                    first.apply(command).map(|reply| number_in(&reply).map(|it| answered[1] = it))
                }
                command => first.call(command).map(|_| Ok(answered[0] = asked)),
            };
            match done {
                // (the others may just be starting)
                Err(CallFault::Refused(_)) => thread::sleep(Duration::from_millis(1)),
                // (it was left behind)
                Err(CallFault::DoneUnseen | CallFault::Doubtful) => break,
                done => break done??,
            }
        }
        let status = first.status()?;
        report(&status, answered)?;
        reported = status.generation;
    }
    Ok(first.stop()?)
}

fn go_on(folder: Folder, start: Start) -> Res<()> {
    let mut now = Instant::now();
    let mut one = One::start(0, start, folder, now)?;
    // (a generation that is sealed is left, and an opening that is due is written)
    let mut generation = 0;
    for number in 0..2 * LATE {
        one.turn(number, now, |_, _| Ok(()))?;
        now += Duration::from_millis(1);
        let status = one.host.status();
        if status.generation != generation || number + 1 == 2 * LATE {
            generation = status.generation;
            let key = one.host.look_up(b"x")?.map_or(Ok(0), |value| number_in(&value))?;
            let machine = one.host.machine().map_or(Ok(0), |it| number_in(&it.snapshot()))?;
            report(&status, [key, machine])?;
        }
    }
    Ok(())
}

fn main() -> Res<()> {
    let words: Vec<String> = std::env::args().skip(1).collect();
    match words.iter().map(String::as_str).collect::<Vec<_>>()[..] {
        [folder, "new"] => live(Folder::open(folder)?),
        [folder, "serve"] => serve(folder),
        [folder, "begin"] => go_on(Folder::open(folder)?, Start::New),
        [folder, "again"] => go_on(Folder::open(folder)?, Start::Again),
        _ => Err("usage: power FOLDER new|serve|begin|again".into()),
    }
}
