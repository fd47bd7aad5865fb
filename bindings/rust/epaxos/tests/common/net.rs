//! Hosts in one thread, over disks in memory.
#![allow(dead_code)] // (each test uses a part)
use epaxos::OwnedCommand;
use epaxos::host::{Host, HostFault, Reply, Settings, Told, Work};
use epaxos::service::{Disk, MemoryDisk};
use std::time::{Duration, Instant};

/// Hosts in memory, whose frames all come, but for those of some that are away.
pub struct Net {
    pub hosts: Vec<Host>,
    pub disks: Vec<MemoryDisk>,
    pub now: Instant,
    pub calls: u64,
    pub away: Vec<u8>,
    /// How many times one of them has had an opening written, and has gone through a peer's logs.
    pub written: usize,
    pub followed: usize,
    /// Whether openings are written, where one is wanted.
    pub writes: bool,
}

impl Net {
    pub fn begin(settings: &Settings) -> Net {
        let (now, count) = (Instant::now(), settings.cluster.replicas());
        let disks: Vec<MemoryDisk> = (0..count).map(|_| MemoryDisk::default()).collect();
        let identity = |me: u8| settings.identity.map(|_| [me; 16]);
        let of = |me: u8| Settings { me, seed: me.into(), identity: identity(me), ..settings.clone() };
        let begin = |(me, disk): (u8, &MemoryDisk)| Host::begin(&of(me), disk, now).unwrap();
        let mut hosts: Vec<Host> = (0..).zip(&disks).map(begin).collect();
        for (me, host) in (0..).zip(&mut hosts) {
            (0..count).filter(|peer| *peer != me).for_each(|peer| host.link_opened(peer, now));
        }
        Net { hosts, disks, now, calls: 0, away: Vec::new(), written: 0, followed: 0, writes: false }
    }

    /// One starts with this disk, and is reached again.
    pub fn start(&mut self, me: u8, settings: &Settings, disk: MemoryDisk) {
        let settings = Settings { me, seed: 1_000 + u64::from(me), ..settings.clone() };
        let place = usize::from(me);
        (self.hosts[place], self.disks[place]) = (Host::open(&settings, &disk, self.now).unwrap(), disk);
        self.away.clear();
        for peer in (0..3).filter(|peer| *peer != me) {
            self.hosts[place].link_opened(peer, self.now);
            self.hosts[usize::from(peer)].link_opened(me, self.now);
        }
    }

    /// A turn of each: who is answered what.
    pub fn turn(&mut self) -> Vec<Reply> {
        self.try_turn().unwrap()
    }

    /// The same, or why one of them has ended.
    pub fn try_turn(&mut self) -> Result<Vec<Reply>, HostFault> {
        let (mut frames, mut replies) = (Vec::new(), Vec::new());
        for ((me, host), disk) in (0..).zip(&mut self.hosts).zip(&mut self.disks) {
            let turn = host.turn(self.now)?;
            frames.extend(turn.frames.into_iter().map(|(to, bytes)| (me, to, bytes)));
            replies.extend(turn.replies);
            if let Some(writes) = turn.writes {
                disk.carry_out(&writes.acts).unwrap();
                host.synced(writes.number, self.now).unwrap();
            }
            for work in turn.work {
                match work {
                    Work::Gather { number, spans } => {
                        let bytes = spans.iter().flat_map(|span| disk.read_span(span).unwrap()).collect();
                        host.gathered(number, Some(bytes), self.now);
                    }
                    Work::Follow { generation, trail } => {
                        self.followed += 1;
                        host.followed(generation, Some(trail.opening().unwrap()), self.now);
                    }
                    Work::LetGo { generation, checkpoint } => host.let_go(generation, checkpoint, self.now),
                    Work::Write { generation, checkpoint, .. } if self.writes => {
                        let (digest, bytes) = disk.write_opening(generation, checkpoint).unwrap();
                        host.opening_written(generation, &digest, bytes, self.now);
                    }
                    Work::Write { .. } | Work::Read { .. } => self.written += 1,
                    Work::Prepare { .. } => {}
                }
            }
        }
        for (from, to, bytes) in frames {
            if ![from, to].iter().any(|it| self.away.contains(it)) {
                self.hosts[usize::from(to)].receive(from, bytes, self.now)?;
            }
        }
        self.now += Duration::from_millis(1);
        Ok(replies)
    }

    /// What the first one's client is answered to a command.
    pub fn ask(&mut self, command: OwnedCommand) -> Told {
        self.hosts[0].call(self.calls + 1, command, self.now);
        self.outcome()
    }

    /// What comes of the next call, which was asked.
    pub fn outcome(&mut self) -> Told {
        self.calls += 1;
        for _ in 0..10_000 {
            let mut replies = self.turn();
            if let Some(reply) = replies.pop() {
                assert!(replies.is_empty() && reply.token == self.calls);
                return reply.told;
            }
        }
        panic!("nothing is answered");
    }
}
