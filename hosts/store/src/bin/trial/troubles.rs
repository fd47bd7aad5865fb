//! What goes wrong in a round: kills, and at the same time cuts and pauses.
use crate::cluster::Cluster;
use crate::options::{Options, Plant};
use std::thread;
use std::time::{Duration, Instant};
use store::random::Random;

/// How much went wrong.
#[derive(Default, Clone, Copy, Debug)]
pub struct Count {
    pub kills: usize,
    pub replaced: usize,
    pub cuts: usize,
    pub pauses: usize,
}

/// Lets things go wrong until the time of a round is over; then all are running, and nothing is cut.
pub fn run(options: &Options, cluster: &Cluster, seed: u64) -> Result<Count, String> {
    let random = Random::from_seed(seed);
    let calm = if options.life { 15 } else { 1 };
    let mut kills = Troubles { cluster, random, start: Instant::now(), time: options.time, plant: options.plant, calm };
    let mut weather = Troubles { random: Random::from_seed(seed.rotate_left(32)), ..kills };
    thread::scope(|scope| {
        let weather = scope.spawn(move || weather.weather());
        // (a third of the time with two more)
        let resized = scope.spawn(move || {
            if !options.resize {
                return Ok(());
            }
            thread::sleep(options.time / 3);
            cluster.resize(options.time / 3)
        });
        let killed = kills.kills(options.kills, options.replaced);
        resized.join().map_err(|_| "the resize failed")??;
        let (cuts, pauses) = weather.join().map_err(|_| "the weather failed")?;
        killed.map(|kills| Count { kills, replaced: options.replaced, cuts, pauses })
    })
}

struct Troubles<'a> {
    cluster: &'a Cluster,
    random: Random,
    start: Instant,
    time: Duration,
    plant: Option<Plant>,
    /// So many times longer than in a short round it is between two cuts or pauses.
    calm: u64,
}

impl Troubles<'_> {
    fn wait(&mut self, least: u64, most: u64) {
        thread::sleep(Duration::from_millis(least + self.random.below(most - least)));
    }

    fn any_replica(&mut self) -> usize {
        self.random.below(self.cluster.replicas as u64) as usize
    }

    /// So many replicas that follow one another.
    fn some_replicas(&mut self, count: usize) -> Vec<usize> {
        let first = self.any_replica();
        (0..count).map(|place| (first + place) % self.cluster.replicas).collect()
    }

    /// Kills at random moments, each in its share of the time; some of them for good, so that another machine comes. By that plant one
    /// finds its log emptied when it starts again.
    fn kills(&mut self, count: usize, replaced: usize) -> Result<usize, String> {
        let to_empty = (self.plant == Some(Plant::Emptied)).then_some(count / 3);
        let all = count + replaced;
        for kill in 0..all {
            let share = (kill as f64 + self.random.below(800) as f64 / 1_000.0) / all as f64;
            thread::sleep(self.time.mul_f64(share).saturating_sub(self.start.elapsed()));
            // (spread over the round, none at its beginning)
            let is_loss = (kill + 1) * replaced / all > kill * replaced / all;
            if is_loss {
                let replica = self.any_replica();
                self.cluster.replace(replica)?;
            } else {
                self.kill(to_empty == Some(kill))?;
            }
        }
        thread::sleep(self.time.saturating_sub(self.start.elapsed()));
        Ok(count)
    }

    /// All have lost a seal when they start again, behind which commands were reported to clients.
    fn unseal(&mut self) -> Result<(), String> {
        self.cluster.seal(0);
        self.wait(1_000, 2_000);
        let fault = |error: std::io::Error| format!("a seal can't be forgotten: {error}");
        let all = 0..self.cluster.replicas;
        all.clone().try_for_each(|replica| self.cluster.kill(replica))?;
        self.cluster.forget_seal().map_err(fault)?;
        all.into_iter().try_for_each(|replica| self.cluster.launch(replica)).map_err(fault)
    }

    fn kill(&mut self, empties: bool) -> Result<(), String> {
        if self.plant == Some(Plant::Unsealed) {
            return self.unseal();
        }
        // Now and then all of them, as when the current fails.
        let count = if self.random.below(8) == 0 { self.cluster.replicas } else { 1 };
        let mut killed = self.some_replicas(count);
        if self.plant == Some(Plant::Older) {
            killed = vec![0];
        }
        // Some die while they go from one generation to the next.
        if self.random.below(2) == 0 && self.plant != Some(Plant::Older) {
            self.cluster.seal(self.some_replicas(1)[0]);
            self.wait(0, 80);
        }
        if self.plant == Some(Plant::Foreign) {
            killed = self.some_replicas(1);
        }
        killed.iter().try_for_each(|replica| self.cluster.kill(*replica))?;
        if self.plant == Some(Plant::Foreign) {
            // (it comes back in an earlier generation than the others)
            self.cluster.seal((killed[0] + 1) % self.cluster.replicas);
            self.wait(1_000, 1_500);
        }
        self.wait(20, 1_500);
        let fault = |error: std::io::Error| format!("a replica can't be started: {error}");
        if self.plant == Some(Plant::Older) {
            self.cluster.turn_back(killed[0])?;
        }
        if empties {
            std::fs::write(self.cluster.log(killed[0]), b"").map_err(fault)?;
        }
        if self.plant == Some(Plant::Unsynced) {
            killed.iter().try_for_each(|replica| self.cluster.forget_last(*replica)).map_err(fault)?;
        }
        killed.into_iter().try_for_each(|replica| self.cluster.launch(replica)).map_err(fault)
    }

    /// Cuts and pauses: how many of each.
    fn weather(&mut self) -> (usize, usize) {
        let (mut cuts, mut pauses) = (0, 0);
        while self.start.elapsed() < self.time {
            // (in a life it clears up now and then)
            self.wait(20 * self.calm, 800 * self.calm);
            if self.random.below(3) == 0 {
                pauses += 1;
                self.pause();
            } else {
                cuts += 1;
                self.cut();
            }
        }
        (cuts, pauses)
    }

    /// Stops a minority for a while; now and then for seconds.
    fn pause(&mut self) {
        let count = 1 + self.random.below(self.cluster.replicas as u64 / 2) as usize;
        let paused = self.some_replicas(count);
        paused.iter().for_each(|replica| self.cluster.pause(*replica, true));
        let most = if self.random.below(4) == 0 { 5_000 } else { 1_500 };
        self.wait(100, most);
        paused.iter().for_each(|replica| self.cluster.pause(*replica, false));
    }

    /// Cuts a replica off from another one, or from all others; for a moment, or for longer.
    fn cut(&mut self) {
        let (one, replicas) = (self.any_replica(), self.cluster.replicas);
        let other = (one + 1 + self.random.below(replicas as u64 - 1) as usize) % replicas;
        let is_alone = self.random.below(3) == 0;
        let others = (0..replicas).filter(|replica| *replica != one && (is_alone || *replica == other));
        let others: Vec<usize> = others.collect();
        others.iter().for_each(|other| self.cluster.set_cut(one, *other, true));
        if self.random.below(2) == 0 {
            self.wait(100, 1_500);
        }
        others.iter().for_each(|other| self.cluster.set_cut(one, *other, false));
    }
}
