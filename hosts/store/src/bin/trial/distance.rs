//! A play over distance: the links take as long as those between regions, clients ask the store of their own region, and it is judged how long they
//! wait. Nobody sets the time by hand: what a command should take follows from the round trips and the fast quorums.
//! What the machine adds, which may be busy, is measured at the end, over links that take no time.
use crate::cluster::Cluster;
use crate::options::Options;
use std::fmt;
use std::sync::atomic::{AtomicBool, Ordering};
use std::thread;
use std::time::{Duration, Instant};
use store::random::Random;
use testing::client::{Client, Reply};

/// Regions of EC2: California, Virginia, Ireland, Oregon, Japan.
const NAMES: [&str; 5] = ["CA", "VA", "EU", "OR", "JP"];
/// Round trips between them, in milliseconds (as published with Gryff, NSDI 2020).
const ROUND_TRIPS: [[u64; 5]; 5] = [
    [0, 72, 151, 59, 113],
    [72, 0, 88, 93, 162],
    [151, 88, 0, 145, 220],
    [59, 93, 145, 0, 121],
    [113, 162, 220, 121, 0],
];
/// Clients of each site, where nothing is said.
pub const CLIENTS: usize = 4;
/// What comes before isn't counted: the first round trips are being measured.
const WARM: Duration = Duration::from_secs(3);
/// How long there is trouble, and how long after its beginning and its end nothing is judged.
const TROUBLE: Duration = Duration::from_secs(10);
const SETTLING: Duration = Duration::from_secs(3);
/// A far replica's links take so much longer, one way.
const FARTHER: Duration = Duration::from_millis(100);
/// What is under way as a replica dies takes so many round trips more to those that are left: for three phases of a recovery. And for the rest of it
/// a client of another site waits so much longer; or until a replica is known to be silent, or what was asked of one that is suddenly far is given up.
const ROUND_TRIPS_OF_RECOVERY: u32 = 3;
const MOST_AT_DEATH: Duration = Duration::from_millis(300);
const MOST_AT_SILENCE: Duration = Duration::from_secs(1);
/// A client's patience: that of a store is 10 s.
const PATIENCE: Duration = Duration::from_secs(30);

/// What happens to one replica.
#[derive(Clone, Copy, PartialEq, Eq, Debug)]
pub enum Trouble {
    Killed,
    Paused,
    Far,
}

impl Trouble {
    /// That of this word.
    pub fn read(word: &str) -> Result<Trouble, String> {
        match word {
            "kill" => Ok(Trouble::Killed),
            "pause" => Ok(Trouble::Paused),
            "far" => Ok(Trouble::Far),
            _ => Err(format!("--trouble {word}: kill, pause or far")),
        }
    }
}

impl fmt::Display for Trouble {
    fn fmt(&self, f: &mut fmt::Formatter) -> fmt::Result {
        f.write_str(match self {
            Trouble::Killed => "killed",
            Trouble::Paused => "paused",
            Trouble::Far => "200 ms farther",
        })
    }
}

/// The regions of a cluster, by the numbers of its replicas, and how many times as far apart they are as on earth.
#[derive(Clone, Default, PartialEq, Eq, Debug)]
pub struct Sites {
    regions: Vec<usize>,
    pub times: u64,
}

impl Sites {
    /// Those of these names, one after the other.
    pub fn read(word: &str) -> Result<Sites, String> {
        let place =
            |name: &str| NAMES.iter().position(|it| *it == name).ok_or(format!("--sites {name}: {}", NAMES.join(", ")));
        Ok(Sites { regions: word.split(',').map(place).collect::<Result<_, _>>()?, times: 1 })
    }

    pub fn count(&self) -> usize {
        self.regions.len()
    }

    /// The replica at the site of this name.
    pub fn replica(&self, name: &str) -> Result<usize, String> {
        self.regions.iter().position(|site| NAMES[*site] == name).ok_or(format!("{name} is no site of the cluster"))
    }

    fn name(&self, replica: usize) -> &'static str {
        NAMES[self.regions[replica]]
    }

    fn round_trip(&self, one: usize, other: usize) -> Duration {
        Duration::from_millis(ROUND_TRIPS[self.regions[one]][self.regions[other]] * self.times)
    }

    /// The round trips from a replica to the others, the shortest one first, where this goes wrong.
    fn round_trips(&self, replica: usize, trouble: Option<(Trouble, usize)>) -> Vec<Duration> {
        let round_trip = |other: usize| match trouble {
            Some((Trouble::Far, far)) if replica == far || other == far => {
                self.round_trip(replica, other) + 2 * FARTHER
            }
            Some((Trouble::Killed | Trouble::Paused, lost)) if other == lost => Duration::MAX,
            _ => self.round_trip(replica, other),
        };
        let mut all: Vec<Duration> = (0..self.count()).filter(|it| *it != replica).map(round_trip).collect();
        all.sort_unstable();
        all
    }

    /// What a command of a replica takes: the round trip to the farthest member of its fast quorum, which lacks the
    /// farthest replica of all, or the one that is lost.
    fn expected(&self, replica: usize, trouble: Option<(Trouble, usize)>) -> Duration {
        self.round_trips(replica, trouble).iter().rev().nth(1).copied().unwrap_or_default()
    }

    /// What a read takes: the round trip to the farthest member of the closest majority.
    fn expected_of_reads(&self, replica: usize) -> Duration {
        let others = self.count() / 2;
        self.round_trips(replica, None).get(others.saturating_sub(1)).copied().unwrap_or_default()
    }
}

impl fmt::Display for Sites {
    fn fmt(&self, f: &mut fmt::Formatter) -> fmt::Result {
        let names: Vec<_> = (0..self.count()).map(|replica| self.name(replica)).collect();
        f.write_str(&names.join(" "))
    }
}

impl Cluster {
    /// Has each link take as long as the way between its sites; those of one replica may take longer.
    fn set_distances(&self, sites: &Sites, farther: Option<usize>) {
        for (one, links) in self.links.iter().enumerate() {
            for (other, link) in links.iter().enumerate() {
                let more = if farther == Some(one) || farther == Some(other) { FARTHER } else { Duration::ZERO };
                if let Some(link) = link {
                    link.set_delay(sites.round_trip(one, other) / 2 + more);
                }
            }
        }
    }
}

/// One command: when it was asked since the start of a play, and how long it took. None: it was refused, or nobody knows.
#[derive(Clone, Copy)]
struct Timed {
    at: Duration,
    wait: Option<Duration>,
    is_hot: bool,
    is_read: bool,
}

/// What a replica reports that it has begun.
#[derive(Clone, Copy, PartialEq, Eq)]
pub struct Begun {
    accepts: u64,
    pub recoveries: u64,
}

/// The commands of the clients of each site.
type All = Vec<Vec<Timed>>;

/// A wait that is judged once it is known what the machine adds: how long it was, how long it may be, and how many
/// times that may come to it.
struct Judged {
    fault: String,
    took: Duration,
    may: Duration,
    times: u32,
}

/// What was found.
#[derive(Default)]
struct Found {
    faults: Vec<String>,
    judged: Vec<Judged>,
}

/// Plays what the options ask for: the faults that were found.
pub fn run(options: &Options, cluster: &Cluster) -> Result<Vec<String>, String> {
    let sites = &options.sites;
    cluster.set_distances(sites, None);
    (0..sites.count()).try_for_each(|replica| cluster.await_answer(replica))?;
    let mut found = Found::default();
    for share in &options.shares {
        measure(options, cluster, *share, &mut found)?;
    }
    for trouble in &options.troubles {
        trouble_at(options, cluster, *trouble, &mut found)?;
    }
    let added = added(options, cluster)?;
    println!("{} ms without distance", added.as_millis());
    let late = found.judged.into_iter().filter(|it| it.took > it.may + added * it.times).map(|it| it.fault);
    Ok(found.faults.into_iter().chain(late).collect())
}

/// What the machine adds to a command: half of them take no longer over links that take no time.
fn added(options: &Options, cluster: &Cluster) -> Result<Duration, String> {
    cluster.links.iter().flatten().flatten().for_each(|link| link.set_delay(Duration::ZERO));
    let end = WARM + SETTLING;
    let all = play(options, cluster, (0, 0), end, || Ok(()))?;
    let medians = all.iter().filter_map(|commands| part(&waits(commands, WARM, end, |_| true), 50));
    Ok(medians.max().unwrap_or_default())
}

/// Without trouble, so many of 100 commands being of one key.
fn measure(options: &Options, cluster: &Cluster, share: u64, found: &mut Found) -> Result<(), String> {
    let sites = &options.sites;
    let before = begun(cluster)?;
    let all = play(options, cluster, (share, options.reads), options.time, || Ok(()))?;
    let after = begun(cluster)?;
    println!(
        "| {sites}, {share} % on one key | expected | others p50 / p90 / p99 ms (commands) | the one key | \
         reads, expected | others | the one key | second phases | recoveries |"
    );
    println!("|---|---|---|---|---|---|---|---|---|");
    for (replica, commands) in all.iter().enumerate() {
        let of = |is_hot: bool, is_read: bool| {
            waits(commands, WARM, options.time, |it| it.is_hot == is_hot && it.is_read == is_read)
        };
        let (expected, cold) = (sites.expected(replica, None), of(false, false));
        let (expected_of_reads, reads) = (sites.expected_of_reads(replica), of(false, true));
        let slow = Begun {
            accepts: after[replica].accepts - before[replica].accepts,
            recoveries: after[replica].recoveries - before[replica].recoveries,
        };
        println!(
            "| {} | {} | {} | {} | {} | {} | {} | {} | {} |",
            sites.name(replica),
            expected.as_millis(),
            figures(&cold),
            figures(&of(true, false)),
            expected_of_reads.as_millis(),
            figures(&reads),
            figures(&of(true, true)),
            slow.accepts,
            slow.recoveries
        );
        if share == 0 {
            if options.reads < 100 {
                found.judge(options, replica, &cold, expected, "without trouble");
            }
            if options.reads > 0 {
                found.judge(options, replica, &reads, expected_of_reads, "of reads");
            }
            found.faults.extend(refused(sites, replica, commands));
            if slow != (Begun { accepts: 0, recoveries: 0 }) {
                found.faults.push(format!("{}: not every command has taken the fast path", sites.name(replica)));
            }
        }
    }
    let seconds = options.time.saturating_sub(WARM).as_secs_f64();
    let count: usize = all.iter().map(|commands| waits(commands, WARM, options.time, |_| true).len()).sum();
    println!("{:.0} commands a second", count as f64 / seconds);
    Ok(())
}

/// Something happens to a replica, and is over after a while, unless it was killed.
fn trouble_at(options: &Options, cluster: &Cluster, trouble: Trouble, found: &mut Found) -> Result<(), String> {
    let (sites, at) = (&options.sites, options.troubled);
    let (begin, end) = (WARM + SETTLING, WARM + SETTLING + TROUBLE);
    let time = end + 2 * SETTLING;
    let all = play(options, cluster, (0, 0), time, || {
        thread::sleep(begin);
        match trouble {
            Trouble::Killed => cluster.kill(at)?,
            Trouble::Paused => cluster.pause(at, true),
            Trouble::Far => cluster.set_distances(sites, Some(at)),
        }
        thread::sleep(TROUBLE);
        match trouble {
            Trouble::Killed => {}
            Trouble::Paused => cluster.pause(at, false),
            Trouble::Far => cluster.set_distances(sites, None),
        }
        Ok(())
    })?;
    println!(
        "| {sites}: {} is {trouble} | expected | before | at first | then, expected | then | at the end | longest |",
        sites.name(at)
    );
    println!("|---|---|---|---|---|---|---|---|");
    let settled = begin + SETTLING;
    for (replica, commands) in all.iter().enumerate() {
        let of = |from, to| waits(commands, from, to, |_| true);
        let (expected, within) = (sites.expected(replica, None), sites.expected(replica, Some((trouble, at))));
        let (before, first, then, last) =
            (of(WARM, begin), of(begin, settled), of(settled, end), of(end + SETTLING, time));
        // (what was under way as it began counts)
        let longest = waits(commands, Duration::ZERO, time, |it| it.wait.is_some_and(|wait| it.at + wait >= begin));
        let longest = longest.last().copied().unwrap_or_default();
        let is_out = replica == at && trouble != Trouble::Far;
        println!(
            "| {} | {} | {} | {} | {} | {} | {} | {} |",
            sites.name(replica),
            expected.as_millis(),
            figures(&before),
            figures(&first),
            if is_out { "-".into() } else { within.as_millis().to_string() },
            figures(&then),
            figures(&last),
            longest.as_millis()
        );
        if is_out {
            continue;
        }
        if trouble == Trouble::Far {
            found.faults.extend(refused(sites, replica, commands));
        }
        let for_good = if trouble == Trouble::Killed { within } else { expected };
        found.judge(options, replica, &then, within, &format!("while {} is {trouble}", sites.name(at)));
        found.judge(options, replica, &last, for_good, "at the end");
        let more = if trouble == Trouble::Killed { MOST_AT_DEATH } else { MOST_AT_SILENCE };
        let may = within * ROUND_TRIPS_OF_RECOVERY + more * sites.times as u32;
        let fault = format!("{}: a command took {} ms", sites.name(replica), longest.as_millis());
        found.judged.push(Judged { fault, took: longest, may, times: 1 + ROUND_TRIPS_OF_RECOVERY });
    }
    Ok(())
}

/// A fault, where some commands of a site weren't done.
fn refused(sites: &Sites, replica: usize, commands: &[Timed]) -> Option<String> {
    let count = commands.iter().filter(|it| it.wait.is_none()).count();
    (count > 0).then(|| format!("{}: {count} commands were refused", sites.name(replica)))
}

impl Found {
    /// Half of the commands of a site may take so long.
    fn judge(&mut self, options: &Options, replica: usize, waits: &[Duration], expected: Duration, when: &str) {
        let name = options.sites.name(replica);
        let Some(took) = part(waits, 50) else {
            self.faults.push(format!("{name}: no command was told {when}"));
            return;
        };
        let times = format!("{} ms {when}, where a round trip takes {}", took.as_millis(), expected.as_millis());
        let fault = format!("{name}: half of the commands took more than {times}");
        self.judged.push(Judged { fault, took, may: expected * options.most_parts / 100, times: 1 });
    }
}

/// Clients at all sites for so long, while something happens.
fn play(
    options: &Options,
    cluster: &Cluster,
    shares: (u64, u64),
    time: Duration,
    happens: impl FnOnce() -> Result<(), String>,
) -> Result<All, String> {
    let (start, is_over, sites) = (Instant::now(), AtomicBool::new(false), &options.sites);
    thread::scope(|scope| {
        let client = |place: usize| {
            let (replica, is_over) = (place % sites.count(), &is_over);
            scope.spawn(move || ask(cluster.client_ports[replica], place as u64, shares, start, is_over))
        };
        let clients: Vec<_> = (0..options.clients * sites.count()).map(client).collect();
        let happened = happens();
        thread::sleep(time.saturating_sub(start.elapsed()));
        is_over.store(true, Ordering::Relaxed);
        let mut all: All = vec![Vec::new(); sites.count()];
        for (place, client) in clients.into_iter().enumerate() {
            all[place % sites.count()].extend(client.join().map_err(|_| "a client has failed")?);
        }
        happened.map(|()| all)
    })
}

/// A client: asks one command after the other until it is over. So many of 100 are of the one key, and so many only
/// read.
fn ask(port: u16, seed: u64, (share, reads): (u64, u64), start: Instant, is_over: &AtomicBool) -> Vec<Timed> {
    let (mut random, mut connection, mut all) = (Random::from_seed(seed), None, Vec::new());
    while !is_over.load(Ordering::Relaxed) {
        let (is_hot, is_read) = (random.below(100) < share, random.below(100) < reads);
        let key = if is_hot { "hot".into() } else { format!("{seed}-{}", random.below(1_000)) };
        let at = start.elapsed();
        let client = match &mut connection {
            Some(client) => client,
            none => match Client::connect(port, PATIENCE) {
                Ok(client) => none.insert(client),
                Err(_) => {
                    thread::sleep(Duration::from_millis(50));
                    continue;
                }
            },
        };
        let words: &[&[u8]] =
            if is_read { &[b"GET", key.as_bytes()] } else { &[b"SET", key.as_bytes(), b"a value of 20 bytes."] };
        match client.ask(words) {
            Ok(Reply::Simple(_) | Reply::Bulk(_)) => {
                all.push(Timed { at, wait: Some(start.elapsed() - at), is_hot, is_read })
            }
            _ => {
                all.push(Timed { at, wait: None, is_hot, is_read });
                connection = None;
                thread::sleep(Duration::from_millis(50));
            }
        }
    }
    all
}

/// The waits of commands that were asked in this time, in rising order.
fn waits(commands: &[Timed], from: Duration, to: Duration, wanted: impl Fn(&Timed) -> bool) -> Vec<Duration> {
    let those = commands.iter().filter(|it| from <= it.at && it.at < to && wanted(it));
    let mut waits: Vec<Duration> = those.filter_map(|it| it.wait).collect();
    waits.sort_unstable();
    waits
}

fn part(waits: &[Duration], share: usize) -> Option<Duration> {
    waits.get(waits.len().saturating_sub(1) * share / 100).copied()
}

fn figures(waits: &[Duration]) -> String {
    let Some(parts) = [50, 90, 99].map(|share| part(waits, share)).into_iter().collect::<Option<Vec<_>>>() else {
        return "-".into();
    };
    let parts: Vec<_> = parts.iter().map(|it| it.as_millis().to_string()).collect();
    format!("{} ({})", parts.join(" / "), waits.len())
}

/// What each replica has begun until now.
pub fn begun(cluster: &Cluster) -> Result<Vec<Begun>, String> {
    let of = |replica: usize| {
        let mut client = Client::connect(cluster.client_ports[replica], PATIENCE).map_err(|error| error.to_string())?;
        let reply = client.ask(&[b"INFO"]).map_err(|error| error.to_string())?;
        let Reply::Bulk(Some(text)) = reply else { return Err(format!("no INFO: {reply:?}")) };
        let text = String::from_utf8_lossy(&text).into_owned();
        let number = |name: &str| {
            let line = text.lines().find_map(|line| line.strip_prefix(name)?.strip_prefix(':'));
            line.and_then(|it| it.parse().ok()).ok_or(format!("no {name} in INFO"))
        };
        Ok(Begun { accepts: number("accepts_begun")?, recoveries: number("recoveries_begun")? })
    };
    (0..cluster.replicas).map(of).collect()
}

#[cfg(test)]
mod tests {
    use super::*;

    fn expected(names: &str, trouble: Option<(Trouble, usize)>) -> Vec<u128> {
        let sites = Sites::read(names).unwrap();
        (0..sites.count()).map(|it| sites.expected(it, trouble).as_millis()).collect()
    }

    #[test]
    fn what_reads_take() {
        let expected = |names: &str| -> Vec<u128> {
            let sites = Sites::read(names).unwrap();
            (0..sites.count()).map(|it| sites.expected_of_reads(it).as_millis()).collect()
        };
        assert_eq!(expected("CA,VA,EU"), [72, 72, 88]);
        assert_eq!(expected("CA,VA,EU,OR,JP"), [72, 88, 145, 93, 121]);
    }

    /// Worked out by hand from the round trips.
    #[test]
    fn what_commands_take() {
        assert_eq!(expected("CA,VA,EU", None), [72, 72, 88]);
        assert_eq!(expected("CA,VA,EU,OR,JP", None), [113, 93, 151, 121, 162]);
        assert_eq!(expected("CA,EU,JP,VA,OR", None), [113, 151, 162, 93, 121]);
        assert_eq!(expected("CA,VA,EU", Some((Trouble::Killed, 1)))[0], 151);
        assert_eq!(expected("CA,VA,EU", Some((Trouble::Paused, 1)))[2], 151);
        assert_eq!(expected("CA,VA,EU", Some((Trouble::Far, 1))), [151, 272, 151]);
        // (Oregon's own clients are out)
        assert_eq!(expected("CA,VA,EU,OR,JP", Some((Trouble::Killed, 3))), [151, 162, 220, 121, 220]);
    }
}
