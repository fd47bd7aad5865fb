//! A play on stores that have a processor for a fifth of the time: long values, many under way. A machine that is overloaded gets slow; it isn't to do
//! the same work again and again.
use crate::cluster::Cluster;
use crate::distance::begun;
use std::process::{Child, Command, Stdio};
use std::thread;
use std::time::{Duration, Instant};
use testing::client::{Client, Reply};

/// So many clients of each replica set so many values of so many bytes, each of a key of its own.
const CLIENTS: usize = 16;
const VALUES: usize = 3;
const LENGTH: usize = 60_000;
/// The logs of the replicas may have so many times as many bytes as all values, on the mean. (Without recoveries they have 7/3: each value is in its
/// proposal, in the frame that this sends, which another one handles, and in two Commits that are sent and handled. A recovery adds twelve copies.)
const MOST_TIMES: f64 = 2.6;
/// How long the stores are stopped and run, in turns, in seconds.
const STOPPED: &str = "0.08";
const RUNNING: &str = "0.02";
/// Longer than a store's patience, which is 10 s: in the end all have to be answered.
const PATIENCE: Duration = Duration::from_secs(60);

/// A process that stops and continues a replica, until it is dropped.
struct Starving<'a>(&'a Cluster, usize, Child);

impl Starving<'_> {
    fn begin(cluster: &Cluster, replica: usize) -> Result<Starving<'_>, String> {
        let group = cluster.group(replica).ok_or(format!("replica {replica} doesn't run"))?;
        let script = format!(
            "while kill -s STOP -- -{group}; do sleep {STOPPED}; kill -s CONT -- -{group} || exit; sleep {RUNNING}; done"
        );
        let child = Command::new("sh").args(["-c", &script]).stdin(Stdio::null()).stderr(Stdio::null()).spawn();
        Ok(Starving(cluster, replica, child.map_err(|error| error.to_string())?))
    }
}

impl Drop for Starving<'_> {
    fn drop(&mut self) {
        let _ = self.2.kill();
        let _ = self.2.wait();
        self.0.pause(self.1, false);
    }
}

/// The faults that were found.
pub fn run(cluster: &Cluster) -> Result<Vec<String>, String> {
    (0..cluster.replicas).try_for_each(|replica| cluster.await_answer(replica))?;
    let recovered_before = recoveries(cluster)?;
    let before: Vec<u64> = (0..cluster.replicas).map(|replica| cluster.log_bytes(replica)).collect();
    let starving =
        (0..cluster.replicas).map(|replica| Starving::begin(cluster, replica)).collect::<Result<Vec<_>, _>>()?;
    let start = Instant::now();
    let answered: usize = thread::scope(|scope| {
        let client = |place: usize| scope.spawn(move || set_all(cluster.client_ports[place % cluster.replicas], place));
        let clients: Vec<_> = (0..CLIENTS * cluster.replicas).map(client).collect();
        clients.into_iter().map(|client| client.join().unwrap_or(0)).sum()
    });
    let time = start.elapsed();
    drop(starving);
    // (what is still under way ends)
    thread::sleep(Duration::from_secs(2));
    let values = CLIENTS * cluster.replicas * VALUES;
    let bytes = (values * LENGTH) as u64;
    let logs = (0..cluster.replicas).map(|replica| cluster.log_bytes(replica) - before[replica]);
    let times: Vec<f64> = logs.map(|log| log as f64 / bytes as f64).collect();
    let (mean, recovered) = (times.iter().sum::<f64>() / times.len() as f64, recoveries(cluster)? - recovered_before);
    println!(
        "{answered} of {values} values told in {:.1} s, {recovered} recoveries; logs of {times:.1?} times the values, mean {mean:.2}",
        time.as_secs_f64()
    );
    let mut faults = Vec::new();
    if answered < values {
        faults.push(format!("{answered} of {values} values were told"));
    }
    if mean > MOST_TIMES {
        faults.push(format!("logs are more than {MOST_TIMES} times as long as the values"));
    }
    Ok(faults)
}

/// How many recoveries the stores have begun.
fn recoveries(cluster: &Cluster) -> Result<u64, String> {
    Ok(begun(cluster)?.iter().map(|begun| begun.recoveries).sum())
}

/// Sets values, one after the other, each until that is answered: how many were.
fn set_all(port: u16, place: usize) -> usize {
    let (start, mut client, value) = (Instant::now(), None, vec![place as u8; LENGTH]);
    let mut set = |key: String| {
        while start.elapsed() < PATIENCE {
            let mut connected = client.take().or_else(|| Client::connect(port, PATIENCE).ok());
            let reply = connected.as_mut().map(|it| it.ask(&[b"SET", key.as_bytes(), &value]));
            // (after an error the connection is of no use)
            client = connected.filter(|_| matches!(reply, Some(Ok(_))));
            match reply {
                Some(Ok(Reply::Simple(_))) => return true,
                _ => thread::sleep(Duration::from_millis(100)),
            }
        }
        false
    };
    (0..VALUES).filter(|number| set(format!("{place}-{number}"))).count()
}
