//! What the stores of a round take, second by second, for a plot.
use crate::cluster::Sample;
use crate::workers::Work;
use std::fs::File;
use std::io::{self, BufWriter, Write};
use std::sync::atomic::Ordering;
use std::thread;
use std::time::Duration;

/// Writes a line each second, until the round is over; of memory and disk the greatest of all stores.
pub fn write(work: &Work, is_wanted: bool) -> io::Result<()> {
    if !is_wanted {
        return Ok(());
    }
    let mut file = BufWriter::new(File::create(work.cluster.directory().join("samples.csv"))?);
    writeln!(file, "seconds,commands,generation,replicas,store_bytes,disk_bytes")?;
    while !work.is_over.load(Ordering::Relaxed) {
        let all: Vec<_> = work.cluster.machines().map(|replica| work.cluster.sample(replica)).collect();
        let (seconds, answered) = (work.start.elapsed().as_secs_f64(), work.answered.load(Ordering::Relaxed));
        let generation = all.iter().map(|it| it.generation).max().unwrap_or(0);
        let replicas = all.iter().filter(|it| it.store > 0).count();
        let most = |of: fn(&Sample) -> u64| all.iter().map(of).max().unwrap_or(0);
        let (store, disk) = (most(|it| it.store), most(|it| it.disk));
        writeln!(file, "{seconds:.1},{answered},{generation},{replicas},{store},{disk}")?;
        thread::sleep(Duration::from_secs(1));
    }
    file.flush()
}
