//! What the system reports of processes: for the trial and the bench.
use std::fs;
use std::time::Duration;

/// How many parts of a second the system counts processor time in.
const TICKS: u64 = 100;

/// The processes that this one has started and that run.
pub fn children(process: u32) -> Vec<u32> {
    let tasks = fs::read_dir(format!("/proc/{process}/task")).into_iter().flatten().flatten();
    let texts = tasks.filter_map(|task| fs::read_to_string(task.path().join("children")).ok());
    texts.flat_map(|text| text.split_whitespace().filter_map(|word| word.parse().ok()).collect::<Vec<_>>()).collect()
}

/// How many bytes of memory a process has, 0 where there is none.
pub fn memory(process: u32) -> u64 {
    let text = fs::read_to_string(format!("/proc/{process}/status")).unwrap_or_default();
    let line = text.lines().find_map(|line| line.strip_prefix("VmRSS:"));
    line.and_then(|line| line.split_whitespace().next()?.parse::<u64>().ok()).map_or(0, |kilobytes| kilobytes << 10)
}

/// The processor time that a process took, with its children that it has waited for and those that run.
pub fn processor_time(process: u32) -> Duration {
    let text = fs::read_to_string(format!("/proc/{process}/stat")).unwrap_or_default();
    // (the name in brackets may have blanks; behind it stand its state and ten numbers, and then these four)
    let numbers = text.rsplit_once(')').map_or("", |(_, rest)| rest).split_whitespace().skip(11).take(4);
    let ticks: u64 = numbers.filter_map(|word| word.parse::<u64>().ok()).sum();
    let running: Duration = children(process).into_iter().map(processor_time).sum();
    Duration::from_millis(ticks * 1_000 / TICKS) + running
}

/// The processor time of a process's threads that run, but of those of these names.
pub fn threads_time(process: u32, but: &[&str]) -> Duration {
    let tasks = fs::read_dir(format!("/proc/{process}/task")).into_iter().flatten().flatten().map(|task| task.path());
    let is_counted = |name: &str| !but.contains(&name.trim_end());
    let counted = tasks.filter(|task| fs::read_to_string(task.join("comm")).is_ok_and(|name| is_counted(&name)));
    let texts = counted.filter_map(|task| fs::read_to_string(task.join("schedstat")).ok());
    texts.filter_map(|text| text.split_whitespace().next()?.parse().ok()).map(Duration::from_nanos).sum()
}

/// How many bytes a process, and its children that run, have had written to disks.
pub fn written(process: u32) -> u64 {
    let text = fs::read_to_string(format!("/proc/{process}/io")).unwrap_or_default();
    let line = text.lines().find_map(|line| line.strip_prefix("write_bytes:"));
    let own = line.and_then(|bytes| bytes.trim().parse().ok()).unwrap_or(0);
    own + children(process).into_iter().map(written).sum::<u64>()
}

#[cfg(test)]
mod tests {
    use super::*;
    use std::process::{Command, Stdio};
    use std::time::Instant;

    #[test]
    fn of_this_process() {
        let own = std::process::id();
        assert!(memory(own) > 1 << 20 && memory(u32::MAX) == 0);
        let mut child = Command::new("cat").stdin(Stdio::piped()).stdout(Stdio::null()).spawn().unwrap();
        assert!(children(own).contains(&child.id()));
        child.kill().unwrap();
        child.wait().unwrap();
        assert!(!children(own).contains(&child.id()));
        let start = Instant::now();
        let own_time = move || threads_time(own, &[]).saturating_sub(threads_time(own, &["at work"]));
        let work = move || {
            while own_time() < Duration::from_millis(50) {
                assert!(start.elapsed() < Duration::from_secs(300));
            }
        };
        std::thread::Builder::new().name("at work".into()).spawn(work).unwrap().join().unwrap();
        let (before, start) = (processor_time(own), Instant::now());
        while processor_time(own) < before + Duration::from_millis(50) {
            assert!(start.elapsed() < Duration::from_secs(300));
        }
    }
}
