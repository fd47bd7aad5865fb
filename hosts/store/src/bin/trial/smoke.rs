//! A short trial by the programs `redis-cli` and `redis-benchmark`, where they are there.
use crate::cluster::Cluster;
use std::process::Command;
use std::thread;
use std::time::Duration;

/// The faults that were found.
pub fn run(cluster: &Cluster) -> Vec<String> {
    let mut faults = by_cli(cluster);
    for (number, words) in BENCHMARKS.iter().enumerate() {
        faults.extend(by_benchmark(cluster.client_ports[number % cluster.replicas], words).err());
    }
    faults
}

fn by_cli(cluster: &Cluster) -> Vec<String> {
    if Command::new("redis-cli").arg("--version").output().is_err() {
        println!("no redis-cli is here: nothing was tried by it");
        return Vec::new();
    }
    let long = "v".repeat(65_536);
    let asked: [(usize, &[&str], &str); 14] = [
        (0, &["ping"], "PONG"),
        (0, &["set", "x", "1"], "OK"),
        (1, &["get", "x"], "1"),
        (2, &["set", "y", ""], "OK"),
        (0, &["get", "y"], ""),
        (1, &["del", "x", "y", "z"], "2"),
        (2, &["get", "x"], ""),
        (2, &["info"], "generation:"),
        (0, &["set", "x", "1", "nx"], "OK"),
        (0, &["set", "x", &long], "ERR a value"),
        (0, &["get", ""], "ERR a key"),
        (0, &["keys", "*"], "x"),
        (0, &["readonly"], "OK"),
        (0, &["command", "docs"], ""),
    ];
    let mut faults = Vec::new();
    for (replica, words, expected) in asked {
        let printed = run_with_patience(cluster, replica, words);
        let fits = if expected.is_empty() { printed.is_empty() } else { printed.contains(expected) };
        if !fits {
            faults.push(format!("redis-cli {words:?} at replica {replica}: {printed}"));
        }
    }
    println!("redis-cli was told what it should be in {} of {} cases", asked.len() - faults.len(), asked.len());
    faults
}

/// What `redis-benchmark` asks for, each at the next replica: of one key, of one by pipelines, of many.
const BENCHMARKS: [&[&str]; 3] = [
    &["-t", "set,get,incr", "-n", "500", "-c", "10"],
    &["-t", "set,get,incr", "-n", "1000", "-c", "50", "-P", "16"],
    &["-t", "set,get", "-n", "1000", "-c", "50", "-P", "16", "-r", "1000"],
];

/// Prints its rates.
fn by_benchmark(port: u16, words: &[&str]) -> Result<(), String> {
    let Ok(output) = Command::new("redis-benchmark").args(["-p", &port.to_string(), "-q"]).args(words).output() else {
        println!("no redis-benchmark is here");
        return Ok(());
    };
    let printed = String::from_utf8_lossy(&output.stdout).replace('\r', "\n");
    let rates: Vec<_> = printed.lines().filter(|line| line.contains("requests per second")).collect();
    rates.iter().for_each(|line| println!("redis-benchmark {}: {line}", words.join(" ")));
    let errors = String::from_utf8_lossy(&output.stderr);
    let wanted = words[1].split(',').count();
    if output.status.success() && rates.len() == wanted && errors.is_empty() && !printed.contains("rror") {
        return Ok(());
    }
    Err(format!("redis-benchmark {} ends with {}: {printed} {errors}", words.join(" "), output.status))
}

/// What `redis-cli` prints. The store may still be starting.
fn run_with_patience(cluster: &Cluster, replica: usize, words: &[&str]) -> String {
    let port = cluster.client_ports[replica].to_string();
    for _ in 0..50 {
        let Ok(output) = Command::new("redis-cli").args(["-p", &port]).args(words).output() else { break };
        let printed = String::from_utf8_lossy(&[output.stdout, output.stderr].concat()).trim().to_string();
        if !printed.contains("Connection refused") && !printed.contains("takes no part") {
            return printed;
        }
        thread::sleep(Duration::from_millis(100));
    }
    "it can't be reached".into()
}
