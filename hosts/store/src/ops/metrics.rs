//! What Prometheus reads: counters, gauges and a histogram of waits, in its text format, over HTTP at a port of its own.
use crate::timed::Timed;
use std::fmt::Write as _;
use std::io::{self, BufRead, BufReader, Read, Write};
use std::net::{TcpListener, TcpStream};
use std::sync::Arc;
use std::sync::atomic::{AtomicU64, Ordering};
use std::thread;
use std::time::Duration;

/// The upper ends of the histogram's buckets, in microseconds; what is longer counts in the last bucket, which has no end.
const BUCKETS: [u64; 14] = [
    250, 500, 1_000, 2_500, 5_000, 10_000, 25_000, 50_000, 100_000, 250_000, 500_000, 1_000_000, 2_500_000, 10_000_000,
];
/// A request that isn't whole by then is dropped, as is one whose answer isn't taken by then.
const PATIENCE: Duration = Duration::from_secs(5);
/// How long a request may be.
const LONGEST_REQUEST: u64 = 8 << 10;

/// How long commands waited for their answers.
#[derive(Default)]
pub struct Histogram {
    /// How many waited for at most so long as the bucket says, and no bucket before it; the last has the rest.
    counts: [AtomicU64; BUCKETS.len() + 1],
    microseconds: AtomicU64,
}

impl Histogram {
    pub fn note(&self, wait: Duration) {
        let microseconds = u64::try_from(wait.as_micros()).unwrap_or(u64::MAX);
        let bucket = BUCKETS.iter().position(|end| microseconds <= *end).unwrap_or(BUCKETS.len());
        self.counts[bucket].fetch_add(1, Ordering::Relaxed);
        self.microseconds.fetch_add(microseconds, Ordering::Relaxed);
    }

    fn write(&self, name: &str, text: &mut String) {
        let mut all = 0;
        for (end, count) in BUCKETS.iter().zip(&self.counts) {
            all += count.load(Ordering::Relaxed);
            line(text, format_args!("{name}_bucket{{le=\"{}\"}} {all}", *end as f64 / 1e6));
        }
        all += self.counts[BUCKETS.len()].load(Ordering::Relaxed);
        line(text, format_args!("{name}_bucket{{le=\"+Inf\"}} {all}"));
        line(text, format_args!("{name}_sum {}", self.microseconds.load(Ordering::Relaxed) as f64 / 1e6));
        line(text, format_args!("{name}_count {all}"));
    }
}

/// A number that goes up, or that is set anew.
#[derive(Default)]
pub struct Number(AtomicU64);

impl Number {
    pub fn add(&self, more: u64) {
        self.0.fetch_add(more, Ordering::Relaxed);
    }

    pub fn set(&self, value: u64) {
        self.0.store(value, Ordering::Relaxed);
    }

    pub fn get(&self) -> u64 {
        self.0.load(Ordering::Relaxed)
    }
}

/// What a store reports of itself.
#[derive(Default)]
pub struct Metrics {
    pub waits: Histogram,
    /// Commands that were answered, and those that were refused or may still be done.
    pub answered: Number,
    pub refused: Number,
    /// Connections that were closed as their clients took no replies.
    pub slow: Number,
    pub clients: Number,
    pub generation: Number,
    pub entries: Number,
    pub log_bytes: Number,
    /// How many turns the host had, in each of which it asks the core all that there is to ask.
    pub asks: Number,
    pub syncs: Number,
    /// Commands of clients that went together with others.
    pub together: Number,
    /// Commands of the protocol that were proposed for clients.
    pub proposals: Number,
    pub open_instances: Number,
    pub peers_reached: Number,
    /// How long the answer of the farthest member of the fast quorum takes at least, in microseconds. 0: too few have come.
    pub quorum_round_trip: Number,
    pub frames_lost: Number,
    pub commits_sent_again: Number,
    pub frames_refused: Number,
    /// Second phases that this replica has begun: of commands that didn't take the fast path.
    pub accepts: Number,
    /// Recoveries that it has begun.
    pub recoveries: Number,
    /// Questions what interferes with reads, and those that were sent again.
    pub questions: Number,
    pub questions_again: Number,
    /// Keys that were past their deadlines at the last look and aren't removed yet.
    pub expired: Number,
    /// 1 where this replica takes part: it serves a generation, and reaches a majority.
    pub takes_part: Number,
}

impl Metrics {
    /// All of it in Prometheus' text format, version 0.0.4.
    pub fn text(&self) -> String {
        let mut text = String::new();
        let name = "epaxos_store_wait_seconds";
        line(&mut text, format_args!("# HELP {name} How long commands waited for their answers."));
        line(&mut text, format_args!("# TYPE {name} histogram"));
        self.waits.write(name, &mut text);
        for (name, what, kind, number) in [
            ("epaxos_store_commands_answered_total", "Commands that were answered.", "counter", &self.answered),
            ("epaxos_store_commands_refused_total", "Commands that ended by an error.", "counter", &self.refused),
            (
                "epaxos_store_slow_clients_closed_total",
                "Connections that were closed as their clients took no replies.",
                "counter",
                &self.slow,
            ),
            ("epaxos_store_asks_total", "Turns of the host, in each of which it asks the core.", "counter", &self.asks),
            ("epaxos_store_syncs_total", "Syncs of the log.", "counter", &self.syncs),
            (
                "epaxos_store_proposals_total",
                "Commands of the protocol that this replica has proposed for clients.",
                "counter",
                &self.proposals,
            ),
            (
                "epaxos_store_together_total",
                "Commands of clients that went together with others, by one command of the protocol.",
                "counter",
                &self.together,
            ),
            (
                "epaxos_store_frames_lost_total",
                "Frames to peers that were dropped for want of room.",
                "counter",
                &self.frames_lost,
            ),
            (
                "epaxos_store_commits_sent_again_total",
                "Commits that were sent again to peers that lacked them.",
                "counter",
                &self.commits_sent_again,
            ),
            (
                "epaxos_store_frames_refused_total",
                "Frames of peers that the core refused.",
                "counter",
                &self.frames_refused,
            ),
            (
                "epaxos_store_accepts_total",
                "Commands that didn't take the fast path, for which this replica began a second phase.",
                "counter",
                &self.accepts,
            ),
            ("epaxos_store_recoveries_total", "Recoveries that this replica began.", "counter", &self.recoveries),
            ("epaxos_store_questions_total", "Questions of reads to peers.", "counter", &self.questions),
            (
                "epaxos_store_questions_again_total",
                "Questions of reads that were sent again.",
                "counter",
                &self.questions_again,
            ),
            ("epaxos_store_expired_kept", "Keys past their deadlines that aren't removed yet.", "gauge", &self.expired),
            (
                "epaxos_store_takes_part",
                "1 where this replica serves and reaches a majority.",
                "gauge",
                &self.takes_part,
            ),
            ("epaxos_store_clients", "Clients that are connected.", "gauge", &self.clients),
            ("epaxos_store_generation", "The generation that the log is of.", "gauge", &self.generation),
            ("epaxos_store_entries", "Entries of this generation's log.", "gauge", &self.entries),
            ("epaxos_store_log_bytes", "Bytes of this generation's log.", "gauge", &self.log_bytes),
            (
                "epaxos_store_open_instances",
                "Instances that are known of and aren't committed here.",
                "gauge",
                &self.open_instances,
            ),
            (
                "epaxos_store_peers_reached",
                "Other replicas that this one is connected to.",
                "gauge",
                &self.peers_reached,
            ),
            (
                "epaxos_store_quorum_round_trip_microseconds",
                "The round trip to the farthest member of the fast quorum: the least of the last minute.",
                "gauge",
                &self.quorum_round_trip,
            ),
        ] {
            line(&mut text, format_args!("# HELP {name} {what}"));
            line(&mut text, format_args!("# TYPE {name} {kind}"));
            line(&mut text, format_args!("{name} {}", number.get()));
        }
        text
    }
}

/// (A text has room for whatever is written to it.)
fn line(text: &mut String, what: std::fmt::Arguments) {
    let _ = writeln!(text, "{what}");
}

/// Answers each request for `/metrics`, one after the other.
pub fn listen(listener: TcpListener, metrics: &Arc<Metrics>) {
    for stream in listener.incoming() {
        match stream {
            Ok(stream) => _ = answer(&stream, metrics),
            Err(_) => thread::sleep(Duration::from_millis(20)),
        }
    }
}

fn answer(stream: &TcpStream, metrics: &Metrics) -> io::Result<()> {
    stream.set_write_timeout(Some(PATIENCE))?;
    let mut lines = BufReader::new(Timed::new(stream, PATIENCE).take(LONGEST_REQUEST)).lines();
    let first = lines.next().transpose()?.unwrap_or_default();
    // (the rest of the request is read, or closing the connection would be taken for a fault)
    for line in lines {
        if line?.is_empty() {
            break;
        }
    }
    let (status, kind, body) = match first.split(' ').collect::<Vec<_>>()[..] {
        ["GET", "/metrics", ..] => ("200 OK", "text/plain; version=0.0.4", metrics.text()),
        ["GET", ..] => ("404 Not Found", "text/plain", "there is /metrics alone\n".into()),
        _ => ("405 Method Not Allowed", "text/plain", "GET alone\n".into()),
    };
    let length = body.len();
    let head =
        format!("HTTP/1.1 {status}\r\nContent-Type: {kind}\r\nContent-Length: {length}\r\nConnection: close\r\n\r\n");
    let mut stream = stream;
    stream.write_all(head.as_bytes())?;
    stream.write_all(body.as_bytes())
}

#[cfg(test)]
mod tests {
    use super::*;

    #[test]
    fn waits_are_counted_by_buckets() {
        let waits = Histogram::default();
        for microseconds in [1, 250, 251, 600_000, 20_000_000] {
            waits.note(Duration::from_micros(microseconds));
        }
        let mut text = String::new();
        waits.write("w", &mut text);
        let lines: Vec<_> = text.lines().collect();
        assert_eq!(lines.len(), BUCKETS.len() + 3);
        assert_eq!(lines[..3], ["w_bucket{le=\"0.00025\"} 2", "w_bucket{le=\"0.0005\"} 3", "w_bucket{le=\"0.001\"} 3"]);
        assert_eq!(lines[10..12], ["w_bucket{le=\"0.5\"} 3", "w_bucket{le=\"1\"} 4"]);
        assert_eq!(lines[14..], ["w_bucket{le=\"+Inf\"} 5", "w_sum 20.600502", "w_count 5"]);
    }

    fn asked(request: &[u8]) -> String {
        let listener = TcpListener::bind("127.0.0.1:0").unwrap();
        let address = listener.local_addr().unwrap();
        let metrics = Arc::new(Metrics::default());
        metrics.generation.set(7);
        thread::spawn(move || listen(listener, &metrics));
        let mut stream = TcpStream::connect(address).unwrap();
        stream.write_all(request).unwrap();
        let mut answer = String::new();
        stream.read_to_string(&mut answer).unwrap();
        answer
    }

    #[test]
    fn requests() {
        let answer = asked(b"GET /metrics HTTP/1.1\r\nHost: x\r\n\r\n");
        let (head, body) = answer.split_once("\r\n\r\n").unwrap();
        assert!(head.starts_with("HTTP/1.1 200 OK\r\nContent-Type: text/plain; version=0.0.4\r\n"));
        assert!(head.contains(&format!("Content-Length: {}\r\n", body.len())));
        assert!(body.contains("\n# TYPE epaxos_store_generation gauge\nepaxos_store_generation 7\n"));
        assert!(asked(b"GET / HTTP/1.1\r\n\r\n").starts_with("HTTP/1.1 404 "));
        assert!(asked(b"POST /metrics HTTP/1.1\r\n\r\n").starts_with("HTTP/1.1 405 "));
    }
}
