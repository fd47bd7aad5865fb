//! What a connection asks of a key is done in the order in which it was sent, whatever is answered first.
mod common;
use common::memory::Memory;
use std::time::{Duration, Instant};
use testing::client::{Client, Reply};

/// So many pipelines of each order, in writes of so many at once; fewer where these take longer than this.
const PIPELINES: usize = 10_000;
const AT_ONCE: usize = 100;
const MOST: Duration = Duration::from_secs(2);

/// What reads a key, and what writes it behind that with another one.
const READS: [&str; 2] = ["GET k", "MGET k j"];
const WRITES: [&[&str]; 5] = [
    &["SET k new"],
    &["MSET k new j new"],
    &["DEL k j"],
    &["MULTI", "SET k new", "SET j new", "EXEC"],
    &["EPAXOS TXN SET k new SET j new"],
];

/// Sends lines in one write, in which `k` and `j` are keys of this number: their replies.
fn send(client: &mut Client, lines: &[(usize, &str)]) -> Vec<Reply> {
    let word = |number: usize, word: &str| match word {
        "k" | "j" => format!("{word}{number}"),
        _ => word.into(),
    };
    let words: Vec<Vec<String>> =
        lines.iter().map(|(number, line)| line.split(' ').map(|it| word(*number, it)).collect()).collect();
    let words: Vec<Vec<&[u8]>> = words.iter().map(|line| line.iter().map(|word| word.as_bytes()).collect()).collect();
    client.send(&words.iter().map(Vec::as_slice).collect::<Vec<_>>()).unwrap();
    lines.iter().map(|_| client.read().unwrap()).collect()
}

#[test]
fn a_read_tells_nothing_that_is_written_behind_it() {
    let memory = Memory::start("order", Duration::ZERO);
    let mut client = memory.client();
    let old = Reply::Bulk(Some(b"old".to_vec()));
    for (read, write) in READS.iter().flat_map(|read| WRITES.map(|write| (*read, write))) {
        let start = Instant::now();
        for _ in (0..PIPELINES / AT_ONCE).take_while(|_| start.elapsed() < MOST) {
            let olds: Vec<_> = (0..AT_ONCE).map(|number| (number, "MSET k old j old")).collect();
            send(&mut client, &olds);
            let pipeline = |number| [read].into_iter().chain(write.iter().copied()).map(move |line| (number, line));
            let replies = send(&mut client, &(0..AT_ONCE).flat_map(pipeline).collect::<Vec<_>>());
            for replies in replies.chunks(1 + write.len()) {
                let both = Reply::Array(vec![old.clone(), old.clone()]);
                assert_eq!(replies[0], if read == READS[0] { old.clone() } else { both }, "{read}, {write:?}");
                assert!(!replies.iter().any(|reply| matches!(reply, Reply::Error(_))), "{replies:?}");
            }
        }
    }
}
