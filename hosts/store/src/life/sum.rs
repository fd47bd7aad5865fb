//! The SHA-256 of logs, by a crate that has it in the processor's own words, and beside the thread that serves: each
//! byte of a log goes through it, and only the change to the next generation asks for the sum.
use epaxos::host::{Summing, Sums};
use ring::digest::{Context, SHA256, digest};
use std::sync::Arc;
use std::sync::mpsc::{Receiver, SyncSender, sync_channel};
use std::thread;

/// For a host.
pub const SUMS: Sums = Sums { of: sum_of, begin };

/// So many bytes are handed to the thread at once: each time it is woken it may take the processor from who serves.
const PIECE: usize = 128 << 10;
/// At most so many pieces wait for it, so that a sum that is asked for is soon there.
const MOST_PIECES: usize = 16;

/// What was written, one after the other, as it lies in memory.
type Parts = Vec<Arc<Vec<u8>>>;

/// What the thread is handed.
enum Handed {
    Piece(Parts),
    /// The sum of all that came before, with these behind it, is to be sent there. More may come.
    Asked(Parts, SyncSender<[u8; 32]>),
}

/// The SHA-256 of bytes that come one after the other, by a thread of its own.
struct Beside {
    /// What it wasn't handed yet, and how many bytes that is.
    rest: Parts,
    length: usize,
    thread: SyncSender<Handed>,
}

/// That of no bytes yet. Where there can be no thread whoever adds bytes sums them.
fn begin() -> Box<dyn Summing> {
    let (thread, handed) = sync_channel(MOST_PIECES);
    match thread::Builder::new().name("sum".into()).spawn(move || sum_all(&handed)) {
        Ok(_) => Box::new(Beside { rest: Vec::new(), length: 0, thread }),
        Err(_) => Box::new(Running::default()),
    }
}

/// Sums what it is handed, until nobody hands it anything any more.
fn sum_all(handed: &Receiver<Handed>) {
    let mut sum = Running::default();
    for it in handed {
        match it {
            Handed::Piece(parts) => parts.iter().for_each(|bytes| sum.add(bytes)),
            Handed::Asked(rest, reply) => {
                let mut whole = Running(sum.0.clone());
                rest.iter().for_each(|bytes| whole.add(bytes));
                let _ = reply.send(whole.digest());
            }
        }
    }
}

impl Beside {
    fn hand(&self, it: Handed) {
        self.thread.send(it).expect("the thread sums for as long as it is handed anything");
    }
}

impl Summing for Beside {
    fn add(&mut self, bytes: &[u8]) {
        self.share(&Arc::new(bytes.to_vec()));
    }

    fn share(&mut self, bytes: &Arc<Vec<u8>>) {
        self.length += bytes.len();
        self.rest.push(bytes.clone());
        if self.length >= PIECE {
            self.length = 0;
            let piece = std::mem::take(&mut self.rest);
            self.hand(Handed::Piece(piece));
        }
    }

    fn digest(&self) -> [u8; 32] {
        let (reply, sum) = sync_channel(1);
        self.hand(Handed::Asked(self.rest.clone(), reply));
        sum.recv().expect("the thread answers what it is handed")
    }
}

/// The same at once, by whoever asks.
struct Running(Context);

impl Default for Running {
    fn default() -> Running {
        Running(Context::new(&SHA256))
    }
}

impl Summing for Running {
    fn add(&mut self, bytes: &[u8]) {
        self.0.update(bytes);
    }

    fn digest(&self) -> [u8; 32] {
        *self.0.clone().finish().as_ref().first_chunk().unwrap_or(&[0; 32])
    }
}

/// The SHA-256 of these bytes.
pub fn sum_of(bytes: &[u8]) -> [u8; 32] {
    *digest(&SHA256, bytes).as_ref().first_chunk().unwrap_or(&[0; 32])
}

#[cfg(test)]
mod tests {
    use super::*;
    use epaxos::Sum;

    #[test]
    fn it_is_the_crates() {
        let mut all = Vec::new();
        let mut sums: [Box<dyn Summing>; 2] = [begin(), Box::new(Running::default())];
        for part in [&b""[..], b"a", &[7; 200], b"bc", &[8; PIECE], b"", &[9; 3 * PIECE + 1], b"d"] {
            all.extend(part);
            for sum in &mut sums {
                sum.add(part);
                assert_eq!((sum.digest(), sum_of(&all)), (Sum::of(&all), Sum::of(&all)));
            }
        }
    }

    /// More than waits for the thread at once, whose sum is asked for at once.
    #[test]
    fn what_was_handed_before_counts() {
        let (mut sum, mut all) = (begin(), Vec::new());
        for byte in 0..4 * MOST_PIECES {
            let piece = vec![byte as u8; PIECE + byte];
            sum.add(&piece);
            all.extend(piece);
        }
        assert_eq!(sum.digest(), sum_of(&all));
    }
}
