//! Reading from a stream for so long in all.
use std::io::{self, Read, Write};
use std::net::TcpStream;
use std::time::{Duration, Instant};

/// A stream that is read until a moment, and no longer, however slowly the bytes come.
pub struct Timed<'a> {
    stream: &'a TcpStream,
    ends: Instant,
}

impl Timed<'_> {
    pub fn new(stream: &TcpStream, patience: Duration) -> Timed<'_> {
        Timed { stream, ends: Instant::now() + patience }
    }
}

impl Read for Timed<'_> {
    fn read(&mut self, bytes: &mut [u8]) -> io::Result<usize> {
        let left = self.ends.saturating_duration_since(Instant::now());
        if left.is_zero() {
            return Err(io::ErrorKind::TimedOut.into());
        }
        self.stream.set_read_timeout(Some(left))?;
        self.stream.read(bytes)
    }
}

/// Reads what is there. A process that was stopped by a signal and goes on finds a read that has a timeout interrupted:
/// then it reads again.
pub fn read_some(stream: &mut (impl Read + ?Sized), bytes: &mut [u8]) -> io::Result<usize> {
    loop {
        match stream.read(bytes) {
            Err(error) if error.kind() == io::ErrorKind::Interrupted => {}
            other => return other,
        }
    }
}

impl Write for Timed<'_> {
    fn write(&mut self, bytes: &[u8]) -> io::Result<usize> {
        self.stream.write(bytes)
    }

    fn flush(&mut self) -> io::Result<()> {
        self.stream.flush()
    }
}
