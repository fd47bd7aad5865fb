//! Ports for clusters on this machine: those of tests, and of the trial and the bench of `hosts/store`. Of those that
//! the system gives to connections by itself one may be taken while nobody listens there.
#![allow(dead_code)] // (each test uses a part)

use std::io;
use std::net::{TcpListener, TcpStream};

/// Below those that the system gives to connections by itself.
const FIRST: u16 = 10_000;
const BLOCKS: u16 = 340;
/// A cluster has at most so many, less one.
const BLOCK: u16 = 64;

/// A run of ports. Nobody who asks here has them too, as long as this is there.
pub struct Ports {
    first: u16,
    /// Listens at the first one.
    _held: TcpListener,
}

impl Ports {
    /// Takes a run in which nobody listens.
    pub fn take() -> io::Result<Ports> {
        // (processes begin at different ones, so that they seldom meet)
        let start = (std::process::id() % u32::from(BLOCKS)) as u16;
        for block in (start..BLOCKS).chain(0..start) {
            let first = FIRST + block * BLOCK;
            let Ok(held) = listen(first) else { continue };
            if (1..BLOCK).all(|place| is_free(first + place)) {
                return Ok(Ports { first, _held: held });
            }
        }
        Err(io::Error::other("no free ports"))
    }

    /// The port at this place, from 0 to 62.
    pub fn port(&self, place: usize) -> u16 {
        assert!(place + 1 < BLOCK.into());
        self.first + 1 + place as u16
    }

    /// The address with the port at this place.
    pub fn address(&self, place: usize) -> String {
        format!("127.0.0.1:{}", self.port(place))
    }

    /// Takes connections at that port.
    pub fn listen(&self, place: usize) -> io::Result<TcpListener> {
        listen(self.port(place))
    }
}

fn listen(port: u16) -> io::Result<TcpListener> {
    TcpListener::bind(("127.0.0.1", port))
}

/// Whether nobody listens at a port. (Whoever listens there to find out keeps the port for longer than he knows: a
/// process that another thread begins at that moment has it too, until it runs its program.)
fn is_free(port: u16) -> bool {
    TcpStream::connect(("127.0.0.1", port)).is_err()
}
