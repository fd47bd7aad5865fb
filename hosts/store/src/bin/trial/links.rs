//! The links between replicas: each is a port of this program that hands on to the peer's, with a delay, and that can be cut.
use std::io::{self, Read, Write};
use std::net::{Shutdown, TcpListener, TcpStream};
use std::sync::atomic::{AtomicBool, AtomicU64, Ordering};
use std::sync::mpsc::sync_channel;
use std::sync::{Arc, Mutex};
use std::thread;
use std::time::{Duration, Instant};

/// So many pieces of at most so many bytes may be under way in one direction of a connection.
const MOST_PIECES: usize = 4_096;
const PIECE: usize = 16 << 10;

/// One direction between two replicas.
pub struct Link {
    port: u16,
    is_cut: AtomicBool,
    open: Mutex<Vec<TcpStream>>,
    /// How long a byte takes, either way, in microseconds.
    delay: AtomicU64,
}

impl Link {
    /// Listens at a port, and hands on to another one, for as long as the program runs.
    pub fn start(listener: TcpListener, to: u16) -> io::Result<Arc<Link>> {
        let port = listener.local_addr()?.port();
        let link =
            Arc::new(Link { port, is_cut: AtomicBool::new(false), open: Mutex::default(), delay: AtomicU64::new(0) });
        let runner = link.clone();
        thread::Builder::new().spawn(move || {
            for stream in listener.incoming().flatten() {
                if !runner.is_cut.load(Ordering::SeqCst) {
                    let _ = carry(&runner, stream, to);
                }
            }
        })?;
        Ok(link)
    }

    pub fn port(&self) -> u16 {
        self.port
    }

    /// From now on a byte takes so long, either way.
    pub fn set_delay(&self, delay: Duration) {
        self.delay.store(delay.as_micros() as u64, Ordering::Relaxed);
    }

    fn delay(&self) -> Duration {
        Duration::from_micros(self.delay.load(Ordering::Relaxed))
    }

    /// Closes what is open, and takes nothing until it is mended.
    pub fn cut(&self) {
        self.is_cut.store(true, Ordering::SeqCst);
        for stream in self.open.lock().unwrap().drain(..) {
            let _ = stream.shutdown(Shutdown::Both);
        }
    }

    pub fn mend(&self) {
        self.is_cut.store(false, Ordering::SeqCst);
    }
}

fn carry(link: &Arc<Link>, near: TcpStream, to: u16) -> io::Result<()> {
    let far = TcpStream::connect(("127.0.0.1", to))?;
    near.set_nodelay(true)?;
    far.set_nodelay(true)?;
    let mut open = link.open.lock().unwrap();
    open.push(near.try_clone()?);
    open.push(far.try_clone()?);
    copy(link, near.try_clone()?, far.try_clone()?)?;
    copy(link, far, near)
}

/// Hands on what comes, each piece once it has been under way for the link's delay.
fn copy(link: &Arc<Link>, mut from: TcpStream, mut to: TcpStream) -> io::Result<()> {
    let (sender, pieces) = sync_channel::<(Instant, Vec<u8>)>(MOST_PIECES);
    let (link, source) = (link.clone(), from.try_clone()?);
    thread::Builder::new().stack_size(128 << 10).spawn(move || {
        let mut bytes = vec![0; PIECE];
        while let Ok(count @ 1..) = from.read(&mut bytes) {
            if sender.send((Instant::now() + link.delay(), bytes[..count].to_vec())).is_err() {
                break;
            }
        }
    })?;
    thread::Builder::new().stack_size(128 << 10).spawn(move || {
        for (due, bytes) in pieces {
            thread::sleep(due.saturating_duration_since(Instant::now()));
            if to.write_all(&bytes).is_err() {
                break;
            }
        }
        let _ = source.shutdown(Shutdown::Both);
        let _ = to.shutdown(Shutdown::Both);
    })?;
    Ok(())
}
