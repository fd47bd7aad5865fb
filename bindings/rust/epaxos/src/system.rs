//! Calls of the system that Rust's own library lacks: for threads that give way to others, and for who can't wait.
#![allow(unsafe_code)]

use std::ffi::{c_int, c_uint, c_void};
use std::io;
use std::net::TcpStream;
use std::os::fd::AsRawFd;

/// How much nicer such a thread is: a fourth of a processor is left to it that another one wants too.
const NICER: c_int = 5;
const NICEST: c_int = 19;
/// As the system calls them: a number is a process's or a thread's; the policy of most threads, and the real-time ones.
const OF_PROCESS: c_int = 0;
const OTHER: c_int = 0;
const REAL_TIME: [c_int; 2] = [1, 2];
/// What is sent isn't waited for, and who sends it isn't ended where the other end is gone.
const AT_ONCE: c_int = 0x40 | 0x4000;

#[repr(C)]
struct Parameter {
    priority: c_int,
}

unsafe extern "C" {
    fn getpriority(which: c_int, who: c_uint) -> c_int;
    fn setpriority(which: c_int, who: c_uint, priority: c_int) -> c_int;
    fn sched_getscheduler(process: c_int) -> c_int;
    fn sched_setscheduler(process: c_int, policy: c_int, parameter: *const Parameter) -> c_int;
    fn send(socket: c_int, bytes: *const c_void, length: usize, flags: c_int) -> isize;
}

/// From now on the thread that calls this has no real-time priority, if the process has one: it would stop the system's
/// own threads, for which a sync waits. Where the system refuses it, it goes on as it is.
pub fn leave_real_time() {
    // SAFETY: the number 0 is the calling thread's, and the parameter is there as long as the call lasts.
    unsafe {
        if REAL_TIME.contains(&sched_getscheduler(0)) {
            sched_setscheduler(0, OTHER, &Parameter { priority: 0 });
        }
    }
}

/// The same, and it gives way to the others of its process. It is for work that holds no lock that these want.
pub fn give_way() {
    leave_real_time();
    // SAFETY: these take numbers alone; 0 is the calling thread's.
    unsafe { setpriority(OF_PROCESS, 0, NICEST.min(getpriority(OF_PROCESS, 0) + NICER)) };
}

/// Sends as many of the bytes as the connection takes without waiting: how many; `WouldBlock` where it takes none.
pub(crate) fn send_at_once(stream: &TcpStream, bytes: &[u8]) -> io::Result<usize> {
    // SAFETY: the stream is open, and the bytes are there as long as the call lasts.
    let sent = unsafe { send(stream.as_raw_fd(), bytes.as_ptr().cast(), bytes.len(), AT_ONCE) };
    usize::try_from(sent).map_err(|_| io::Error::last_os_error())
}

#[cfg(test)]
mod tests {
    use super::*;
    use std::fs;
    use std::io::{ErrorKind, Read};
    use std::net::TcpListener;
    use std::thread;

    /// How nice the calling thread is, and its policy.
    fn own() -> (i32, i32) {
        let text = fs::read_to_string("/proc/thread-self/stat").unwrap();
        let fields: Vec<&str> = text.rsplit(')').next().unwrap().split_whitespace().collect();
        (fields[16].parse().unwrap(), fields[38].parse().unwrap())
    }

    #[test]
    fn who_gives_way_is_alone_in_that() {
        let before = own();
        let given = thread::spawn(|| {
            give_way();
            own()
        });
        let policy = if REAL_TIME.contains(&before.1) { OTHER } else { before.1 };
        assert_eq!(given.join().unwrap(), (NICEST.min(before.0 + NICER), policy));
        assert_eq!(own(), before);
    }

    #[test]
    fn what_is_sent_at_once_waits_for_nobody() {
        let listener = TcpListener::bind("127.0.0.1:0").unwrap();
        let near = TcpStream::connect(listener.local_addr().unwrap()).unwrap();
        let mut far = listener.accept().unwrap().0;
        let chunk = [7; 1 << 16];
        let mut sent = 0;
        let fault = loop {
            match send_at_once(&near, &chunk) {
                Ok(length) => sent += length,
                Err(fault) => break fault,
            }
        };
        assert_eq!(fault.kind(), ErrorKind::WouldBlock);
        assert!(sent >= chunk.len());
        drop(near);
        let mut came = Vec::new();
        far.read_to_end(&mut came).unwrap();
        assert_eq!(came, vec![7; sent]);
        // Who sends to an end that is gone learns it, and goes on.
        let near = TcpStream::connect(listener.local_addr().unwrap()).unwrap();
        drop(listener.accept().unwrap());
        while send_at_once(&near, b"x").is_ok() {
            thread::yield_now();
        }
    }
}
