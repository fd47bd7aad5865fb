//! A loop that does nothing but copy: the bytes of each request are its answer. As a node does, it writes what waits when a request
//! for a sync has come, or where none that has to wait is there.
use std::fs::File;
use std::io::{self, Read, Write};
use std::os::fd::FromRawFd;

const LAST_EVENT: u8 = 6;
const SYNC: u8 = 10;

fn main() -> io::Result<()> {
    // (without the buffers that Rust puts before standard streams)
    let (mut input, mut output) = unsafe { (File::from_raw_fd(0), File::from_raw_fd(1)) };
    let (mut requests, mut answers) = (Vec::new(), Vec::new());
    let mut block = [0; 8192];
    let mut is_waiting = false;
    loop {
        let count = input.read(&mut block)?;
        if count == 0 {
            return output.write_all(&answers);
        }
        requests.extend_from_slice(&block[..count]);
        let mut place = 0;
        while let Some(length) = requests[place..].first_chunk::<4>() {
            let end = place + 4 + u32::from_be_bytes(*length) as usize;
            let Some(request) = requests.get(place..end) else { break };
            answers.extend_from_slice(request);
            is_waiting |= request[4] <= LAST_EVENT;
            if request[4] == SYNC || !is_waiting {
                output.write_all(&answers)?;
                answers.clear();
                is_waiting = false;
            }
            place = end;
        }
        requests.drain(..place);
    }
}
