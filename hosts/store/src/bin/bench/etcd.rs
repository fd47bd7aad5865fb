//! Three members of etcd, and a client of its own protocol: gRPC, which is HTTP/2 with a message in each request's body.
use crate::options::Options;
use crate::running::Running;
use crate::{Connection, MEMBERS, PATIENCE};
use std::collections::BTreeSet;
use std::io::{self, BufReader, Read, Write};
use std::net::TcpStream;
use std::path::Path;
use std::process::Command;

/// A running cluster.
pub fn start(options: &Options, directory: &Path) -> Result<Running<Caller>, String> {
    let mut etcd = Running::new("etcd", Caller::connect)?;
    let urls: Vec<String> =
        (0..2 * MEMBERS).map(|place| format!("http://127.0.0.1:{}", etcd.ports.port(place))).collect();
    let (clients, peers) = urls.split_at(MEMBERS);
    let names = peers.iter().enumerate().map(|(member, peer)| format!("member-{member}={peer}"));
    let cluster = names.collect::<Vec<_>>().join(",");
    for (member, (client, peer)) in clients.iter().zip(peers).enumerate() {
        let folder = directory.join(member.to_string());
        let mut command = Command::new(&options.etcd);
        command.args(["--name", &format!("member-{member}"), "--initial-cluster", &cluster]);
        command.args(["--listen-client-urls", client, "--advertise-client-urls", client]);
        command.args(["--listen-peer-urls", peer, "--initial-advertise-peer-urls", peer]);
        command.args(["--log-level", "error", "--data-dir"]).arg(folder.join("dir"));
        etcd.start(&mut command, &folder)?;
    }
    Ok(etcd)
}

// Kinds of frames, and flags.
const DATA: u8 = 0;
const HEADERS: u8 = 1;
const RESET: u8 = 3;
const SETTINGS: u8 = 4;
const PING: u8 = 6;
const GO_AWAY: u8 = 7;
const WINDOW: u8 = 8;
const ACKNOWLEDGED: u8 = 1;
const END_OF_STREAM: u8 = 1;
const END_OF_HEADERS: u8 = 4;
/// So many calls go at once: they fit the window that a server begins with, of 65,535 bytes.
const MOST_AT_ONCE: usize = 250;

/// A connection that carries one call at a time.
pub struct Caller {
    reader: BufReader<TcpStream>,
    stream: u32,
}

struct Frame {
    kind: u8,
    flags: u8,
    stream: u32,
    payload: Vec<u8>,
}

fn put_frame(out: &mut Vec<u8>, kind: u8, flags: u8, stream: u32, payload: &[u8]) {
    out.extend(&(payload.len() as u32).to_be_bytes()[1..]);
    out.extend([kind, flags]);
    out.extend(stream.to_be_bytes());
    out.extend(payload);
}

/// Headers that are in no table, and aren't put into one. Names and values have fewer than 127 bytes.
fn headers(path: &str) -> Vec<u8> {
    let mut block = Vec::new();
    for (name, value) in [
        (":method", "POST"),
        (":scheme", "http"),
        (":path", path),
        (":authority", "127.0.0.1"),
        ("content-type", "application/grpc"),
        ("te", "trailers"),
    ] {
        block.push(0);
        for text in [name, value] {
            block.push(text.len() as u8);
            block.extend(text.bytes());
        }
    }
    block
}

/// A field of bytes, fewer than 16,384.
fn put_field(out: &mut Vec<u8>, number: u8, bytes: &[u8]) {
    out.push(number << 3 | 2);
    let (low, high) = ((bytes.len() & 0x7f) as u8, (bytes.len() >> 7) as u8);
    if high == 0 {
        out.push(low)
    } else {
        out.extend([low | 0x80, high])
    }
    out.extend(bytes);
}

/// A request to put a value.
fn put_message(key: &[u8], value: &[u8]) -> Vec<u8> {
    let mut message = Vec::new();
    put_field(&mut message, 1, key);
    put_field(&mut message, 2, value);
    message
}

/// A transaction: where none of the keys was ever made, each is put.
fn txn_message(keys: &[String], value: &[u8]) -> Vec<u8> {
    let mut message = Vec::new();
    for key in keys {
        // (the target CREATE, and the revision 0)
        let mut compare = vec![2 << 3, 1];
        put_field(&mut compare, 3, key.as_bytes());
        compare.extend([5 << 3, 0]);
        put_field(&mut message, 1, &compare);
    }
    for key in keys {
        let mut operation = Vec::new();
        put_field(&mut operation, 2, &put_message(key.as_bytes(), value));
        put_field(&mut message, 2, &operation);
    }
    message
}

impl Caller {
    fn connect(port: u16) -> io::Result<Caller> {
        let mut stream = TcpStream::connect(("127.0.0.1", port))?;
        stream.set_nodelay(true)?;
        stream.set_read_timeout(Some(PATIENCE))?;
        let mut greeting = b"PRI * HTTP/2.0\r\n\r\nSM\r\n\r\n".to_vec();
        put_frame(&mut greeting, SETTINGS, 0, 0, &[]);
        // Room for all that will ever be answered.
        put_frame(&mut greeting, WINDOW, 0, 0, &0x7000_0000_u32.to_be_bytes());
        stream.write_all(&greeting)?;
        Ok(Caller { reader: BufReader::new(stream), stream: 1 })
    }

    fn read_frame(&mut self) -> io::Result<Frame> {
        let mut head = [0; 9];
        self.reader.read_exact(&mut head)?;
        let [a, b, c, kind, flags, stream @ ..] = head;
        let mut payload = vec![0; u32::from_be_bytes([0, a, b, c]) as usize];
        self.reader.read_exact(&mut payload)?;
        Ok(Frame { kind, flags, stream: u32::from_be_bytes(stream) & 0x7fff_ffff, payload })
    }

    fn send(&mut self, bytes: &[u8]) -> io::Result<()> {
        self.reader.get_mut().write_all(bytes)
    }

    /// A call's bytes, and its stream.
    fn put_call(&mut self, out: &mut Vec<u8>, path: &str, message: &[u8]) -> u32 {
        let stream = self.stream;
        self.stream += 2;
        let mut body = vec![0];
        body.extend((message.len() as u32).to_be_bytes());
        body.extend(message);
        put_frame(out, HEADERS, END_OF_HEADERS, stream, &headers(path));
        put_frame(out, DATA, END_OF_STREAM, stream, &body);
        stream
    }

    /// Calls at once, on streams of their own, and waits until all have ended.
    fn call_all(&mut self, path: &str, messages: &[Vec<u8>]) -> io::Result<()> {
        let (mut bytes, mut open) = (Vec::new(), BTreeSet::new());
        for message in messages {
            open.insert(self.put_call(&mut bytes, path, message));
        }
        self.send(&bytes)?;
        let mut answered = BTreeSet::new();
        while !open.is_empty() {
            let frame = self.read_frame()?;
            self.acknowledge(&frame)?;
            if matches!(frame.kind, RESET | GO_AWAY) {
                return Err(io::Error::other("a call was refused"));
            }
            if frame.kind == DATA {
                answered.insert(frame.stream);
            }
            if matches!(frame.kind, DATA | HEADERS) && frame.flags & END_OF_STREAM != 0 && open.remove(&frame.stream) {
                // An error is headers alone.
                answered.remove(&frame.stream).then_some(()).ok_or(io::Error::other("a call failed"))?;
            }
        }
        Ok(())
    }

    /// Calls, and waits for the answer's message.
    fn call(&mut self, path: &str, message: &[u8]) -> io::Result<Vec<u8>> {
        let mut bytes = Vec::new();
        let stream = self.put_call(&mut bytes, path, message);
        self.send(&bytes)?;
        let mut answer = Vec::new();
        loop {
            let frame = self.read_frame()?;
            self.acknowledge(&frame)?;
            if matches!(frame.kind, RESET | GO_AWAY) {
                return Err(io::Error::other("the call was refused"));
            }
            if frame.stream == stream && frame.kind == DATA {
                answer.extend(frame.payload);
            }
            if frame.stream == stream && matches!(frame.kind, DATA | HEADERS) && frame.flags & END_OF_STREAM != 0 {
                // An error is headers alone.
                let message = answer.split_off_checked(5);
                return message.ok_or(io::Error::other("the call failed"));
            }
        }
    }

    fn acknowledge(&mut self, frame: &Frame) -> io::Result<()> {
        let is_asked = matches!(frame.kind, SETTINGS | PING) && frame.flags & ACKNOWLEDGED == 0;
        if !is_asked {
            return Ok(());
        }
        let payload = if frame.kind == PING { frame.payload.as_slice() } else { &[] };
        let mut bytes = Vec::new();
        put_frame(&mut bytes, frame.kind, ACKNOWLEDGED, 0, payload);
        self.send(&bytes)
    }
}

/// What stands from a place on, where there are so many bytes.
trait SplitOff {
    fn split_off_checked(&mut self, place: usize) -> Option<Vec<u8>>;
}

impl SplitOff for Vec<u8> {
    fn split_off_checked(&mut self, place: usize) -> Option<Vec<u8>> {
        (self.len() >= place).then(|| self.split_off(place))
    }
}

impl Connection for Caller {
    fn set(&mut self, key: &[u8], value: &[u8]) -> Result<(), String> {
        let fault = |error| format!("etcd answers a put by {error}");
        self.call("/etcdserverpb.KV/Put", &put_message(key, value)).map(|_| ()).map_err(fault)
    }

    fn set_together(&mut self, keys: &[String], value: &[u8]) -> Result<(), String> {
        let fault = |error| format!("etcd answers a transaction by {error}");
        let answer = self.call("/etcdserverpb.KV/Txn", &txn_message(keys, value)).map_err(fault)?;
        has_succeeded(&answer).then_some(()).ok_or("a transaction's keys were there".into())
    }

    fn set_at_once(&mut self, keys: &[String], value: &[u8]) -> Result<(), String> {
        let messages: Vec<Vec<u8>> = keys.iter().map(|key| put_message(key.as_bytes(), value)).collect();
        let fault = |error| format!("etcd answers puts at once by {error}");
        messages.chunks(MOST_AT_ONCE).try_for_each(|some| self.call_all("/etcdserverpb.KV/Put", some)).map_err(fault)
    }

    fn get(&mut self, key: &[u8]) -> Result<Vec<u8>, String> {
        let mut message = Vec::new();
        put_field(&mut message, 1, key);
        let fault = |error| format!("etcd answers a range by {error}");
        let answer = self.call("/etcdserverpb.KV/Range", &message).map_err(fault)?;
        value_in(&answer).ok_or("etcd answers a range without a value".into())
    }
}

/// A field's number and kind, its number or its bytes, and the rest.
fn next_field(bytes: &[u8]) -> Option<(u64, &[u8], &[u8])> {
    let (tag, rest) = varint(bytes)?;
    let (number, rest) = varint(rest)?;
    if tag & 7 == 2 {
        let (run, rest) = rest.split_at_checked(number as usize)?;
        return Some((tag >> 3, run, rest));
    }
    (tag & 7 == 0).then_some((tag >> 3, &[], rest))
}

fn varint(bytes: &[u8]) -> Option<(u64, &[u8])> {
    let end = bytes.iter().position(|byte| byte & 0x80 == 0)? + 1;
    let number = bytes[..end].iter().rev().fold(0, |number, byte| number << 7 | u64::from(byte & 0x7f));
    Some((number, &bytes[end..]))
}

/// The bytes of the last field of that number.
fn field(mut bytes: &[u8], wanted: u64) -> Option<&[u8]> {
    let mut found = None;
    while !bytes.is_empty() {
        let (number, run, rest) = next_field(bytes)?;
        if number == wanted {
            found = Some(run);
        }
        bytes = rest;
    }
    found
}

/// Whether a transaction's answer says that it was done: field 2 is there, and is 1.
fn has_succeeded(mut answer: &[u8]) -> bool {
    while let Some((number, _, rest)) = next_field(answer) {
        if number == 2 {
            // (a field that is false isn't written)
            return answer.get(1) == Some(&1);
        }
        answer = rest;
    }
    false
}

/// The value in the answer to a range: field 5 of its field 2.
fn value_in(answer: &[u8]) -> Option<Vec<u8>> {
    Some(field(field(answer, 2)?, 5)?.to_vec())
}

#[cfg(test)]
mod tests {
    use super::*;

    #[test]
    fn a_value_is_found() {
        // header: {revision 300}, kvs: {key "k", version 2, value "ab"}, count 1
        let answer = [0x0a, 3, 0x18, 0xac, 2, 0x12, 9, 0x0a, 1, b'k', 0x20, 2, 0x2a, 2, b'a', b'b', 0x20, 1];
        assert_eq!(value_in(&answer), Some(b"ab".to_vec()));
        assert_eq!(value_in(&answer[..5]), None);
    }

    #[test]
    fn a_transaction_is_encoded() {
        // header: {revision 300}, succeeded, a response to a put
        assert!(has_succeeded(&[0x0a, 3, 0x18, 0xac, 2, 0x10, 1, 0x1a, 2, 0x12, 0]));
        assert!(!has_succeeded(&[0x0a, 3, 0x18, 0xac, 2, 0x1a, 2, 0x12, 0]));
        let key = "k".to_string();
        let (compare, put) =
            ([0x0a, 7, 0x10, 1, 0x1a, 1, b'k', 0x28, 0], [0x12, 8, 0x12, 6, 0x0a, 1, b'k', 0x12, 1, b'v']);
        assert_eq!(txn_message(&[key], b"v"), [compare.as_slice(), &put].concat());
    }

    #[test]
    fn a_frame_is_framed() {
        let mut out = Vec::new();
        put_frame(&mut out, DATA, END_OF_STREAM, 3, &[7, 8]);
        assert_eq!(out, [0, 0, 2, 0, 1, 0, 0, 0, 3, 7, 8]);
    }
}
