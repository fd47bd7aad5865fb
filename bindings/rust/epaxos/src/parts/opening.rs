//! What a file says that a generation opens with.
use crate::ffi::{self, OpeningHead};
use crate::library::open_fault;
use crate::parts::members::Members;
use crate::{Fields, Instance, LONGEST_KEY, LONGEST_VALUE, OpenFault, Sum};
use std::collections::HashSet;
use std::fs::File;
use std::io::{self, Read};
use std::path::Path;

/// What a key takes besides its own bytes and its value's.
pub const OF_A_KEY: u64 = 5;

/// What stands before the map has so many bytes at most, with how many keys that has, and a key with its value.
const LONGEST_FRONT: usize = 65_562;
const LONGEST_PAIR: usize = OF_A_KEY as usize + LONGEST_KEY + LONGEST_VALUE;
/// Where the seal's value stands; how many bytes a count, an instance and the digest have; and an opening besides those
/// of its map and of a seal's value.
const SEAL_AT: usize = 23;
const COUNT: usize = 4;
const INSTANCE: usize = 3;
const DIGEST: usize = 32;
const LEAST: usize = 59;
/// So many bytes are read at once.
const CHUNK: usize = 1 << 18;

/// An opening, but for its map. The node has looked at its digest.
#[derive(Clone, Default, PartialEq, Eq, Debug)]
pub struct Opening {
    pub replicas: u8,
    pub generation: u32,
    /// The stamp that clocks go on from.
    pub base_stamp: u64,
    /// The value of the seal that began the generation. None of generation 1.
    pub seal: Option<Vec<u8>>,
    /// How many bytes all keys with their values take here.
    pub map: u64,
    /// The instances whose commands the generation before did.
    pub executed: HashSet<Instance>,
}

impl Opening {
    /// Who takes part, where the seal says it.
    pub fn members(&self) -> Option<Members> {
        self.seal.as_deref().and_then(Members::read)
    }

    /// How many replicas the seal wants. A node closes a generation for as many as it is started with, and knows
    /// nothing of it.
    pub fn wanted(&self) -> u8 {
        self.members().map_or(self.replicas, |members| members.0.len() as u8)
    }

    /// What a file says before its map.
    pub fn read_front_of(path: &Path) -> io::Result<Opening> {
        let mut input = Window::new(File::open(path)?);
        Opening::front(input.look(LONGEST_FRONT)?).ok_or_else(bad)
    }

    pub fn read(path: &Path) -> io::Result<Opening> {
        Opening::from(File::open(path)?)
    }

    /// The same of a file's bytes. None where they are none.
    pub fn of(bytes: &[u8]) -> Option<Opening> {
        Opening::from(bytes).ok()
    }

    /// What an opening says before its map, by its first bytes. None where they are too few, or none's.
    pub fn front(bytes: &[u8]) -> Option<Opening> {
        Opening::with_head(bytes).map(|(opening, _)| opening)
    }

    fn with_head(bytes: &[u8]) -> Option<(Opening, OpeningHead)> {
        let head = ffi::opening_head(bytes).ok()?;
        let OpeningHead { replicas, generation, base_stamp, seal_len, has_seal, .. } = head;
        let value = bytes.get(SEAL_AT..)?.get(..seal_len as usize)?;
        let seal = (has_seal == 1).then(|| value.to_vec());
        Some((Opening { replicas, generation, base_stamp, seal, ..Opening::default() }, head))
    }

    fn from(input: impl Read) -> io::Result<Opening> {
        let mut input = Window::new(input);
        let (mut opening, head) = Opening::with_head(input.look(LONGEST_FRONT)?).ok_or_else(bad)?;
        input.skip(head.map_at as usize + COUNT);
        for _ in 0..head.keys {
            let pair = ffi::pair(input.look(LONGEST_PAIR)?).ok_or_else(bad)?;
            input.skip(pair.len as usize);
            opening.map += pair.len;
        }
        let count = Fields::new(input.look(COUNT)?).u32().ok_or_else(bad)?;
        input.skip(COUNT);
        for _ in 0..count {
            opening.executed.insert(Instance::read(&mut Fields::new(input.look(INSTANCE)?)).ok_or_else(bad)?);
            input.skip(INSTANCE);
        }
        if input.look(DIGEST + 1)?.len() == DIGEST { Ok(opening) } else { Err(bad()) }
    }
}

/// The bytes of an opening from its map on, up to its digest, and how many keys the map has. None where it is cut
/// short.
fn from_map(opening: &[u8]) -> Option<(&[u8], u32)> {
    let (body, _) = opening.split_last_chunk::<DIGEST>()?;
    let head = ffi::opening_head(opening).ok()?;
    Some((body.get(head.map_at as usize..)?, head.keys))
}

/// How many bytes a map's first keys have, with how many keys it has.
fn length_of(map: &[u8], keys: u32) -> Option<usize> {
    let mut length = COUNT;
    for _ in 0..keys {
        length += ffi::pair(map.get(length..)?)?.len as usize;
    }
    Some(length)
}

/// The bytes of an opening's map.
pub fn map_of(opening: &[u8]) -> Option<&[u8]> {
    let (map, keys) = from_map(opening)?;
    map.get(..length_of(map, keys)?)
}

/// The opening of a generation of so many replicas, in which clocks go on from this stamp, with the value of a seal and
/// a map's bytes; nothing was executed before it. Else why they make none.
pub fn made((replicas, generation, base_stamp): (u8, u32, u64), seal: &[u8], map: &[u8]) -> Result<Vec<u8>, OpenFault> {
    let mut bytes = vec![0; LEAST + seal.len() + map.len()];
    let made = ffi::opening((replicas, generation, base_stamp), seal, map, &mut bytes);
    let length = made.map_err(|(status, place)| open_fault(status, place))?;
    bytes.truncate(length);
    Ok(bytes)
}

/// The bytes of a map that has these keys with their values, in their order.
pub fn write_map<'a>(pairs: impl ExactSizeIterator<Item = (&'a [u8], &'a [u8])>) -> Vec<u8> {
    let mut map = (pairs.len() as u32).to_be_bytes().to_vec();
    for (key, value) in pairs {
        map.push(key.len() as u8);
        map.extend((value.len() as u32).to_be_bytes());
        map.extend(key);
        map.extend(value);
    }
    map
}

/// The bytes of an opening without one of its keys, of which `which` says by how many there are: a fault that is
/// planted. None where it has none.
pub fn lacking(opening: &[u8], which: impl Fn(u32) -> u32) -> Option<Vec<u8>> {
    let (map, keys) = from_map(opening)?;
    let rest = keys.checked_sub(1)?;
    let start = length_of(map, which(keys))?;
    let behind = map.get(start + ffi::pair(map.get(start..)?)?.len as usize..)?;
    let front = &opening[..opening.len() - DIGEST - map.len()];
    let mut out = [front, &rest.to_be_bytes(), &map[COUNT..start], behind].concat();
    out.extend(Sum::of(&out));
    Some(out)
}

fn bad() -> io::Error {
    io::ErrorKind::InvalidData.into()
}

/// Bytes that come one after the other, of which those in front are looked at together.
struct Window<R> {
    input: R,
    held: Vec<u8>,
    /// How many of those that are held were passed over.
    at: usize,
    /// Whether no more come.
    is_over: bool,
}

impl<R: Read> Window<R> {
    fn new(input: R) -> Window<R> {
        Window { input, held: Vec::new(), at: 0, is_over: false }
    }

    /// The bytes in front: so many at least, where there are so many.
    fn look(&mut self, least: usize) -> io::Result<&[u8]> {
        if self.held.len() - self.at < least && !self.is_over {
            self.held.drain(..self.at);
            self.at = 0;
            let wanted = CHUNK.max(least) - self.held.len();
            let read = (&mut self.input).take(wanted as u64).read_to_end(&mut self.held)?;
            self.is_over = read < wanted;
        }
        Ok(&self.held[self.at..])
    }

    /// Passes over so many of them.
    fn skip(&mut self, count: usize) {
        self.at += count;
    }
}

#[cfg(test)]
mod tests {
    use super::*;

    /// The examples of docs/FORMATS.md, section 12.2.
    #[test]
    fn the_examples_of_the_page() {
        let digits = |text: &str| -> Vec<u8> {
            let digits: Vec<u8> = text.bytes().filter(|byte| !byte.is_ascii_whitespace()).collect();
            let pair = |pair: &[u8]| u8::from_str_radix(std::str::from_utf8(pair).unwrap(), 16).unwrap();
            digits.chunks(2).map(pair).collect()
        };
        let first = digits(
            "45504f50 03 03 00000001 0000000000000000 00 00000000 00000000
             eb5a8aa78654c433ae5ae2e8b6468a4d6af5d3dde105ada9fd77d626eb39478e",
        );
        let expected = Opening { replicas: 3, generation: 1, ..Opening::default() };
        assert_eq!(Opening::from(&first[..]).unwrap(), expected);
        let second = digits(
            "45504f50 03 03 00000002 0000000000000005 01 00000001 78 00000001 01 00000001 61 31
             00000002  00 0001  02 0007 ba4a4d800fb593e6b4257ad4a8286b173b475a92cf8b8c816f8b2f08e944b31a",
        );
        let executed = [(0, 1), (2, 7)].map(|(replica, number)| Instance { replica, number }).into();
        let expected =
            Opening { replicas: 3, generation: 2, base_stamp: 5, seal: Some(b"x".to_vec()), map: 7, executed };
        assert_eq!(Opening::from(&second[..]).unwrap(), expected);
        for cut in 0..second.len() {
            assert!(Opening::from(&second[..cut]).is_err());
        }
    }

    #[test]
    fn a_map_is_written_as_it_is_read() {
        assert_eq!(write_map([].into_iter()), [0; 4]);
        let map = write_map([(&b"a"[..], &b"1"[..]), (b"bc", b"")].into_iter());
        assert_eq!(map, b"\0\0\0\x02\x01\0\0\0\x01a1\x02\0\0\0\0bc");
        assert_eq!(map_of(&made((3, 2, 5), b"", &map).unwrap()), Some(&map[..]));
    }

    /// Gives few bytes at once.
    struct Slow<'a>(&'a [u8]);

    impl Read for Slow<'_> {
        fn read(&mut self, out: &mut [u8]) -> io::Result<usize> {
            let most = out.len().min(977);
            self.0.read(&mut out[..most])
        }
    }

    /// Maps of more bytes than are read at once, with keys and values as short and as long as can be.
    #[test]
    fn a_long_map() {
        let lengths = [0, 1, 65_535, 40_000, 7].into_iter().cycle().take(100).chain([0; 900]);
        let mut map = 1_000_u32.to_be_bytes().to_vec();
        for (number, length) in (0_u16..).zip(lengths) {
            let key = [&number.to_be_bytes()[..], &vec![b'k'; if number % 3 == 0 { 253 } else { 0 }]].concat();
            map.push(key.len() as u8);
            map.extend(u32::to_be_bytes(length));
            map.extend(key);
            map.extend(vec![b'v'; length as usize]);
        }
        let bytes = made((5, 258, 7), b"seal", &map).unwrap();
        assert_eq!(bytes.len(), LEAST + 4 + map.len());
        let expected = Opening {
            replicas: 5,
            generation: 258,
            base_stamp: 7,
            seal: Some(b"seal".into()),
            map: map.len() as u64 - 4,
            ..Opening::default()
        };
        assert_eq!(Opening::of(&bytes), Some(expected.clone()));
        assert_eq!(Opening::from(Slow(&bytes)).unwrap(), expected);
        assert_eq!(map_of(&bytes).unwrap(), map);
        let less = lacking(&bytes, |count| count - 1).unwrap();
        assert_eq!(less.len(), bytes.len() - 7 - 253);
        crate::ffi::check_opening(&less).unwrap();
        for cut in [bytes.len() - 1, bytes.len() / 2, 300_000, 70_000] {
            assert!(Opening::from(Slow(&bytes[..cut])).is_err());
        }
        assert!(
            made((4, 258, 7), b"seal", &map).is_err() && made((5, 258, 7), b"seal", &map[..map.len() - 1]).is_err()
        );
        assert!(made((5, 258, 7), &[0; 65_536], &map).is_err());
    }
}
