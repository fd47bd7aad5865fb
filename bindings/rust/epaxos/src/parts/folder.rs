//! What a folder has of a replica's generations (docs/FORMATS.md, section 13), as a start reads it.
use crate::ffi::{self, OpeningHead, Place};
use crate::host::{Name, Stored};
use crate::parts::folder_fault::FolderFault;
use crate::parts::planning::{Held, first, left_in};
use crate::reference::binding;
use crate::{Reference, status};

/// How long an opening is at least.
const SHORTEST: usize = 59;

/// What gives the SHA-256 of bytes.
pub type SumOf = fn(&[u8]) -> [u8; 32];

/// A generation's opening.
#[derive(Clone, PartialEq, Eq, Debug)]
pub struct Opened {
    pub generation: u32,
    pub replicas: u8,
    pub bytes: Vec<u8>,
    /// The reference that stood for this opening, where its generation was begun by one: the generation's log names it.
    pub reference: Option<Reference>,
}

/// The generation that is gone on with: what is read to open it.
#[derive(Clone, PartialEq, Eq, Debug)]
pub struct Started {
    /// The whole generation from which on logs lead to it; or itself.
    pub first: Opened,
    /// The references of the generations behind that one, up to this one.
    pub references: Vec<Reference>,
    /// Whether its log is begun.
    pub is_new: bool,
}

impl Started {
    pub fn generation(&self) -> u32 {
        self.references.last().map_or(self.first.generation, Reference::generation)
    }

    pub fn replicas(&self) -> u8 {
        self.references.last().map_or(self.first.replicas, |last| last.cluster().replicas())
    }

    /// What is read to open this generation, whose log is there.
    pub fn read(stored: &impl Stored, held: &[Held], generation: u32) -> Result<Started, FolderFault> {
        let first = first(held, generation)?;
        let references = (first + 1..=generation).map(|number| reference(stored, number));
        let references = references.collect::<Result<_, _>>()?;
        let is_bound = held.iter().any(|one| one.number == first && one.has_reference);
        let own = is_bound.then(|| reference(stored, first)).transpose()?;
        let first = Opened { reference: own, ..opening(stored, first)? };
        Ok(Started { first, references, is_new: false })
    }
}

/// What the disk has of each generation.
pub fn look(stored: &impl Stored) -> Result<Vec<Held>, FolderFault> {
    let mut all = Vec::new();
    for number in stored.generations()? {
        let (reference, opening) = (stored.tail(number, Name::Reference)?, stored.tail(number, Name::Opening)?);
        let (has_opening, has_reference) = (opening.is_some(), reference.is_some());
        let digests = reference.zip(opening);
        let is_bound = match digests.as_ref().and_then(|it| Some((it.0.first_chunk()?, it.1.first_chunk()?))) {
            Some((reference, opening)) => stored.read(number, Name::Whole)? == Some(binding(reference, opening)),
            None => false,
        };
        let left = stored.read(number, Name::Left)?;
        let left_for = left.map_or(0, |bytes| left_in(&bytes, number));
        all.push(Held { number, has_opening, has_reference, is_bound, left_for });
    }
    Ok(all)
}

/// The opening of a generation.
fn opening(stored: &impl Stored, generation: u32) -> Result<Opened, FolderFault> {
    let bad = |why| FolderFault::BadOpening(Some(generation), why);
    let opened = opened(stored.read(generation, Name::Opening)?.unwrap_or_default()).map_err(bad)?;
    match opened.generation {
        here if here == generation => Ok(opened),
        other => check(&opened.bytes).map_err(bad).and(Err(FolderFault::OfAnother(generation, other))),
    }
}

/// The reference of a generation.
pub fn reference(stored: &impl Stored, generation: u32) -> Result<Reference, FolderFault> {
    reference_of(&stored.read(generation, Name::Reference)?.unwrap_or_default(), generation)
}

/// The reference of these bytes, which are to be this generation's.
pub fn reference_of(bytes: &[u8], generation: u32) -> Result<Reference, FolderFault> {
    let Some(reference) = Reference::read(bytes) else {
        return Err(FolderFault::BadReference(generation, no_reference(bytes)));
    };
    match reference.generation() {
        here if here == generation => Ok(reference),
        other => Err(FolderFault::ReferenceOf(generation, other)),
    }
}

/// Why these bytes are no reference, in the words of the programs.
fn no_reference(bytes: &[u8]) -> String {
    ffi::read_reference(bytes).err().map(why).unwrap_or_default()
}

/// Why bytes are none of an opening or a reference, by the status that says so.
fn why((status, Place { at, .. }): (u8, Place)) -> String {
    match status {
        status::OPENING_SHORT => format!("cut short at byte {at}"),
        status::OPENING_DAMAGED => format!("damaged: no digest of the bytes before it at byte {at}"),
        status::OPENING_WRONG => format!("wrong field at byte {at}"),
        _ => "out of memory".into(),
    }
}

/// The first bytes of a generation's log, which the reference of the next one names.
pub fn log_of(stored: &impl Stored, next: &Reference, sum: SumOf) -> Result<Vec<u8>, FolderFault> {
    let generation = next.generation() - 1;
    named(stored.read(generation, Name::Log)?.unwrap_or_default(), next, sum)
}

/// The first of a log's bytes, which this reference names.
pub fn named(mut log: Vec<u8>, next: &Reference, sum: SumOf) -> Result<Vec<u8>, FolderFault> {
    let generation = next.generation() - 1;
    let length = usize::try_from(next.length()).ok().filter(|length| *length <= log.len());
    log.truncate(length.ok_or(FolderFault::ShortLog(generation))?);
    if sum(&log) == next.sum() { Ok(log) } else { Err(FolderFault::OtherLog(generation)) }
}

/// The opening of these bytes, or why they are none, in the words of the programs. From its map on it is the core's to
/// judge, as is its digest, where what stands before may be an opening's.
pub fn opened(bytes: Vec<u8>) -> Result<Opened, String> {
    match ffi::opening_head(&bytes) {
        Ok(OpeningHead { generation, replicas, .. }) if bytes.len() >= SHORTEST => {
            Ok(Opened { generation, replicas, bytes, reference: None })
        }
        Ok(_) | Err(_) => Err(ffi::check_opening(&bytes).err().map(why).unwrap_or_default()),
    }
}

/// The opening of these bytes, all of which were looked at; or why they are none.
pub fn whole(bytes: Vec<u8>) -> Result<Opened, String> {
    check(&bytes)?;
    opened(bytes)
}

/// Whether these bytes are an opening.
fn check(bytes: &[u8]) -> Result<(), String> {
    ffi::check_opening(bytes).map_err(why)
}

#[cfg(test)]
mod tests {
    use super::*;
    use crate::{Cluster, Sum};

    fn digested(body: &[u8]) -> Vec<u8> {
        [body, &Sum::of(body)].concat()
    }

    #[test]
    fn what_is_no_reference() {
        let reference = Reference::new(Cluster::Three, 2, 43, [7; 32]).unwrap();
        let good = reference.bytes();
        assert_eq!(reference_of(&good, 2).unwrap(), reference);
        let why = |bytes: &[u8]| no_reference(bytes);
        for count in 0..good.len() {
            assert_eq!(why(&good[..count]), format!("cut short at byte {count}"));
        }
        for at in 0..good.len() {
            let mut turned = good.clone();
            turned[at] ^= 1;
            let expected = match at {
                0..4 => "wrong field at byte 0",
                4 => "wrong field at byte 4",
                _ => "damaged: no digest of the bytes before it at byte 50",
            };
            assert_eq!(why(&turned), expected);
            let refused = reference_of(&turned, 2).unwrap_err().to_string();
            assert_eq!(refused, format!("folder refused: the reference of generation 2: {expected}"));
        }
        for (at, byte, expected) in [(5, 4, 5), (9, 1, 6), (17, 42, 10)] {
            let mut changed = good[..50].to_vec();
            changed[at] = byte;
            assert_eq!(why(&digested(&changed)), format!("wrong field at byte {expected}"));
        }
        assert_eq!(why(&digested(&[&good[..50], b"!"].concat())), "wrong field at byte 50");
    }

    /// What a start does by the rules is in .ci/folders.py: the same rows for a node and for a core that is hosted.
    #[test]
    fn openings_of_the_page() {
        let page = include_str!("../../../../../tests/vectors/openings.txt");
        let lines: Vec<&str> = page.lines().filter_map(|line| line.strip_prefix("    ")).collect();
        let bytes_of = |lines: &[&str]| -> Vec<u8> {
            let digits: Vec<char> = lines.iter().flat_map(|line| line.chars()).filter(|digit| *digit != ' ').collect();
            digits.chunks(2).map(|pair| u8::from_str_radix(&String::from_iter(pair), 16).unwrap()).collect()
        };
        let (first, second) = (bytes_of(&lines[..2]), bytes_of(&lines[2..6]));
        assert_eq!(Cluster::Three.first_opening(), first);
        let opening = opened(second.clone()).unwrap();
        assert_eq!((opening.generation, opening.replicas, &opening.bytes), (2, 3, &second));
        let why = |bytes: &[u8]| opened(bytes.to_vec()).unwrap_err();
        for count in 0..59 {
            assert_eq!(why(&second[..count]), format!("cut short at byte {count}"));
        }
        for (place, expected) in [
            (0, "wrong field at byte 0"),
            (4, "wrong field at byte 4"),
            (5, "damaged: no digest of the bytes before it at byte 45"),
        ] {
            let mut changed = second.clone();
            changed[place] ^= 0x10;
            assert_eq!(why(&changed), expected);
        }
        for (place, byte, expected) in [(5, 4, "wrong field at byte 5"), (9, 0, "wrong field at byte 6")] {
            let mut changed = second[..45].to_vec();
            changed[place] = byte;
            let digest = Sum::of(&changed);
            assert_eq!(why(&[&changed[..], &digest].concat()), expected);
        }
    }
}
