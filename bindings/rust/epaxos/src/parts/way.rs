//! What a peer needs to come to a generation: the opening of the last whole one up to there, and the logs since, each
//! up to the length that the next reference names. All of it is one run of bytes: a head, the opening, and the logs.
use crate::host::{Name, Span};
use crate::parts::folder::{Opened, Started, SumOf, named, opened, reference_of};
use crate::parts::folder_fault::FolderFault;
use crate::parts::follower::Follower;
use crate::{Fault, Reference};
use std::io::Read;

const MAGIC: [u8; 5] = *b"ESWY\x01";

/// What the bytes begin with.
#[derive(Clone, PartialEq, Eq, Debug)]
pub struct Head {
    /// The generation of the opening, and how many bytes that has.
    first: u32,
    opening: u64,
    /// The reference that stood for this opening, where its generation was begun by one.
    own: Option<Reference>,
    /// Those of the generations behind it, up to the one that is led to.
    references: Vec<Reference>,
}

impl Head {
    /// The generation that is led to.
    fn generation(&self) -> u32 {
        self.references.last().map_or(self.first, Reference::generation)
    }

    fn write(&self) -> Vec<u8> {
        let mut out = MAGIC.to_vec();
        out.extend(self.first.to_be_bytes());
        out.extend(self.generation().to_be_bytes());
        out.extend(self.opening.to_be_bytes());
        out.push(u8::from(self.own.is_some()));
        self.own.iter().chain(&self.references).for_each(|reference| out.extend(reference.bytes()));
        out
    }

    fn read(input: &mut impl Read) -> Result<Head, FolderFault> {
        if array(input)? != MAGIC {
            return Err(FolderFault::BadWay("it doesn't begin as such bytes do"));
        }
        let (first, last) = (u32::from_be_bytes(array(input)?), u32::from_be_bytes(array(input)?));
        let opening = u64::from_be_bytes(array(input)?);
        let own = match array(input)? {
            [0] => None,
            [1] => Some(read_reference(input, first)?),
            _ => return Err(FolderFault::BadWay("its head has a wrong field")),
        };
        if first == 0 || last < first {
            return Err(FolderFault::BadWay("its generations are none"));
        }
        let references = (first..last).map(|before| read_reference(input, before + 1)).collect::<Result<_, _>>()?;
        Ok(Head { first, opening, own, references })
    }

    /// How many bytes it has itself, and how many all have.
    fn lengths(&self) -> Option<(u64, u64)> {
        let head = self.write().len() as u64;
        let bodies = std::iter::once(self.opening).chain(self.references.iter().map(Reference::length));
        let all = bodies.into_iter().try_fold(head, u64::checked_add)?;
        Some((head, all))
    }
}

fn array<const N: usize>(input: &mut impl Read) -> Result<[u8; N], FolderFault> {
    let mut bytes = [0; N];
    input.read_exact(&mut bytes).map_err(|_| FolderFault::BadWay("its head is cut short"))?;
    Ok(bytes)
}

fn read_reference(input: &mut impl Read, generation: u32) -> Result<Reference, FolderFault> {
    reference_of(&array::<{ Reference::BYTES }>(input)?, generation)
}

/// The bytes by which a peer comes to a generation, and where they are: those of its head here, and all others in
/// files, which don't change.
pub struct Way {
    head: Head,
    written: Vec<u8>,
    files: Vec<Span>,
    total: u64,
}

impl Way {
    /// Those from a whole generation on, whose opening has so many bytes and stands for the reference `own`, where it
    /// does: by the references of the generations behind it.
    pub fn of((first, opening): (u32, u64), own: Option<Reference>, references: Vec<Reference>) -> Way {
        let whole = |generation, name, length| Span { generation, name, offset: 0, length };
        let log = |next: &Reference| whole(next.generation() - 1, Name::Log, next.length());
        let mut files = vec![whole(first, Name::Opening, opening)];
        files.extend(references.iter().map(log));
        let head = Head { first, opening, own, references };
        let written = head.write();
        let total = files.iter().map(|file| file.length).sum::<u64>() + written.len() as u64;
        Way { head, written, files, total }
    }

    /// The generation of the opening, and the one that is led to.
    pub fn ends(&self) -> (u32, u32) {
        (self.head.first, self.head.generation())
    }

    pub fn total(&self) -> u64 {
        self.total
    }

    /// As many of the bytes from this place on, or as many as there are: those of the head, and where the others are.
    pub fn piece(&self, offset: u64, most: u64) -> (Vec<u8>, Vec<Span>) {
        let here = usize::try_from(offset).ok().and_then(|offset| self.written.get(offset..)).unwrap_or_default();
        let front: Vec<u8> = here.iter().take(most as usize).copied().collect();
        let (mut left, mut begins, mut spans) = (most - front.len() as u64, self.written.len() as u64, Vec::new());
        for file in &self.files {
            let place = offset.max(begins) - begins;
            let length = file.length.saturating_sub(place).min(left);
            if length > 0 {
                spans.push(Span { offset: place, length, ..*file });
                left -= length;
            }
            begins += file.length;
        }
        (front, spans)
    }
}

/// Such bytes, which a peer has handed.
pub struct Handed {
    bytes: Vec<u8>,
    head: Head,
    /// Where the opening begins.
    opening: u64,
}

impl Handed {
    pub fn open(bytes: Vec<u8>) -> Result<Handed, FolderFault> {
        let head = Head::read(&mut &bytes[..])?;
        match head.lengths() {
            Some((opening, all)) if all == bytes.len() as u64 => Ok(Handed { bytes, head, opening }),
            _ => Err(FolderFault::BadWay("it has more bytes, or fewer, than its head says")),
        }
    }

    /// Goes through all that this replica has handed: the pieces of the opening that it leads to.
    pub fn through(
        &self,
        replica: u8,
        sum: SumOf,
    ) -> Result<impl Iterator<Item = Result<Vec<u8>, Fault>> + use<>, FolderFault> {
        let started = self.started()?;
        let log_of = |next: &Reference| self.log_of(next, sum);
        let last = started.references.last().copied();
        let led = last.map(|last| Follower { replica }.opening_of(&started, last, log_of)).transpose()?;
        let whole = led.is_none().then_some(Ok(started.first.bytes));
        Ok(whole.into_iter().chain(led.into_iter().flatten()))
    }

    /// What a start would read of a folder that has these files.
    fn started(&self) -> Result<Started, FolderFault> {
        let Head { first, own, references, .. } = &self.head;
        let bytes = self.run(self.opening, self.head.opening);
        let bad = |why| FolderFault::BadOpening(Some(*first), why);
        let opening = opened(bytes).map_err(bad)?;
        if opening.generation != *first {
            return Err(FolderFault::OfAnother(*first, opening.generation));
        }
        Ok(Started { first: Opened { reference: *own, ..opening }, references: references.clone(), is_new: false })
    }

    /// The log that the reference of the next generation names.
    fn log_of(&self, next: &Reference, sum: SumOf) -> Result<Vec<u8>, FolderFault> {
        let before = self.head.references.iter().take_while(|it| it.generation() < next.generation());
        let at = before.map(Reference::length).sum::<u64>() + self.opening + self.head.opening;
        named(self.run(at, next.length()), next, sum)
    }

    fn run(&self, at: u64, length: u64) -> Vec<u8> {
        let from = usize::try_from(at).ok().and_then(|at| self.bytes.get(at..)).unwrap_or_default();
        from.iter().take(length as usize).copied().collect()
    }
}
