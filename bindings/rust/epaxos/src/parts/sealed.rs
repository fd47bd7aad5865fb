//! How two replicas prove to each other that they hold the same key, and how what they then send is authenticated.
//!
//! Whoever connects sends a *hello*: the magic, how many replicas, from, to, and 16 bytes by chance. The other end
//! answers with 16 bytes of its own and a proof, an HMAC-SHA-256 by the key over a label, the hello and these
//! bytes. From here on each end sends *messages* by a key of its own, which is such an HMAC too, with another
//! label: a length in 4 bytes, a kind in one, so many bytes, and the first 16 bytes of an HMAC over the message's
//! number in this direction and all of it. So a message that was turned, left out, repeated, put in another order
//! or sent back is refused, and the connection ends. The first message of whoever connects is its proof. A stranger
//! is sent bytes by chance and a proof that serves nobody else: no identity, and nothing that a second connection
//! could use. A cluster without a key has zeros in the place of a message's HMAC, as anybody could make that.
//!
//! What is sent isn't encrypted.
use crate::parts::identity::by_chance;
use crate::parts::mac::{Mac, is_same};
use crate::parts::secret::{KeyFault, read_secret};
use std::fmt;
use std::io::{self, Read, Write};
use std::path::Path;

/// What a connection of a kind begins with. It is in what is proved, so that no other kind's serves for it.
pub type Magic = [u8; 5];
/// The hello: the magic, how many replicas, from, to, and bytes by chance.
pub const HELLO: usize = 8 + NONCE;
const NONCE: usize = 16;
const PROOF: usize = 32;
const TAG: usize = 16;
/// So much room is taken at once.
const ROOM: usize = 1 << 12;
/// A message's length and kind.
const HEAD: usize = 5;

/// The key that the replicas of a cluster share.
///
/// ```
/// use epaxos::service::Key;
///
/// let key = Key::of(b"32 bytes by chance, which nobody else has");
/// # let _ = key;
/// ```
#[derive(Clone)]
pub struct Key<M> {
    mac: M,
    /// Whether it is what stands in the place of one.
    is_none: bool,
}

impl<M> fmt::Debug for Key<M> {
    fn fmt(&self, f: &mut fmt::Formatter) -> fmt::Result {
        f.debug_struct("Key").finish_non_exhaustive()
    }
}

impl<M: Mac> Key<M> {
    /// What a cluster without a key has in its place. It keeps nobody out: anybody can know it.
    pub fn none() -> Key<M> {
        Key { is_none: true, ..Key::of(b"") }
    }

    /// Reads a file: all its bytes are the key, but for blanks and line ends at its end.
    ///
    /// # Errors
    ///
    /// [`KeyFault`] says why it gives none: 16 to 4,096 bytes are wanted, which not everybody may read.
    pub fn read(path: &Path) -> Result<Key<M>, KeyFault> {
        read_secret(path).map(|secret| Key::of(&secret))
    }

    /// That of these bytes, which are made by chance.
    pub fn of(bytes: &[u8]) -> Key<M> {
        Key { mac: M::keyed(bytes), is_none: false }
    }

    /// The HMAC over a label and what both ends have sent.
    fn hmac(&self, label: &[u8], hello: &Hello, nonce: &[u8; NONCE]) -> [u8; PROOF] {
        let mut mac = self.mac.clone();
        for part in [label, &hello.0, nonce] {
            mac.add(part);
        }
        mac.digest()
    }
}

/// The first bytes of whoever connects.
#[derive(Clone, Copy)]
pub struct Hello([u8; HELLO]);

impl Hello {
    /// A new one, with bytes by chance.
    pub fn new(magic: Magic, [replicas, from, to]: [u8; 3]) -> io::Result<Hello> {
        let mut bytes = [0; HELLO];
        bytes[..5].copy_from_slice(&magic);
        bytes[5..8].copy_from_slice(&[replicas, from, to]);
        bytes[8..].copy_from_slice(&by_chance()?);
        Ok(Hello(bytes))
    }

    /// How many replicas, from and to; or nothing where it isn't a hello of this kind.
    pub fn ends(&self, magic: &Magic) -> Option<[u8; 3]> {
        self.0.strip_prefix(magic)?.first_chunk().copied()
    }
}

/// Both directions of a connection whose ends know the same key.
pub struct Channel<M> {
    pub sending: Direction<M>,
    pub receiving: Direction<M>,
}

/// Connects: sends the hello, and takes the other end's proof. An error of the kind `PermissionDenied` says that
/// the other end has another key.
pub fn call<M: Mac>(stream: &mut (impl Read + Write), key: &Key<M>, hello: &Hello) -> io::Result<Channel<M>> {
    stream.write_all(&hello.0)?;
    let mut answer = [0; NONCE + PROOF];
    stream.read_exact(&mut answer)?;
    let nonce = *answer.first_chunk().unwrap_or(&[0; NONCE]);
    if !is_same(&answer[NONCE..], &key.hmac(b"epaxos store: proof", hello, &nonce)) {
        return Err(io::ErrorKind::PermissionDenied.into());
    }
    let (caller, listener) = directions(key, hello, &nonce);
    Ok(Channel { sending: caller, receiving: listener })
}

/// Reads a hello.
pub fn heard(stream: &mut impl Read) -> io::Result<Hello> {
    let mut bytes = [0; HELLO];
    stream.read_exact(&mut bytes)?;
    Ok(Hello(bytes))
}

/// Answers a hello by a proof. That the other end has the key is known once its first message is there.
pub fn answer<M: Mac>(stream: &mut impl Write, key: &Key<M>, hello: &Hello) -> io::Result<Channel<M>> {
    let nonce = by_chance()?;
    let proof = key.hmac(b"epaxos store: proof", hello, &nonce);
    stream.write_all(&[&nonce[..], &proof].concat())?;
    let (caller, listener) = directions(key, hello, &nonce);
    Ok(Channel { sending: listener, receiving: caller })
}

fn directions<M: Mac>(key: &Key<M>, hello: &Hello, nonce: &[u8; NONCE]) -> (Direction<M>, Direction<M>) {
    let mac = |label: &[u8]| (!key.is_none).then(|| M::keyed(&key.hmac(label, hello, nonce)));
    let of = |label: &[u8]| Direction { mac: mac(label), number: 0 };
    (of(b"epaxos store: messages of who connects"), of(b"epaxos store: messages of who listens"))
}

/// The messages of one end: its key of this connection, and how many there were.
pub struct Direction<M> {
    /// None in a cluster without a key.
    mac: Option<M>,
    number: u64,
}

impl<M: Mac> Direction<M> {
    /// Writes a message.
    pub fn write(&mut self, writer: &mut impl Write, kind: u8, bytes: &[u8]) -> io::Result<()> {
        let mut head = [0; HEAD];
        head[..4].copy_from_slice(&(bytes.len() as u32).to_be_bytes());
        head[4] = kind;
        let tag = self.next_tag(&head, bytes);
        writer.write_all(&head)?;
        writer.write_all(bytes)?;
        writer.write_all(&tag)
    }

    /// Reads a message of at most so many bytes: its kind and its bytes. An error of the kind `InvalidData`
    /// says that it isn't the other end's.
    pub fn read(&mut self, reader: &mut impl Read, longest: usize) -> io::Result<(u8, Vec<u8>)> {
        let mut head = [0; HEAD];
        reader.read_exact(&mut head)?;
        let [length @ .., kind] = head;
        let length = u32::from_be_bytes(length) as usize;
        if length > longest {
            return Err(io::ErrorKind::InvalidData.into());
        }
        // (a length isn't authentic before the tag is: room is taken as the bytes come)
        let mut bytes = Vec::with_capacity(length.min(ROOM));
        if reader.by_ref().take(length as u64).read_to_end(&mut bytes)? < length {
            return Err(io::ErrorKind::UnexpectedEof.into());
        }
        let mut tag = [0; TAG];
        reader.read_exact(&mut tag)?;
        let is_authentic = is_same(&tag, &self.next_tag(&head, &bytes));
        if is_authentic { Ok((kind, bytes)) } else { Err(io::ErrorKind::InvalidData.into()) }
    }

    fn next_tag(&mut self, head: &[u8; HEAD], bytes: &[u8]) -> [u8; TAG] {
        let Some(mut mac) = self.mac.clone() else { return [0; TAG] };
        mac.add(&self.number.to_be_bytes());
        mac.add(head);
        mac.add(bytes);
        self.number += 1;
        *mac.digest().first_chunk().unwrap_or(&[0; TAG])
    }
}

#[cfg(all(test, unix))]
mod tests {
    use super::*;
    use crate::parts::mac::Hmac;
    use std::os::unix::net::UnixStream;
    use std::thread;

    type Key = super::Key<Hmac>;

    const MAGIC: Magic = *b"EPxx\x01";
    const LONGEST: usize = 1_000;

    /// Both ends of a connection whose ends have these keys, as they see it.
    fn ends(caller: Key, listener: Key) -> (io::Result<Channel<Hmac>>, Channel<Hmac>) {
        let (mut near, mut far) = UnixStream::pair().unwrap();
        let listening = thread::spawn(move || {
            let hello = heard(&mut far).unwrap();
            assert_eq!((hello.ends(&MAGIC), hello.ends(b"EPxx\x02")), (Some([3, 2, 1]), None));
            answer(&mut far, &listener, &hello).unwrap()
        });
        let called = call(&mut near, &caller, &Hello::new(MAGIC, [3, 2, 1]).unwrap());
        (called, listening.join().unwrap())
    }

    fn key() -> Key {
        Key::of(b"0123456789abcdef")
    }

    fn written(direction: &mut Direction<Hmac>, message: &[u8]) -> Vec<u8> {
        let mut bytes = Vec::new();
        direction.write(&mut bytes, 3, message).unwrap();
        bytes
    }

    fn refused(direction: &mut Direction<Hmac>, bytes: &[u8]) -> io::ErrorKind {
        direction.read(&mut &bytes[..], LONGEST).unwrap_err().kind()
    }

    #[test]
    fn messages_go_both_ways() {
        let (near, mut far) = ends(key(), key());
        let mut near = near.unwrap();
        for message in [&b""[..], b"x", &[7; LONGEST]] {
            let bytes = written(&mut near.sending, message);
            assert_eq!(bytes.len(), 5 + message.len() + 16);
            assert_eq!(far.receiving.read(&mut &bytes[..], LONGEST).unwrap(), (3, message.to_vec()));
            let bytes = written(&mut far.sending, message);
            assert_eq!(near.receiving.read(&mut &bytes[..], LONGEST).unwrap(), (3, message.to_vec()));
        }
    }

    #[test]
    fn each_end_needs_the_key() {
        assert_eq!(ends(Key::none(), key()).0.err().unwrap().kind(), io::ErrorKind::PermissionDenied);
        // One that doesn't look at the proof can't make a message.
        let (mut near, mut far) = UnixStream::pair().unwrap();
        let hello = Hello::new(MAGIC, [3, 2, 1]).unwrap();
        let mut listener = answer(&mut far, &key(), &hello).unwrap();
        let mut sent = [0; NONCE + PROOF];
        near.read_exact(&mut sent).unwrap();
        for other in [Key::of(b""), Key::none()] {
            let (mut forged, _) = directions(&other, &hello, sent.first_chunk().unwrap());
            assert_eq!(refused(&mut listener.receiving, &written(&mut forged, b"frame")), io::ErrorKind::InvalidData);
        }
    }

    #[test]
    fn without_a_key_there_are_no_codes() {
        let (near, mut far) = ends(Key::none(), Key::none());
        let mut near = near.unwrap();
        for message in [&b"x"[..], &[7; LONGEST]] {
            let bytes = written(&mut near.sending, message);
            assert_eq!(bytes[5 + message.len()..], [0; TAG]);
            assert_eq!(far.receiving.read(&mut &bytes[..], LONGEST).unwrap(), (3, message.to_vec()));
        }
        // Both ends have to have none.
        assert_eq!(ends(Key::none(), key()).0.err().unwrap().kind(), io::ErrorKind::PermissionDenied);
        let bytes = written(&mut ends(key(), key()).0.unwrap().sending, b"x");
        assert_eq!(refused(&mut far.receiving, &bytes), io::ErrorKind::InvalidData);
    }

    #[test]
    fn each_turned_byte_is_refused() {
        let (near, far) = ends(key(), key());
        let bytes = written(&mut near.unwrap().sending, b"a message");
        for at in 0..bytes.len() {
            let mut turned = bytes.clone();
            turned[at] ^= 1;
            let mut receiving = Direction { mac: far.receiving.mac.clone(), number: 0 };
            assert!(receiving.read(&mut &turned[..], LONGEST).is_err(), "byte {at}");
        }
        for cut in 0..bytes.len() {
            let mut receiving = Direction { mac: far.receiving.mac.clone(), number: 0 };
            assert_eq!(refused(&mut receiving, &bytes[..cut]), io::ErrorKind::UnexpectedEof);
        }
    }

    #[test]
    fn a_message_is_taken_once_and_in_its_place() {
        let (near, mut far) = ends(key(), key());
        let mut near = near.unwrap();
        let (first, second) = (written(&mut near.sending, b"1"), written(&mut near.sending, b"2"));
        let mut skipped = Direction { mac: far.receiving.mac.clone(), number: 0 };
        assert_eq!(refused(&mut skipped, &second), io::ErrorKind::InvalidData);
        assert!(far.receiving.read(&mut &first[..], LONGEST).is_ok());
        assert_eq!(refused(&mut far.receiving, &first), io::ErrorKind::InvalidData);
        // What one end sent isn't taken by it when it comes back.
        let mut back = Direction { mac: near.receiving.mac.clone(), number: 0 };
        assert_eq!(refused(&mut back, &first), io::ErrorKind::InvalidData);
        // Nor by another connection of the same ends.
        let (_, mut other) = ends(key(), key());
        assert_eq!(refused(&mut other.receiving, &first), io::ErrorKind::InvalidData);
    }

    #[test]
    fn a_message_may_not_be_too_long() {
        let (near, mut far) = ends(key(), key());
        let bytes = written(&mut near.unwrap().sending, &[7; LONGEST + 1]);
        assert_eq!(refused(&mut far.receiving, &bytes), io::ErrorKind::InvalidData);
    }
}
