//! SHA-256.
#![forbid(unsafe_code)]

use crate::ffi;
use std::fmt;

/// How many bytes are taken at once.
const BLOCK: usize = 64;

const FIRST: [u32; 8] =
    [0x6a09_e667, 0xbb67_ae85, 0x3c6e_f372, 0xa54f_f53a, 0x510e_527f, 0x9b05_688c, 0x1f83_d9ab, 0x5be0_cd19];

#[rustfmt::skip]
const ROUNDS: [u32; 64] = [
    0x428a_2f98, 0x7137_4491, 0xb5c0_fbcf, 0xe9b5_dba5, 0x3956_c25b, 0x59f1_11f1, 0x923f_82a4, 0xab1c_5ed5,
    0xd807_aa98, 0x1283_5b01, 0x2431_85be, 0x550c_7dc3, 0x72be_5d74, 0x80de_b1fe, 0x9bdc_06a7, 0xc19b_f174,
    0xe49b_69c1, 0xefbe_4786, 0x0fc1_9dc6, 0x240c_a1cc, 0x2de9_2c6f, 0x4a74_84aa, 0x5cb0_a9dc, 0x76f9_88da,
    0x983e_5152, 0xa831_c66d, 0xb003_27c8, 0xbf59_7fc7, 0xc6e0_0bf3, 0xd5a7_9147, 0x06ca_6351, 0x1429_2967,
    0x27b7_0a85, 0x2e1b_2138, 0x4d2c_6dfc, 0x5338_0d13, 0x650a_7354, 0x766a_0abb, 0x81c2_c92e, 0x9272_2c85,
    0xa2bf_e8a1, 0xa81a_664b, 0xc24b_8b70, 0xc76c_51a3, 0xd192_e819, 0xd699_0624, 0xf40e_3585, 0x106a_a070,
    0x19a4_c116, 0x1e37_6c08, 0x2748_774c, 0x34b0_bcb5, 0x391c_0cb3, 0x4ed8_aa4a, 0x5b9c_ca4f, 0x682e_6ff3,
    0x748f_82ee, 0x78a5_636f, 0x84c8_7814, 0x8cc7_0208, 0x90be_fffa, 0xa450_6ceb, 0xbef9_a3f7, 0xc671_78f2,
];

/// The SHA-256 of bytes that come one after the other: of a log as it is written, whose sum a
/// [`Reference`](crate::Reference) names.
///
/// It is plain Rust, some hundred megabytes a second, and tests hold it to the library's, which is proved, and gives the
/// digest of bytes that are all there ([`of`](Sum::of)). A host that has a faster one uses that.
///
/// ```
/// use epaxos::Sum;
///
/// let mut sum = Sum::new();
/// sum.add(b"a");
/// sum.add(b"bc");
/// assert_eq!(sum.digest(), Sum::of(b"abc"));
/// assert_eq!(sum.bytes(), 3);
/// ```
#[derive(Clone)]
pub struct Sum {
    state: [u32; 8],
    /// The bytes behind the last whole block; those of a block that are below their number count.
    rest: [u8; BLOCK],
    bytes: u64,
}

impl fmt::Debug for Sum {
    fn fmt(&self, f: &mut fmt::Formatter) -> fmt::Result {
        f.debug_struct("Sum").field("bytes", &self.bytes).finish_non_exhaustive()
    }
}

impl Default for Sum {
    fn default() -> Sum {
        Sum::new()
    }
}

impl Sum {
    /// That of no bytes.
    ///
    /// ```
    /// assert_eq!(epaxos::Sum::new().digest()[..4], [0xe3, 0xb0, 0xc4, 0x42]);
    /// ```
    pub fn new() -> Sum {
        Sum { state: FIRST, rest: [0; BLOCK], bytes: 0 }
    }

    /// The digest of these bytes.
    ///
    /// ```
    /// assert_eq!(epaxos::Sum::of(b"abc")[..4], [0xba, 0x78, 0x16, 0xbf]);
    /// ```
    pub fn of(bytes: &[u8]) -> [u8; 32] {
        ffi::sum(bytes)
    }

    /// How many bytes came.
    ///
    /// ```
    /// assert_eq!(epaxos::Sum::new().bytes(), 0);
    /// ```
    pub fn bytes(&self) -> u64 {
        self.bytes
    }

    /// These come next.
    ///
    /// ```
    /// let mut sum = epaxos::Sum::new();
    /// sum.add(b"the bytes of a record");
    /// ```
    pub fn add(&mut self, mut bytes: &[u8]) {
        let held = (self.bytes % BLOCK as u64) as usize;
        self.bytes += bytes.len() as u64;
        if held > 0 {
            let (some, behind) = bytes.split_at(bytes.len().min(BLOCK - held));
            self.rest[held..held + some.len()].copy_from_slice(some);
            bytes = behind;
            if held + some.len() < BLOCK {
                return;
            }
            mix(&mut self.state, &self.rest);
        }
        let (blocks, last) = bytes.as_chunks::<BLOCK>();
        blocks.iter().for_each(|block| mix(&mut self.state, block));
        self.rest[..last.len()].copy_from_slice(last);
    }

    /// The digest of all that came. More may come after it.
    ///
    /// ```
    /// let mut sum = epaxos::Sum::new();
    /// let none = sum.digest();
    /// sum.add(b"x");
    /// assert_ne!(sum.digest(), none);
    /// ```
    pub fn digest(&self) -> [u8; 32] {
        let mut whole = self.clone();
        let bits = self.bytes.wrapping_mul(8);
        let held = (self.bytes % BLOCK as u64) as usize;
        let zeros = (BLOCK + 55 - held) % BLOCK;
        whole.add(&[0x80]);
        whole.add(&[0; BLOCK][..zeros]);
        whole.add(&bits.to_be_bytes());
        let mut digest = [0; 32];
        for (out, word) in digest.chunks_exact_mut(4).zip(whole.state) {
            out.copy_from_slice(&word.to_be_bytes());
        }
        digest
    }
}

/// Takes a block.
fn mix(state: &mut [u32; 8], block: &[u8; BLOCK]) {
    let mut words = [0u32; 64];
    for (word, bytes) in words.iter_mut().zip(block.as_chunks::<4>().0) {
        *word = u32::from_be_bytes(*bytes);
    }
    for at in 16..64 {
        let (one, other) = (words[at - 15], words[at - 2]);
        let one = one.rotate_right(7) ^ one.rotate_right(18) ^ (one >> 3);
        let other = other.rotate_right(17) ^ other.rotate_right(19) ^ (other >> 10);
        words[at] = words[at - 16].wrapping_add(one).wrapping_add(words[at - 7]).wrapping_add(other);
    }
    let [mut a, mut b, mut c, mut d, mut e, mut f, mut g, mut h] = *state;
    for (word, round) in words.iter().zip(ROUNDS) {
        let sum = e.rotate_right(6) ^ e.rotate_right(11) ^ e.rotate_right(25);
        let choice = (e & f) ^ (!e & g);
        let first = h.wrapping_add(sum).wrapping_add(choice).wrapping_add(round).wrapping_add(*word);
        let sum = a.rotate_right(2) ^ a.rotate_right(13) ^ a.rotate_right(22);
        let most = (a & b) ^ (a & c) ^ (b & c);
        let second = sum.wrapping_add(most);
        (h, g, f, e, d, c, b, a) = (g, f, e, d.wrapping_add(first), c, b, a, first.wrapping_add(second));
    }
    for (word, more) in state.iter_mut().zip([a, b, c, d, e, f, g, h]) {
        *word = word.wrapping_add(more);
    }
}

#[cfg(test)]
mod tests {
    use super::Sum;

    fn hex(digest: [u8; 32]) -> String {
        digest.iter().map(|it| format!("{it:02x}")).collect()
    }

    /// Those of FIPS 180-4's examples.
    #[test]
    fn digests_word_for_word() {
        for (bytes, digest) in [
            (&b""[..], "e3b0c44298fc1c149afbf4c8996fb92427ae41e4649b934ca495991b7852b855"),
            (b"abc", "ba7816bf8f01cfea414140de5dae2223b00361a396177a9cb410ff61f20015ad"),
            (
                b"abcdbcdecdefdefgefghfghighijhijkijkljklmklmnlmnomnopnopq",
                "248d6a61d20638b8e5c026930c3e6039a33ce45964ff2167f6ecedd419db06c1",
            ),
            (&[b'a'; 1_000_000], "cdc76e5c9914fb9281a1c7e284d73e67f1809a48a497200e046d39ccc7112cd0"),
        ] {
            assert_eq!(hex(Sum::of(bytes)), digest);
        }
    }

    #[test]
    fn pieces_give_what_the_whole_gives() {
        let bytes: Vec<u8> = (0..300).map(|it| it as u8).collect();
        for length in 0..bytes.len() {
            for piece in [1, 3, 63, 64, 65, 127, 200] {
                let mut sum = Sum::new();
                bytes[..length].chunks(piece).for_each(|it| sum.add(it));
                assert_eq!((sum.bytes(), sum.digest()), (length as u64, Sum::of(&bytes[..length])));
            }
        }
    }
}
