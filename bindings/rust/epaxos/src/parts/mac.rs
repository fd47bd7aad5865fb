//! HMAC-SHA-256.
use crate::Sum;
use std::hint::black_box;

/// How many bytes the digest takes at once.
const BLOCK: usize = 64;

/// An HMAC-SHA-256 over bytes that come one after the other. A host that has a faster one than [`Hmac`] uses that.
pub trait Mac: Clone + Send + 'static {
    /// With this key, of any length.
    fn keyed(key: &[u8]) -> Self;

    /// These come next.
    fn add(&mut self, bytes: &[u8]);

    /// That of all that came.
    fn digest(self) -> [u8; 32];
}

/// An HMAC-SHA-256 by the crate's own [`Sum`].
#[derive(Clone, Debug)]
pub struct Hmac {
    inner: Sum,
    outer: Sum,
}

impl Mac for Hmac {
    fn keyed(key: &[u8]) -> Hmac {
        let (mut block, digest) = ([0; BLOCK], Sum::of(key));
        let key = if key.len() > BLOCK { &digest } else { key };
        block[..key.len()].copy_from_slice(key);
        let (mut inner, mut outer) = (Sum::new(), Sum::new());
        inner.add(&block.map(|byte| byte ^ 0x36));
        outer.add(&block.map(|byte| byte ^ 0x5c));
        Hmac { inner, outer }
    }

    fn add(&mut self, bytes: &[u8]) {
        self.inner.add(bytes);
    }

    fn digest(mut self) -> [u8; 32] {
        self.outer.add(&self.inner.digest());
        self.outer.digest()
    }
}

/// The same where there is a key. By a key without a byte that isn't 0 nothing is proved, and nothing is reckoned.
#[derive(Clone, Debug)]
pub struct Guard(Option<Hmac>);

impl Mac for Guard {
    fn keyed(key: &[u8]) -> Guard {
        Guard(key.iter().any(|byte| *byte > 0).then(|| Hmac::keyed(key)))
    }

    fn add(&mut self, bytes: &[u8]) {
        self.0.iter_mut().for_each(|mac| mac.add(bytes));
    }

    fn digest(self) -> [u8; 32] {
        self.0.map_or([0; 32], Hmac::digest)
    }
}

/// Whether these are the same. How long that takes reveals nothing of where they differ.
pub fn is_same(one: &[u8], other: &[u8]) -> bool {
    let differ = one.iter().zip(other).fold(0, |differ, (one, other)| black_box(differ | (one ^ other)));
    one.len() == other.len() && black_box(differ) == 0
}

#[cfg(test)]
mod tests {
    use super::*;

    /// RFC 4231, test cases 1, 2 and 6.
    #[test]
    fn it_is_the_standard_one() {
        let hmac = |key: &[u8], text: &[u8]| {
            let mut mac = Hmac::keyed(key);
            text.chunks(5).for_each(|part| mac.add(part));
            mac.digest().iter().map(|byte| format!("{byte:02x}")).collect::<String>()
        };
        assert_eq!(hmac(&[0x0b; 20], b"Hi There"), "b0344c61d8db38535ca8afceaf0bf12b881dc200c9833da726e9376c2e32cff7");
        assert_eq!(
            hmac(b"Jefe", b"what do ya want for nothing?"),
            "5bdcc146bf60754e6a042426089575c75a003f089d2739839dec58b964ec3843"
        );
        assert_eq!(
            hmac(&[0xaa; 131], b"Test Using Larger Than Block-Size Key - Hash Key First"),
            "60e431591ee0b67f0d8a26aacbf5b77f8e0bc6213728c5140546040f0ee37f54"
        );
    }

    #[test]
    fn what_differs_is_not_the_same() {
        assert!(is_same(b"", b"") && is_same(b"abc", b"abc"));
        assert!(!is_same(b"abc", b"abd") && !is_same(b"abc", b"ab") && !is_same(b"ab", b"abc"));
    }
}
