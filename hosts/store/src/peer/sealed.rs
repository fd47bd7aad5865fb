//! Links whose ends share a key: those of [`epaxos::parts::sealed`], by an HMAC that has the processor's instructions
//! for it.
use epaxos::parts::mac::Mac;
use epaxos::parts::sealed;
pub use epaxos::parts::sealed::{Hello, Magic, answer, call, heard};
pub use epaxos::parts::secret::{KeyFault, read_secret};
use ring::hmac::{Context, HMAC_SHA256};

/// What a connection of stores begins with.
pub const MAGIC: Magic = *b"EPST\x05";

pub type Key = sealed::Key<HmacSha256>;
pub type Channel = sealed::Channel<HmacSha256>;
pub type Direction = sealed::Direction<HmacSha256>;

#[derive(Clone)]
pub struct HmacSha256(Context);

impl Mac for HmacSha256 {
    fn keyed(key: &[u8]) -> HmacSha256 {
        HmacSha256(Context::with_key(&ring::hmac::Key::new(HMAC_SHA256, key)))
    }

    fn add(&mut self, bytes: &[u8]) {
        self.0.update(bytes);
    }

    fn digest(self) -> [u8; 32] {
        *self.0.sign().as_ref().first_chunk().unwrap_or(&[0; 32])
    }
}

#[cfg(test)]
mod tests {
    use super::*;

    #[test]
    fn it_is_the_crates_own_one() {
        for length in [0, 1, 63, 64, 65, 200] {
            let bytes: Vec<u8> = (0..length).collect();
            let (mut one, mut other) = (HmacSha256::keyed(&bytes), epaxos::parts::mac::Hmac::keyed(&bytes));
            one.add(&bytes);
            other.add(&bytes);
            assert_eq!(one.digest(), other.digest(), "{length} bytes");
        }
    }
}
