//! What distinguishes a machine from another one that has its number.
use std::fs::File;
use std::io::{self, Read};

/// What distinguishes a machine from another one that has its number: 16 bytes by chance.
///
/// ```
/// let identity: epaxos::host::Identity = [7; 16];
/// # let _ = identity;
/// ```
pub type Identity = [u8; 16];

/// A new one.
pub fn by_chance() -> io::Result<Identity> {
    let mut identity = Identity::default();
    File::open("/dev/urandom")?.read_exact(&mut identity)?;
    Ok(identity)
}

/// An identity's 32 digits.
pub fn digits(identity: &Identity) -> String {
    format!("{:032x}", u128::from_be_bytes(*identity))
}

/// The identity of these digits.
pub fn identity(digits: &str) -> Option<Identity> {
    let is_whole = digits.len() == 32 && digits.bytes().all(|byte| byte.is_ascii_hexdigit());
    Some(u128::from_str_radix(digits, 16).ok().filter(|_| is_whole)?.to_be_bytes())
}
