//! The file of receipts: what clients were answered, for `epaxos collect`.
use crate::parts::files::private;
use crate::parts::receipts_fault::ReceiptsFault;
use crate::{Fields, LONGEST_VALUE, MOST_TOLD, Receipt};
use std::fs::File;
use std::io::{self, Read, Write};
use std::path::{Path, PathBuf};

/// Whether a client's number is one that this replica gives.
pub type IsOf = fn(u32, u8) -> bool;

/// The receipts of these bytes.
pub fn receipts(bytes: &[u8]) -> impl Iterator<Item = Receipt<'_>> {
    let mut fields = Fields::new(bytes);
    std::iter::from_fn(move || Receipt::read(&mut fields))
}

/// The file, open at its end.
#[derive(Debug)]
pub struct Receipts {
    path: PathBuf,
    file: File,
    is_of: IsOf,
    /// What they name.
    pub named: Named,
}

/// The greatest numbers that receipts name: of a client, of an own instance, and of an entry.
#[derive(Clone, Copy, Default, PartialEq, Eq, Debug)]
pub struct Named {
    pub client: u32,
    pub instance: u16,
    pub entry: u32,
}

impl Named {
    fn with(self, receipt: &Receipt, is_of: IsOf) -> Named {
        // (a client of another replica's is known there)
        let client = if is_of(receipt.client, receipt.replica) { self.client.max(receipt.client) } else { self.client };
        let instance = self.instance.max(receipt.instance.number);
        Named { client, instance, entry: self.entry.max(receipt.entry) }
    }
}

impl Receipts {
    /// Opens or creates the file. A receipt that a crash has cut off is dropped: its client wasn't answered. Other
    /// bytes that are no receipts are an error. Of clients' numbers those count of which `is_of` says so.
    pub fn open(path: &Path, is_of: IsOf) -> Result<Receipts, ReceiptsFault> {
        let failed = |error: io::Error| ReceiptsFault::Unusable(path.to_path_buf(), error);
        let mut file = private().read(true).append(true).open(path).map_err(failed)?;
        let mut bytes = Vec::new();
        file.read_to_end(&mut bytes).map_err(failed)?;
        let (whole, named) = measure(&bytes, is_of);
        if bytes.len() - whole >= longest(&bytes[whole..]) {
            return Err(ReceiptsFault::NotReceipts(path.to_path_buf(), whole));
        }
        if whole < bytes.len() {
            file.set_len(whole as u64).map_err(failed)?;
        }
        Ok(Receipts { path: path.to_path_buf(), file, is_of, named })
    }

    /// Appends the bytes of receipts, in one write.
    pub fn append(&mut self, bytes: &[u8]) -> Result<(), ReceiptsFault> {
        self.named = receipts(bytes).fold(self.named, |named, receipt| named.with(&receipt, self.is_of));
        let written = self.file.write_all(bytes);
        written.map_err(|error| ReceiptsFault::Unusable(self.path.clone(), error))
    }
}

/// The longest receipt of a command of one key, and of one over many keys.
const LONGEST: usize = ANSWER + 5 + LONGEST_VALUE;
const LONGEST_OF_MANY: usize = ANSWER + 3 + MOST_TOLD * (5 + LONGEST_VALUE);
/// At this byte of a receipt its answer begins: with 5 or 6 for a command over many keys.
const ANSWER: usize = 32;

/// How long the receipt may be that these bytes begin with.
fn longest(bytes: &[u8]) -> usize {
    if matches!(bytes.get(ANSWER), Some(5 | 6)) { LONGEST_OF_MANY } else { LONGEST }
}

/// How many bytes whole receipts take, and what they name. No receipt is of client 0.
fn measure(bytes: &[u8], is_of: IsOf) -> (usize, Named) {
    let all = receipts(bytes).take_while(|receipt| receipt.client > 0);
    all.fold((0, Named::default()), |(whole, named), receipt| {
        (whole + receipt.bytes.len(), named.with(&receipt, is_of))
    })
}

#[cfg(test)]
mod tests {
    use super::*;
    use std::fs;

    fn measure(bytes: &[u8]) -> (usize, Named) {
        super::measure(bytes, |_, _| true)
    }

    fn open(path: &Path) -> Result<Receipts, ReceiptsFault> {
        Receipts::open(path, |_, _| true)
    }

    /// A receipt of client 1's request 1 in 0.7, by entry 3 with stamp 9, with this value.
    fn receipt(value: &[u8]) -> Vec<u8> {
        let mut bytes = vec![0, 0, 0, 1, 0, 0, 0, 1, 0, 0, 7, 0, 0, 0, 0, 0, 0, 0, 0, 0, 0, 0, 0, 3];
        bytes.extend([0, 0, 0, 0, 0, 0, 0, 9, 1]);
        bytes.extend((value.len() as u32).to_be_bytes());
        bytes.extend(value);
        bytes
    }

    #[test]
    fn a_cut_receipt_is_dropped() {
        let mut bytes = receipt(b"v").repeat(2);
        let one = bytes.len() / 2;
        let named = Named { client: 1, instance: 7, entry: 3 };
        assert_eq!(measure(&bytes), (2 * one, named));
        for cut in one..2 * one {
            assert_eq!(measure(&bytes[..cut]), (one, named));
        }
        assert_eq!(measure(&[]), (0, Named::default()));
        bytes.extend([0; 40]);
        assert_eq!(measure(&bytes), (2 * one, named));
    }

    #[test]
    fn what_is_cut_is_dropped_and_what_is_changed_is_refused() {
        let path = std::env::temp_dir().join(format!("epaxos-receipts-{}", std::process::id()));
        let one = receipt(&[9; LONGEST_VALUE]);
        assert_eq!(one.len(), LONGEST);
        let mut bytes = one.repeat(2);
        fs::write(&path, &bytes[..2 * LONGEST - 1]).unwrap();
        open(&path).unwrap().append(&one).unwrap();
        assert!(fs::read(&path).unwrap() == bytes);
        bytes[ANSWER] = 7;
        fs::write(&path, &bytes).unwrap();
        assert!(matches!(open(&path), Err(ReceiptsFault::NotReceipts(_, 0))));
        assert!(fs::read(&path).unwrap() == bytes);
        // One of a command over many keys reports sixteen values at most.
        let mut many = receipt(b"");
        many.truncate(ANSWER);
        many.extend([5, 0, 16]);
        many.extend([&[1, 0, 0, 0xff, 0xff][..], &[9; LONGEST_VALUE]].concat().repeat(16));
        assert_eq!((many.len(), measure(&many).0), (LONGEST_OF_MANY, LONGEST_OF_MANY));
        fs::write(&path, &many[..LONGEST_OF_MANY - 1]).unwrap();
        open(&path).unwrap().append(&many).unwrap();
        assert!(fs::read(&path).unwrap() == many);
        fs::remove_file(&path).unwrap();
    }
}
