//! Why the file of receipts can't be used.
use std::fmt;
use std::io;
use std::path::PathBuf;

/// Why the file of receipts can't be used.
#[derive(Debug)]
pub enum ReceiptsFault {
    /// It can't be read or written.
    Unusable(PathBuf, io::Error),
    /// From this byte on it has no receipts, and more than a crash cuts off.
    NotReceipts(PathBuf, usize),
}

impl From<ReceiptsFault> for io::Error {
    fn from(fault: ReceiptsFault) -> io::Error {
        let kind = match &fault {
            ReceiptsFault::Unusable(_, error) => error.kind(),
            ReceiptsFault::NotReceipts(..) => io::ErrorKind::InvalidData,
        };
        io::Error::new(kind, fault)
    }
}

impl fmt::Display for ReceiptsFault {
    fn fmt(&self, f: &mut fmt::Formatter) -> fmt::Result {
        match self {
            ReceiptsFault::Unusable(path, error) => write!(f, "the receipts {} can't be used: {error}", path.display()),
            ReceiptsFault::NotReceipts(path, at) => {
                write!(f, "the receipts {} can't be used: the bytes from {at} on are no receipts", path.display())
            }
        }
    }
}

impl std::error::Error for ReceiptsFault {}
