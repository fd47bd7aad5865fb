//! Secrets in files.
use std::fmt::{self, Display};
use std::fs::{File, Metadata};
use std::io::{self, Read};
use std::path::{Path, PathBuf};

/// How many bytes a secret may have.
const SHORTEST: u64 = 16;
const LONGEST: u64 = 4_096;

/// Why a file gives no key.
#[derive(Debug)]
#[non_exhaustive]
pub enum KeyFault {
    /// It can't be read.
    Unreadable(PathBuf, io::Error),
    /// The file may be read by others than its owner and its group.
    Open(PathBuf),
    /// It has too few bytes, or too many.
    Length(PathBuf, u64),
}

impl Display for KeyFault {
    fn fmt(&self, f: &mut fmt::Formatter) -> fmt::Result {
        match self {
            KeyFault::Unreadable(path, error) => write!(f, "the key {} can't be read: {error}", path.display()),
            KeyFault::Open(path) => write!(f, "the key {} can be read by everybody: chmod 600", path.display()),
            KeyFault::Length(path, length) => write!(
                f,
                "the key {} has {length} bytes: {SHORTEST} to {LONGEST} are wanted, made by chance",
                path.display()
            ),
        }
    }
}

impl std::error::Error for KeyFault {}

/// The secret of a file, which only its owner and its group may read, without blanks at its end.
pub fn read_secret(path: &Path) -> Result<Vec<u8>, KeyFault> {
    let unreadable = |error| KeyFault::Unreadable(path.to_path_buf(), error);
    let file = File::open(path).map_err(unreadable)?;
    if is_open(&file.metadata().map_err(unreadable)?) {
        return Err(KeyFault::Open(path.to_path_buf()));
    }
    let mut bytes = Vec::new();
    file.take(LONGEST + 1).read_to_end(&mut bytes).map_err(unreadable)?;
    let secret = bytes.trim_ascii_end();
    match secret.len() as u64 {
        SHORTEST..=LONGEST => Ok(secret.to_vec()),
        length => Err(KeyFault::Length(path.to_path_buf(), length)),
    }
}

#[cfg(unix)]
fn is_open(about: &Metadata) -> bool {
    use std::os::unix::fs::PermissionsExt;
    about.permissions().mode() & 0o007 != 0
}

/// (Elsewhere who may read a file isn't known.)
#[cfg(not(unix))]
fn is_open(_: &Metadata) -> bool {
    false
}

#[cfg(all(test, unix))]
mod tests {
    use super::*;
    use std::fs;
    use std::os::unix::fs::PermissionsExt;

    #[test]
    fn files_of_secrets() {
        let folder = std::env::temp_dir().join(format!("epaxos-secrets-{}", std::process::id()));
        fs::create_dir_all(&folder).unwrap();
        let path = folder.join("key");
        let read = |bytes: &[u8], mode: u32| {
            fs::write(&path, bytes).unwrap();
            fs::set_permissions(&path, fs::Permissions::from_mode(mode)).unwrap();
            read_secret(&path)
        };
        assert_eq!(read(b"0123456789abcdef\n", 0o600).unwrap(), b"0123456789abcdef");
        assert!(matches!(read(b"0123456789abcde\n", 0o600), Err(KeyFault::Length(_, 15))));
        assert!(matches!(read(&[b'x'; 5_000], 0o600), Err(KeyFault::Length(_, 4_097))));
        assert!(matches!(read(b"0123456789abcdef", 0o604), Err(KeyFault::Open(_))));
        fs::remove_dir_all(&folder).unwrap();
        assert!(matches!(read_secret(&path), Err(KeyFault::Unreadable(..))));
    }
}
