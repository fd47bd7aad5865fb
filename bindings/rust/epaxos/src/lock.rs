//! A file that one program, or one thread, has at a time.
#![forbid(unsafe_code)]

use crate::parts::files::private;
use std::fs::{File, TryLockError};
use std::path::Path;

/// A lock that is held.
#[derive(Debug)]
pub(crate) struct Lock(File);

impl Lock {
    /// Takes it, where nobody has it. The file is made where it isn't there.
    pub(crate) fn take(path: &Path) -> Result<Lock, TryLockError> {
        let file = private().truncate(false).open(path);
        let file = file.map_err(TryLockError::Error)?;
        file.try_lock()?;
        Ok(Lock(file))
    }
}

impl Drop for Lock {
    /// A process that is just being started may still have the file open.
    fn drop(&mut self) {
        let _ = self.0.unlock();
    }
}

#[cfg(test)]
mod tests {
    use super::*;
    use std::fs;

    #[test]
    fn it_is_free_once_it_is_dropped() {
        let path = std::env::temp_dir().join(format!("epaxos-lock-{}", std::process::id()));
        let lock = Lock::take(&path).unwrap();
        assert!(matches!(Lock::take(&path), Err(TryLockError::WouldBlock)));
        // as a process has it that is just being started
        let inherited = lock.0.try_clone().unwrap();
        drop(lock);
        drop(Lock::take(&path).unwrap());
        drop(inherited);
        fs::remove_file(path).unwrap();
    }
}
