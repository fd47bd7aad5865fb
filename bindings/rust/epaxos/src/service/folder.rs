//! A disk in a folder.
use crate::Checkpoint;
use crate::host::{Act, Identity, Name, Span, Stored};
use crate::lock::Lock;
use crate::log_file::named;
use crate::parts::files::{create, create_dir, fill, move_in, rename_in, sync, unusable, write, write_beside};
use crate::parts::identity::{by_chance, digits, identity};
use crate::parts::read_folder::{ReadFolder, part};
use crate::parts::receipts::Receipts;
use crate::service::Disk;
use std::collections::BTreeSet;
use std::fs::{self, File, OpenOptions, TryLockError};
use std::io::{self, ErrorKind, Write};
use std::path::{Path, PathBuf};
use std::sync::{Arc, Mutex, PoisonError};

/// The names of a generation's files, in the order in which they are dropped: the mark last, as without it the replica
/// might act there again.
const NAMES: [Name; 6] = [Name::Opening, Name::Reference, Name::Whole, Name::Machine, Name::Log, Name::Left];

/// The file of the machine's identity.
const IDENTITY: &str = "identity";

/// A disk in a folder, in the form that `epaxos collect` and `epaxos contents` read (docs/FORMATS.md, section 13). One
/// program has it at a time.
///
/// ```
/// # let path = std::env::temp_dir().join(format!("epaxos-disk-{}", std::process::id()));
/// use epaxos::host::Stored;
/// use epaxos::service::Folder;
///
/// let folder = Folder::open(&path)?;
/// assert!(folder.generations()?.is_empty());
/// # drop(folder);
/// # std::fs::remove_dir_all(&path)?;
/// # Ok::<(), std::io::Error>(())
/// ```
#[derive(Clone, Debug)]
pub struct Folder {
    files: ReadFolder,
    _lock: Arc<Lock>,
    /// The log that bytes were appended to last.
    log: Option<(u32, Arc<File>)>,
    receipts: Option<Arc<Mutex<Receipts>>>,
    /// The generations whose folders have names that are on the disk.
    made: Arc<Mutex<BTreeSet<u32>>>,
}

impl Folder {
    /// The folder of this path, which is made where it isn't there.
    ///
    /// # Errors
    ///
    /// `WouldBlock` where another program has it; else the system's, with the path.
    ///
    /// ```
    /// # let path = std::env::temp_dir().join(format!("epaxos-folder-{}", std::process::id()));
    /// use epaxos::service::Folder;
    ///
    /// let folder = Folder::open(&path)?;
    /// assert!(Folder::open(&path).is_err());
    /// let fault = Folder::open("/dev/null/mine").unwrap_err();
    /// assert_eq!(fault.to_string(), "/dev/null/mine: Not a directory (os error 20)");
    /// # drop(folder);
    /// # std::fs::remove_dir_all(&path)?;
    /// # Ok::<(), std::io::Error>(())
    /// ```
    pub fn open(path: impl AsRef<Path>) -> io::Result<Folder> {
        let path = path.as_ref().to_path_buf();
        create(&path).map_err(|error| named(&path, &error))?;
        let place = path.join("node.lock");
        let lock = Lock::take(&place).map_err(|refusal| match refusal {
            TryLockError::WouldBlock => io::Error::new(ErrorKind::WouldBlock, format!("{} is in use", path.display())),
            TryLockError::Error(error) => named(&place, &error),
        })?;
        Ok(Folder { files: ReadFolder(path), _lock: Arc::new(lock), log: None, receipts: None, made: Arc::default() })
    }

    /// The same, with the file `receipts`, to which what clients are answered is appended: for an audit. One that a
    /// crash has cut off is dropped. A host that is audited also keeps all its generations
    /// ([`Settings::kept`](crate::host::Settings::kept)).
    ///
    /// # Errors
    ///
    /// The system's; `InvalidData` where the file has other bytes.
    ///
    /// ```
    /// # let path = std::env::temp_dir().join(format!("epaxos-receipts-{}", std::process::id()));
    /// use epaxos::service::Folder;
    ///
    /// let folder = Folder::open(&path)?.with_receipts()?;
    /// assert!(path.join("receipts").is_file());
    /// # drop(folder);
    /// # std::fs::remove_dir_all(&path)?;
    /// # Ok::<(), std::io::Error>(())
    /// ```
    pub fn with_receipts(self) -> io::Result<Folder> {
        let opened = Receipts::open(&self.files.path().join("receipts"), |_, _| true)?;
        Ok(Folder { receipts: Some(Arc::new(Mutex::new(opened))), ..self })
    }

    /// The identity of the machine whose folder this is ([`Settings::identity`](crate::host::Settings::identity)), in
    /// the file `identity`: made by chance, where it isn't there.
    ///
    /// # Errors
    ///
    /// The system's; `InvalidData` where the file has no identity.
    ///
    /// ```
    /// # let path = std::env::temp_dir().join(format!("epaxos-identity-{}", std::process::id()));
    /// use epaxos::service::Folder;
    ///
    /// let folder = Folder::open(&path)?;
    /// assert_eq!(folder.identity()?, folder.identity()?);
    /// # drop(folder);
    /// # std::fs::remove_dir_all(&path)?;
    /// # Ok::<(), std::io::Error>(())
    /// ```
    pub fn identity(&self) -> io::Result<Identity> {
        let place = self.files.path().join(IDENTITY);
        match fs::read_to_string(&place) {
            Ok(text) => identity(text.trim_end())
                .ok_or_else(|| io::Error::new(ErrorKind::InvalidData, format!("{} has no identity", place.display()))),
            Err(error) if error.kind() == ErrorKind::NotFound => {
                let made = by_chance()?;
                let written = write(self.files.path(), IDENTITY, format!("{}\n", digits(&made)).as_bytes());
                written.map(|()| made).map_err(|error| named(&place, &error))
            }
            Err(error) => Err(named(&place, &error)),
        }
    }

    /// Makes the folder of a generation, where it isn't there. Its name is on the disk then, even if another thread is
    /// just making it.
    fn make(&self, generation: u32) -> io::Result<PathBuf> {
        let folder = self.files.folder_of(generation);
        let mut made = self.made.lock().unwrap_or_else(PoisonError::into_inner);
        if !made.contains(&generation) {
            match create_dir(&folder) {
                Err(error) if error.kind() != ErrorKind::AlreadyExists => return Err(named(&folder, &error)),
                _ => sync(self.files.path()).map_err(unusable(self.files.path()))?,
            }
            made.insert(generation);
        }
        Ok(folder)
    }

    fn append(&mut self, generation: u32, bytes: &[u8]) -> io::Result<()> {
        let path = self.files.folder_of(generation).join(Name::Log.letters());
        let file = match &self.log {
            Some((of, file)) if *of == generation => file.clone(),
            _ => Arc::new(open_to_append(&path)?),
        };
        (&*file).write_all(bytes).and_then(|()| file.sync_data()).map_err(|error| named(&path, &error))?;
        self.log = Some((generation, file));
        Ok(())
    }

    fn put(&mut self, generation: u32, name: Name, bytes: &[u8], is_synced: bool) -> io::Result<()> {
        let folder = self.make(generation)?;
        if name == Name::Log {
            self.log = None;
        }
        let written = write_beside(&folder, name.letters(), bytes);
        let moved = written.and_then(|()| {
            if is_synced { move_in(&folder, name.letters()) } else { rename_in(&folder, name.letters()) }
        });
        moved.map_err(|error| named(&folder.join(name.letters()), &error))
    }

    fn drop_below(&mut self, below: u32) -> io::Result<()> {
        for generation in self.generations()?.into_iter().filter(|generation| *generation < below) {
            let folder = self.files.folder_of(generation);
            for place in NAMES.map(|name| folder.join(name.letters())) {
                gone(fs::remove_file(&place)).map_err(|error| named(&place, &error))?;
            }
            let mut made = self.made.lock().unwrap_or_else(PoisonError::into_inner);
            made.remove(&generation);
            gone(fs::remove_dir_all(&folder)).map_err(|error| named(&folder, &error))?;
        }
        sync(self.files.path()).map_err(unusable(self.files.path()))
    }
}

impl Stored for Folder {
    fn generations(&self) -> io::Result<Vec<u32>> {
        self.files.generations()
    }

    fn read(&self, generation: u32, name: Name) -> io::Result<Option<Vec<u8>>> {
        self.files.read(generation, name)
    }

    fn tail(&self, generation: u32, name: Name) -> io::Result<Option<Vec<u8>>> {
        self.files.tail(generation, name)
    }
}

impl Disk for Folder {
    fn carry_out(&mut self, acts: &[Act]) -> io::Result<()> {
        (1..).zip(acts).try_for_each(|(next, act)| match act {
            Act::Append { generation, bytes } => self.append(*generation, bytes),
            Act::Put { generation, name, bytes } => {
                // (clients wait for a change: a log without its reference is nothing, so that one sync does for both)
                let is_followed = *name == Name::Reference && acts.get(next).is_some_and(|it| is_log(it, *generation));
                self.put(*generation, *name, bytes, !is_followed)
            }
            Act::Drop { below } => self.drop_below(*below),
        })
    }

    fn prepare(&mut self, generation: u32) -> io::Result<()> {
        self.make(generation).map(drop)
    }

    fn write_opening(&mut self, generation: u32, checkpoint: Checkpoint) -> io::Result<([u8; 32], u64)> {
        let folder = self.make(generation)?;
        let (name, place) = (Name::Opening.letters(), folder.join(Name::Opening.letters()));
        let written = fill(&folder, name, |file| checkpoint.write(file));
        written.and_then(|digest| Ok((digest, fs::metadata(&place)?.len()))).map_err(|error| named(&place, &error))
    }

    fn read_opening(&mut self, generation: u32, offset: u64, length: u64) -> io::Result<(u64, Vec<u8>)> {
        let path = self.files.file(generation, Name::Opening);
        Ok((fs::metadata(&path)?.len(), part(&path, offset, length)?))
    }

    fn read_span(&self, span: &Span) -> io::Result<Vec<u8>> {
        self.files.span(span)
    }

    fn keep_receipts(&mut self, receipts: &[u8]) -> io::Result<()> {
        let Some(file) = &self.receipts else { return Ok(()) };
        Ok(file.lock().unwrap_or_else(PoisonError::into_inner).append(receipts)?)
    }
}

/// What isn't there any more, as another thread has removed it, is gone too.
fn gone(removed: io::Result<()>) -> io::Result<()> {
    removed.or_else(|error| if error.kind() == ErrorKind::NotFound { Ok(()) } else { Err(error) })
}

/// Whether the log of this generation gets its place by it.
fn is_log(act: &Act, of: u32) -> bool {
    matches!(act, Act::Put { generation, name: Name::Log, .. } if *generation == of)
}

/// Opens a file to append to it.
fn open_to_append(path: &Path) -> io::Result<File> {
    OpenOptions::new().append(true).open(path).map_err(|error| named(path, &error))
}

#[cfg(test)]
mod tests {
    use super::*;
    use std::thread;

    #[test]
    fn what_two_threads_drop_at_once_is_gone() {
        let path = std::env::temp_dir().join(format!("epaxos-dropped-{}", std::process::id()));
        let folder = Folder::open(&path).unwrap();
        for generation in 1..200 {
            folder.make(generation).unwrap();
            write(&path.join(generation.to_string()), Name::Left.letters(), b"200").unwrap();
        }
        let dropping = |mut folder: Folder| thread::spawn(move || folder.drop_below(200));
        for dropped in [dropping(folder.clone()), dropping(folder.clone())] {
            dropped.join().unwrap().unwrap();
        }
        assert!(folder.generations().unwrap().is_empty());
        drop(folder);
        fs::remove_dir_all(&path).unwrap();
    }
}
