//! A log in a file.
#![forbid(unsafe_code)]

use crate::ffi::{self, LogHead};
use crate::lock::Lock;
use crate::place::{Kept, Place};
use crate::{Log, Ready};
use std::fs::{self, File, OpenOptions, TryLockError};
use std::io::{self, ErrorKind, Read, Seek, SeekFrom, Write};
use std::path::{Path, PathBuf};

/// A replica's log in a file, for programs that want no other place for it. The file's folder has to be there, and on the disk.
///
/// It is one replica's: [`keep`](Log::keep) refuses another one's bytes. Beside the file `NAME.lock` keeps a second program out while this one has it; a
/// `NAME.new` that is left over may be deleted.
///
/// ```
/// use epaxos::{Cluster, LogFile, Replica};
///
/// # let folder = std::env::temp_dir().join(format!("epaxos-doc-{}", std::process::id()));
/// # std::fs::create_dir_all(&folder)?;
/// # let path = folder.join("zero.log");
/// {
///     let mut file = LogFile::begin(&path)?;                  // at the first start
///     let mut replica = Replica::new(Cluster::Three, 0)?;
///     replica.ready()?.commit(&mut file)?;
/// }
/// let (mut file, log) = LogFile::open(&path)?;                // at each further one
/// let mut replica = Replica::open(Cluster::Three, 0, &log)?;
/// let output = replica.ready()?.commit(&mut file)?;
/// # drop(output);
/// # std::fs::remove_dir_all(&folder)?;
/// # Ok::<(), Box<dyn std::error::Error>>(())
/// ```
#[derive(Debug)]
pub struct LogFile {
    path: PathBuf,
    /// None before the log begins: then no file is there, or none that was ever reported.
    file: Option<File>,
    kept: Kept,
    /// Which of the replicas that this process has opened wrote to it last.
    writer: Option<u64>,
    /// Whether a write or a sync has failed: then nobody knows what the file has.
    has_failed: bool,
    _lock: Lock,
}

impl LogFile {
    /// That of a replica that begins. [`keep`](Log::keep) makes the file, with the log's beginning in it: a start that ends before leaves none.
    ///
    /// # Errors
    ///
    /// `AlreadyExists` where a file is there, also one that is empty: a replica whose log was emptied must not begin again. `WouldBlock` where another
    /// `LogFile` has it, in this program or another one. Else the system's.
    ///
    /// ```
    /// # let folder = std::env::temp_dir().join(format!("epaxos-begin-{}", std::process::id()));
    /// # std::fs::create_dir(&folder)?;
    /// # let path = folder.join("zero.log");
    /// let file = epaxos::LogFile::begin(&path)?;
    /// # drop(file);
    /// # std::fs::remove_dir_all(&folder)?;
    /// # Ok::<(), std::io::Error>(())
    /// ```
    pub fn begin(path: impl AsRef<Path>) -> io::Result<LogFile> {
        let path = path.as_ref();
        let lock = lock(path)?;
        match fs::metadata(path) {
            Ok(found) if found.len() == 0 => Err(refused(ErrorKind::AlreadyExists, path, EMPTY)),
            Ok(_) => Err(refused(ErrorKind::AlreadyExists, path, BEGUN)),
            Err(error) if error.kind() == ErrorKind::NotFound => Ok(LogFile::of(path, None, &[], lock)),
            Err(error) => Err(named(path, &error)),
        }
    }

    /// That of a replica which goes on, and what it has.
    ///
    /// # Errors
    ///
    /// `NotFound` where no file is there. `InvalidData` where it is empty, which no log is. `WouldBlock` where another `LogFile` has it, in this program or
    /// another one. Else the system's.
    ///
    /// ```
    /// let refused = epaxos::LogFile::open("/nowhere/zero.log").unwrap_err();
    /// assert_eq!(refused.to_string(), "/nowhere/zero.log has no folder: make it first");
    /// ```
    pub fn open(path: impl AsRef<Path>) -> io::Result<(LogFile, Vec<u8>)> {
        let path = path.as_ref();
        let lock = lock(path)?;
        let mut log = Vec::new();
        let opened = OpenOptions::new().read(true).write(true).open(path);
        let read = opened.and_then(|mut file| file.read_to_end(&mut log).map(|_| file));
        match read {
            Ok(_) if log.is_empty() => Err(refused(ErrorKind::InvalidData, path, EMPTY)),
            Ok(file) => Ok((LogFile::of(path, Some(file), &log, lock), log)),
            Err(error) if error.kind() == ErrorKind::NotFound => Err(refused(error.kind(), path, MISSING)),
            Err(error) => Err(named(path, &error)),
        }
    }

    fn of(path: &Path, file: Option<File>, log: &[u8], lock: Lock) -> LogFile {
        let kept = Kept::of(log, file.is_some());
        LogFile { path: path.into(), file, kept, writer: None, has_failed: false, _lock: lock }
    }

    /// Where the bytes go, if it is the log that they are for.
    fn place(&self, ready: &Ready) -> io::Result<Place> {
        let is_writer = ready.is_anew() || self.writer == Some(ready.own_log().opened);
        let place = Place::of(ready, &self.kept).filter(|_| is_writer);
        place.ok_or_else(|| {
            let has = match ffi::log_head(&self.kept.header) {
                Some(LogHead { replica, generation, .. }) => {
                    format!("replica {replica} in generation {generation}, with {} bytes", self.kept.bytes)
                }
                None => "none so far".to_string(),
            };
            let (replica, generation, at) = (ready.replica(), ready.generation(), ready.at());
            let what = if ready.is_anew() { "a whole log".into() } else { format!("what follows byte {at}") };
            let why = format!(
                "is the log of {has}: {what} of replica {replica} in generation {generation} isn't written to it"
            );
            refused(ErrorKind::InvalidInput, &self.path, &why)
        })
    }

    fn append(&mut self, log: &[u8]) -> io::Result<()> {
        let file = self.file.as_mut().ok_or_else(|| io::Error::other("it has no beginning"))?;
        file.write_all(log)?;
        file.sync_data()
    }

    /// The bytes take the place of the whole file, at once.
    fn replace(&mut self, log: &[u8]) -> io::Result<()> {
        let new = beside(&self.path, ".new");
        let mut file = File::create(&new)?;
        file.write_all(log)?;
        file.sync_all()?;
        fs::rename(&new, &self.path)?;
        sync_folder_of(&self.path)?;
        file.seek(SeekFrom::End(0))?;
        self.file = Some(file);
        Ok(())
    }
}

impl Log for LogFile {
    /// Puts what is ready on the disk, and returns when it is there.
    ///
    /// # Errors
    ///
    /// `InvalidInput` where the file is the log of another replica, or other bytes come first: nothing was written. Else the system's. From then on it fails:
    /// nobody knows what the file has. Drop the replica, and open both again.
    ///
    /// ```
    /// # use epaxos::{Cluster, LogFile, Replica};
    /// # fn of(mut file: LogFile, mut replica: Replica) -> Result<(), Box<dyn std::error::Error>> {
    /// use epaxos::Log;
    ///
    /// let ready = replica.ready()?;
    /// file.keep(&ready)?;                         // (Ready::commit does both)
    /// let output = ready.assume_synced()?;
    /// # drop(output);
    /// # Ok(()) }
    /// ```
    fn keep(&mut self, ready: &Ready) -> io::Result<()> {
        let place = self.place(ready)?;
        if ready.log().is_empty() || place == Place::There {
            return Ok(());
        }
        if self.has_failed {
            return Err(io::Error::other("an earlier write has failed"));
        }
        let is_anew = place == Place::Instead;
        let kept = if is_anew { self.replace(ready.log()) } else { self.append(ready.log()) };
        self.has_failed = kept.is_err();
        kept?;
        if is_anew {
            self.kept = Kept { header: ready.own_log().header.clone(), ..Kept::default() };
            self.writer = Some(ready.own_log().opened);
        }
        self.kept.bytes = ready.at() + ready.log().len() as u64;
        Ok(())
    }
}

/// The path of a file beside this one: its name, and this behind it.
fn beside(path: &Path, end: &str) -> PathBuf {
    let mut name = path.as_os_str().to_os_string();
    name.push(end);
    name.into()
}

/// A lock that another program, or another thread, may not have too.
fn lock(path: &Path) -> io::Result<Lock> {
    let name = beside(path, ".lock");
    Lock::take(&name).map_err(|refusal| match refusal {
        TryLockError::WouldBlock => refused(ErrorKind::WouldBlock, path, IN_USE),
        TryLockError::Error(error) if error.kind() == ErrorKind::NotFound => refused(error.kind(), path, NO_FOLDER),
        TryLockError::Error(error) => named(&name, &error),
    })
}

/// Why there is no log, behind the file's name, and what to do.
const BEGUN: &str = "is there already: LogFile::open goes on with it";
const EMPTY: &str = "is empty. If a replica had its log there, that is lost, and it must not come back under its number in its generation; if none \
                     had, remove the file and begin";
const MISSING: &str = "is not there: LogFile::begin begins it, at a replica's first start alone; at a later one its disk is lost, or isn't mounted";
const NO_FOLDER: &str = "has no folder: make it first";
const IN_USE: &str = "is in use: another program has it, or another LogFile of this one; end that first";

fn refused(kind: ErrorKind, path: &Path, why: &str) -> io::Error {
    io::Error::new(kind, format!("{} {why}", path.display()))
}

/// What the system says, behind the file's name.
pub(crate) fn named(path: &Path, error: &io::Error) -> io::Error {
    io::Error::new(error.kind(), format!("{}: {error}", path.display()))
}

/// A file that was renamed is there after a crash once its folder is on the disk.
fn sync_folder_of(path: &Path) -> io::Result<()> {
    let folder = path.parent().filter(|it| !it.as_os_str().is_empty()).unwrap_or(Path::new("."));
    File::open(folder)?.sync_all()
}
