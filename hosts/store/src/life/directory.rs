//! The folder of a replica: where its files are, a lock, and whether they are whole.
use crate::life::directory_fault::DirectoryFault;
use crate::life::identities;
use crate::opening::Opening;
use crate::planning::{first, left_in, newest};
use epaxos::host::Stored;
use epaxos::parts::files::{self, unusable};
use epaxos::parts::folder::{look, reference};
use epaxos::parts::read_folder::ReadFolder;
use std::fs::{self, File, TryLockError};
use std::io::{self, ErrorKind};
use std::path::{Path, PathBuf};
use std::thread;
use std::time::{Duration, Instant};

/// How long to wait for a store that still ends.
const PATIENCE: Duration = Duration::from_secs(10);
/// The file that is locked. (Stores that had a node of their own kept its messages in it.)
const LOCKED: &str = "node-errors";
/// Marks a generation that the replica has left.
const MARK: &str = "left";
/// Marks the folder of a machine that has never acted, and waits until a generation names it.
const JOINING: &str = "joining";
/// An opening that a start goes on by.
pub(crate) const WHOLE: &str = "opening.take";

/// A replica's folder, which this process alone uses.
pub struct Directory {
    path: PathBuf,
    /// The lock on it is held as long as this process lives.
    _locked: File,
}

impl Directory {
    /// Opens or creates the folder.
    pub fn open(path: &Path) -> Result<Directory, DirectoryFault> {
        files::create(path).map_err(unusable(path))?;
        let locked = files::private().truncate(false).open(path.join(LOCKED));
        let locked = locked.map_err(unusable(path))?;
        lock(&locked, path)?;
        let directory = Directory { path: path.to_path_buf(), _locked: locked };
        if directory.path.join("log").exists() {
            return Err(DirectoryFault::Old(directory.path));
        }
        Ok(directory)
    }

    /// The folder of a store that has ended, of which nothing is changed. No store starts over it meanwhile.
    pub fn look(path: &Path) -> Result<Directory, DirectoryFault> {
        fs::metadata(path).map_err(unusable(path))?;
        let locked = File::open(path.join(LOCKED)).map_err(unusable(&path.join(LOCKED)))?;
        lock(&locked, path)?;
        Ok(Directory { path: path.to_path_buf(), _locked: locked })
    }

    pub fn path(&self) -> &Path {
        &self.path
    }

    /// The folder of the replica's generations.
    pub fn generations(&self) -> PathBuf {
        self.path.join("generations")
    }

    /// The same, as it is read.
    pub fn folder(&self) -> ReadFolder {
        ReadFolder(self.generations())
    }

    /// The file that a generation opens with.
    pub fn opening(&self, generation: u32) -> PathBuf {
        self.generations().join(generation.to_string()).join("opening")
    }

    pub(crate) fn log(&self, generation: u32) -> PathBuf {
        self.generations().join(generation.to_string()).join("log")
    }

    /// What clients were answered in a generation.
    pub fn receipts(&self, generation: u32) -> PathBuf {
        self.path.join("receipts").join(generation.to_string())
    }

    /// The generations of which there are receipts.
    pub fn generations_with_receipts(&self) -> Vec<u32> {
        let there = fs::read_dir(self.path.join("receipts")).into_iter().flatten().flatten();
        there.filter_map(|entry| entry.file_name().to_str()?.parse().ok()).collect()
    }

    /// An opening that a start goes on by.
    pub fn whole(&self) -> PathBuf {
        self.path.join(WHOLE)
    }

    pub(crate) fn has_identities(&self) -> bool {
        self.path.join(identities::NAME).exists()
    }

    /// The generations that have a file of this name, in rising order.
    pub(crate) fn generations_with(&self, name: &str) -> Vec<u32> {
        let folder = self.folder();
        let all = folder.generations().unwrap_or_default().into_iter();
        all.filter(|generation| folder.folder_of(*generation).join(name).exists()).collect()
    }

    /// How many bytes the log of a generation has, 0 where there is none.
    pub fn log_length(&self, generation: u32) -> u64 {
        fs::metadata(self.log(generation)).map_or(0, |found| found.len())
    }

    fn has_log(&self) -> bool {
        self.generations_with("log").into_iter().any(|generation| self.log_length(generation) > 0)
    }

    /// Before any file is opened. A folder gets its identities once its other files are there; so one with identities and
    /// without a log or receipts has lost them. (The core looks whether each generation's files are there.)
    pub fn check_files(&self) -> Result<(), DirectoryFault> {
        if !self.has_identities() || self.is_joining() {
            return Ok(());
        }
        if !self.has_log() {
            return Err(DirectoryFault::Lost(self.generations()));
        }
        for generation in self.generations_with(MARK) {
            let path = self.folder().folder_of(generation).join(MARK);
            let mark = fs::read(&path).map_err(unusable(&path))?;
            if left_in(&mark, generation) == u32::MAX {
                return Err(DirectoryFault::Mark(path));
            }
        }
        let receipts = self.path.join("receipts");
        if receipts.is_dir() { Ok(()) } else { Err(DirectoryFault::ReceiptsLost(receipts)) }
    }

    /// Whether a machine waits here until a generation names it, and has never acted.
    pub fn is_joining(&self) -> bool {
        self.path.join(JOINING).exists() && !self.has_log()
    }

    /// A machine comes in the place of a lost one: it waits here until a generation names it. What isn't begun now is marked, before
    /// the folder gets an identity, as one that has lost its log must not be taken for it.
    pub fn begin_joining(&self) -> Result<bool, DirectoryFault> {
        if self.has_log() {
            return Ok(false);
        }
        if !self.is_joining() {
            if self.has_identities() {
                return Err(DirectoryFault::Lost(self.generations()));
            }
            files::write(&self.path, JOINING, &[]).map_err(unusable(&self.path.join(JOINING)))?;
        }
        Ok(true)
    }

    /// The log is on the disk, and nothing was reported of it yet.
    pub fn end_joining(&self) -> Result<(), DirectoryFault> {
        let path = self.path.join(JOINING);
        if !path.exists() {
            return Ok(());
        }
        let removed = fs::remove_file(&path).and_then(|()| files::sync(&self.path));
        Ok(removed.map_err(unusable(&path))?)
    }

    /// A replica is begun where its user says so, and never twice: a folder without one may be another folder, or one whose disk
    /// isn't there.
    pub fn check_begin(&self, is_new: bool) -> Result<(), DirectoryFault> {
        let is_begun = self.has_log() || self.has_identities();
        match (is_new, is_begun) {
            (true, true) => Err(DirectoryFault::Begun(self.path.clone())),
            (false, false) => Err(DirectoryFault::NotBegun(self.path.clone())),
            _ => Ok(()),
        }
    }

    /// The folders for generations and receipts are there, and on the disk; and nothing that a peer hadn't handed whole.
    pub fn prepare(&self) -> Result<(), DirectoryFault> {
        for folder in [self.generations(), self.path.join("receipts")] {
            files::create(&folder).map_err(unusable(&folder))?;
        }
        // (stores before this one kept there what a peer was handing)
        ["opening.part", "opening.logs"].iter().for_each(|name| _ = fs::remove_file(self.path.join(name)));
        Ok(())
    }

    /// Before the folder gets its identities, where it has none. `entries` are those of the generation's log,
    /// `reported` is the last one that was reported to a client.
    pub fn check_entries(&self, generation: u32, entries: u32, reported: u32) -> Result<(), DirectoryFault> {
        if entries < reported {
            return Err(DirectoryFault::Forgotten { generation, entries, reported });
        }
        if (entries > 0 || generation > 1) && !self.has_identities() {
            return Err(DirectoryFault::NotWhole(self.path.clone()));
        }
        Ok(())
    }

    /// The newest generation that is here.
    pub fn newest(&self) -> Option<u32> {
        let held = look(&self.folder()).unwrap_or_default();
        newest(&held).ok().filter(|newest| *newest > 0)
    }

    /// The newest generation that is here, and how many replicas it has; none where there is none.
    pub fn newest_size(&self) -> Result<Option<(u32, u8)>, DirectoryFault> {
        let Some(newest) = self.newest() else { return Ok(None) };
        if let Ok(reference) = reference(&self.folder(), newest) {
            return Ok(Some((newest, reference.cluster().replicas())));
        }
        let path = self.opening(newest);
        match Opening::read_front_of(&path) {
            Ok(opening) => Ok(Some((opening.generation, opening.replicas))),
            // (the core says what isn't right with it)
            Err(error) if matches!(error.kind(), ErrorKind::InvalidData | ErrorKind::NotFound) => Ok(None),
            Err(error) => Err(unusable(&path)(error).into()),
        }
    }

    /// Whether the opening of a generation is read from its file.
    pub fn is_whole(&self, generation: u32) -> bool {
        let held = look(&self.folder()).unwrap_or_default();
        first(&held, generation) == Ok(generation)
    }
}

/// The fault of a folder that another process has.
fn in_use(path: &Path) -> io::Error {
    io::Error::new(ErrorKind::WouldBlock, format!("{} is in use by another store", path.display()))
}

fn lock(file: &File, path: &Path) -> Result<(), DirectoryFault> {
    let start = Instant::now();
    loop {
        match file.try_lock() {
            Ok(()) => return Ok(()),
            Err(TryLockError::WouldBlock) if start.elapsed() < PATIENCE => thread::sleep(Duration::from_millis(20)),
            Err(TryLockError::WouldBlock) => return Err(in_use(path).into()),
            Err(TryLockError::Error(error)) => return Err(unusable(path)(error).into()),
        }
    }
}

#[cfg(test)]
mod tests {
    use super::*;
    use std::os::unix::fs::PermissionsExt;

    fn at(name: &str) -> PathBuf {
        std::env::temp_dir().join(format!("store-directory-{name}-{}", std::process::id()))
    }

    #[test]
    fn what_is_lost_is_noticed() {
        let top = at("lost");
        let path = top.join("in/another");
        let directory = Directory::open(&path).unwrap();
        // A first start, before and after its log was made.
        directory.check_files().unwrap();
        directory.check_begin(true).unwrap();
        assert!(matches!(directory.check_begin(false), Err(DirectoryFault::NotBegun(_))));
        fs::create_dir_all(directory.generations().join("1")).unwrap();
        fs::write(directory.log(1), [0; 43]).unwrap();
        directory.check_files().unwrap();
        directory.check_begin(false).unwrap();
        assert!(matches!(directory.check_begin(true), Err(DirectoryFault::Begun(_))));
        directory.check_entries(1, 0, 0).unwrap();
        // Entries, and no identities.
        assert!(matches!(directory.check_entries(1, 1, 0), Err(DirectoryFault::NotWhole(_))));
        fs::write(path.join(identities::NAME), "").unwrap();
        assert!(matches!(directory.check_files(), Err(DirectoryFault::ReceiptsLost(_))));
        directory.prepare().unwrap();
        directory.check_files().unwrap();
        directory.check_entries(1, 5, 5).unwrap();
        let forgotten = directory.check_entries(1, 4, 5).unwrap_err();
        assert!(matches!(forgotten, DirectoryFault::Forgotten { generation: 1, entries: 4, reported: 5 }));
        let mark = directory.generations().join("1/left");
        fs::write(&mark, "2").unwrap();
        directory.check_files().unwrap();
        fs::write(&mark, "2\0").unwrap();
        assert!(matches!(directory.check_files(), Err(DirectoryFault::Mark(it)) if it == mark));
        fs::remove_file(&mark).unwrap();
        fs::remove_file(directory.log(1)).unwrap();
        let lost = directory.check_files().unwrap_err();
        assert!(lost.is_lasting() && matches!(lost, DirectoryFault::Lost(it) if it == directory.generations()));
        fs::remove_dir_all(top).unwrap();
    }

    #[test]
    fn an_opening_that_is_emptied_is_judged_by_the_core() {
        let path = at("emptied");
        let directory = Directory::open(&path).unwrap();
        let folder = directory.generations().join("2");
        fs::create_dir_all(&folder).unwrap();
        fs::write(folder.join("opening"), "").unwrap();
        assert!(directory.newest_size().unwrap().is_none());
        let reference = epaxos::Reference::new(epaxos::Cluster::Five, 2, 43, [7; 32]).unwrap();
        fs::write(folder.join("reference"), reference.bytes()).unwrap();
        assert_eq!(directory.newest_size().unwrap(), Some((2, 5)));
        fs::remove_dir_all(path).unwrap();
    }

    #[test]
    fn nobody_else_may_look_into_a_folder() {
        let path = at("private");
        let directory = Directory::open(&path).unwrap();
        directory.prepare().unwrap();
        directory.begin_joining().unwrap();
        let mode = |path: PathBuf| fs::metadata(path).unwrap().permissions().mode() & 0o777;
        assert_eq!([path.clone(), directory.generations()].map(mode), [0o700; 2]);
        assert_eq!([LOCKED, JOINING].map(|name| mode(path.join(name))), [0o600; 2]);
        fs::remove_dir_all(path).unwrap();
    }

    #[test]
    fn who_joins_has_never_acted() {
        let path = at("join");
        let directory = Directory::open(&path).unwrap();
        assert!(directory.begin_joining().unwrap());
        fs::write(path.join(identities::NAME), "").unwrap();
        // (again, after a crash)
        assert!(directory.begin_joining().unwrap() && directory.is_joining());
        directory.check_files().unwrap();
        fs::create_dir_all(directory.generations().join("4")).unwrap();
        fs::write(directory.log(4), [0; 43]).unwrap();
        assert!(!directory.begin_joining().unwrap() && !directory.is_joining());
        directory.end_joining().unwrap();
        // Its log is lost, and it has acted.
        fs::remove_file(directory.log(4)).unwrap();
        assert!(matches!(directory.begin_joining(), Err(DirectoryFault::Lost(_))));
        fs::remove_dir_all(path).unwrap();
    }

    #[test]
    fn a_folder_from_before_generations_is_refused() {
        let path = at("old");
        fs::create_dir_all(&path).unwrap();
        fs::write(path.join("log"), "EPLG").unwrap();
        assert!(matches!(Directory::open(&path), Err(DirectoryFault::Old(_))));
        fs::remove_dir_all(path).unwrap();
    }
}
