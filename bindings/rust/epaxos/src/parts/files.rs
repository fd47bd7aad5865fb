//! Files that are as they were before, or whole, after a crash at any moment.
use std::fs::{self, DirBuilder, File, OpenOptions};
use std::io::{self, ErrorKind, Write};
use std::os::unix::fs::{DirBuilderExt, OpenOptionsExt};
use std::path::Path;

/// So much is written between two syncs: one of all of a long file would stop those of the log.
const BETWEEN_SYNCS: usize = 1 << 20;

/// A file that is synced now and then while it is written.
pub struct Paced {
    file: File,
    unsynced: usize,
}

impl Write for Paced {
    fn write(&mut self, bytes: &[u8]) -> io::Result<usize> {
        let count = self.file.write(bytes)?;
        self.unsynced += count;
        if self.unsynced >= BETWEEN_SYNCS {
            self.file.sync_data()?;
            self.unsynced = 0;
        }
        Ok(count)
    }

    fn flush(&mut self) -> io::Result<()> {
        self.file.flush()
    }
}

/// Writes a file of this folder.
pub fn write(folder: &Path, name: &str, bytes: &[u8]) -> io::Result<()> {
    fill(folder, name, |file| file.write_all(bytes))
}

/// The same, by this function.
pub fn fill<T>(folder: &Path, name: &str, fill: impl FnOnce(&mut Paced) -> io::Result<T>) -> io::Result<T> {
    let filled = fill_beside(folder, name, fill)?;
    move_in(folder, name)?;
    Ok(filled)
}

/// Writes a file beside its place.
pub fn write_beside(folder: &Path, name: &str, bytes: &[u8]) -> io::Result<()> {
    fill_beside(folder, name, |file| file.write_all(bytes))
}

fn fill_beside<T>(folder: &Path, name: &str, fill: impl FnOnce(&mut Paced) -> io::Result<T>) -> io::Result<T> {
    let mut file = Paced { file: private().truncate(true).open(folder.join(format!("{name}.new")))?, unsynced: 0 };
    let filled = fill(&mut file)?;
    file.file.sync_all()?;
    Ok(filled)
}

/// Moves what was written so into its place.
pub fn move_in(folder: &Path, name: &str) -> io::Result<()> {
    rename_in(folder, name)?;
    sync(folder)
}

/// The same, which a crash may undo before the folder is synced.
pub fn rename_in(folder: &Path, name: &str) -> io::Result<()> {
    fs::rename(folder.join(format!("{name}.new")), folder.join(name))
}

/// How a file is opened that is written, and made where it isn't there: nobody else may read it.
pub fn private() -> OpenOptions {
    let mut options = OpenOptions::new();
    options.write(true).create(true).mode(0o600);
    options
}

/// Makes a folder, in which nobody else may look.
pub fn create_dir(path: &Path) -> io::Result<()> {
    DirBuilder::new().mode(0o700).create(path)
}

/// Makes a folder, where it isn't there, and those above it; each is on the disk before anything lies in it. (Of one
/// that is there nobody knows whether its name outlasts a crash.)
pub fn create(path: &Path) -> io::Result<()> {
    let above = path.parent().filter(|above| !above.as_os_str().is_empty()).unwrap_or(Path::new("."));
    let made = match create_dir(path) {
        Err(error) if error.kind() == ErrorKind::NotFound && above != path => {
            create(above).and_then(|()| create_dir(path))
        }
        Err(error) if error.kind() == ErrorKind::AlreadyExists && path.is_dir() => Ok(()),
        made => made,
    };
    made.and_then(|()| sync(above))
}

/// What this folder has under which names is on the disk then.
pub fn sync(folder: &Path) -> io::Result<()> {
    File::open(folder)?.sync_all()
}

/// What the system says of a file, with its path.
pub fn unusable(path: &Path) -> impl Fn(io::Error) -> io::Error {
    move |error| io::Error::new(error.kind(), format!("{} can't be used: {error}", path.display()))
}

#[cfg(test)]
mod tests {
    use super::*;
    use std::os::unix::fs::PermissionsExt;

    #[test]
    fn folders_are_made_where_they_are_not() {
        let top = std::env::temp_dir().join(format!("epaxos-made-{}", std::process::id()));
        let path = top.join("in/another");
        (0..2).for_each(|_| create(&path).unwrap());
        assert!(path.is_dir());
        write(&path, "log", b"").unwrap();
        let mode = |path: &Path| fs::metadata(path).unwrap().permissions().mode() & 0o777;
        assert_eq!([&top, &path, &path.join("log")].map(|it| mode(it)), [0o700, 0o700, 0o600]);
        fs::write(path.join("file"), "").unwrap();
        for (path, kind) in
            [(path.join("file"), ErrorKind::AlreadyExists), (path.join("file/it"), ErrorKind::NotADirectory)]
        {
            assert_eq!(create(&path).unwrap_err().kind(), kind);
        }
        fs::remove_dir_all(top).unwrap();
    }

    #[test]
    fn a_file_is_as_before_or_whole() {
        let folder = std::env::temp_dir().join(format!("epaxos-files-{}", std::process::id()));
        fs::create_dir_all(&folder).unwrap();
        let read = || fs::read(folder.join("it")).unwrap();
        write(&folder, "it", b"before").unwrap();
        let broken = fill(&folder, "it", |file| {
            file.write_all(b"part")?;
            Err::<(), _>(io::ErrorKind::Other.into())
        });
        assert!(broken.is_err() && read() == b"before");
        write_beside(&folder, "it", b"after").unwrap();
        assert_eq!(read(), b"before");
        move_in(&folder, "it").unwrap();
        assert_eq!(read(), b"after");
        let long = vec![7; BETWEEN_SYNCS + 9];
        let count = fill(&folder, "it", |file| {
            long.chunks(1 << 18).try_for_each(|part| file.write_all(part))?;
            Ok(file.unsynced)
        });
        assert_eq!((count.unwrap(), read()), (9, long));
        fs::remove_dir_all(&folder).unwrap();
    }
}
