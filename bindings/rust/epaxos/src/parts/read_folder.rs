//! A folder of generations on a disk, as it is read.
use crate::host::{Name, Span, Stored};
use crate::parts::files::unusable;
use crate::parts::planning::generation_in;
use std::fs::{self, File};
use std::io::{self, ErrorKind, Read, Seek, SeekFrom};
use std::path::{Path, PathBuf};

/// The folder of this path. The files of generation 0 are in it itself.
#[derive(Clone, Debug)]
pub struct ReadFolder(pub PathBuf);

impl ReadFolder {
    pub fn path(&self) -> &Path {
        &self.0
    }

    pub fn folder_of(&self, generation: u32) -> PathBuf {
        if generation == 0 { self.0.clone() } else { self.0.join(generation.to_string()) }
    }

    pub fn file(&self, generation: u32, name: Name) -> PathBuf {
        self.folder_of(generation).join(name.letters())
    }

    /// These bytes of a file. Where it has fewer, that is an error.
    pub fn span(&self, span: &Span) -> io::Result<Vec<u8>> {
        let bytes = part(&self.file(span.generation, span.name), span.offset, span.length)?;
        if bytes.len() as u64 == span.length { Ok(bytes) } else { Err(ErrorKind::UnexpectedEof.into()) }
    }

    /// How many bytes a file has; 0 where there is none.
    pub fn length(&self, generation: u32, name: Name) -> u64 {
        fs::metadata(self.file(generation, name)).map_or(0, |found| found.len())
    }
}

/// So many bytes of a file from a place on, or as many as there are.
pub fn part(path: &Path, at: u64, length: u64) -> io::Result<Vec<u8>> {
    let (mut file, mut bytes) = (File::open(path)?, Vec::new());
    file.seek(SeekFrom::Start(at))?;
    file.take(length).read_to_end(&mut bytes)?;
    Ok(bytes)
}

/// What isn't there is none. (What isn't a folder has nothing in it.)
fn if_there<T>(path: &Path, read: io::Result<T>) -> io::Result<Option<T>> {
    match read {
        Err(error) if matches!(error.kind(), ErrorKind::NotFound | ErrorKind::NotADirectory) => Ok(None),
        read => read.map(Some).map_err(unusable(path)),
    }
}

impl Stored for ReadFolder {
    fn generations(&self) -> io::Result<Vec<u32>> {
        let mut all = Vec::new();
        for entry in fs::read_dir(&self.0).map_err(unusable(&self.0))? {
            all.extend(entry?.file_name().to_str().and_then(generation_in));
        }
        all.sort_unstable();
        Ok(all)
    }

    fn read(&self, generation: u32, name: Name) -> io::Result<Option<Vec<u8>>> {
        let path = self.file(generation, name);
        if_there(&path, fs::read(&path))
    }

    fn tail(&self, generation: u32, name: Name) -> io::Result<Option<Vec<u8>>> {
        let path = self.file(generation, name);
        let Some(mut file) = if_there(&path, File::open(&path))? else { return Ok(None) };
        let mut tail = || {
            let (length, mut bytes) = (file.metadata()?.len(), Vec::new());
            file.seek(SeekFrom::Start(length.saturating_sub(32)))?;
            file.read_to_end(&mut bytes)?;
            Ok(bytes)
        };
        tail().map(Some).map_err(unusable(&path))
    }
}
