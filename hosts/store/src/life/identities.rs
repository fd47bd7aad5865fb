//! Who the replicas are: each folder has an identity of its own, made by chance when it is made.
//!
//! A replica keeps the identity that it first met under each number, and speaks to no other. So a replica that comes back
//! with a new folder, or one of another cluster at the same address, is refused: it might have promised something else.
use crate::life::identities_fault::IdentitiesFault;
use epaxos::parts::files;
pub use epaxos::parts::identity::{Identity, by_chance, digits, identity};
use std::fs;
use std::io;
use std::path::{Path, PathBuf};
use std::sync::{Mutex, MutexGuard, PoisonError};

/// The file's name.
pub const NAME: &str = "identities";

/// The identities that are known, this replica's among them.
pub struct Identities {
    folder: PathBuf,
    own: Identity,
    /// Whether it was made just now.
    is_new: bool,
    known: Mutex<Vec<Option<Identity>>>,
}

impl Identities {
    /// Reads what the folder has. At the first start this replica's identity is made, and is to be kept.
    pub fn open(folder: &Path, replicas: usize, replica: u8) -> Result<Identities, IdentitiesFault> {
        let path = folder.join(NAME);
        let unusable = |error: io::Error| IdentitiesFault::Unusable(path.clone(), error);
        let text = match fs::read_to_string(&path) {
            Err(error) if error.kind() == io::ErrorKind::NotFound => String::new(),
            text => text.map_err(unusable)?,
        };
        let mut known = read_lines(&text, replicas).ok_or_else(|| IdentitiesFault::NotAList(path.clone(), replicas))?;
        let is_new = text.is_empty();
        let own = match known[usize::from(replica)] {
            Some(own) => own,
            None if is_new => by_chance().map_err(unusable)?,
            None => return Err(IdentitiesFault::OfAnother(path)),
        };
        known[usize::from(replica)] = Some(own);
        Ok(Identities { folder: folder.to_path_buf(), own, is_new, known: Mutex::new(known) })
    }

    /// From now on this replica has its identity, on the disk.
    pub fn keep(&self) -> Result<(), IdentitiesFault> {
        let written = if self.is_new { write_lines(&self.folder, &self.known()) } else { Ok(()) };
        written.map_err(|error| IdentitiesFault::Unusable(self.folder.join(NAME), error))
    }

    pub fn own(&self) -> Identity {
        self.own
    }

    fn known(&self) -> MutexGuard<'_, Vec<Option<Identity>>> {
        self.known.lock().unwrap_or_else(PoisonError::into_inner)
    }

    /// Who is known under the number.
    pub fn of(&self, replica: u8) -> Option<Identity> {
        self.known().get(usize::from(replica)).copied().flatten()
    }

    /// From now on this is who is known under the number, on the disk too. Whether that is new.
    pub fn set(&self, replica: u8, identity: Identity) -> io::Result<bool> {
        let mut known = self.known();
        let Some(place) = known.get_mut(usize::from(replica)) else { return Ok(false) };
        if place.replace(identity) == Some(identity) {
            return Ok(false);
        }
        write_lines(&self.folder, &known).map(|()| true)
    }

    /// Whether this is who was met under the number before. Whoever is met first is kept, on the disk.
    pub fn meet(&self, replica: u8, identity: Identity) -> io::Result<bool> {
        let mut known = self.known();
        let Some(place) = known.get_mut(usize::from(replica)) else { return Ok(false) };
        if place.is_none() {
            *place = Some(identity);
            let written = write_lines(&self.folder, &known);
            if written.is_err() {
                known[usize::from(replica)] = None;
            }
            return written.map(|()| true);
        }
        Ok(*place == Some(identity))
    }
}

/// Lines of a replica's number and its identity in hexadecimal.
fn read_lines(text: &str, replicas: usize) -> Option<Vec<Option<Identity>>> {
    let mut known = vec![None; replicas];
    for line in text.lines() {
        let (replica, digits) = line.split_once(' ')?;
        let place = known.get_mut(replica.parse::<usize>().ok()?)?;
        if place.replace(identity(digits)?).is_some() {
            return None;
        }
    }
    Some(known)
}

fn write_lines(folder: &Path, known: &[Option<Identity>]) -> io::Result<()> {
    let mut text = String::new();
    for (replica, identity) in known.iter().enumerate() {
        if let Some(identity) = identity {
            text += &format!("{replica} {}\n", digits(identity));
        }
    }
    files::write(folder, NAME, text.as_bytes())
}

#[cfg(test)]
mod tests {
    use super::*;

    #[test]
    fn who_is_met_first_is_kept() {
        let folder = std::env::temp_dir().join(format!("store-identities-{}", std::process::id()));
        fs::create_dir_all(&folder).unwrap();
        let first = Identities::open(&folder, 3, 1).unwrap();
        assert!(!folder.join(NAME).exists());
        first.keep().unwrap();
        assert!(first.meet(0, [7; 16]).unwrap());
        assert!(!first.meet(0, [8; 16]).unwrap());
        assert!(!first.meet(3, [8; 16]).unwrap());
        let again = Identities::open(&folder, 3, 1).unwrap();
        assert_eq!(again.own(), first.own());
        assert!(!again.meet(0, [8; 16]).unwrap());
        assert!(again.meet(0, [7; 16]).unwrap());
        // Where it can't be written nobody is kept.
        fs::create_dir(folder.join(format!("{NAME}.new"))).unwrap();
        assert!(again.meet(2, [7; 16]).is_err());
        fs::remove_dir(folder.join(format!("{NAME}.new"))).unwrap();
        assert!(again.meet(2, [8; 16]).unwrap());
        // A seal names another one.
        assert!(again.set(2, [6; 16]).unwrap() && !again.set(2, [6; 16]).unwrap());
        assert!(!again.meet(2, [8; 16]).unwrap() && again.meet(2, [6; 16]).unwrap());
        assert_eq!(Identities::open(&folder, 3, 1).unwrap().of(2), Some([6; 16]));
        let fresh = folder.join("fresh");
        fs::create_dir_all(&fresh).unwrap();
        let other = Identities::open(&fresh, 3, 1).unwrap();
        other.keep().unwrap();
        assert_ne!(other.own(), first.own());
        assert!(matches!(Identities::open(&fresh, 3, 2), Err(IdentitiesFault::OfAnother(_))));
        assert!(matches!(Identities::open(&fresh, 1, 0), Err(IdentitiesFault::NotAList(_, 1))));
        fs::remove_dir_all(&folder).unwrap();
    }

    #[test]
    fn lines_are_read() {
        let digits = "000102030405060708090a0b0c0d0e0f";
        let identity = [0, 1, 2, 3, 4, 5, 6, 7, 8, 9, 10, 11, 12, 13, 14, 15];
        assert_eq!(read_lines(&format!("2 {digits}\n"), 3), Some(vec![None, None, Some(identity)]));
        assert_eq!(read_lines("", 3), Some(vec![None; 3]));
        for text in [format!("3 {digits}"), digits.to_string(), "0 12".into(), format!("0 {digits}\n0 {digits}")] {
            assert_eq!(read_lines(&text, 3), None);
        }
    }
}
