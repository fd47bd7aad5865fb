//! The numbers of the host's starts, by which it gives each client of the protocol a number that no other has: of any
//! replica, and over all starts.
use crate::life::starts_fault::StartsFault;
use epaxos::host::{Name, Stored};
use epaxos::parts::files;
use epaxos::service::Folder;
use std::path::Path;

/// The first start of a folder has this number. Stores that gave clients their numbers by themselves gave lesser ones.
const FIRST: u32 = 1 << 18;
/// A start has so many clients, as a power of two; the last bits are the replica's number.
const CLIENTS: u32 = 13;
const SHARES: u32 = 8;

/// Whether the client's number is one that this replica gives, or gave by itself.
pub fn is_of(client: u32, replica: u8) -> bool {
    match client >> CLIENTS {
        ..FIRST => client > 0 && (client - 1) % SHARES == u32::from(replica),
        _ => client % SHARES == u32::from(replica),
    }
}

/// Before a host starts: the file in which it counts its starts is there, and knows the one in which the client of this
/// number was answered, the greatest one, 0 being none.
pub fn prepare(folder: &Path, disk: &Folder, greatest: u32) -> Result<(), StartsFault> {
    let path = || folder.join(Name::Starts.letters());
    let there = disk.read(0, Name::Starts).map_err(|error| StartsFault::Unusable(path(), error.kind()))?;
    let before = match there {
        Some(bytes) => u32::from_be_bytes(bytes.try_into().map_err(|_| StartsFault::NotANumber(path()))?),
        None => FIRST - 1,
    };
    let start = greatest >> CLIENTS;
    if start >= FIRST && start > before {
        return Err(StartsFault::Forgotten(path(), greatest));
    }
    if before < FIRST {
        let written = files::write(folder, Name::Starts.letters(), &(FIRST - 1).to_be_bytes());
        written.map_err(|error| StartsFault::Unusable(path(), error.kind()))?;
    }
    Ok(())
}

#[cfg(test)]
mod tests {
    use super::*;
    use epaxos::Cluster;
    use epaxos::host::{Host, Settings};
    use epaxos::service::Disk;
    use std::fs;
    use std::time::Instant;

    #[test]
    fn no_number_is_given_twice() {
        let folder = std::env::temp_dir().join(format!("store-starts-{}", std::process::id()));
        let mut disk = Folder::open(&folder).unwrap();
        let path = folder.join("starts");
        prepare(&folder, &disk, 0).unwrap();
        for start in [FIRST, FIRST + 1] {
            let settings = Settings::new(Cluster::Three, 2);
            let now = Instant::now();
            let mut host =
                if start == FIRST { Host::begin(&settings, &disk, now) } else { Host::open(&settings, &disk, now) }
                    .unwrap();
            disk.carry_out(&host.turn(now).unwrap().writes.unwrap().acts).unwrap();
            assert_eq!(fs::read(&path).unwrap(), start.to_be_bytes());
            let client = start << CLIENTS | 5 << 3 | 2;
            prepare(&folder, &disk, client).unwrap();
            assert!(is_of(client, 2) && !is_of(client, 1) && !is_of(client, 3));
            assert_eq!(
                prepare(&folder, &disk, client + (1 << CLIENTS)),
                Err(StartsFault::Forgotten(path.clone(), client + (1 << CLIENTS)))
            );
        }
        // What a store before gave by itself; and a file that is lost.
        assert!(is_of(3, 2) && !is_of(3, 1) && is_of(8 * 77 + 1, 0) && !is_of(0, 7));
        fs::write(&path, "a word").unwrap();
        assert_eq!(prepare(&folder, &disk, 0), Err(StartsFault::NotANumber(path.clone())));
        fs::remove_file(&path).unwrap();
        prepare(&folder, &disk, 12_345).unwrap();
        assert_eq!(fs::read(&path).unwrap(), (FIRST - 1).to_be_bytes());
        fs::remove_file(&path).unwrap();
        let client = FIRST << CLIENTS | 2;
        assert_eq!(prepare(&folder, &disk, client), Err(StartsFault::Forgotten(path, client)));
        drop(disk);
        fs::remove_dir_all(&folder).unwrap();
    }
}
