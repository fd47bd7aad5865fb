//! The file of what was seen of the other replicas.
use epaxos::host::Host;
use epaxos::parts::files::private;
use epaxos::parts::place::MOST_REPLICAS;
use std::fs;
use std::io::Write;
use std::path::{Path, PathBuf};

const NAME: &str = "seen";

/// The file.
pub struct Seen {
    path: PathBuf,
    /// What it says.
    saved: Vec<u32>,
}

impl Seen {
    /// That of a folder, of which a host learns what was seen of the others in its generation before this start.
    pub fn open(folder: &Path, host: &mut Host) -> Seen {
        let path = folder.join(NAME);
        let text = fs::read_to_string(&path).unwrap_or_default();
        let saved: Vec<u32> = text.split_whitespace().filter_map(|word| word.parse().ok()).collect();
        if let Some((generation, seen)) = saved.split_first() {
            (0..).zip(seen).for_each(|(replica, seen)| host.see(*generation, replica, *seen));
        }
        Seen { path, saved }
    }

    /// Puts what was seen into it. It helps where it is there: it isn't forced to the disk.
    pub fn save(&mut self, host: &Host) {
        let seen = (0..MOST_REPLICAS).map(|replica| host.seen_of(replica));
        let numbers: Vec<u32> = std::iter::once(host.generation()).chain(seen).collect();
        if self.saved == numbers {
            return;
        }
        let words: Vec<String> = numbers.iter().map(u32::to_string).collect();
        let new = self.path.with_extension("new");
        let written = private().truncate(true).open(&new).and_then(|mut it| it.write_all(words.join(" ").as_bytes()));
        let _ = written.and_then(|()| fs::rename(&new, &self.path));
        self.saved = numbers;
    }
}

#[cfg(test)]
mod tests {
    use super::*;
    use epaxos::Cluster;
    use epaxos::host::Settings;
    use epaxos::service::MemoryDisk;
    use std::time::Instant;

    #[test]
    fn what_was_seen_is_kept_for_its_generation() {
        let folder = std::env::temp_dir().join(format!("store-seen-{}", std::process::id()));
        fs::create_dir_all(&folder).unwrap();
        let opened = || {
            let settings = Settings::new(Cluster::Three, 0);
            let mut host = Host::begin(&settings, &MemoryDisk::default(), Instant::now()).unwrap();
            (Seen::open(&folder, &mut host), host)
        };
        let (mut it, mut host) = opened();
        host.see(1, 1, 7);
        it.save(&host);
        assert_eq!([1, 2].map(|replica| opened().1.seen_of(replica)), [7, 0]);
        // (of another generation)
        fs::write(folder.join(NAME), "2 0 7 0").unwrap();
        assert_eq!(opened().1.seen_of(1), 0);
        fs::remove_dir_all(&folder).unwrap();
    }
}
