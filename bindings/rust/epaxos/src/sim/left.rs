//! What a run leaves, in a folder.
use super::disk::Content;
use crate::Reference;
use crate::host::Name;
use crate::parts::opening::Opening;
use std::collections::BTreeMap;
use std::ffi::OsString;
use std::path::Path;
use std::{fs, io};

/// A generation of which a run has left the logs of all replicas, by [`leave`](super::leave).
///
/// ```
/// use epaxos::sim::Left;
/// use std::path::Path;
///
/// let left = Left { generation: 2, replicas: 3 };
/// let words = left.collecting(Path::new("/tmp/left"));
/// assert_eq!(words[..3], ["collect", "--generation", "2"]);
/// assert_eq!(words[3..], ["/tmp/left/0", "/tmp/left/1", "/tmp/left/2", "--receipts", "/tmp/left/receipts-2"]);
/// ```
#[derive(Clone, Copy, PartialEq, Eq, Debug)]
pub struct Left {
    /// Its number.
    pub generation: u32,
    /// How many replicas it has.
    pub replicas: u8,
}

impl Left {
    /// The words with which the program `epaxos` makes its bundle, of the folder in which it is.
    ///
    /// ```
    /// # use epaxos::sim::Left;
    /// # use std::path::Path;
    /// assert_eq!(Left { generation: 1, replicas: 3 }.collecting(Path::new("left")).len(), 8);
    /// ```
    pub fn collecting(&self, folder: &Path) -> Vec<OsString> {
        let Left { generation, replicas } = self;
        let mut words: Vec<OsString> = vec!["collect".into(), "--generation".into(), generation.to_string().into()];
        words.extend((0..*replicas).map(|replica| folder.join(replica.to_string()).into()));
        words.extend(["--receipts".into(), folder.join(format!("receipts-{generation}")).into()]);
        words
    }
}

/// Leaves a folder for each replica, and a file of the receipts of each generation. `machines`: of each replica what
/// the disks of its machines have, the first one's first.
pub(super) fn put(
    folder: &Path,
    machines: &[Vec<Content>],
    receipts: &BTreeMap<u32, Vec<u8>>,
) -> io::Result<Vec<Left>> {
    let all = || machines.iter().flatten();
    let newest = all().flat_map(Content::keys).map(|(generation, _)| *generation).max().unwrap_or_default();
    let mut whole = Vec::new();
    for generation in 1..=newest {
        let has = |content: &Content, name| content.contains_key(&(generation, name));
        // (a log without either was begun for an opening that a crash took)
        let is_here = |content: &Content| has(content, Name::Opening) || has(content, Name::Reference);
        let mut logs = 0;
        for (replica, of) in (0_u8..).zip(machines) {
            // (a generation is of one machine)
            let Some(content) = of.iter().find(|it| has(it, Name::Log) && is_here(it)) else { continue };
            put_generation(&folder.join(replica.to_string()), content, generation)?;
            logs |= 1_u32 << replica;
        }
        if let Some(replicas) = all().find_map(|content| size(content, generation)) {
            fs::create_dir_all(folder)?;
            fs::write(
                folder.join(format!("receipts-{generation}")),
                receipts.get(&generation).map_or(&[][..], |it| it),
            )?;
            let wanted = (1_u32 << replicas) - 1;
            whole.extend((logs & wanted == wanted).then_some(Left { generation, replicas }));
        }
    }
    Ok(whole)
}

fn put_generation(folder: &Path, content: &Content, generation: u32) -> io::Result<()> {
    let folder = folder.join(generation.to_string());
    fs::create_dir_all(&folder)?;
    for ((_, name), bytes) in content.iter().filter(|((of, _), _)| *of == generation) {
        fs::write(folder.join(name.letters()), bytes)?;
    }
    Ok(())
}

/// Of how many replicas a generation is, as a disk shows.
fn size(content: &Content, generation: u32) -> Option<u8> {
    let file = |name| content.get(&(generation, name));
    let of_reference = file(Name::Reference).and_then(|bytes| Reference::read(bytes));
    let of_opening = || Opening::front(file(Name::Opening)?).map(|opening| opening.replicas);
    of_reference.map(|reference| reference.cluster().replicas()).or_else(of_opening)
}
