//! `store recover`: recovery after the loss of a majority, over the folders of stores that have ended.
//!
//! An opening has all that the generations before it have done, whoever has it. So the next generation may begin by the
//! newest one that is here, if nothing was done since: in a generation of which no majority ever acted nothing was.
use crate::life::directory::{self, Directory};
use crate::life::identities::{Identities, Identity, by_chance, digits};
use crate::life::recovery_fault::RecoveryFault;
use crate::life::sum::sum_of;
use crate::members::{Member, Members};
use crate::opening::Opening;
use crate::ops::say::error;
use crate::peer::peers::MOST_REPLICAS;
use crate::planning::{first, newest};
use crate::random::Random;
use epaxos::host::{FolderFault, Name};
use epaxos::parts::files;
use epaxos::parts::folder::{look, reference, whole};
use epaxos::parts::follower::Follower;
use epaxos::parts::log_head::LogHead;
use epaxos::parts::opening::{made, map_of, write_map};
use epaxos::parts::plan_fault::PlanFault;
use epaxos::{Cluster, Fault, Reference, Replica, Setup};
use std::cell::RefCell;
use std::collections::BTreeMap;
use std::fmt::Write as _;
use std::fs::{self, File};
use std::io::{self, Read, Write as _};
use std::path::{Path, PathBuf};
use std::process::ExitCode;

const TEXT: &str = "\
store recover: begins a new generation of the machines that are left, when the newest generation has lost its majority and is stuck

    store recover [--write] [--accept-loss] FOLDER FOLDER ..

    FOLDER         the folders of all machines that are left, or copies of them; stop their stores first
    --write        writes the new generation's opening to FOLDER/opening.take, which the store's next start takes; without it nothing is changed
    --accept-loss  goes on though acknowledged commands may be lost; the map is then that of the folder with the most committed commands

All other machines must be gone for good: what they have done in the newest generation is lost, and a new one can't be joined by them.
If the folders are on several machines, copy them to one (rsync -a), and copy each opening.take back.
Status 0: done, or the report without --write. 1: a file can't be read or written. 2: the command line. 3: refused; standard error says why.
";

/// The number of the next generation is this far above the newest one's, and by chance as much more: so machines that were believed to be gone, and go on
/// among themselves, are in none that these are in, nor are those that another try has brought together.
const LEAP: u32 = 1_000_000;
/// So many of a folder's openings are looked at for addresses.
const LOOKED_AT: usize = 4;

/// What is asked.
#[derive(PartialEq, Eq, Debug)]
struct Words {
    folders: Vec<PathBuf>,
    writes: bool,
    accepts_loss: bool,
}

/// Does what these words ask, which stand behind `recover`.
pub fn main(words: impl Iterator<Item = String>) -> ExitCode {
    let done = read(words).and_then(|words| match words {
        None => Ok(TEXT.into()),
        Some(words) => recover(&words, Random::new().below(LEAP.into()) as u32),
    });
    match done {
        Ok(text) => {
            // (where standard output is closed nobody reads it)
            let _ = io::stdout().write_all(text.as_bytes());
            ExitCode::SUCCESS
        }
        Err(fault) => {
            error(&format!("nothing was changed: {fault}"));
            ExitCode::from(match fault {
                RecoveryFault::Words(_) => 2,
                fault if fault.is_lasting() => 3,
                _ => 1,
            })
        }
    }
}

fn read(words: impl Iterator<Item = String>) -> Result<Option<Words>, RecoveryFault> {
    let mut read = Words { folders: Vec::new(), writes: false, accepts_loss: false };
    for word in words {
        match word.as_str() {
            "--help" | "-h" => return Ok(None),
            "--write" => read.writes = true,
            "--accept-loss" => read.accepts_loss = true,
            other if other.starts_with("--") => return Err(RecoveryFault::Words(format!("unknown word {other}"))),
            _ => read.folders.push(word.into()),
        }
    }
    match read.folders.as_slice() {
        [] => Err(RecoveryFault::Words("no folder is named".into())),
        _ => Ok(Some(read)),
    }
}

/// A replica that is left.
struct Left {
    directory: Directory,
    replica: u8,
    identity: Identity,
    /// Whom it knows, by numbers.
    known: Vec<Option<Identity>>,
    /// The generations whose openings it has, or logs that lead to them, in rising order; there is one.
    generations: Vec<u32>,
    /// The openings that logs led to.
    replayed: RefCell<BTreeMap<u32, Vec<u8>>>,
}

impl Left {
    /// The replica of a folder, of which nothing is changed.
    fn open(path: &Path) -> Result<Left, RecoveryFault> {
        let directory = Directory::look(path).map_err(RecoveryFault::Directory)?;
        directory.check_files().map_err(RecoveryFault::Directory)?;
        let none = || RecoveryFault::NoReplica(path.to_path_buf());
        let refused = |fault: FolderFault| RecoveryFault::Folder(fault);
        let held = look(&directory.folder()).map_err(refused)?;
        let refused = |fault: PlanFault| refused(fault.into());
        let newest = Some(newest(&held).map_err(refused)?).filter(|newest| *newest > 0).ok_or_else(none)?;
        first(&held, newest).map_err(refused)?;
        let generations = held.iter().map(|one| one.number).filter(|one| first(&held, *one).is_ok()).collect();
        let left = held.iter().map(|one| one.left_for).max().unwrap_or(0);
        if left > newest {
            return Err(RecoveryFault::Left(path.to_path_buf(), left));
        }
        let log = directory.log(*directory.generations_with("log").last().ok_or_else(none)?);
        let mut header = [0; LogHead::BYTES];
        let read = File::open(&log).and_then(|mut file| file.read_exact(&mut header));
        read.map_err(|error| RecoveryFault::File(log.clone(), error))?;
        let head = LogHead::read(&header).filter(|_| directory.has_identities());
        let LogHead { replica, .. } = head.ok_or_else(none)?;
        // (nothing is written, as the file is there and says who it is)
        let identities = Identities::open(path, MOST_REPLICAS, replica).map_err(RecoveryFault::Identities)?;
        let known = (0..MOST_REPLICAS as u8).map(|replica| identities.of(replica)).collect();
        let waits = directory.whole();
        if let Ok(opening) = Opening::read(&waits)
            && opening.generation > newest
        {
            return Err(RecoveryFault::Made(waits, opening.generation));
        }
        let (identity, replayed) = (identities.own(), RefCell::default());
        Ok(Left { directory, replica, identity, known, generations, replayed })
    }

    fn newest(&self) -> u32 {
        self.generations[self.generations.len() - 1]
    }

    /// The bytes of an opening that is here, whose digest is right, and what they say.
    fn opening(&self, generation: u32) -> Result<(Vec<u8>, Opening), RecoveryFault> {
        let path = self.directory.opening(generation);
        let bytes = if self.directory.is_whole(generation) {
            fs::read(&path).map_err(|error| RecoveryFault::File(path.clone(), error))?
        } else {
            self.replay(generation)?
        };
        let bad = |why| RecoveryFault::BadOpening(path.clone(), why);
        let bytes = whole(bytes).map_err(bad)?.bytes;
        let opening = Opening::of(&bytes).ok_or_else(|| bad("it can't be read".into()))?;
        if opening.generation == generation { Ok((bytes, opening)) } else { Err(bad("it is another one's".into())) }
    }

    /// The bytes of an opening that no file has, as logs lead to it.
    fn replay(&self, generation: u32) -> Result<Vec<u8>, RecoveryFault> {
        if let Some(bytes) = self.replayed.borrow().get(&generation) {
            return Ok(bytes.clone());
        }
        let opened = Follower { replica: self.replica }.opening_in(&self.directory.folder(), generation, sum_of);
        let bytes = opened.map_err(RecoveryFault::Folder)?.bytes;
        self.replayed.borrow_mut().insert(generation, bytes.clone());
        Ok(bytes)
    }

    /// The reference that stood for the opening of a generation, where it was begun by one.
    fn reference(&self, generation: u32) -> Result<Option<Reference>, RecoveryFault> {
        let folder = self.directory.folder();
        let is_there = folder.file(generation, Name::Reference).exists();
        let read = is_there.then(|| reference(&folder, generation)).transpose();
        read.map_err(RecoveryFault::Folder)
    }

    /// What befell its core.
    fn core(&self) -> impl Fn(Fault) -> RecoveryFault {
        let path = self.directory.log(self.newest());
        move |fault| RecoveryFault::Core(path.clone(), fault)
    }

    /// The replica in its newest generation, as its log says, where that has begun. Nothing is sent to anybody, and
    /// nothing is written.
    fn acting(&self) -> Result<Option<Replica>, RecoveryFault> {
        let (bytes, opening) = self.opening(self.newest())?;
        let path = self.directory.log(self.newest());
        let log = match fs::read(&path) {
            Err(error) if error.kind() == io::ErrorKind::NotFound => Vec::new(),
            log => log.map_err(|error| RecoveryFault::File(path.clone(), error))?,
        };
        if log.is_empty() {
            return Ok(None);
        }
        let cluster = Cluster::try_from(opening.replicas);
        let cluster = cluster.map_err(|_| RecoveryFault::BadOpening(path.clone(), "no such size".into()))?;
        let reference = self.reference(self.newest())?;
        let setup = Setup { opening: Some(&bytes), reference, ..Setup::new(cluster, self.replica) };
        let mut replica = setup.open(&log).map_err(|fault| RecoveryFault::BadLog(path, fault))?;
        replica.ready().and_then(|ready| ready.assume_synced().map(drop)).map_err(self.core())?;
        Ok(Some(replica))
    }

    /// How many commands are committed in the newest generation as far as its log says, and the last stamp.
    fn look_into(&self) -> Result<(usize, u64), RecoveryFault> {
        let Some(mut replica) = self.acting()? else { return Ok((0, self.opening(self.newest())?.1.base_stamp)) };
        let committed = replica.report(0, 0).map_err(self.core())?.committed().count();
        Ok((committed, replica.state().map_err(self.core())?.stamp))
    }

    /// The bytes of the map that it has once it has executed all that it knows to be committed.
    fn map(&self) -> Result<Vec<u8>, RecoveryFault> {
        let Some(mut replica) = self.acting()? else {
            return Ok(map_of(&self.opening(self.newest())?.0).unwrap_or_default().to_vec());
        };
        replica.execute_all().map_err(self.core())?;
        replica.ready().and_then(|ready| ready.assume_synced().map(drop)).map_err(self.core())?;
        let contents: Vec<_> = replica.contents().map_err(self.core())?.collect();
        Ok(write_map(contents.into_iter()))
    }

    /// Whether it is one of those that take part in the generation of this opening.
    fn is_in(&self, opening: &Opening) -> bool {
        let named = opening.members().and_then(|members| members.0.get(usize::from(self.replica)).cloned());
        let is_it = named.and_then(|member| member.identity).is_none_or(|identity| identity == self.identity);
        self.replica < opening.wanted() && is_it
    }
}

/// The text that reports what was found, and what was done.
fn recover(words: &Words, chance: u32) -> Result<String, RecoveryFault> {
    let mut all = words.folders.iter().map(|path| Left::open(path)).collect::<Result<Vec<Left>, _>>()?;
    all.sort_by_key(|left| left.replica);
    check_cluster(&all)?;
    let mut text = String::new();
    for left in &all {
        let (path, newest) = (left.directory.path().display(), left.newest());
        let _ = writeln!(
            text,
            "replica {}, identity {}, folder {path}: generation {newest}",
            left.replica,
            digits(&left.identity)
        );
    }
    let newest = all.iter().map(Left::newest).max().unwrap_or(0);
    let of_newest: Vec<&Left> = all.iter().filter(|left| left.newest() == newest).collect();
    let (bytes, opening) = of_newest[0].opening(newest)?;
    let here = all.iter().filter(|left| left.is_in(&opening)).count();
    let replicas = usize::from(opening.wanted());
    if here > replicas / 2 {
        return Err(RecoveryFault::NotNeeded { generation: newest, here, replicas });
    }
    let _ = writeln!(text, "generation {newest} has lost its majority: {here} of its {replicas} replicas are here");
    let size = size_for(&all)?;
    let mut losses = Vec::new();
    if has_majority(&all, newest - 1)? {
        let _ = writeln!(
            text,
            "generation {} has a majority here: everything that was acknowledged up to its end is kept",
            newest - 1
        );
    } else {
        losses.push(format!(
            "generation {} has no majority here: machines that aren't here may have acknowledged commands since then that no folder here has",
            newest - 1
        ));
    }
    let (mut since, mut most) = (opening.base_stamp, (0, of_newest[0]));
    for left in &of_newest {
        let (committed, stamp) = left.look_into()?;
        since = since.max(stamp);
        if committed > most.0 {
            most = (committed, left);
        }
    }
    let (committed, furthest) = most;
    if committed > 0 {
        losses.push(format!(
            "machines that aren't here took part in generation {newest}: replica {} has {committed} committed commands of it, and others \
             may be lost",
            furthest.replica
        ));
    } else {
        let _ = writeln!(text, "no log here has a committed command of generation {newest}");
    }
    match (losses.is_empty(), words.accepts_loss) {
        (false, false) => return Err(RecoveryFault::Loss(losses.join("; "))),
        _ => losses.iter().for_each(|loss| _ = writeln!(text, "WARNING: {loss}")),
    }
    report_gone(&mut text, newest, &opening, &all);
    let generation = newest.checked_add(LEAP + 1 + chance).ok_or(RecoveryFault::LastGeneration)?;
    let members = members_of(&all, size)?;
    let map = if committed > 0 { furthest.map()? } else { map_of(&bytes).unwrap_or_default().to_vec() };
    let made = opening_of(size, (generation, since), &members, &map)?;
    let numbers = all.iter().map(|left| left.replica.to_string()).collect::<Vec<_>>().join(", ");
    let keys = u32::from_be_bytes(map.first_chunk().copied().unwrap_or_default());
    let _ =
        writeln!(text, "new generation {generation}: {size} replicas, of which {numbers} are here, and {keys} keys");
    if !words.writes {
        text += "nothing was changed: make sure that the other machines can't come back, then add --write\n";
        return Ok(text);
    }
    for left in &all {
        let path = left.directory.whole();
        let written = files::write(left.directory.path(), directory::WHOLE, &made);
        written.map_err(|error| RecoveryFault::File(path.clone(), error))?;
        let _ = writeln!(text, "wrote {}", path.display());
    }
    text += "copy each opening.take into the machine's own folder, if this is a copy; then start the stores as before, without --new\n";
    Ok(text)
}

/// Whether the folders are of one cluster, each of another replica.
fn check_cluster(all: &[Left]) -> Result<(), RecoveryFault> {
    if let Some(pair) = all.windows(2).find(|pair| pair[0].replica == pair[1].replica) {
        return Err(RecoveryFault::Twice(pair[0].replica));
    }
    let knows = |one: &Left, other: &Left| one.known[usize::from(other.replica)] == Some(other.identity);
    for left in all.iter().filter(|_| all.len() > 1) {
        let is_one =
            all.iter().any(|other| other.replica != left.replica && (knows(left, other) || knows(other, left)));
        if !is_one {
            return Err(RecoveryFault::OtherCluster(left.directory.path().to_path_buf()));
        }
    }
    // What a generation opens with is the same everywhere, but for the stamp that clocks go on from.
    let newest = all.iter().map(Left::newest).max().unwrap_or(0);
    let mut found: Option<Vec<u8>> = None;
    for left in all.iter().filter(|left| left.newest() == newest) {
        let (mut bytes, opening) = left.opening(newest)?;
        bytes.truncate(bytes.len() - 32);
        // (one that isn't opened yet for as many replicas as the seal wants)
        bytes[5] = opening.wanted();
        bytes[10..18].fill(0);
        if found.replace(bytes.clone()).is_some_and(|before| before != bytes) {
            return Err(RecoveryFault::Differ(newest));
        }
    }
    Ok(())
}

/// How many replicas there are to be: as few as may be with these numbers, of which those that are here are a majority.
fn size_for(all: &[Left]) -> Result<u8, RecoveryFault> {
    let greatest = all.iter().map(|left| left.replica).max().unwrap_or(0);
    let size = [3, 5, 7].into_iter().find(|size| greatest < *size).unwrap_or(7);
    let (here, replicas) = (all.len(), usize::from(size));
    if here > replicas / 2 { Ok(size) } else { Err(RecoveryFault::TooFew { here, replicas }) }
}

/// Whether a majority of a generation's replicas is here, as its opening says, which somebody here has to have.
fn has_majority(all: &[Left], generation: u32) -> Result<bool, RecoveryFault> {
    let Some(left) = all.iter().find(|left| left.generations.contains(&generation)) else { return Ok(false) };
    let (_, opening) = left.opening(generation)?;
    let here = all.iter().filter(|left| left.is_in(&opening)).count();
    Ok(here > usize::from(opening.wanted()) / 2)
}

/// Reports which machines of the newest generation must never come back.
fn report_gone(text: &mut String, newest: u32, opening: &Opening, all: &[Left]) {
    let members = opening.members().unwrap_or(Members(vec![Member::default(); opening.wanted().into()]));
    for (replica, member) in (0..).zip(&members.0) {
        let is_here = |left: &Left| left.replica == replica && left.is_in(opening);
        if !all.iter().any(is_here) {
            let who = member.identity.as_ref().map_or("unknown".into(), digits);
            let _ = writeln!(
                text,
                "WARNING: replica {replica} of generation {newest}, identity {who}, isn't here: it must never come back"
            );
        }
    }
}

/// Who takes part: those that are here, each at the address that was named for it last. Nobody is the replica of another number until a seal names a
/// machine: who was it before isn't let in.
fn members_of(all: &[Left], size: u8) -> Result<Members, RecoveryFault> {
    let mut known = Vec::new();
    for left in all {
        for generation in left.generations.iter().rev().take(LOOKED_AT) {
            let (_, opening) = left.opening(*generation)?;
            known.extend(opening.members().map(|members| (*generation, members)));
        }
    }
    known.sort_by_key(|(generation, _)| *generation);
    let mut members = Members(Vec::new());
    for replica in 0..size {
        let Some(left) = all.iter().find(|left| left.replica == replica) else {
            let nobody = by_chance().map_err(|error| RecoveryFault::File("/dev/urandom".into(), error))?;
            members.0.push(Member { identity: Some(nobody), address: None });
            continue;
        };
        let is_it = |member: &&Member| member.identity == Some(left.identity);
        let named = |(_, members): &(u32, Members)| members.0.get(usize::from(replica)).filter(is_it).cloned();
        let address = known.iter().rev().find_map(named).and_then(|member| member.address);
        members.0.push(Member { identity: Some(left.identity), address });
    }
    Ok(members)
}

/// An opening of this generation, with these members and this map, and nothing that was executed before it.
fn opening_of(
    replicas: u8,
    (generation, since): (u32, u64),
    members: &Members,
    map: &[u8],
) -> Result<Vec<u8>, RecoveryFault> {
    let made = made((replicas, generation, since), members.write().as_bytes(), map);
    made.map_err(|fault| RecoveryFault::BadOpening(directory::WHOLE.into(), fault.to_string()))
}

#[cfg(test)]
mod tests {
    use super::*;

    #[test]
    fn words() {
        let read = |line: &str| read(line.split_whitespace().map(str::to_string));
        let folders = |names: &[&str]| names.iter().map(PathBuf::from).collect();
        let expected = Words { folders: folders(&["a", "b"]), writes: false, accepts_loss: false };
        assert_eq!(read("a b").unwrap(), Some(expected));
        let expected = Words { folders: folders(&["a"]), writes: true, accepts_loss: true };
        assert_eq!(read("--write a --accept-loss").unwrap(), Some(expected));
        assert_eq!(read("a --help").unwrap(), None);
        for line in ["", "--write", "--writ a", "a --node e"] {
            assert!(matches!(read(line), Err(RecoveryFault::Words(_))), "{line}");
        }
    }

    /// By the second opening of tests/vectors/openings.txt.
    #[test]
    fn an_opening_keeps_the_map_and_has_other_members() {
        let digits = |text: &str| -> Vec<u8> {
            let digits: Vec<u8> = text.bytes().filter(|byte| !byte.is_ascii_whitespace()).collect();
            let pair = |pair: &[u8]| u8::from_str_radix(std::str::from_utf8(pair).unwrap(), 16).unwrap();
            digits.chunks(2).map(pair).collect()
        };
        let page = digits(
            "45504f50 03 03 00000002 0000000000000005 01 00000001 78 00000001 01 00000001 61 31
             00000002  00 0001  02 0007 ba4a4d800fb593e6b4257ad4a8286b173b475a92cf8b8c816f8b2f08e944b31a",
        );
        let map = map_of(&page).unwrap();
        assert_eq!(map, digits("00000001 01 00000001 61 31"));
        assert_eq!((0..page.len() - 40).find_map(|cut| map_of(&page[..cut])), None);
        let one = Member { identity: Some([1; 16]), address: Some("a:7".into()) };
        let members = Members(vec![one, Member::default(), Member::default()]);
        let made = opening_of(3, (258, 7), &members, map).unwrap();
        let (body, digest) = made.split_at(made.len() - 32);
        let seal = format!("members 1\n0 {} a:7\n1 - -\n2 - -\n", "01".repeat(16));
        let expected = [
            &digits("45504f50 03 03 00000102 0000000000000007 01")[..],
            &(seal.len() as u32).to_be_bytes(),
            seal.as_bytes(),
            &digits("00000001 01 00000001 61 31 00000000"),
        ];
        assert_eq!(body, expected.concat());
        assert_eq!(sum_of(body)[..], *digest);
        for (replicas, generation, map) in [(4, 258, map), (3, 1, map), (3, 258, &map[1..]), (3, 258, &[])] {
            assert!(matches!(opening_of(replicas, (generation, 7), &members, map), Err(RecoveryFault::BadOpening(..))));
        }
    }
}
