//! What the machines of a cluster leave, judged as one chain: by `epaxos collect` of each generation, and `epaxos audit
//! --chain` of all.
use epaxos::parts::folder::reference;
use epaxos::parts::follower::Follower;
use epaxos::parts::read_folder::ReadFolder;
use std::ffi::OsStr;
use std::fs::{self, File};
use std::ops::RangeInclusive;
use std::path::{Path, PathBuf};
use std::process::{Command, Stdio};
use store::life::sum::sum_of;
use store::opening::Opening;

/// A log's header.
const LOG_HEADER: u64 = 43;

/// What is left of a cluster.
pub struct Chain<'a> {
    /// The program `epaxos`, and a folder for what is made on the way.
    pub program: &'a Path,
    pub scratch: &'a Path,
    /// Of each replica, by its number, the folders of all machines that ever had it.
    pub folders: Vec<Vec<PathBuf>>,
    /// The newest generation that was opened anywhere.
    pub newest: u32,
}

/// The newest generation of a store's folder that has one of these files.
pub fn newest_with(folder: &Path, names: &[&str]) -> Option<u32> {
    let found = fs::read_dir(folder.join("generations")).ok()?.flatten();
    let is_there = |path: PathBuf| fs::metadata(path).is_ok_and(|file| file.len() > 0);
    let with = found.filter(|entry| names.iter().any(|name| is_there(entry.path().join(name))));
    with.filter_map(|entry| entry.file_name().to_str()?.parse().ok()).max()
}

impl Chain<'_> {
    /// Collects and audits all of it. Why it isn't accepted, where it isn't.
    pub fn audit(&self) -> Result<(), String> {
        let mut chain = Vec::new();
        // (where nobody has written or replied anything in the newest one, it may be that nobody began it)
        let newest = (1..=self.newest).rfind(|it| *it == 1 || self.is_known(*it)).unwrap_or(1);
        for generation in 1..=newest {
            let bundle = self.scratch.join(format!("{generation}.bundle"));
            let file = File::create(&bundle).map_err(|error| format!("{}: {error}", bundle.display()))?;
            let mut command = Command::new(self.program);
            command.args(["collect", "--generation", &generation.to_string()]);
            let count = self.count(generation)?;
            for replica in 0..count.into() {
                for path in self.receipts(replica, generation..=generation) {
                    command.arg("--receipts").arg(path);
                }
                command.arg(self.view(replica, (generation, count))?);
            }
            run(&mut command, Stdio::from(file))?;
            chain.push(bundle);
        }
        let words = ["audit", "--chain"].map(OsStr::new).into_iter().chain(chain.iter().map(|it| it.as_os_str()));
        let audited = run(Command::new(self.program).args(words), Stdio::piped())?;
        let printed = String::from_utf8_lossy(&audited);
        match printed.lines().next() {
            Some("verdict accepted") if printed.lines().count() == chain.len() + 1 => Ok(()),
            _ => Err(format!("audit: {printed}")),
        }
    }

    /// Whether something was written, or reported to a client, in this generation.
    fn is_known(&self, generation: u32) -> bool {
        let is_written = |folder: &PathBuf| {
            let log = fs::metadata(folder.join(format!("generations/{generation}/log")));
            log.is_ok_and(|log| log.len() > LOG_HEADER)
        };
        let mut replicas = 0..self.folders.len();
        self.folders.iter().flatten().any(is_written)
            || replicas.any(|replica| !self.receipts(replica, generation..=generation).is_empty())
    }

    /// The files of receipts of a replica's machines.
    pub fn receipts(&self, replica: usize, generations: RangeInclusive<u32>) -> Vec<PathBuf> {
        let folders = self.folders.get(replica).map(Vec::as_slice).unwrap_or_default();
        let of = |generation: u32| folders.iter().map(move |folder| folder.join(format!("receipts/{generation}")));
        generations.flat_map(of).filter(|path| path.exists()).collect()
    }

    /// The folder that has a replica's opening and log of this generation. One who took no part reported nothing: it is
    /// begun and ended there.
    fn view(&self, replica: usize, (generation, count): (u32, u8)) -> Result<PathBuf, String> {
        let folders = self.folders[replica].iter().map(|folder| folder.join("generations"));
        let mut logs: Vec<PathBuf> =
            folders.filter(|folder| folder.join(format!("{generation}/log")).exists()).collect();
        if logs.len() > 1 {
            return Err(format!("replica {replica} has two logs in generation {generation}: {logs:?}"));
        }
        if let Some(folder) = logs.pop() {
            return Ok(folder);
        }
        let folder = self.scratch.join(format!("none-{replica}-{generation}"));
        fs::create_dir_all(&folder).map_err(|error| error.to_string())?;
        let mut command = Command::new(self.program);
        command.args(["node", "--replicas", &count.to_string(), "--replica", &replica.to_string(), "--dir"]);
        command.arg(&folder);
        if generation == 1 {
            command.arg("--new");
        } else {
            command.arg("--take").arg(self.an_opening((generation, count))?);
        }
        run(&mut command, Stdio::piped())?;
        Ok(folder)
    }

    /// How many replicas a generation has.
    fn count(&self, generation: u32) -> Result<u8, String> {
        let folders = self.folders.iter().flatten().map(|folder| folder.join("generations"));
        // (who left may have closed the one before for too many, and has taken nothing since)
        let count = |folder: PathBuf| {
            let log = folder.join(format!("{generation}/log"));
            let is_served = fs::metadata(log).is_ok_and(|log| log.len() > LOG_HEADER);
            let opening = Opening::read_front_of(&folder.join(format!("{generation}/opening"))).ok();
            match opening {
                Some(opening) => (opening.wanted() == opening.replicas).then_some(opening.replicas),
                None if is_served => {
                    Some(reference(&ReadFolder(folder.clone()), generation).ok()?.cluster().replicas())
                }
                None => None,
            }
        };
        folders.filter_map(count).next().ok_or(format!("no opening of generation {generation}"))
    }

    /// An opening of this generation, of one that took part in it: a file that has it, or one that is made of its logs.
    fn an_opening(&self, (generation, count): (u32, u8)) -> Result<PathBuf, String> {
        let all = self.folders.iter().enumerate();
        let all = all.flat_map(|(replica, folders)| folders.iter().map(move |it| (replica, it.join("generations"))));
        for (replica, folder) in all {
            let path = folder.join(format!("{generation}/opening"));
            if Opening::read_front_of(&path).is_ok_and(|opening| opening.wanted() == count && opening.replicas == count)
            {
                return Ok(path);
            }
            if reference(&ReadFolder(folder.clone()), generation)
                .is_ok_and(|reference| reference.cluster().replicas() == count)
            {
                let follower = Follower { replica: replica as u8 };
                let path = self.scratch.join(format!("{generation}.opening"));
                let opened = follower.opening_in(&ReadFolder(folder), generation, sum_of);
                let bytes = opened.map_err(|fault| fault.to_string())?.bytes;
                return fs::write(&path, bytes).map(|()| path).map_err(|error| error.to_string());
            }
        }
        Err(format!("no opening of generation {generation}"))
    }
}

/// What a program printed that ended well.
fn run(command: &mut Command, output: Stdio) -> Result<Vec<u8>, String> {
    let words = format!("{command:?}").chars().take(300).collect::<String>();
    let command = command.stdin(Stdio::null()).stdout(output).stderr(Stdio::piped());
    let output = command.spawn().and_then(|child| child.wait_with_output());
    let output = output.map_err(|error| format!("{words}: {error}"))?;
    if output.status.success() {
        return Ok(output.stdout);
    }
    let (printed, errors) = (String::from_utf8_lossy(&output.stdout), String::from_utf8_lossy(&output.stderr));
    Err(format!("{words} ends with {}: {} {}", output.status, printed.trim(), errors.trim()))
}
