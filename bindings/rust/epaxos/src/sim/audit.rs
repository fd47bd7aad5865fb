//! What a run leaves, judged by the program `epaxos`.
use super::failure::Failure;
use super::left::Left;
use std::fs::{self, File};
use std::io;
use std::path::PathBuf;
use std::process::{Command, Stdio};

/// Where the program is, and a folder for what is made on the way.
///
/// ```
/// use epaxos::sim::Audit;
///
/// let audit = Audit { program: "/usr/bin/epaxos".into(), scratch: "/tmp/sim".into() };
/// # assert!(audit.program.is_absolute());
/// ```
#[derive(Clone, PartialEq, Eq, Debug)]
pub struct Audit {
    /// The program `epaxos`.
    pub program: PathBuf,
    /// A folder, in which nothing else is.
    pub scratch: PathBuf,
}

impl Audit {
    /// Has each generation audited of which all replicas have a log, as a chain those that follow one another: how
    /// many. `leave` leaves them in the folder.
    pub(super) fn judge(&self, leave: impl FnOnce() -> io::Result<Vec<Left>>) -> Result<u64, Failure> {
        let _ = fs::remove_dir_all(&self.scratch);
        let judged = leave().and_then(|all| {
            let mut chains = all.chunk_by(|left, next| left.generation + 1 == next.generation);
            let why = chains.find_map(|chain| self.audit(chain).transpose()).transpose()?;
            Ok((all.len() as u64, why))
        });
        let _ = fs::remove_dir_all(&self.scratch);
        match judged {
            Ok((count, None)) => Ok(count),
            Ok((_, Some(why))) => Err(Failure::Refused(why)),
            Err(error) => Err(Failure::Refused(error.to_string())),
        }
    }

    /// Why the audit refuses this chain, if it does.
    fn audit(&self, chain: &[Left]) -> io::Result<Option<String>> {
        let bundle = |left: &Left| self.scratch.join(format!("{}.bundle", left.generation));
        for left in chain {
            let mut collect = Command::new(&self.program);
            collect.args(left.collecting(&self.scratch)).stdin(Stdio::null());
            let done =
                collect.stdout(File::create(bundle(left))?).stderr(Stdio::piped()).spawn()?.wait_with_output()?;
            if !done.status.success() {
                let why = String::from_utf8_lossy(&done.stderr);
                return Ok(Some(format!("generation {}: {}", left.generation, why.trim())));
            }
        }
        let mut audit = Command::new(&self.program);
        let audited = audit.args(["audit", "--chain"]).args(chain.iter().map(bundle)).stdin(Stdio::null()).output()?;
        let said = String::from_utf8_lossy(if audited.stdout.is_empty() { &audited.stderr } else { &audited.stdout });
        let lines: Vec<&str> = said.lines().filter(|line| *line != "verdict refused").take(3).collect();
        Ok((!said.starts_with("verdict accepted\n")).then(|| lines.join("; ")))
    }
}
