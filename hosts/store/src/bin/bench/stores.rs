//! Three stores.
use crate::options::Options;
use crate::running::Running;
use crate::{Connection, MEMBERS, PATIENCE};
use std::path::Path;
use std::process::Command;
use testing::client::{Client, Reply};

/// A running cluster.
pub fn start(
    options: &Options,
    directory: &Path,
    name: &'static str,
    words: &[&str],
) -> Result<Running<Client>, String> {
    let mut stores = Running::new(name, |port| Client::connect(port, PATIENCE))?;
    let peer = |replica: usize| format!("127.0.0.1:{}", stores.ports.port(MEMBERS + replica));
    let peers = (0..MEMBERS).map(peer).collect::<Vec<_>>().join(",");
    for replica in 0..MEMBERS {
        let (folder, port) = (directory.join(replica.to_string()), stores.ports.port(replica));
        let mut command = Command::new(&options.store);
        command.args(["--replica", &replica.to_string(), "--peers", &peers, "--listen", &port.to_string()]);
        command.args(words);
        stores.start(command.arg("--dir").arg(folder.join("dir")).arg("--new"), &folder)?;
    }
    Ok(stores)
}

impl Connection for Client {
    fn set(&mut self, key: &[u8], value: &[u8]) -> Result<(), String> {
        match self.ask(&[b"SET", key, value]) {
            Ok(Reply::Simple(_)) => Ok(()),
            other => Err(format!("SET is answered by {other:?}")),
        }
    }

    fn get(&mut self, key: &[u8]) -> Result<Vec<u8>, String> {
        match self.ask(&[b"GET", key]) {
            Ok(Reply::Bulk(Some(value))) => Ok(value),
            other => Err(format!("GET is answered by {other:?}")),
        }
    }

    fn set_together(&mut self, keys: &[String], value: &[u8]) -> Result<(), String> {
        let pairs = keys.iter().flat_map(|key| [key.as_bytes(), value]);
        let words: Vec<&[u8]> = [b"MSETNX".as_slice()].into_iter().chain(pairs).collect();
        match self.ask(&words) {
            Ok(Reply::Integer(1)) => Ok(()),
            other => Err(format!("MSETNX is answered by {other:?}")),
        }
    }

    fn set_at_once(&mut self, keys: &[String], value: &[u8]) -> Result<(), String> {
        let lines: Vec<[&[u8]; 3]> = keys.iter().map(|key| [b"SET".as_slice(), key.as_bytes(), value]).collect();
        let lines: Vec<&[&[u8]]> = lines.iter().map(|line| line.as_slice()).collect();
        self.send(&lines).map_err(|error| format!("SETs can't be sent: {error}"))?;
        for _ in keys {
            match self.read() {
                Ok(Reply::Simple(_)) => {}
                other => return Err(format!("SET is answered by {other:?}")),
            }
        }
        Ok(())
    }

    fn counts(&mut self) -> Option<[u64; 2]> {
        let Ok(Reply::Bulk(Some(text))) = self.ask(&[b"INFO"]) else { return None };
        let text = String::from_utf8(text).ok()?;
        let number = |name: &str| text.lines().find_map(|line| line.strip_prefix(name)?.parse().ok());
        Some([number("proposals:")?, number("syncs:")?])
    }
}
