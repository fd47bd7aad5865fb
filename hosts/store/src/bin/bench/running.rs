//! Programs that run beside one another, as one cluster.
use crate::{Cluster, Connection};
use std::fs::File;
use std::io;
use std::path::Path;
use std::process::{Child, Command, Stdio};
use testing::ports::Ports;

/// Programs that run beside one another. They end when this is dropped.
pub struct Running<C> {
    name: &'static str,
    pub ports: Ports,
    children: Vec<Child>,
    /// Connects to the one at this port.
    connect: fn(u16) -> io::Result<C>,
}

impl<C> Running<C> {
    /// None yet.
    pub fn new(name: &'static str, connect: fn(u16) -> io::Result<C>) -> Result<Running<C>, String> {
        let ports = Ports::take().map_err(|error| error.to_string())?;
        Ok(Running { name, ports, children: Vec::new(), connect })
    }

    /// Starts one more; what it prints goes to a file in its folder.
    pub fn start(&mut self, command: &mut Command, folder: &Path) -> Result<(), String> {
        let program = command.get_program().display().to_string();
        let fault = |error: io::Error| format!("{program} can't be run: {error}");
        std::fs::create_dir_all(folder).map_err(fault)?;
        let file = File::create(folder.join("told")).map_err(fault)?;
        let command = command.stdin(Stdio::null()).stdout(file.try_clone().map_err(fault)?).stderr(file);
        self.children.push(command.spawn().map_err(fault)?);
        Ok(())
    }
}

impl<C> Drop for Running<C> {
    fn drop(&mut self) {
        for child in &mut self.children {
            let _ = child.kill();
        }
        for child in &mut self.children {
            let _ = child.wait();
        }
    }
}

impl<C: Connection + 'static> Cluster for Running<C> {
    fn name(&self) -> &'static str {
        self.name
    }

    fn connect(&self, member: usize) -> Result<Box<dyn Connection>, String> {
        // (where there is one alone, all ask it)
        match (self.connect)(self.ports.port(member % self.children.len())) {
            Ok(connection) => Ok(Box::new(connection)),
            Err(error) => Err(format!("{} {member} can't be reached: {error}", self.name)),
        }
    }

    fn processes(&self) -> Vec<u32> {
        self.children.iter().map(Child::id).collect()
    }
}
