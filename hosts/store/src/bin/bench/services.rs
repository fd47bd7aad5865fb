//! Three services of the crate `epaxos` in this process, over TCP and folders, asked without a protocol.
use crate::{Cluster, Connection, MEMBERS};
use epaxos::OwnedCommand;
use epaxos::host::Settings;
use epaxos::service::{Folder, Service, Start, TcpLink};
use std::path::Path;
use std::sync::Arc;
use testing::ports::Ports;

/// A running cluster.
pub struct Services {
    services: Vec<Arc<Service>>,
    _ports: Ports,
}

/// Starts it.
pub fn start(directory: &Path) -> Result<Services, String> {
    let ports = Ports::take().map_err(|error| error.to_string())?;
    let addresses: Vec<String> = (0..MEMBERS).map(|member| format!("127.0.0.1:{}", ports.port(member))).collect();
    let begin = |me: u8| {
        let settings = Settings { seed: me.into(), ..Settings::new(epaxos::Cluster::Three, me) };
        let folder = Folder::open(directory.join(me.to_string())).map_err(|error| error.to_string())?;
        let link = TcpLink::new(me, &addresses).map_err(|error| error.to_string())?;
        Service::start(&settings, Start::New, folder, link).map(Arc::new).map_err(|fault| fault.to_string())
    };
    Ok(Services { services: (0..MEMBERS as u8).map(begin).collect::<Result<_, _>>()?, _ports: ports })
}

impl Cluster for Services {
    fn name(&self) -> &'static str {
        "service"
    }

    fn connect(&self, member: usize) -> Result<Box<dyn Connection>, String> {
        Ok(Box::new(Caller(self.services[member].clone())))
    }

    fn processes(&self) -> Vec<u32> {
        vec![std::process::id()]
    }
}

/// Who calls one of them.
struct Caller(Arc<Service>);

impl Connection for Caller {
    fn set(&mut self, key: &[u8], value: &[u8]) -> Result<(), String> {
        let put = OwnedCommand::Put { key: key.into(), value: value.into() };
        self.0.call(put).map(|_| ()).map_err(|fault| fault.to_string())
    }

    fn get(&mut self, key: &[u8]) -> Result<Vec<u8>, String> {
        self.0.read(key).map_err(|fault| fault.to_string())?.ok_or("the key has nothing".into())
    }

    fn set_together(&mut self, _keys: &[String], _value: &[u8]) -> Result<(), String> {
        Err("a service isn't asked for transactions here".into())
    }

    fn set_at_once(&mut self, _keys: &[String], _value: &[u8]) -> Result<(), String> {
        Err("a service is asked for one thing at a time here".into())
    }
}
