//! One Redis, which writes each command to its disk before it answers.
use crate::PATIENCE;
use crate::options::Options;
use crate::running::Running;
use std::path::Path;
use std::process::Command;
use testing::client::Client;

/// A running Redis.
pub fn start(options: &Options, directory: &Path) -> Result<Running<Client>, String> {
    let mut redis = Running::new("redis", |port| Client::connect(port, PATIENCE))?;
    let mut command = Command::new(&options.redis);
    command.args(["--port", &redis.ports.port(0).to_string(), "--bind", "127.0.0.1", "--save", ""]);
    command.args(["--appendonly", "yes", "--appendfsync", "always", "--dir"]).arg(directory);
    redis.start(&mut command, directory)?;
    Ok(redis)
}
