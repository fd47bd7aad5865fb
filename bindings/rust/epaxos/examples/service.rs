//! A replicated service: three processes over TCP, each with a folder, of which one is killed: cargo run --example
//! service -- FOLDER
use epaxos::host::Settings;
use epaxos::service::{Folder, Service, Start, TcpLink};
use epaxos::{Cluster, OwnedCommand};
use std::io::{BufRead, BufReader, Write, stdin};
use std::process::{Child, Command, Stdio};
use std::{env, error::Error};

type Res<T> = Result<T, Box<dyn Error>>;
const ADDRESSES: [&str; 3] = ["127.0.0.1:7411", "127.0.0.1:7412", "127.0.0.1:7413"];

/// One of the three: it does what the lines of its input say.
fn replica(folder: &str, me: u8, start: Start) -> Res<()> {
    let settings = Settings { seed: std::process::id().into(), ..Settings::new(Cluster::Three, me) };
    let folder = Folder::open(format!("{folder}/{me}"))?.with_receipts()?;
    let service = Service::start(&settings, start, folder, TcpLink::new(me, &ADDRESSES)?)?;
    for line in stdin().lines().map_while(Result::ok) {
        match *line.split(' ').collect::<Vec<_>>() {
            ["put", key, value] => {
                let done = service.call(OwnedCommand::Put { key: key.into(), value: value.into() });
                println!("{}", done.map_or_else(|fault| fault.to_string(), |_| "done".into()));
            }
            ["get", key] => match service.read(key.as_bytes()) {
                Ok(value) => println!("{:?}", value.map(String::from_utf8)),
                Err(fault) => println!("{fault}"),
            },
            _ => println!("put KEY VALUE, or get KEY"),
        }
    }
    Ok(())
}

fn run(folder: &str, me: usize, how: &str) -> Res<Child> {
    let words = [folder, &me.to_string(), how];
    Ok(Command::new(env::current_exe()?).args(words).stdin(Stdio::piped()).stdout(Stdio::piped()).spawn()?)
}

/// Has a replica do something, and says what it says.
fn ask(replica: &mut Child, line: &str) -> Res<String> {
    writeln!(replica.stdin.as_mut().ok_or("no input")?, "{line}")?;
    let mut said = String::new();
    BufReader::with_capacity(1, replica.stdout.as_mut().ok_or("no output")?).read_line(&mut said)?;
    println!("{line}: {}", said.trim());
    Ok(said.trim().into())
}

fn main() -> Res<()> {
    let words: Vec<String> = env::args().skip(1).collect();
    let folder = words.first().ok_or("usage: service FOLDER")?;
    if let [folder, me, how] = &words[..] {
        return replica(folder, me.parse()?, if how == "new" { Start::New } else { Start::Again });
    }
    let how = if std::path::Path::new(folder).exists() { "again" } else { "new" };
    let mut three = (0..3).map(|me| run(folder, me, how)).collect::<Res<Vec<Child>>>()?;
    ask(&mut three[0], "put x 1")?;
    three[2].kill()?;
    ask(&mut three[0], "put x 2")?;
    three[2] = run(folder, 2, "again")?;
    assert_eq!(ask(&mut three[2], "get x")?, "Some(Ok(\"2\"))");
    three.iter_mut().try_for_each(|it| it.kill().map_err(Into::into))
}
