//! notes FOLDER ME new|again|join: one of three replicas of a list of notes. Lines on standard input: set NAME TEXT,
//! get NAME, all.
use epaxos::host::Settings;
use epaxos::service::{Folder, Service, Start, TcpLink, Watched};
use epaxos::{Cluster, OwnedCommand};
use std::error::Error;
use std::io::stdin;

const ADDRESSES: [&str; 3] = ["127.0.0.1:7511", "127.0.0.1:7512", "127.0.0.1:7513"];

fn main() {
    if let Err(fault) = run() {
        eprintln!("notes: {fault}");
        std::process::exit(1);
    }
}

fn run() -> Result<(), Box<dyn Error>> {
    let words: Vec<String> = std::env::args().skip(1).collect();
    let [folder, me, how] = &words[..] else { return Err("usage: notes FOLDER ME new|again|join".into()) };
    let me: u8 = me.parse()?;
    let start = match how.as_str() {
        "new" => Start::New,
        "again" => Start::Again,
        "join" => Start::Join,
        _ => return Err("new, again or join".into()),
    };
    let settings = Settings { seed: std::process::id().into(), ..Settings::new(Cluster::Three, me) };
    let service = Service::start(&settings, start, Folder::open(folder)?, TcpLink::new(me, &ADDRESSES)?)?;
    for line in stdin().lines() {
        match *line?.splitn(3, ' ').collect::<Vec<_>>() {
            ["set", name, text] => match service.call(OwnedCommand::Put { key: name.into(), value: text.into() }) {
                Ok(_) => println!("done"),
                Err(fault) => println!("{fault}"),
            },
            ["get", name] => match service.read(name.as_bytes()) {
                Ok(text) => println!("{:?}", text.map(String::from_utf8)),
                Err(fault) => println!("{fault}"),
            },
            ["all"] => match service.watch(Watched::Prefix(Vec::new()), 1) {
                Ok(watch) => println!("{} notes", watch.values().len()),
                Err(fault) => println!("{fault}"),
            },
            _ => println!("set NAME TEXT, get NAME, or all"),
        }
    }
    Ok(())
}
