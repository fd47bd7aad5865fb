//! Bytes by chance, and true ones that were changed, at what reads clients' commands and at what reads what comes to the peers' port: it never
//! panics, replies the same however the bytes come, takes no more than it should, and nothing that isn't authentic.
//! `FUZZ_SECONDS` has each go on for longer than its second.
use epaxos::{Fields, Instance, Receipt};
use std::io::{self, Read, Write};
use std::os::unix::fs::PermissionsExt;
use std::time::{Duration, Instant};
use store::client::commands::understand;
use store::client::malformed_fault::MalformedFault;
use store::client::resp::{Input, read_command};
use store::commits::Committed;
use store::frames::Head;
use store::members::Members;
use store::messages::Message;
use store::peer::sealed::{self, Direction, Hello, Key, MAGIC};
use store::random::Random;

/// What it begins with: commands, whole and not.
const SEEDS: [&[u8]; 10] = [
    b"*3\r\n$3\r\nSET\r\n$1\r\nx\r\n$2\r\n12\r\n",
    b"*6\r\n$3\r\nset\r\n$1\r\nx\r\n$0\r\n\r\n$2\r\nEX\r\n$2\r\n10\r\n$2\r\nNX\r\n",
    b"*2\r\n$4\r\nMGET\r\n$1\r\nk\r\n*1\r\n$4\r\nPING\r\n",
    b"*4\r\n$6\r\nepaxos\r\n$4\r\nlock\r\n$1\r\nl\r\n$2\r\nme\r\n",
    b"get \"a\\x41\" 'b'\r\n",
    b"SCAN 0 MATCH *a[b-c]\\* COUNT 5\r\n",
    b"*5\r\n$4\r\nSCAN\r\n$1\r\n0\r\n$5\r\nMATCH\r\n$1\r\n*\r\n$5\r\nCOUNT\r\n",
    b"HELLO 3 AUTH default x SETNAME y\r\nCONFIG GET *\r\n",
    b"EXPIRE x 10 NX\r\nGETEX x PXAT 5\r\nINCRBY x -9223372036854775808\r\n",
    b"EVAL \"return 1\" 1 k v\r\nSCRIPT LOAD x\r\nEPAXOS REPLACE 1 00000000000000000000000000000000 a:1\r\n",
];

fn change(bytes: &mut Vec<u8>, seeds: &[impl AsRef<[u8]>], random: &mut Random) {
    let any = |random: &mut Random| seeds[random.below(seeds.len() as u64) as usize].as_ref();
    let place = random.below(bytes.len() as u64 + 1) as usize;
    match random.below(7) {
        0 if place < bytes.len() => bytes[place] ^= 1 << random.below(8),
        1 if place < bytes.len() => bytes[place] = random.below(256) as u8,
        2 => bytes.truncate(place),
        3 => bytes.insert(place, b"\r\n$*-0\"'\\9"[random.below(10) as usize]),
        4 => bytes.extend(any(random)),
        5 if place < bytes.len() => _ = bytes.remove(place),
        _ => {
            let other = any(random);
            let start = random.below(other.len() as u64) as usize;
            bytes.splice(place..place, other[start..].iter().copied());
        }
    }
    bytes.truncate(4_096);
}

/// The commands that bytes spell, and the fault behind them.
fn read(bytes: &[u8]) -> (Vec<Vec<Vec<u8>>>, Option<MalformedFault>) {
    let mut rest = bytes;
    let mut commands = Vec::new();
    loop {
        match read_command(rest) {
            Input::Command(words, length) => {
                assert!(length > 0 && length <= rest.len());
                rest = &rest[length..];
                commands.push(words);
            }
            Input::Partial => return (commands, None),
            Input::Fault(fault) => return (commands, Some(fault)),
        }
    }
}

/// So many rounds there are at least, however slow the machine is.
const LEAST: u64 = 1_000;

/// How long each goes on.
fn time() -> Duration {
    Duration::from_secs(std::env::var("FUZZ_SECONDS").ok().and_then(|text| text.parse().ok()).unwrap_or(1))
}

#[test]
fn commands_by_chance() {
    let (start, mut random) = (Instant::now(), Random::from_seed(0x5eed));
    let (mut rounds, mut commands) = (0_u64, 0_u64);
    let mut bytes = Vec::new();
    while start.elapsed() < time() || rounds < LEAST {
        if random.below(4) == 0 || bytes.is_empty() {
            bytes = SEEDS[random.below(SEEDS.len() as u64) as usize].to_vec();
        }
        change(&mut bytes, &SEEDS, &mut random);
        let (whole, fault) = read(&bytes);
        // What came first means the same as a beginning of all, and no fault is mended by what follows.
        let cut = random.below(bytes.len() as u64 + 1) as usize;
        let (first, early) = read(&bytes[..cut]);
        assert!(whole.starts_with(&first), "{}", bytes.escape_ascii());
        assert!(early.is_none() || (early == fault && first == whole), "{}", bytes.escape_ascii());
        commands += whole.len() as u64;
        rounds += 1;
        whole.into_iter().filter(|words| !words.is_empty()).for_each(|words| _ = understand(words));
    }
    println!("{rounds} texts, {commands} commands");
    assert!(commands > 1_000);
}

/// A connection whose other end has written all that it writes.
struct Written<'a> {
    input: &'a [u8],
    output: Vec<u8>,
}

impl Read for Written<'_> {
    fn read(&mut self, bytes: &mut [u8]) -> io::Result<usize> {
        self.input.read(bytes)
    }
}

impl Write for Written<'_> {
    fn write(&mut self, bytes: &[u8]) -> io::Result<usize> {
        self.output.write(bytes)
    }

    fn flush(&mut self) -> io::Result<()> {
        Ok(())
    }
}

/// What hosts and nodes send one another.
fn messages() -> Vec<Vec<u8>> {
    // (client 1's request 2 in 1.2, by entry 4 of replica 1 with stamp 5: absent)
    let mut receipt = vec![0, 0, 0, 1, 0, 0, 0, 2, 1, 0, 2, 0, 0, 0, 0, 0, 0, 0, 3, 1, 0, 0, 0, 4];
    receipt.extend([0, 0, 0, 0, 0, 0, 0, 5, 0]);
    let mut committed = Committed::new(3);
    committed.insert(Instance { replica: 1, number: 2 });
    let mut frame = b"EP\x03\x01".to_vec();
    frame.extend([0; 60]);
    let mut all = vec![frame, receipt, Members(vec![Default::default(); 3]).write().into_bytes()];
    all.extend([
        Message::Hello { generation: 1, is_sealed: true, seen: 2 }.write(),
        Message::Want { generation: 1, offset: 2 }.write(),
        Message::Piece { generation: 1, total: 9, offset: 2, bytes: vec![7, 8] }.write(),
        Message::Committed { generation: 1, committed }.write(),
        Message::Ping(1).write(),
        Message::Pong(1).write(),
    ]);
    all
}

/// A key, out of a file that only its owner reads.
fn key() -> Key {
    let path = std::env::temp_dir().join(format!("store-fuzz-{}", std::process::id()));
    std::fs::write(&path, "0123456789abcdef").unwrap();
    std::fs::set_permissions(&path, std::fs::Permissions::from_mode(0o600)).unwrap();
    let key = Key::read(&path).unwrap();
    std::fs::remove_file(&path).unwrap();
    key
}

/// All that one end reads, until it refuses something.
fn read_all(receiving: &mut Direction, mut bytes: &[u8]) -> Vec<(u8, Vec<u8>)> {
    std::iter::from_fn(|| receiving.read(&mut bytes, 4_096).ok()).collect()
}

#[test]
fn messages_of_peers_by_chance() {
    let (start, mut random, seeds) = (Instant::now(), Random::from_seed(0x9ee5), messages());
    let key = key();
    let (mut rounds, mut taken) = (0_u64, 0_u64);
    let mut bytes = Vec::new();
    while start.elapsed() < time() || rounds < LEAST {
        if random.below(4) == 0 || bytes.is_empty() {
            bytes = seeds[random.below(seeds.len() as u64) as usize].clone();
        }
        change(&mut bytes, &seeds, &mut random);
        rounds += 1;
        // What a peer's host may send, once it is authentic.
        if let Some(message) = Message::read(&bytes) {
            assert_eq!(message.write(), bytes);
        }
        let _ = (Head::read(&bytes), Members::read(&bytes), Receipt::read(&mut Fields::new(&bytes)));
        // A stranger, who hasn't the key: it is sent the same few bytes whatever it says, and nothing of it is taken.
        let hello = Hello::new(MAGIC, [3, 0, 1]).unwrap();
        let mut stranger = Vec::new();
        let mut channel = sealed::answer(&mut stranger, &key, &hello).unwrap();
        assert_eq!((stranger.len(), read_all(&mut channel.receiving, &bytes)), (48, Vec::new()));
        let mut rest = &bytes[..];
        if let Ok(hello) = sealed::heard(&mut rest) {
            let _ = hello.ends(&MAGIC);
            let mut channel = sealed::answer(&mut Vec::new(), &key, &hello).unwrap();
            assert_eq!(read_all(&mut channel.receiving, rest), Vec::new());
        }
        // A peer, some of whose bytes are changed on the way: what is taken is what it has sent first.
        let mut written = Vec::new();
        let mut listening = sealed::answer(&mut written, &key, &hello).unwrap();
        let mut stream = Written { input: &written, output: Vec::new() };
        let mut calling = sealed::call(&mut stream, &key, &hello).unwrap();
        let (mut sent, mut on_the_way) = (Vec::new(), Vec::new());
        for kind in 0..3 {
            let message = seeds[random.below(seeds.len() as u64) as usize].clone();
            calling.sending.write(&mut on_the_way, kind, &message).unwrap();
            sent.push((kind, message));
        }
        let whole = on_the_way.clone();
        change(&mut on_the_way, &seeds, &mut random);
        let read = read_all(&mut listening.receiving, &on_the_way);
        assert!(sent.starts_with(&read) && (read.len() < 3 || on_the_way.starts_with(&whole)));
        taken += read.len() as u64;
    }
    println!("{rounds} rounds, {taken} messages taken");
    assert!(taken > 50);
}
