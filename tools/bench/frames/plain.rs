// A plain safe Rust codec of the same frames.
#[derive(Clone, Copy, PartialEq, Eq, PartialOrd, Ord)]
pub struct Id { replica: u8, number: u16 }
#[derive(Clone, Copy)]
pub struct Ballot { counter: u16, replica: u8 }
pub enum Command { Noop, Get(Vec<u8>), Put(Vec<u8>, Vec<u8>), Del(Vec<u8>) }
pub struct Attrs { seq: u32, deps: Vec<Id> }
pub struct Decree { command: Command, attrs: Attrs }
pub struct Vote { status: u8, ballot: Ballot, decree: Decree }
#[allow(dead_code)]
pub enum Message {
    PreAccept { instance: Id, ballot: Ballot, decree: Decree },
    PreAcceptOk { instance: Id, ballot: Ballot, attrs: Attrs },
    Accept { instance: Id, ballot: Ballot, decree: Decree },
    AcceptOk { instance: Id, ballot: Ballot },
    Commit { instance: Id, decree: Decree },
    Prepare { instance: Id, ballot: Ballot },
    PrepareOk { instance: Id, ballot: Ballot, vote: Option<Vote> },
    Nack { instance: Id, refused: Ballot, promised: Ballot },
}
#[derive(Clone, Copy)]
pub struct Origin { to: u8, out: u16, entry: u32, stamp: u64 }

#[inline(never)]
pub fn write(from: u8, m: &Message, o: Origin) -> Vec<u8> {
    let zero = Ballot { counter: 0, replica: 0 };
    let (kind, instance, ballot, status, other, command, attrs): (u8, Id, Ballot, u8, Ballot, Option<&Command>, Option<&Attrs>) = match m {
        Message::PreAccept { instance, ballot, decree } => (1, *instance, *ballot, 0, zero, Some(&decree.command), Some(&decree.attrs)),
        Message::PreAcceptOk { instance, ballot, attrs } => (2, *instance, *ballot, 0, zero, None, Some(attrs)),
        Message::Accept { instance, ballot, decree } => (3, *instance, *ballot, 0, zero, Some(&decree.command), Some(&decree.attrs)),
        Message::AcceptOk { instance, ballot } => (4, *instance, *ballot, 0, zero, None, None),
        Message::Commit { instance, decree } => (5, *instance, zero, 0, zero, Some(&decree.command), Some(&decree.attrs)),
        Message::Prepare { instance, ballot } => (6, *instance, *ballot, 0, zero, None, None),
        Message::PrepareOk { instance, ballot, vote: None } => (7, *instance, *ballot, 0, Ballot { counter: 0, replica: instance.replica }, None, None),
        Message::PrepareOk { instance, ballot, vote: Some(v) } => (7, *instance, *ballot, v.status, v.ballot, Some(&v.decree.command), Some(&v.decree.attrs)),
        Message::Nack { instance, refused, promised } => (8, *instance, *refused, 0, *promised, None, None),
    };
    let (op, key, value): (u8, &[u8], &[u8]) = match command {
        None => (0, &[], &[]),
        Some(Command::Noop) => (1, &[], &[]),
        Some(Command::Get(k)) => (2, k, &[]),
        Some(Command::Put(k, v)) => (3, k, v),
        Some(Command::Del(k)) => (4, k, &[]),
    };
    let (seq, deps): (u32, &[Id]) = match attrs { None => (0, &[]), Some(a) => (a.seq, &a.deps) };
    let mut b = Vec::with_capacity(40 + key.len() + value.len() + 3 * deps.len());
    b.extend_from_slice(b"EP");
    b.push(1);
    b.push(kind);
    b.push(from);
    b.push(o.to);
    b.extend_from_slice(&o.out.to_be_bytes());
    b.extend_from_slice(&o.entry.to_be_bytes());
    b.extend_from_slice(&o.stamp.to_be_bytes());
    b.push(instance.replica);
    b.extend_from_slice(&instance.number.to_be_bytes());
    b.extend_from_slice(&ballot.counter.to_be_bytes());
    b.push(ballot.replica);
    b.push(status);
    b.extend_from_slice(&other.counter.to_be_bytes());
    b.push(other.replica);
    b.extend_from_slice(&seq.to_be_bytes());
    b.push(op);
    b.push(key.len() as u8);
    b.extend_from_slice(&(value.len() as u16).to_be_bytes());
    b.extend_from_slice(&(deps.len() as u16).to_be_bytes());
    b.extend_from_slice(key);
    b.extend_from_slice(value);
    for d in deps {
        b.push(d.replica);
        b.extend_from_slice(&d.number.to_be_bytes());
    }
    b
}

#[derive(Debug)]
#[allow(dead_code)]
pub enum Fault { Short, Magic, Version, Kind, Field(u8), Length, Order }
pub struct View<'a> { pub bytes: &'a [u8] }

fn n16(b: &[u8], i: usize) -> u16 { u16::from_be_bytes([b[i], b[i + 1]]) }
fn n32(b: &[u8], i: usize) -> u32 { u32::from_be_bytes([b[i], b[i + 1], b[i + 2], b[i + 3]]) }
fn n64(b: &[u8], i: usize) -> u64 { (n32(b, i) as u64) << 32 | n32(b, i + 4) as u64 }

#[inline(never)]
pub fn read(b: &[u8]) -> Result<View<'_>, Fault> {
    if b.len() < 40 { return Err(Fault::Short); }
    if &b[..2] != b"EP" { return Err(Fault::Magic); }
    if b[2] != 1 { return Err(Fault::Version); }
    let kind = b[3];
    if !(1..=8).contains(&kind) { return Err(Fault::Kind); }
    if b[4] > 6 { return Err(Fault::Field(4)); }
    if b[5] > 6 || b[5] == b[4] { return Err(Fault::Field(5)); }
    if n32(b, 8) == 0 { return Err(Fault::Field(8)); }
    let stamp = n64(b, 12);
    if stamp == 0 || stamp > 281_474_976_710_655 { return Err(Fault::Field(12)); }
    let leader = b[20];
    if leader > 6 { return Err(Fault::Field(20)); }
    let number = n16(b, 21);
    if number == 0 || number > 1000 { return Err(Fault::Field(21)); }
    let counter = n16(b, 23);
    if !match kind { 5 => counter == 0, 6 | 7 => counter >= 1 && counter <= 60000, _ => counter <= 60000 } { return Err(Fault::Field(23)); }
    let replica = b[25];
    if !match kind { 5 => replica == 0, _ if counter == 0 => replica == leader, _ => replica <= 6 } { return Err(Fault::Field(25)); }
    let status = b[26];
    if !(if kind == 7 { status <= 3 } else { status == 0 }) { return Err(Fault::Field(26)); }
    let oc = n16(b, 27);
    if !match kind { 7 if status == 0 => oc == 0, 7 => oc <= 60000, 8 => oc >= 1 && oc <= 60000, _ => oc == 0 } { return Err(Fault::Field(27)); }
    let or = b[29];
    if !match kind { 7 if oc == 0 => or == leader, 7 | 8 => or <= 6, _ => or == 0 } { return Err(Fault::Field(29)); }
    let has_attrs = matches!(kind, 1 | 2 | 3 | 5) || (kind == 7 && status != 0);
    let has_command = matches!(kind, 1 | 3 | 5) || (kind == 7 && status != 0);
    let seq = n32(b, 30);
    if !(if has_attrs { seq >= 1 && seq <= 1_000_000 } else { seq == 0 }) { return Err(Fault::Field(30)); }
    let op = b[34];
    if !(if has_command { op >= 1 && op <= 4 } else { op == 0 }) { return Err(Fault::Field(34)); }
    let kl = b[35];
    if !(if op >= 2 && op <= 4 { kl >= 1 } else { kl == 0 }) { return Err(Fault::Field(35)); }
    let vl = n16(b, 36);
    if !(if op == 3 { vl <= 1024 } else { vl == 0 }) { return Err(Fault::Field(36)); }
    let count = n16(b, 38);
    if !(if has_attrs { count <= 7000 } else { count == 0 }) { return Err(Fault::Field(38)); }
    let place = 40 + kl as usize + vl as usize;
    if b.len() != place + 3 * count as usize { return Err(Fault::Length); }
    let mut last: Option<Id> = None;
    for c in b[place..].chunks_exact(3) {
        let d = Id { replica: c[0], number: u16::from_be_bytes([c[1], c[2]]) };
        if d.replica > 6 || d.number == 0 || d.number > 1000 { return Err(Fault::Order); }
        if let Some(l) = last { if l >= d { return Err(Fault::Order); } }
        last = Some(d);
    }
    Ok(View { bytes: b })
}

fn message(count: u64) -> Message {
    let deps = (0..count).map(|i| Id { replica: (i / 1000) as u8, number: (i % 1000 + 1) as u16 }).collect();
    let decree = Decree { command: Command::Put(b"x".to_vec(), b"1".to_vec()), attrs: Attrs { seq: 1, deps } };
    if count == 0 {
        Message::PreAccept { instance: Id { replica: 0, number: 1 }, ballot: Ballot { counter: 0, replica: 0 }, decree }
    } else {
        Message::PrepareOk { instance: Id { replica: 0, number: 1 }, ballot: Ballot { counter: 1, replica: 2 }, vote: Some(Vote { status: 1, ballot: Ballot { counter: 0, replica: 0 }, decree }) }
    }
}

fn main() {
    let args: Vec<u64> = std::env::args().skip(1).map(|a| a.parse().unwrap()).collect();
    let (what, count, times) = (args[0], args[1], args[2]);
    let m = message(count);
    let o = Origin { to: 1, out: 0, entry: 1, stamp: 1 };
    let bytes = write(0, &m, o);
    let mut sum = 0u64;
    let start = std::time::Instant::now();
    for i in 0..times {
        if what == 0 {
            let b = write(0, std::hint::black_box(&m), Origin { out: (i % 65536) as u16, ..o });
            sum += b.len() as u64;
            std::hint::black_box(&b);
        } else {
            let v = read(std::hint::black_box(&bytes)).unwrap();
            sum += v.bytes.len() as u64;
        }
    }
    let t = start.elapsed();
    println!("{sum} {} ns each", t.as_nanos() as u64 / times.max(1));
}
