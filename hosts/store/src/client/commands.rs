//! What a client's words ask for.
use crate::client::actions::{Action, Keep, Only, OnlyExpire, Set, SetReply, Unit, integer};
use crate::client::command_fault::CommandFault;
use crate::client::replies::Combine;
use crate::client::resp::{Reply, Version};
use crate::client::scripts;
use crate::client::step::{Step, Way};
use crate::client::table::{self, Entry, entry};
use crate::client::txn;
use crate::core::stored::{LONGEST_CONTENT, LONGEST_OWNER, now};
use crate::core::transaction::Transaction;
use crate::life::identities::{Identity, identity};
use crate::ops::wishes::Manage;
use epaxos::LONGEST_KEY;
use std::time::{Duration, SystemTime, UNIX_EPOCH};

type Words = Vec<Vec<u8>>;

/// What is asked.
#[derive(PartialEq, Eq, Debug)]
pub enum Asked {
    /// Actions on keys, each a command or a read of its own, and how their replies make one.
    Keys(Combine, Vec<(Vec<u8>, Action)>),
    /// Steps on several keys, all done at once, and how their replies make one.
    Joint(Combine, Vec<Step>),
    Txn(Transaction),
    /// The keys that there are, as far as this replica knows.
    List(List),
    Info,
    Ping(Option<Vec<u8>>),
    /// Asked by somebody who runs the store.
    Manage(Manage),
    Hello(Hello),
    Client(Client),
    ReadOnly(bool),
    Reset,
    Quit,
    Multi,
    Exec,
    Discard,
    Watch(Vec<Vec<u8>>),
    Unwatch,
    Auth(Words),
    /// A web page's request, in whose body commands may stand that nobody here has asked for.
    Http,
    /// Answered without the node.
    Answered(Reply),
}

#[derive(PartialEq, Eq, Debug)]
pub enum List {
    Size,
    Keys(Vec<u8>),
    Scan { cursor: u64, pattern: Option<Vec<u8>>, count: usize, kind: Option<Vec<u8>> },
}

/// The version that is wanted from now on, and what is said beside it.
#[derive(PartialEq, Eq, Default, Debug)]
pub struct Hello {
    pub version: Option<Version>,
    /// User and password.
    pub auth: Option<(Vec<u8>, Vec<u8>)>,
    pub name: Option<Vec<u8>>,
}

#[derive(PartialEq, Eq, Debug)]
pub enum Client {
    Id,
    Name,
    SetName(Vec<u8>),
    Info,
}

/// Understands a command's words, at least one; what can't be understood is answered by an error.
pub fn understand(words: Words) -> Asked {
    attempt(words).unwrap_or_else(|fault| Asked::Answered(Reply::Error(fault)))
}

fn attempt(mut words: Words) -> Result<Asked, CommandFault> {
    let count = words.len();
    let name = if words.is_empty() { Vec::new() } else { words.remove(0).to_ascii_lowercase() };
    let Some(entry) = entry(&name) else { return Err(CommandFault::Unknown(printable(&name))) };
    if !entry.takes(count) {
        return Err(CommandFault::WrongCount(entry.name.into()));
    }
    match entry.name {
        "client" => client(words),
        "command" => Ok(Asked::Answered(about_commands(&words)?)),
        "config" => Ok(Asked::Answered(config(&words)?)),
        "epaxos" => epaxos(words),
        "script" => Ok(Asked::Answered(script(&words)?)),
        "dbsize" => Ok(Asked::List(List::Size)),
        "keys" => Ok(Asked::List(List::Keys(words.remove(0)))),
        "scan" => scan(words),
        "hello" => hello(words),
        "auth" => Ok(Asked::Auth(words)),
        "echo" => Ok(Asked::Answered(Reply::Bulk(words.remove(0)))),
        "ping" => match words.len() {
            0 | 1 => Ok(Asked::Ping(words.pop())),
            _ => Err(CommandFault::WrongCount(entry.name.into())),
        },
        "select" => match integer(&words[0]) {
            Some(0) => Ok(Asked::Answered(Reply::Simple("OK"))),
            Some(_) => Err(CommandFault::DatabaseIndex),
            None => Err(CommandFault::NotAnInteger),
        },
        "time" => Ok(Asked::Answered(time())),
        "info" => Ok(Asked::Info),
        "readonly" => Ok(Asked::ReadOnly(true)),
        "readwrite" => Ok(Asked::ReadOnly(false)),
        "reset" => Ok(Asked::Reset),
        "quit" => Ok(Asked::Quit),
        "multi" => Ok(Asked::Multi),
        "exec" => Ok(Asked::Exec),
        "discard" => Ok(Asked::Discard),
        "watch" => {
            words.iter().try_for_each(|key| in_range(key))?;
            Ok(Asked::Watch(words))
        }
        "unwatch" => Ok(Asked::Unwatch),
        "post" | "host:" => Ok(Asked::Http),
        _ => keyed(entry, words),
    }
}

/// A command of keys, which are in range.
fn keyed(entry: Entry, words: Words) -> Result<Asked, CommandFault> {
    if let Some((combine, steps)) = joint(entry.name, &words)? {
        steps.iter().flat_map(Step::keys).try_for_each(in_range)?;
        return Ok(Asked::Joint(combine, steps));
    }
    let (combine, actions) = actions(entry.name, words)?;
    actions.iter().try_for_each(|(key, _)| in_range(key))?;
    Ok(Asked::Keys(combine, actions))
}

fn in_range(key: &[u8]) -> Result<(), CommandFault> {
    if key.is_empty() || key.len() > LONGEST_KEY { Err(CommandFault::KeyLength) } else { Ok(()) }
}

/// The steps of a command that several keys are written by, if it is one.
fn joint(name: &'static str, words: &[Vec<u8>]) -> Result<Option<(Combine, Vec<Step>)>, CommandFault> {
    let acts = |actions: Vec<(Vec<u8>, Action)>| actions.into_iter().map(|(key, it)| Step::Act(key, it)).collect();
    let carry = |way| match words {
        [from, to, ..] => Ok(vec![Step::Carry { from: from.clone(), to: to.clone(), way }]),
        _ => Err(CommandFault::Syntax),
    };
    Ok(match name {
        "del" | "unlink" if words.len() > 1 => {
            Some((Combine::Sum, acts(words.iter().map(|key| (key.clone(), Action::Delete)).collect())))
        }
        "mset" if words.len() > 2 => {
            let set = |(key, value)| Ok((key, plain(value, Only::Always, SetReply::Ok)?));
            Some((Combine::All, acts(pairs(name, words)?.into_iter().map(set).collect::<Result<_, _>>()?)))
        }
        "msetnx" => Some((Combine::One, vec![Step::SetNew(pairs(name, words)?)])),
        "rename" => Some((Combine::One, carry(Way::Rename)?)),
        "renamenx" => Some((Combine::One, carry(Way::RenameNew)?)),
        "copy" => Some((Combine::One, carry(copy(words)?)?)),
        _ => None,
    })
}

/// What the options of a COPY say, behind its two keys.
fn copy(words: &[Vec<u8>]) -> Result<Way, CommandFault> {
    let (mut replaces, mut words) = (false, words.iter());
    let is_same = words.next() == words.next();
    while let Some(word) = words.next() {
        match word.to_ascii_lowercase().as_slice() {
            b"replace" => replaces = true,
            b"db" => match integer(words.next().ok_or(CommandFault::Syntax)?) {
                Some(0) => {}
                Some(_) => return Err(CommandFault::DatabaseIndex),
                None => return Err(CommandFault::NotAnInteger),
            },
            _ => return Err(CommandFault::Syntax),
        }
    }
    if is_same { Err(CommandFault::SameKey) } else { Ok(Way::Copy { replaces }) }
}

type Actions = (Combine, Vec<(Vec<u8>, Action)>);

fn actions(name: &'static str, mut words: Words) -> Result<Actions, CommandFault> {
    let each = |action: Action| words.iter().map(|key| (key.clone(), action.clone())).collect();
    match name {
        "del" | "unlink" => return Ok((Combine::Sum, each(Action::Delete))),
        "exists" | "touch" => return Ok((Combine::Sum, each(Action::Exists))),
        "mget" => return Ok((Combine::List, each(Action::Peek))),
        "mset" => {
            let set = |(key, value)| Ok((key, plain(value, Only::Always, SetReply::Ok)?));
            return Ok((Combine::All, pairs(name, &words)?.into_iter().map(set).collect::<Result<_, _>>()?));
        }
        "eval" => {
            let script = scripts::by_text(&words.remove(0)).ok_or(CommandFault::Script)?;
            return Ok((Combine::One, vec![script.action(&words)?]));
        }
        "evalsha" => {
            let script = scripts::by_digest(&words.remove(0)).ok_or(CommandFault::NoScript)?;
            return Ok((Combine::One, vec![script.action(&words)?]));
        }
        _ => {}
    }
    let key = words.remove(0);
    Ok((Combine::One, vec![(key, action(name, words)?)]))
}

/// Keys, each with a value.
fn pairs(name: &str, words: &[Vec<u8>]) -> Result<Vec<(Vec<u8>, Vec<u8>)>, CommandFault> {
    let (pairs, []) = words.as_chunks::<2>() else { return Err(CommandFault::WrongCount(name.into())) };
    pairs.iter().map(|[key, value]| Ok((key.clone(), fitting(value.clone())?))).collect()
}

/// A SET without a deadline.
fn plain(value: Vec<u8>, only: Only, reply: SetReply) -> Result<Action, CommandFault> {
    Ok(Action::Set(Set { value: fitting(value)?, keep: Keep::None, only, reply }))
}

fn fitting(value: Vec<u8>) -> Result<Vec<u8>, CommandFault> {
    if value.len() > LONGEST_CONTENT { Err(CommandFault::ValueLength) } else { Ok(value) }
}

/// What a command of one key does to it; the words behind the key are as many as the table says.
fn action(name: &'static str, mut words: Words) -> Result<Action, CommandFault> {
    Ok(match name {
        "get" => Action::Get,
        "strlen" => Action::Length,
        "type" => Action::Kind,
        "ttl" => Action::TimeLeft(Unit::Seconds),
        "pttl" => Action::TimeLeft(Unit::Milliseconds),
        "expiretime" => Action::Deadline(Unit::Seconds),
        "pexpiretime" => Action::Deadline(Unit::Milliseconds),
        "getdel" => Action::GetDelete,
        "getset" => plain(words.remove(0), Only::Always, SetReply::Before)?,
        "setnx" => plain(words.remove(0), Only::IfAbsent, SetReply::Number)?,
        "set" => set(words)?,
        "setex" => set_until(name, words, Unit::Seconds)?,
        "psetex" => set_until(name, words, Unit::Milliseconds)?,
        "getex" => get_until(words)?,
        "incr" => Action::Add(1),
        "decr" => Action::Add(-1),
        "incrby" => Action::Add(number(&words[0])?),
        "decrby" => Action::Add(number(&words[0])?.checked_neg().ok_or(CommandFault::DecrementOverflow)?),
        "append" => Action::Append(words.remove(0)),
        "persist" => Action::Persist,
        "expire" => expire(name, words, Unit::Seconds, true)?,
        "pexpire" => expire(name, words, Unit::Milliseconds, true)?,
        "expireat" => expire(name, words, Unit::Seconds, false)?,
        "pexpireat" => expire(name, words, Unit::Milliseconds, false)?,
        _ => return Err(CommandFault::Unknown(name.into())),
    })
}

fn number(word: &[u8]) -> Result<i64, CommandFault> {
    integer(word).ok_or(CommandFault::NotAnInteger)
}

/// A deadline in milliseconds since 1970, of a time in this unit, from now or from 1970 on.
fn deadline(time: i64, unit: Unit, is_relative: bool) -> Option<i64> {
    let scale = if unit == Unit::Seconds { 1_000 } else { 1 };
    let start = if is_relative { i64::try_from(now()).ok()? } else { 0 };
    time.checked_mul(scale)?.checked_add(start)
}

/// Likewise, of a time from 1 on.
fn coming(name: &'static str, word: &[u8], unit: Unit, is_relative: bool) -> Result<u64, CommandFault> {
    let time = number(word)?;
    let deadline = deadline(time, unit, is_relative).filter(|_| time > 0);
    deadline.and_then(|deadline| u64::try_from(deadline).ok()).ok_or(CommandFault::InvalidExpire(name))
}

/// A word that names a time: its unit, and whether the time counts from now on.
fn timed(word: &[u8]) -> Option<(Unit, bool)> {
    match word.to_ascii_lowercase().as_slice() {
        b"ex" => Some((Unit::Seconds, true)),
        b"px" => Some((Unit::Milliseconds, true)),
        b"exat" => Some((Unit::Seconds, false)),
        b"pxat" => Some((Unit::Milliseconds, false)),
        _ => None,
    }
}

fn set(words: Words) -> Result<Action, CommandFault> {
    let mut words = words.into_iter();
    let value = words.next().ok_or(CommandFault::Syntax)?;
    let (mut keep, mut only, mut reply) = (None, None, SetReply::Ok);
    while let Some(word) = words.next() {
        if let Some((unit, is_relative)) = timed(&word) {
            let time = words.next().ok_or(CommandFault::Syntax)?;
            once(&mut keep, Keep::At(coming("set", &time, unit, is_relative)?))?;
            continue;
        }
        match word.to_ascii_lowercase().as_slice() {
            b"keepttl" => once(&mut keep, Keep::As)?,
            b"nx" => once(&mut only, Only::IfAbsent)?,
            b"xx" => once(&mut only, Only::IfPresent)?,
            b"ifeq" => once(&mut only, Only::IfEqual(words.next().ok_or(CommandFault::Syntax)?))?,
            b"get" => reply = SetReply::Before,
            _ => return Err(CommandFault::Syntax),
        }
    }
    let (keep, only) = (keep.unwrap_or(Keep::None), only.unwrap_or(Only::Always));
    Ok(Action::Set(Set { value: fitting(value)?, keep, only, reply }))
}

/// Gives an option that may be given once.
fn once<T>(option: &mut Option<T>, value: T) -> Result<(), CommandFault> {
    if option.replace(value).is_some() { Err(CommandFault::Syntax) } else { Ok(()) }
}

fn set_until(name: &'static str, words: Words, unit: Unit) -> Result<Action, CommandFault> {
    let Ok([time, value]) = <[Vec<u8>; 2]>::try_from(words) else { return Err(CommandFault::Syntax) };
    let keep = Keep::At(coming(name, &time, unit, true)?);
    Ok(Action::Set(Set { value: fitting(value)?, keep, only: Only::Always, reply: SetReply::Ok }))
}

fn get_until(words: Words) -> Result<Action, CommandFault> {
    match words.as_slice() {
        [] => Ok(Action::GetExpire(Keep::As)),
        [word] if word.eq_ignore_ascii_case(b"persist") => Ok(Action::GetExpire(Keep::None)),
        [word, time] => {
            let (unit, is_relative) = timed(word).ok_or(CommandFault::Syntax)?;
            Ok(Action::GetExpire(Keep::At(coming("getex", time, unit, is_relative)?)))
        }
        _ => Err(CommandFault::Syntax),
    }
}

fn expire(name: &'static str, words: Words, unit: Unit, is_relative: bool) -> Result<Action, CommandFault> {
    let time = number(&words[0])?;
    let deadline = deadline(time, unit, is_relative).ok_or(CommandFault::InvalidExpire(name))?;
    let mut only = OnlyExpire::default();
    for word in &words[1..] {
        match word.to_ascii_lowercase().as_slice() {
            b"nx" => only.without = true,
            b"xx" => only.with = true,
            b"gt" => only.later = true,
            b"lt" => only.earlier = true,
            _ => return Err(CommandFault::UnsupportedOption(printable(word))),
        }
    }
    if only.without && (only.with || only.later || only.earlier) {
        return Err(CommandFault::IncompatibleExpire);
    }
    if only.later && only.earlier {
        return Err(CommandFault::LaterAndEarlier);
    }
    Ok(Action::Expire { deadline, only })
}

/// What this store alone knows: locks, and what somebody who runs it asks for.
fn epaxos(mut words: Words) -> Result<Asked, CommandFault> {
    let sub = words.remove(0).to_ascii_lowercase();
    // (the millisecond that has begun doesn't count: nobody has a lock for less long than it asked for)
    let until = |name, time| coming(name, time, Unit::Milliseconds, true).map(|deadline| deadline + 1);
    let (key, action) = match (sub.as_slice(), words.as_slice()) {
        (b"lock", [key, owner, time]) => {
            (key, Action::Lock { owner: named(owner)?, deadline: until("epaxos|lock", time)? })
        }
        (b"renew", [key, owner, time]) => {
            (key, Action::Renew { owner: named(owner)?, deadline: until("epaxos|renew", time)? })
        }
        (b"unlock", [key, owner]) => (key, Action::Unlock { owner: named(owner)? }),
        (b"holder", [key]) => (key, Action::Holder),
        (b"txn", [_, ..]) => return Ok(Asked::Txn(txn::understand(words)?)),
        (b"help", []) => return Ok(Asked::Answered(help())),
        (b"seal", []) => return Ok(Asked::Manage(Manage::Seal)),
        (b"members", []) => return Ok(Asked::Manage(Manage::Members)),
        (b"replace", [replica, identity, rest @ ..]) if rest.len() <= 2 => {
            return Ok(Asked::Manage(replace(replica, identity, rest)?));
        }
        (b"resize", [size, new @ ..]) if new.len() % 3 == 0 => return Ok(Asked::Manage(resize(size, new)?)),
        (
            b"help" | b"txn" | b"lock" | b"renew" | b"unlock" | b"holder" | b"seal" | b"members" | b"replace"
            | b"resize",
            _,
        ) => {
            return Err(CommandFault::WrongCount(format!("epaxos|{}", printable(&sub))));
        }
        _ => return Err(CommandFault::UnknownSubcommand("EPAXOS", printable(&sub))),
    };
    if key.is_empty() || key.len() > LONGEST_KEY {
        return Err(CommandFault::KeyLength);
    }
    Ok(Asked::Keys(Combine::One, vec![(key.clone(), action)]))
}

/// What EPAXOS HELP replies: a line for each subcommand.
fn help() -> Reply {
    let lines = [
        "EPAXOS LOCK key owner milliseconds -- takes the lock, unless another one has it",
        "EPAXOS RENEW key owner milliseconds -- keeps it for longer, where this owner has it",
        "EPAXOS UNLOCK key owner -- lets go of it",
        "EPAXOS HOLDER key -- who has it, its token, and for how long",
        "EPAXOS TXN [IF key value | IFABSENT key | GET key | SET key value | DEL key ..] -- if all keys are as they should be, \
         all is written, else nothing; 1 or 0, and what the keys of GET had before",
        "EPAXOS MEMBERS -- who takes part, and who waits to be let in",
        "EPAXOS HELP -- this text",
        "At the admin socket (--admin) alone:",
        "EPAXOS SEAL -- the next generation begins",
        "EPAXOS REPLACE replica identity [host:port] [FORCE] -- another machine has the replica's number from the next generation on",
        "EPAXOS RESIZE 3|5|7 [replica identity host:port ..] -- so many replicas from the next generation on, and who is new",
    ];
    Reply::Array(lines.into_iter().map(Reply::text).collect())
}

/// Behind the identity stands the address, where one is given, and `FORCE` at the end.
fn replace(replica: &[u8], digits: &[u8], rest: &[Vec<u8>]) -> Result<Manage, CommandFault> {
    let (replica, identity) = machine(replica, digits)?;
    let (address, is_forced) = match rest {
        [rest @ .., last] if last.eq_ignore_ascii_case(b"force") => (rest, true),
        rest => (rest, false),
    };
    let address = match address {
        [] => None,
        [address] => Some(at(address)?),
        _ => return Err(CommandFault::Syntax),
    };
    Ok(Manage::Replace { replica, identity, address, is_forced })
}

/// A replica's number, and who is to be it.
fn machine(replica: &[u8], digits: &[u8]) -> Result<(u8, Identity), CommandFault> {
    let replica = u8::try_from(number(replica)?).map_err(|_| CommandFault::NotAnInteger)?;
    Ok((replica, std::str::from_utf8(digits).ok().and_then(identity).ok_or(CommandFault::Identity)?))
}

/// An address, which is a word of a seal's line.
fn at(address: &[u8]) -> Result<String, CommandFault> {
    let is_word = |address: &str| !address.is_empty() && !address.contains(char::is_whitespace);
    let address = std::str::from_utf8(address).ok().filter(|address| is_word(address));
    address.map(str::to_string).ok_or(CommandFault::Syntax)
}

/// Each new replica by its number, its identity and its address.
fn resize(size: &[u8], new: &[Vec<u8>]) -> Result<Manage, CommandFault> {
    let size = u8::try_from(number(size)?).map_err(|_| CommandFault::NotAnInteger)?;
    let one = |words: &[Vec<u8>]| {
        let (replica, identity) = machine(&words[0], &words[1])?;
        Ok((replica, identity, at(&words[2])?))
    };
    Ok(Manage::Resize { size, new: new.chunks(3).map(one).collect::<Result<_, _>>()? })
}

fn named(owner: &[u8]) -> Result<Vec<u8>, CommandFault> {
    if owner.is_empty() || owner.len() > LONGEST_OWNER { Err(CommandFault::OwnerLength) } else { Ok(owner.to_vec()) }
}

fn scan(words: Words) -> Result<Asked, CommandFault> {
    let mut words = words.into_iter();
    let cursor = words.next().unwrap_or_default();
    let cursor =
        std::str::from_utf8(&cursor).ok().and_then(|cursor| cursor.parse().ok()).ok_or(CommandFault::Cursor)?;
    let (mut pattern, mut count, mut kind) = (None, 10, None);
    while let Some(word) = words.next() {
        let value = words.next().ok_or(CommandFault::Syntax)?;
        match word.to_ascii_lowercase().as_slice() {
            b"match" => pattern = Some(value),
            b"type" => kind = Some(value.to_ascii_lowercase()),
            b"count" => {
                let number = number(&value)?;
                count = usize::try_from(number).ok().filter(|count| *count > 0).ok_or(CommandFault::Syntax)?;
            }
            _ => return Err(CommandFault::Syntax),
        }
    }
    Ok(Asked::List(List::Scan { cursor, pattern, count, kind }))
}

fn hello(words: Words) -> Result<Asked, CommandFault> {
    let mut hello = Hello::default();
    let mut words = words.into_iter();
    if let Some(version) = words.next() {
        hello.version = match integer(&version) {
            Some(2) => Some(Version::Two),
            Some(3) => Some(Version::Three),
            Some(_) => return Err(CommandFault::Protocol),
            None => return Err(CommandFault::NotAProtocol),
        };
    }
    while let Some(word) = words.next() {
        match word.to_ascii_lowercase().as_slice() {
            b"auth" => match (words.next(), words.next()) {
                (Some(user), Some(password)) => hello.auth = Some((user, password)),
                _ => return Err(CommandFault::Syntax),
            },
            b"setname" => hello.name = Some(client_name(words.next().ok_or(CommandFault::Syntax)?)?),
            _ => return Err(CommandFault::Syntax),
        }
    }
    Ok(Asked::Hello(hello))
}

fn client_name(name: Vec<u8>) -> Result<Vec<u8>, CommandFault> {
    if name.iter().all(|byte| (b'!'..=b'~').contains(byte)) { Ok(name) } else { Err(CommandFault::ClientName) }
}

fn client(mut words: Words) -> Result<Asked, CommandFault> {
    let sub = words.remove(0).to_ascii_lowercase();
    Ok(match (sub.as_slice(), words.len()) {
        (b"id", 0) => Asked::Client(Client::Id),
        (b"getname", 0) => Asked::Client(Client::Name),
        (b"info", 0) => Asked::Client(Client::Info),
        (b"setname", 1) => Asked::Client(Client::SetName(client_name(words.remove(0))?)),
        (b"setinfo", 2) if is_library(&words[0]) => {
            client_name(words.remove(1))?;
            Asked::Answered(Reply::Simple("OK"))
        }
        (b"setinfo", 2) => return Err(CommandFault::UnsupportedOption(printable(&words[0]))),
        // (nobody is evicted here)
        (b"no-evict" | b"no-touch", 1) => Asked::Answered(Reply::Simple("OK")),
        (b"id" | b"getname" | b"info" | b"setname" | b"setinfo" | b"no-evict" | b"no-touch", _) => {
            return Err(CommandFault::WrongCount(format!("client|{}", printable(&sub))));
        }
        _ => return Err(CommandFault::UnknownSubcommand("CLIENT", printable(&sub))),
    })
}

fn is_library(word: &[u8]) -> bool {
    word.eq_ignore_ascii_case(b"lib-name") || word.eq_ignore_ascii_case(b"lib-ver")
}

fn script(words: &[Vec<u8>]) -> Result<Reply, CommandFault> {
    let (sub, rest) = (words[0].to_ascii_lowercase(), &words[1..]);
    match (sub.as_slice(), rest) {
        (b"load", [text]) => scripts::digest(text).map(Reply::text).ok_or(CommandFault::Script),
        (b"exists", [_, ..]) => {
            let known = |digest: &Vec<u8>| Reply::Integer(scripts::by_digest(digest).is_some().into());
            Ok(Reply::Array(rest.iter().map(known).collect()))
        }
        (b"load" | b"exists", _) => Err(CommandFault::WrongCount(format!("script|{}", printable(&sub)))),
        _ => Err(CommandFault::UnknownSubcommand("SCRIPT", printable(&sub))),
    }
}

/// What CONFIG GET replies: how this store is, in the names of Redis.
const CONFIG: [(&str, &str); 4] = [("appendfsync", "always"), ("appendonly", "yes"), ("databases", "1"), ("save", "")];

fn config(words: &[Vec<u8>]) -> Result<Reply, CommandFault> {
    let (sub, patterns) = (words[0].to_ascii_lowercase(), &words[1..]);
    match (sub.as_slice(), patterns) {
        (b"get", [_, ..]) => {
            let patterns: Vec<_> = patterns.iter().map(|pattern| pattern.to_ascii_lowercase()).collect();
            let is_asked =
                |name: &str| patterns.iter().any(|pattern| crate::client::glob::fits(pattern, name.as_bytes()));
            let asked = CONFIG.iter().filter(|(name, _)| is_asked(name));
            Ok(Reply::Map(asked.map(|(name, value)| (Reply::text(name), Reply::text(value))).collect()))
        }
        (b"get", []) => Err(CommandFault::WrongCount("config|get".into())),
        _ => Err(CommandFault::UnknownSubcommand("CONFIG", printable(&sub))),
    }
}

fn about_commands(words: &[Vec<u8>]) -> Result<Reply, CommandFault> {
    let sub = words.first().map(|word| word.to_ascii_lowercase());
    // (two of the table are no commands)
    let all = || table::all().filter(|entry| !matches!(entry.name, "host:" | "post"));
    match sub.as_deref() {
        None => Ok(Reply::Array(all().map(described).collect())),
        Some(b"count") => Ok(Reply::Integer(all().count() as i64)),
        Some(b"docs") => Ok(Reply::Map(Vec::new())),
        Some(b"info") if words.len() == 1 => Ok(Reply::Array(all().map(described).collect())),
        Some(b"info") => {
            let asked = words[1..].iter().map(|name| entry(&name.to_ascii_lowercase()).map_or(Reply::Nil, described));
            Ok(Reply::Array(asked.collect()))
        }
        Some(b"list") => Ok(Reply::Array(all().map(|entry| Reply::text(entry.name)).collect())),
        Some(sub) => Err(CommandFault::UnknownSubcommand("COMMAND", printable(sub))),
    }
}

fn described(entry: Entry) -> Reply {
    let (first, last, step) = entry.keys;
    let flag = if entry.writes { "write" } else { "readonly" };
    Reply::Array(vec![
        Reply::text(entry.name),
        Reply::Integer(entry.arity),
        Reply::Array(vec![Reply::Simple(flag)]),
        Reply::Integer(first),
        Reply::Integer(last),
        Reply::Integer(step),
    ])
}

/// Seconds since 1970, and microseconds of the next one.
fn time() -> Reply {
    let since = SystemTime::now().duration_since(UNIX_EPOCH).unwrap_or(Duration::ZERO);
    Reply::Array(vec![Reply::text(&since.as_secs().to_string()), Reply::text(&since.subsec_micros().to_string())])
}

/// At most 64 bytes of a word, fit for a line.
fn printable(word: &[u8]) -> String {
    word.iter().take(64).flat_map(|byte| byte.escape_ascii()).map(char::from).collect()
}
