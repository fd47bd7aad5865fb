//! The scripts that libraries of locks send, which are done without an interpreter. Each is known by its words, whatever blanks stand
//! between them, and those of redis-py by their SHA-1 too, since it asks by that first.
use crate::client::actions::{Action, Extension, integer};
use crate::client::command_fault::CommandFault;
use crate::core::stored::now;

/// A script: deletes the key where it has a value, or has it live longer.
#[derive(Clone, Copy, PartialEq, Eq, Debug)]
pub enum Script {
    Release,
    /// Adds to the time left, or sets it, by a third argument.
    Extend,
    Reacquire,
}

/// A script, the SHA-1 of the text as redis-py sends it, where it does, and the text.
type Known = (Script, Option<&'static str>, &'static str);

/// A text of redis-py's lock.py: all begin alike.
macro_rules! owned {
    ($rest:literal) => {
        concat!(
            "local token = redis.call('get', KEYS[1])
            if not token or token ~= ARGV[1] then return 0 end ",
            $rest
        )
    };
}

const KNOWN: [Known; 5] = [
    (Script::Release, Some("c3f8721cbb97f72bc19e972846bd7aaf91901658"), owned!("redis.call('del', KEYS[1]) return 1")),
    (
        Script::Extend,
        Some("a4e8783852e6b949f9ef3a97212805108459a890"),
        owned!(
            "local expiration = redis.call('pttl', KEYS[1])
            if not expiration then expiration = 0 end
            if expiration < 0 then return 0 end
            local newttl = ARGV[2]
            if ARGV[3] == \"0\" then newttl = ARGV[2] + expiration end
            redis.call('pexpire', KEYS[1], newttl)
            return 1"
        ),
    ),
    (
        Script::Reacquire,
        Some("1cac51482acf5858da00f6d685d68f886cd6b6b2"),
        owned!("redis.call('pexpire', KEYS[1], ARGV[2]) return 1"),
    ),
    // (Redis' page of distributed locks)
    (
        Script::Release,
        None,
        "if redis.call(\"get\",KEYS[1]) == ARGV[1] then return redis.call(\"del\",KEYS[1]) else return 0 end",
    ),
    (
        Script::Reacquire,
        None,
        "if redis.call(\"get\",KEYS[1]) == ARGV[1] then return redis.call(\"pexpire\",KEYS[1],ARGV[2]) else return 0 end",
    ),
];

/// A text without blanks, and with one kind of quotes.
fn bare(text: &[u8]) -> Vec<u8> {
    let quoted = |byte: &u8| if *byte == b'\'' { b'"' } else { *byte };
    text.iter().filter(|byte| !byte.is_ascii_whitespace()).map(quoted).collect()
}

pub fn by_text(text: &[u8]) -> Option<Script> {
    known_by_text(text).map(|(script, ..)| *script)
}

fn known_by_text(text: &[u8]) -> Option<&'static Known> {
    let wanted = bare(text);
    KNOWN.iter().find(|(.., text)| bare(text.as_bytes()) == wanted)
}

/// The digest of a known text, as SCRIPT LOAD replies it.
pub fn digest(text: &[u8]) -> Option<&'static str> {
    known_by_text(text)?.1
}

pub fn by_digest(digest: &[u8]) -> Option<Script> {
    let digest = digest.to_ascii_lowercase();
    let is_it = |known: &Option<&str>| known.is_some_and(|known| known.as_bytes() == digest);
    KNOWN.iter().find(|(_, known, _)| is_it(known)).map(|(script, ..)| *script)
}

impl Script {
    /// What it does to its one key, by the words behind the script: how many keys, the key, and arguments.
    pub fn action(self, words: &[Vec<u8>]) -> Result<(Vec<u8>, Action), CommandFault> {
        let [keys, key, value, rest @ ..] = words else { return Err(CommandFault::Script) };
        if keys != b"1" {
            return Err(CommandFault::Script);
        }
        let time = || rest.first().and_then(|time| integer(time)).ok_or(CommandFault::NotAnInteger);
        let deadline = |time: i64| i64::try_from(now()).unwrap_or(i64::MAX).saturating_add(time);
        let value = value.clone();
        let action = match self {
            Script::Release => Action::DeleteIfEqual(value),
            Script::Extend if rest.get(1).is_some_and(|word| word == b"0") => {
                Action::ExtendIfEqual { value, time: Extension::By(time()?) }
            }
            // (redis-py's script extends nothing that has no deadline)
            Script::Extend => Action::ExtendIfEqual { value, time: Extension::UntilIfAny(deadline(time()?)) },
            Script::Reacquire => Action::ExtendIfEqual { value, time: Extension::Until(deadline(time()?)) },
        };
        Ok((key.clone(), action))
    }
}
