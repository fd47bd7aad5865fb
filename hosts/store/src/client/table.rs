//! The commands that there are.

/// A command: its name, how many words it has with its name (at least so many where it is negative), whether it writes, and which words are
/// keys: the first, the last (from the end where it is negative), and every how many.
#[derive(Clone, Copy, PartialEq, Eq, Debug)]
pub struct Entry {
    pub name: &'static str,
    pub arity: i64,
    pub writes: bool,
    pub keys: (i64, i64, i64),
}

const READS: bool = false;
const WRITES: bool = true;
const NONE: (i64, i64, i64) = (0, 0, 0);
const ONE: (i64, i64, i64) = (1, 1, 1);
const TWO: (i64, i64, i64) = (1, 2, 1);
const ALL: (i64, i64, i64) = (1, -1, 1);
const PAIRS: (i64, i64, i64) = (1, -1, 2);

/// Whether commands write, how many words they have, which are keys, and the names of all that are so.
type Kind = (bool, i64, (i64, i64, i64), &'static [&'static str]);

const KINDS: [Kind; 18] = [
    (READS, 1, NONE, &["dbsize", "readonly", "readwrite", "reset", "time", "unwatch"]),
    (READS, 1, NONE, &["discard", "exec", "multi"]),
    (READS, 2, NONE, &["echo", "keys", "select"]),
    (READS, -1, NONE, &["command", "hello", "host:", "info", "ping", "post", "quit"]),
    (READS, -2, NONE, &["auth", "client", "config", "scan", "script"]),
    (READS, 2, ONE, &["expiretime", "get", "pexpiretime", "pttl", "strlen", "ttl", "type"]),
    (READS, -2, ALL, &["exists", "mget", "touch", "watch"]),
    (WRITES, -2, NONE, &["epaxos"]),
    (WRITES, -3, NONE, &["eval", "evalsha"]),
    (WRITES, 2, ONE, &["decr", "getdel", "incr", "persist"]),
    (WRITES, 3, ONE, &["append", "decrby", "getset", "incrby", "setnx"]),
    (WRITES, 4, ONE, &["psetex", "setex"]),
    (WRITES, -2, ONE, &["getex"]),
    (WRITES, -3, ONE, &["expire", "expireat", "pexpire", "pexpireat", "set"]),
    (WRITES, -2, ALL, &["del", "unlink"]),
    (WRITES, -3, PAIRS, &["mset", "msetnx"]),
    (WRITES, 3, TWO, &["rename", "renamenx"]),
    (WRITES, -3, TWO, &["copy"]),
];

/// All of them.
pub fn all() -> impl Iterator<Item = Entry> {
    KINDS.iter().flat_map(|(writes, arity, keys, names)| {
        names.iter().map(|name| Entry { name, arity: *arity, writes: *writes, keys: *keys })
    })
}

/// The command of this name, in lower case.
pub fn entry(name: &[u8]) -> Option<Entry> {
    all().find(|entry| entry.name.as_bytes() == name)
}

impl Entry {
    /// Whether so many words are right, the name among them.
    pub fn takes(&self, words: usize) -> bool {
        let words = words as i64;
        if self.arity < 0 { words >= -self.arity } else { words == self.arity }
    }
}

#[cfg(test)]
mod tests {
    use super::*;
    use std::collections::HashSet;

    #[test]
    fn each_name_has_one_entry() {
        let names: HashSet<&str> = all().map(|entry| entry.name).collect();
        assert_eq!((names.len(), all().count()), (62, 62));
        let get = Entry { name: "get", arity: 2, writes: false, keys: (1, 1, 1) };
        assert_eq!((entry(b"get"), entry(b"gett")), (Some(get), None));
        assert_eq!(entry(b"mset"), Some(Entry { name: "mset", arity: -3, writes: true, keys: (1, -1, 2) }));
        let takes = |name: &[u8], words| entry(name).unwrap().takes(words);
        assert!(takes(b"set", 5) && !takes(b"set", 2) && !takes(b"get", 3));
    }
}
