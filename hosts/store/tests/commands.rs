//! Each command of clients, with the replies that Redis' pages of commands have; where there is a redis-server, it is asked the same.
mod common;
use common::memory::Memory;
use common::{info, wait};
use std::process::{Child, Command, Stdio};
use std::thread;
use std::time::{Duration, Instant};
use store::client::command_fault::CommandFault;
use testing::client::{Client, Reply};
use testing::ports::Ports;

/// The words of a line: `""` is an empty one, `_` in a word a space.
fn words(line: &str) -> Vec<Vec<u8>> {
    line.split(' ').map(|word| if word == "\"\"" { Vec::new() } else { word.replace('_', " ").into_bytes() }).collect()
}

fn ask(client: &mut Client, line: &str) -> Reply {
    let words = words(line);
    client.ask(&words.iter().map(Vec::as_slice).collect::<Vec<_>>()).unwrap()
}

/// A reply as redis-cli prints it, in one line: `(nil)`, `(integer) 1`, `"text"`, `OK`, `(error) ..`, `[..]`, `{..}`.
fn shown(reply: &Reply) -> String {
    match reply {
        Reply::Simple(text) => text.clone(),
        Reply::Error(text) => format!("(error) {text}"),
        Reply::Integer(number) => format!("(integer) {number}"),
        Reply::Bulk(None) => "(nil)".into(),
        Reply::Bulk(Some(bytes)) => format!("\"{}\"", bytes.escape_ascii()),
        Reply::Array(items) => format!("[{}]", items.iter().map(shown).collect::<Vec<_>>().join(", ")),
        Reply::Map(pairs) => {
            let pairs: Vec<_> = pairs.iter().map(|(name, item)| format!("{}: {}", shown(name), shown(item))).collect();
            format!("{{{}}}", pairs.join(", "))
        }
    }
}

/// A redis-server, where there is one. It is killed when it is let go.
struct Redis(Child, Ports);

impl Redis {
    fn start() -> Option<Redis> {
        let ports = Ports::take().unwrap();
        let port = ports.port(0);
        let mut command = Command::new("redis-server");
        command.args(["--port", &port.to_string(), "--save", "", "--appendonly", "no", "--bind", "127.0.0.1"]);
        let child = command.current_dir(std::env::temp_dir()).stdout(Stdio::null()).stderr(Stdio::null()).spawn();
        let Ok(child) = child else {
            eprintln!("not compared: there is no redis-server");
            return None;
        };
        wait("its start", || Client::connect(port, Duration::from_secs(1)).is_ok());
        Some(Redis(child, ports))
    }
}

impl Drop for Redis {
    fn drop(&mut self) {
        let _ = self.0.kill();
        let _ = self.0.wait();
    }
}

/// Lines with their replies, the same at Redis. An error is compared to its first word there, as texts differ.
const SAME: &[(&str, &str)] = &[
    // SET and GET
    ("GET x", "(nil)"),
    ("SET x 1", "OK"),
    ("get x", "\"1\""),
    ("SET x \"\"", "OK"),
    ("GET x", "\"\""),
    ("SET x a NX", "(nil)"),
    ("SET x a XX", "OK"),
    ("SET y a XX", "(nil)"),
    ("SET y a NX", "OK"),
    ("SET y b GET", "\"a\""),
    ("SET z b GET", "(nil)"),
    ("SET z c NX GET", "\"b\""),
    ("SET n c NX GET", "(nil)"),
    ("SET n d XX GET", "\"c\""),
    ("GET n", "\"d\""),
    ("MGET x y z n none", "[\"a\", \"b\", \"b\", \"d\", (nil)]"),
    ("SET x a NX XX", "(error) ERR syntax error"),
    ("SET x a FOO", "(error) ERR syntax error"),
    ("SET x a EX", "(error) ERR syntax error"),
    ("SET x a EX 1 PX 1", "(error) ERR syntax error"),
    ("SET x a EX 1 KEEPTTL", "(error) ERR syntax error"),
    ("SET x a EX 0", "(error) ERR invalid expire time in 'set' command"),
    ("SET x a PX -1", "(error) ERR invalid expire time in 'set' command"),
    ("SET x a EX 9223372036854775807", "(error) ERR invalid expire time in 'set' command"),
    ("SET x a EX a", "(error) ERR value is not an integer or out of range"),
    ("SET x", "(error) ERR wrong number of arguments for 'set' command"),
    ("GET", "(error) ERR wrong number of arguments for 'get' command"),
    ("GET x y", "(error) ERR wrong number of arguments for 'get' command"),
    ("SETNX x b", "(integer) 0"),
    ("SETNX w b", "(integer) 1"),
    ("GETSET w c", "\"b\""),
    ("GETSET v c", "(nil)"),
    ("GETDEL v", "\"c\""),
    ("GETDEL v", "(nil)"),
    ("EXISTS x y v x", "(integer) 3"),
    ("TOUCH x y v x", "(integer) 3"),
    ("EXISTS", "(error) ERR wrong number of arguments for 'exists' command"),
    ("STRLEN w", "(integer) 1"),
    ("STRLEN v", "(integer) 0"),
    ("TYPE w", "string"),
    ("TYPE v", "none"),
    ("DEL x y v x", "(integer) 2"),
    ("UNLINK z n z", "(integer) 2"),
    ("MSET a 1 b 2 a 3", "OK"),
    ("MGET a b", "[\"3\", \"2\"]"),
    ("MSET a", "(error) ERR wrong number of arguments for 'mset' command"),
    ("MSET a 1 b", "(error) ERR wrong number of arguments for 'mset' command"),
    // Several keys at once
    ("SET r1 a EX 100", "OK"),
    ("RENAME r1 r2", "OK"),
    ("GET r1", "(nil)"),
    ("GET r2", "\"a\""),
    ("TTL r2", "(integer) 100"),
    ("RENAME none r2", "(error) ERR no such key"),
    ("RENAME none none", "(error) ERR no such key"),
    ("RENAME r2 r2", "OK"),
    ("RENAMENX r2 r3", "(integer) 1"),
    ("EXISTS r2 r3", "(integer) 1"),
    ("SET r2 b", "OK"),
    ("RENAMENX r2 r3", "(integer) 0"),
    ("RENAMENX r2 r2", "(integer) 0"),
    ("RENAMENX none r5", "(error) ERR no such key"),
    ("COPY r2 r3", "(integer) 0"),
    ("COPY r2 r3 REPLACE", "(integer) 1"),
    ("GET r3", "\"b\""),
    ("TTL r3", "(integer) -1"),
    ("COPY none r3", "(integer) 0"),
    ("COPY r2 r2", "(error) ERR source and destination objects are the same"),
    ("COPY r2 r4 DB 0", "(integer) 1"),
    ("COPY r2 r4 FOO", "(error) ERR syntax error"),
    ("COPY r2", "(error) ERR wrong number of arguments for 'copy' command"),
    ("SET r2 c PX 100000", "OK"),
    ("COPY r2 r5", "(integer) 1"),
    ("TTL r5", "(integer) 100"),
    ("RENAME r2 r4", "OK"),
    ("MGET r2 r4 r5", "[(nil), \"c\", \"c\"]"),
    ("MSETNX r5 1 r9 2", "(integer) 0"),
    ("EXISTS r9", "(integer) 0"),
    ("MSETNX r8 1 r9 2 r8 3", "(integer) 1"),
    ("MGET r8 r9", "[\"3\", \"2\"]"),
    ("MSETNX r8", "(error) ERR wrong number of arguments for 'msetnx' command"),
    ("MSETNX r8 1 r9", "(error) ERR wrong number of arguments for 'msetnx' command"),
    ("DEL k1 k2 k3 k4 k5 k6 k7 k8 k9 k10 k11 k12 k13 k14 k15 k16 r8 r9 r8", "(integer) 2"),
    // Transactions
    ("MULTI", "OK"),
    ("MULTI", "(error) ERR MULTI calls can not be nested"),
    ("SET m 1", "QUEUED"),
    ("GET m", "QUEUED"),
    ("INCR m", "QUEUED"),
    ("APPEND m 0", "QUEUED"),
    ("SETNX m 5", "QUEUED"),
    ("GETDEL m", "QUEUED"),
    ("EXISTS m", "QUEUED"),
    ("MSET m 3 k 4", "QUEUED"),
    ("MGET m k none", "QUEUED"),
    ("RENAME m m2", "QUEUED"),
    ("COPY m2 m3", "QUEUED"),
    ("MSETNX m 1 m3 2", "QUEUED"),
    ("DEL m2 k none m2", "QUEUED"),
    ("TYPE m3", "QUEUED"),
    ("SET m3 4 EX 100", "QUEUED"),
    ("TTL m3", "QUEUED"),
    ("PING", "QUEUED"),
    ("ECHO a", "QUEUED"),
    (
        "EXEC",
        "[OK, \"1\", (integer) 2, (integer) 2, (integer) 0, \"20\", (integer) 0, OK, [\"3\", \"4\", (nil)], OK, \
         (integer) 1, (integer) 0, (integer) 2, string, OK, (integer) 100, PONG, \"a\"]",
    ),
    ("GET m3", "\"4\""),
    ("SET t a", "OK"),
    ("MULTI", "OK"),
    ("SET u 1", "QUEUED"),
    ("INCR t", "QUEUED"),
    ("INCRBY u a", "QUEUED"),
    ("RENAME none u", "QUEUED"),
    ("SET u 2", "QUEUED"),
    (
        "EXEC",
        "[OK, (error) ERR value is not an integer or out of range, (error) ERR value is not an integer or out of range, \
         (error) ERR no such key, OK]",
    ),
    ("GET u", "\"2\""),
    ("MULTI", "OK"),
    ("SET u 3", "QUEUED"),
    ("NOTHING", "(error) ERR unknown command 'nothing'"),
    ("EXEC", "(error) EXECABORT Transaction discarded because of previous errors."),
    ("MULTI", "OK"),
    ("SET u", "(error) ERR wrong number of arguments for 'set' command"),
    ("EXEC", "(error) EXECABORT Transaction discarded because of previous errors."),
    ("MULTI x", "(error) ERR wrong number of arguments for 'multi' command"),
    ("MULTI", "OK"),
    ("SET u 3", "QUEUED"),
    ("DISCARD", "OK"),
    ("GET u", "\"2\""),
    ("MULTI", "OK"),
    ("EXEC", "[]"),
    ("WATCH u none", "OK"),
    ("MULTI", "OK"),
    ("WATCH t", "(error) ERR WATCH inside MULTI is not allowed"),
    ("GET u", "QUEUED"),
    ("EXEC", "[\"2\"]"),
    ("WATCH u", "OK"),
    ("SET u 3", "OK"),
    ("MULTI", "OK"),
    ("SET u 4", "QUEUED"),
    ("PING", "QUEUED"),
    ("EXEC", "(nil)"),
    ("WATCH none", "OK"),
    ("SET none 1", "OK"),
    ("MULTI", "OK"),
    ("EXEC", "(nil)"),
    ("DEL none", "(integer) 1"),
    ("WATCH u", "OK"),
    ("SET u 5", "OK"),
    ("UNWATCH", "OK"),
    ("MULTI", "OK"),
    ("GET u", "QUEUED"),
    ("EXEC", "[\"5\"]"),
    ("WATCH", "(error) ERR wrong number of arguments for 'watch' command"),
    ("DEL t u m3 r3 r4 r5", "(integer) 6"),
    // Numbers
    ("INCR i", "(integer) 1"),
    ("INCRBY i 10", "(integer) 11"),
    ("DECR i", "(integer) 10"),
    ("DECRBY i 15", "(integer) -5"),
    ("GET i", "\"-5\""),
    ("INCRBY i -5", "(integer) -10"),
    ("SET i 9223372036854775806", "OK"),
    ("INCR i", "(integer) 9223372036854775807"),
    ("INCR i", "(error) ERR increment or decrement would overflow"),
    ("SET i -9223372036854775808", "OK"),
    ("DECR i", "(error) ERR increment or decrement would overflow"),
    ("DECRBY i -9223372036854775808", "(error) ERR decrement would overflow"),
    ("INCRBY i 9223372036854775808", "(error) ERR value is not an integer or out of range"),
    ("INCRBY i a", "(error) ERR value is not an integer or out of range"),
    ("SET i 01", "OK"),
    ("INCR i", "(error) ERR value is not an integer or out of range"),
    ("SET i _1", "OK"),
    ("INCR i", "(error) ERR value is not an integer or out of range"),
    ("SET i -0", "OK"),
    ("INCR i", "(error) ERR value is not an integer or out of range"),
    ("SET i +1", "OK"),
    ("INCR i", "(error) ERR value is not an integer or out of range"),
    ("APPEND s Hello", "(integer) 5"),
    ("APPEND s _World", "(integer) 11"),
    ("GET s", "\"Hello World\""),
    // Time
    ("TTL none", "(integer) -2"),
    ("PTTL none", "(integer) -2"),
    ("TTL s", "(integer) -1"),
    ("PTTL s", "(integer) -1"),
    ("EXPIRETIME s", "(integer) -1"),
    ("PEXPIRETIME none", "(integer) -2"),
    ("EXPIRE none 10", "(integer) 0"),
    ("EXPIRE s 100", "(integer) 1"),
    ("TTL s", "(integer) 100"),
    ("PERSIST s", "(integer) 1"),
    ("PERSIST s", "(integer) 0"),
    ("PERSIST none", "(integer) 0"),
    ("TTL s", "(integer) -1"),
    ("EXPIRE s 100 XX", "(integer) 0"),
    ("EXPIRE s 100 GT", "(integer) 0"),
    ("EXPIRE s 100 LT", "(integer) 1"),
    ("EXPIRE s 50 NX", "(integer) 0"),
    ("EXPIRE s 50 GT", "(integer) 0"),
    ("EXPIRE s 200 LT", "(integer) 0"),
    ("EXPIRE s 200 GT", "(integer) 1"),
    ("EXPIRE s 100 XX LT", "(integer) 1"),
    ("TTL s", "(integer) 100"),
    ("EXPIRE s 100 NX XX", "(error) ERR NX and XX, GT or LT options at the same time are not compatible"),
    ("EXPIRE s 100 GT LT", "(error) ERR GT and LT options at the same time are not compatible"),
    ("EXPIRE s 100 FOO", "(error) ERR Unsupported option FOO"),
    ("EXPIRE s a", "(error) ERR value is not an integer or out of range"),
    ("EXPIRE s 9223372036854775807", "(error) ERR invalid expire time in 'expire' command"),
    ("SET s Hello KEEPTTL", "OK"),
    ("TTL s", "(integer) 100"),
    ("APPEND s _World", "(integer) 11"),
    ("TTL s", "(integer) 100"),
    ("SET s Hello", "OK"),
    ("TTL s", "(integer) -1"),
    ("SET s 5 EX 100", "OK"),
    ("INCR s", "(integer) 6"),
    ("TTL s", "(integer) 100"),
    ("GETEX s", "\"6\""),
    ("TTL s", "(integer) 100"),
    ("GETEX s PERSIST", "\"6\""),
    ("TTL s", "(integer) -1"),
    ("GETEX s EX 100", "\"6\""),
    ("TTL s", "(integer) 100"),
    ("GETEX none EX 100", "(nil)"),
    ("GETEX s EX 0", "(error) ERR invalid expire time in 'getex' command"),
    ("GETEX s FOO", "(error) ERR syntax error"),
    ("GETSET s 7", "\"6\""),
    ("TTL s", "(integer) -1"),
    ("SETEX s 100 a", "OK"),
    ("TTL s", "(integer) 100"),
    ("SETEX s 0 a", "(error) ERR invalid expire time in 'setex' command"),
    ("PSETEX s 100000 a", "OK"),
    ("TTL s", "(integer) 100"),
    ("PEXPIRE s 200000", "(integer) 1"),
    ("TTL s", "(integer) 200"),
    ("EXPIREAT s 33177117420", "(integer) 1"),
    ("EXPIRETIME s", "(integer) 33177117420"),
    ("PEXPIRETIME s", "(integer) 33177117420000"),
    ("PEXPIREAT s 33177117421999", "(integer) 1"),
    ("PEXPIRETIME s", "(integer) 33177117421999"),
    ("SET s a PXAT 33177117421999", "OK"),
    ("PEXPIRETIME s", "(integer) 33177117421999"),
    // A time that is past deletes.
    ("EXPIRE s -1", "(integer) 1"),
    ("EXISTS s", "(integer) 0"),
    ("SET s a", "OK"),
    ("EXPIREAT s 1", "(integer) 1"),
    ("GET s", "(nil)"),
    ("SET s a EXAT 1", "OK"),
    ("GET s", "(nil)"),
    ("SET s a PX 100000", "OK"),
    ("DEL s", "(integer) 1"),
    // The connection
    ("PING", "PONG"),
    ("PING hello", "\"hello\""),
    ("PING a b", "(error) ERR wrong number of arguments for 'ping' command"),
    ("ECHO hello", "\"hello\""),
    ("SELECT 0", "OK"),
    ("SELECT 16", "(error) ERR DB index is out of range"),
    ("SELECT a", "(error) ERR value is not an integer or out of range"),
    ("CLIENT GETNAME", "(nil)"),
    ("CLIENT SETNAME me", "OK"),
    ("CLIENT GETNAME", "\"me\""),
    ("CLIENT SETNAME a_b", "(error) ERR Client names cannot contain spaces, newlines or special characters."),
    ("CLIENT SETNAME \"\"", "OK"),
    ("CLIENT GETNAME", "(nil)"),
    ("CLIENT FOO", "(error) ERR unknown subcommand 'foo' of CLIENT"),
    ("AUTH a", "(error) ERR AUTH called without any password configured"),
    ("HELLO 4", "(error) NOPROTO unsupported protocol version"),
    ("HELLO a", "(error) ERR Protocol version is not an integer or out of range"),
    ("CONFIG GET save", "[\"save\", \"\"]"),
    ("CONFIG GET nothing*", "[]"),
    ("UNWATCH", "OK"),
    ("EXEC", "(error) ERR EXEC without MULTI"),
    ("DISCARD", "(error) ERR DISCARD without MULTI"),
    (
        "EVALSHA 0000000000000000000000000000000000000000 0",
        "(error) NOSCRIPT No matching script. Scripts aren't supported, but for those of locks",
    ),
    ("FOO", "(error) ERR unknown command 'foo'"),
    ("RESET", "RESET"),
];

/// Lines of this store alone.
const OWN: &[(&str, &str)] = &[
    // (Valkey's page of SET)
    ("SET foo_bar x", "OK"),
    ("SET foo_bar y IFEQ z", "(nil)"),
    ("SET foo_bar y IFEQ x", "OK"),
    ("SET foo_bar z IFEQ y GET", "\"y\""),
    ("SET none z IFEQ y", "(nil)"),
    ("SET foo_bar z IFEQ y NX", "(error) ERR syntax error"),
    ("GET foo_bar", "\"z\""),
    ("COMMAND COUNT", "(integer) 60"),
    ("COMMAND INFO get nothing", "[[\"get\", (integer) 2, [readonly], (integer) 1, (integer) 1, (integer) 1], (nil)]"),
    ("COMMAND DOCS", "[]"),
    ("CONFIG GET append*", "[\"appendfsync\", \"always\", \"appendonly\", \"yes\"]"),
    ("CLIENT SETINFO LIB-NAME me", "OK"),
    ("CLIENT SETINFO LIB-VER 1.0", "OK"),
    ("READONLY", "OK"),
    ("GET foo_bar", "\"z\""),
    ("MGET foo_bar none", "[\"z\", (nil)]"),
    ("SET foo_bar a", "OK"),
    ("GET foo_bar", "\"a\""),
    ("READWRITE", "OK"),
    ("GET \"\"", "(error) ERR a key has 1 to 255 bytes"),
    ("DEL x \"\"", "(error) ERR a key has 1 to 255 bytes"),
    // Locks
    ("EPAXOS HOLDER l", "(nil)"),
    ("EPAXOS LOCK l me 100000", "(integer) 1"),
    ("EPAXOS LOCK l you 100000", "(nil)"),
    ("EPAXOS LOCK l me 100000", "(integer) 1"),
    ("EPAXOS RENEW l you 100000", "(nil)"),
    ("EPAXOS RENEW l me 100000", "(integer) 1"),
    ("EPAXOS UNLOCK l you", "(integer) 0"),
    ("EPAXOS UNLOCK l me", "(integer) 1"),
    ("EPAXOS UNLOCK l me", "(integer) 0"),
    ("EPAXOS HOLDER l", "(nil)"),
    ("EPAXOS LOCK l you 100000", "(integer) 2"),
    ("TYPE l", "lock"),
    ("EXISTS l", "(integer) 1"),
    ("GET l", "(error) WRONGTYPE Operation against a key holding the wrong kind of value"),
    ("INCR l", "(error) WRONGTYPE Operation against a key holding the wrong kind of value"),
    ("EXPIRE l 1", "(error) WRONGTYPE Operation against a key holding the wrong kind of value"),
    ("MGET l", "[(nil)]"),
    ("EPAXOS LOCK foo_bar me 1000", "(error) WRONGTYPE Operation against a key holding the wrong kind of value"),
    ("EPAXOS LOCK l me 0", "(error) ERR invalid expire time in 'epaxos|lock' command"),
    ("EPAXOS LOCK l \"\" 10", "(error) ERR an owner has 1 to 255 bytes"),
    ("EPAXOS LOCK l me", "(error) ERR wrong number of arguments for 'epaxos|lock' command"),
    ("EPAXOS FOO", "(error) ERR unknown subcommand 'foo' of EPAXOS"),
    ("RENAME l x", "(error) WRONGTYPE Operation against a key holding the wrong kind of value"),
    ("COPY l x", "(error) WRONGTYPE Operation against a key holding the wrong kind of value"),
    ("MULTI", "OK"),
    ("EPAXOS UNLOCK l you", "QUEUED"),
    ("EPAXOS LOCK l me 100000", "QUEUED"),
    ("GET l", "QUEUED"),
    ("EPAXOS MEMBERS", "(error) ERR Command not allowed inside a transaction"),
    ("EXEC", "(error) EXECABORT Transaction discarded because of previous errors."),
    ("MULTI", "OK"),
    ("EPAXOS UNLOCK l you", "QUEUED"),
    ("EPAXOS LOCK l me 100000", "QUEUED"),
    ("GET l", "QUEUED"),
    ("EPAXOS UNLOCK l me", "QUEUED"),
    (
        "EXEC",
        "[(integer) 1, (integer) 3, (error) WRONGTYPE Operation against a key holding the wrong kind of value, (integer) 1]",
    ),
    ("DEL l", "(integer) 1"),
    ("EPAXOS LOCK l me 1", "(integer) 1"),
    // If all is as it should be, all of it is done
    ("EPAXOS TXN IFABSENT t1 SET t1 1 GET t1", "[(integer) 1, [(nil)]]"),
    ("EPAXOS TXN SET t2 5 IF t1 1 SET t1 2 GET t2 get t1", "[(integer) 1, [(nil), \"1\"]]"),
    ("EPAXOS TXN IF t1 1 IF t2 5 DEL t1 GET t2 GET t2", "[(integer) 0, [\"5\", \"5\"]]"),
    ("EPAXOS TXN GET t1 GET none", "[(integer) 1, [\"2\", (nil)]]"),
    ("EPAXOS TXN IFABSENT t1 DEL t2", "[(integer) 0, []]"),
    // (whatever deadline the value has)
    ("SET t1 x EX 100", "OK"),
    ("EPAXOS TXN IF t1 x SET t2 6 GET t1", "[(integer) 1, [\"x\"]]"),
    ("MGET t1 t2", "[\"x\", \"6\"]"),
    ("TTL t1", "(integer) 100"),
    ("EPAXOS TXN IF t1 x DEL t1 DEL t2", "[(integer) 1, []]"),
    ("EXISTS t1 t2", "(integer) 0"),
    ("EPAXOS TXN", "(error) ERR wrong number of arguments for 'epaxos|txn' command"),
    ("EPAXOS TXN IF t1", "(error) ERR syntax error"),
    ("EPAXOS TXN FOO t1", "(error) ERR syntax error"),
    ("EPAXOS TXN SET t1 1 DEL t1", "(error) ERR syntax error"),
    ("EPAXOS TXN IF t1 1 IFABSENT t1", "(error) ERR syntax error"),
    ("EPAXOS TXN GET \"\"", "(error) ERR a key has 1 to 255 bytes"),
    (
        "EPAXOS TXN GET 1 GET 2 GET 3 GET 4 GET 5 GET 6 GET 7 GET 8 GET 9 IF 10 a IF 11 a IF 12 a IF 13 a IF 14 a IF 15 a IF 16 a IFABSENT 17",
        "(error) ERR nothing was done: IF, IFABSENT and GET may name 16 keys at most",
    ),
];

/// Whether what was replied is what was expected: of a time that is left as much less as has passed since it was set,
/// at most so much.
fn is_as_expected(line: &str, shown: &str, expected: &str, passed: Duration) -> bool {
    let seconds = |text: &str| text.strip_prefix("(integer) ")?.parse::<u64>().ok();
    match (line.starts_with("TTL "), seconds(shown), seconds(expected)) {
        (true, Some(shown), Some(expected)) => {
            (expected.saturating_sub(passed.as_secs() + 1)..=expected).contains(&shown)
        }
        _ => shown == expected,
    }
}

/// What has a deadline is there at the deadline, and isn't so long after it.
const PAST: Duration = Duration::from_millis(20);

/// Tries what has to be done within a time, in milliseconds: again with a longer one where it took longer, as on a machine that is busy.
fn within_a_time(mut try_it: impl FnMut(u64) -> bool) {
    assert!([300, 1_500, 8_000, 40_000].into_iter().any(&mut try_it), "it took longer than 40 s");
}

fn first_word(text: &str) -> &str {
    let text = text.strip_prefix("(error) ").unwrap_or(text);
    text.split(' ').next().unwrap_or(text)
}

#[test]
fn replies_are_those_of_redis() {
    let memory = Memory::start("commands", Duration::ZERO);
    let mut client = memory.client();
    let start = Instant::now();
    for (line, expected) in SAME.iter().chain(OWN) {
        let shown = shown(&ask(&mut client, line));
        assert!(is_as_expected(line, &shown, expected, start.elapsed()), "{line}: {shown}, and not {expected}");
    }
    let Some(redis) = Redis::start() else { return };
    let mut client = Client::connect(redis.1.port(0), Duration::from_secs(60)).unwrap();
    let start = Instant::now();
    for (line, expected) in SAME {
        let shown = shown(&ask(&mut client, line));
        if expected.starts_with("(error)") {
            assert_eq!(first_word(&shown), first_word(expected), "{line}: {shown}");
        } else {
            let is_expected = is_as_expected(line, &shown, expected, start.elapsed());
            assert!(is_expected, "Redis' reply to {line}: {shown}, and not {expected}");
        }
    }
}

#[test]
fn values_live_as_long_as_they_are_to() {
    let memory = Memory::start("expiry", Duration::ZERO);
    let redis = Redis::start();
    within_a_time(|time| live_for(&mut memory.client(), time));
    if let Some(redis) = &redis {
        within_a_time(|time| live_for(&mut Client::connect(redis.1.port(0), Duration::from_secs(60)).unwrap(), time));
    }
    // A local read replies nil too.
    let mut client = memory.client();
    assert_eq!(shown(&ask(&mut client, "READONLY")), "OK");
    within_a_time(|time| {
        let mut reply_to = |line: &str| shown(&ask(&mut client, line));
        let start = Instant::now();
        assert_eq!(reply_to(&format!("SET x 1 PX {time}")), "OK");
        let early = reply_to("GET x");
        let is_in_time = start.elapsed() < Duration::from_millis(time);
        assert!(early == "\"1\"" || !is_in_time, "{early}");
        thread::sleep(Duration::from_millis(time) + PAST);
        assert_eq!(reply_to("GET x"), "(nil)");
        is_in_time
    });
}

/// Values that live for so many milliseconds: whether all that has to be asked in this time was.
fn live_for(client: &mut Client, time: u64) -> bool {
    let over = Duration::from_millis(time);
    let mut reply_to = |line: &str| shown(&ask(client, line));
    reply_to("DEL x y");
    let start = Instant::now();
    assert_eq!(reply_to(&format!("SET x 1 PX {time}")), "OK");
    assert_eq!(reply_to(&format!("SET y 1 PX {time}")), "OK");
    let longer = reply_to("PEXPIRE y 100000");
    let Reply::Integer(left) = ask(client, "PTTL x") else { panic!() };
    if start.elapsed() >= over {
        return false;
    }
    assert_eq!(longer, "(integer) 1");
    assert!((0..=time as i64).contains(&left), "{left}");
    thread::sleep(over + PAST);
    let mut reply_to = |line: &str| shown(&ask(client, line));
    assert_eq!(reply_to("GET x"), "(nil)");
    assert_eq!(reply_to("EXISTS x y"), "(integer) 1");
    assert_eq!(reply_to("TTL x"), "(integer) -2");
    let start = Instant::now();
    assert_eq!(reply_to(&format!("SET x 2 NX PX {time}")), "OK");
    let other = reply_to(&format!("SET x 3 NX PX {time}"));
    if start.elapsed() >= over {
        return false;
    }
    assert_eq!(other, "(nil)");
    thread::sleep(over + PAST);
    assert_eq!(reply_to("INCR x"), "(integer) 1");
    assert_eq!(reply_to("TTL x"), "(integer) -1");
    true
}

#[test]
fn locks_end_by_themselves() {
    let memory = Memory::start("locks", Duration::ZERO);
    let mut client = memory.client();
    within_a_time(|time| {
        let mut reply_to = |line: &str| shown(&ask(&mut client, line));
        reply_to("DEL l");
        let start = Instant::now();
        assert_eq!(reply_to(&format!("EPAXOS LOCK l me {time}")), "(integer) 1");
        let other = reply_to("EPAXOS LOCK l you 1000");
        if start.elapsed() >= Duration::from_millis(time) {
            return false;
        }
        assert_eq!(other, "(nil)");
        thread::sleep(Duration::from_millis(time) + PAST);
        true
    });
    let mut reply_to = |line: &str| shown(&ask(&mut client, line));
    assert_eq!(reply_to("EPAXOS HOLDER l"), "(nil)");
    assert_eq!(reply_to("EPAXOS RENEW l me 1000"), "(nil)");
    assert_eq!(reply_to("EPAXOS UNLOCK l me"), "(integer) 0");
    // Who comes later has a greater token, also the one who had it.
    assert_eq!(reply_to("EPAXOS LOCK l me 100000"), "(integer) 2");
    assert_eq!(reply_to("EPAXOS LOCK l you 1000"), "(nil)");
    let Reply::Array(holder) = ask(&mut client, "EPAXOS HOLDER l") else { panic!() };
    assert_eq!(holder[..2], [Reply::Bulk(Some(b"me".to_vec())), Reply::Integer(2)]);
    assert!(matches!(holder[2], Reply::Integer(1..=100_001)), "{holder:?}");
}

#[test]
fn the_third_version_of_the_protocol() {
    let memory = Memory::start("resp3", Duration::ZERO);
    let mut clients = vec![memory.client()];
    let redis = Redis::start();
    clients.extend(redis.iter().map(|redis| Client::connect(redis.1.port(0), Duration::from_secs(60)).unwrap()));
    for client in &mut clients {
        let Reply::Array(pairs) = ask(client, "HELLO 2") else { panic!() };
        assert!(pairs.chunks(2).any(|pair| pair == [Reply::Bulk(Some(b"proto".to_vec())), Reply::Integer(2)]));
        let Reply::Map(pairs) = ask(client, "HELLO 3 SETNAME me") else { panic!() };
        assert!(pairs.contains(&(Reply::Bulk(Some(b"proto".to_vec())), Reply::Integer(3))));
        assert_eq!(shown(&ask(client, "CLIENT GETNAME")), "\"me\"");
        assert_eq!(shown(&ask(client, "CONFIG GET save")), "{\"save\": \"\"}");
        assert_eq!(shown(&ask(client, "GET none")), "(nil)");
        assert_eq!(shown(&ask(client, "RESET")), "RESET");
        assert_eq!(shown(&ask(client, "CONFIG GET save")), "[\"save\", \"\"]");
        assert_eq!(shown(&ask(client, "CLIENT GETNAME")), "(nil)");
    }
}

#[test]
fn scripts_of_locks() {
    let memory = Memory::start("scripts", Duration::ZERO);
    let mut client = memory.client();
    let unlock = "if redis.call(\"get\",KEYS[1]) == ARGV[1] then\n    return redis.call(\"del\",KEYS[1])\nelse\n    return 0\nend";
    let eval = |client: &mut Client, value: &str| {
        shown(&client.ask(&[b"EVAL", unlock.as_bytes(), b"1", b"lock", value.as_bytes()]).unwrap())
    };
    assert_eq!(shown(&ask(&mut client, "SET lock a NX PX 30000")), "OK");
    assert_eq!(eval(&mut client, "b"), "(integer) 0");
    assert_eq!(eval(&mut client, "a"), "(integer) 1");
    assert_eq!(eval(&mut client, "a"), "(integer) 0");
    let start = Instant::now();
    let odd = client.ask(&[b"EVAL", b"return 1", b"0"]).unwrap();
    assert_eq!(odd, Reply::Error(CommandFault::Script.to_string()));
    let left = |client: &mut Client, expected: &str| {
        let shown = shown(&ask(client, "TTL lock"));
        assert!(is_as_expected("TTL lock", &shown, expected, start.elapsed()), "{shown}, and not {expected}");
    };
    // (the digests are of redis-py's lock.py)
    let extend = "EVALSHA a4e8783852e6b949f9ef3a97212805108459a890 1 lock a";
    assert_eq!(shown(&ask(&mut client, &format!("{extend} 1000 0"))), "(integer) 0");
    assert_eq!(shown(&ask(&mut client, "SET lock a")), "OK");
    // (what has no deadline isn't extended)
    assert_eq!(shown(&ask(&mut client, &format!("{extend} 1000 0"))), "(integer) 0");
    assert_eq!(shown(&ask(&mut client, &format!("{extend} 1000 1"))), "(integer) 0");
    assert_eq!(shown(&ask(&mut client, "SET lock a PX 100000")), "OK");
    assert_eq!(shown(&ask(&mut client, &format!("{extend} 100000 0"))), "(integer) 1");
    left(&mut client, "(integer) 200");
    assert_eq!(shown(&ask(&mut client, &format!("{extend} 50000 1"))), "(integer) 1");
    left(&mut client, "(integer) 50");
    assert_eq!(
        shown(&ask(&mut client, "EVALSHA 1cac51482acf5858da00f6d685d68f886cd6b6b2 1 lock b 70000")),
        "(integer) 0"
    );
    assert_eq!(
        shown(&ask(&mut client, "EVALSHA 1CAC51482acf5858da00f6d685d68f886cd6b6b2 1 lock a 70000")),
        "(integer) 1"
    );
    left(&mut client, "(integer) 70");
    assert_eq!(shown(&ask(&mut client, "EVALSHA c3f8721cbb97f72bc19e972846bd7aaf91901658 1 lock b")), "(integer) 0");
    assert_eq!(shown(&ask(&mut client, "EVALSHA c3f8721cbb97f72bc19e972846bd7aaf91901658 1 lock a")), "(integer) 1");
    assert_eq!(shown(&ask(&mut client, "GET lock")), "(nil)");
    assert_eq!(
        shown(&ask(&mut client, "SCRIPT EXISTS c3f8721cbb97f72bc19e972846bd7aaf91901658 00")),
        "[(integer) 1, (integer) 0]"
    );
}

#[test]
fn sizes() {
    let memory = Memory::start("sizes", Duration::ZERO);
    let mut client = memory.client();
    let long = vec![0xff; 65_525];
    let mut set = |words: &[&[u8]]| shown(&client.ask(words).unwrap());
    assert_eq!(set(&[b"SET", b"x", &long, b"EX", b"100"]), "OK");
    assert_eq!(set(&[b"STRLEN", b"x"]), "(integer) 65525");
    assert_eq!(set(&[b"APPEND", b"x", b"a"]), "(error) ERR string exceeds maximum allowed size (65525 bytes)");
    assert_eq!(set(&[b"SET", b"x", &[0; 65_526]]), "(error) ERR a value has at most 65525 bytes");
    assert_eq!(set(&[b"SET", &[b'k'; 255], b""]), "OK");
    assert_eq!(set(&[b"SET", &[b'k'; 256], b""]), "(error) ERR a key has 1 to 255 bytes");
    assert_eq!(set(&[b"MSET", b"a", b"1", b"", b"2"]), "(error) ERR a key has 1 to 255 bytes");
    assert_eq!(client.ask(&[b"GET", b"x"]).unwrap(), Reply::Bulk(Some(long)));
    assert_eq!(client.ask(&[b"GET", b"a"]).unwrap(), Reply::Bulk(None));
}

/// In how many turns of the core so many keys are SET by a pipeline.
fn set_all(memory: &Memory, keys: usize) -> u64 {
    let (mut client, before) = (memory.client(), memory.turns());
    let names: Vec<_> = (0..keys).map(|key| format!("0-{key}").into_bytes()).collect();
    let words: Vec<[&[u8]; 3]> = names.iter().map(|name| [&b"SET"[..], name, name]).collect();
    client.send(&words.iter().map(|words| &words[..]).collect::<Vec<_>>()).unwrap();
    names.iter().for_each(|_| assert_eq!(client.read().unwrap(), Reply::Simple("OK".into())));
    memory.turns() - before
}

#[test]
fn a_pipeline_is_one() {
    // What has come takes 20 ms, however much it is.
    let memory = Memory::start("pipeline", Duration::from_millis(20));
    // (one after the other they would take 500; where the machine is busy it is tried again)
    wait("a pipeline in 150 turns", || set_all(&memory, 500) <= 150);
    // Replies come in order, whatever finishes first; of one key commands are done in the order in which they were sent.
    let mut client = memory.client();
    let lines = [
        "SET a 1",
        "PING",
        "GET a",
        "INCR a",
        "GET none",
        "ECHO x",
        "APPEND a 3",
        "DEL a",
        "GET a",
        "TYPE a",
        "MGET a 0-1",
    ];
    let lines: Vec<_> = lines.iter().map(|line| words(line)).collect();
    let commands: Vec<Vec<&[u8]>> = lines.iter().map(|words| words.iter().map(Vec::as_slice).collect()).collect();
    client.send(&commands.iter().map(Vec::as_slice).collect::<Vec<_>>()).unwrap();
    let replies: Vec<_> = lines.iter().map(|_| shown(&client.read().unwrap())).collect();
    assert_eq!(
        replies,
        [
            "OK",
            "PONG",
            "\"1\"",
            "(integer) 2",
            "(nil)",
            "\"x\"",
            "(integer) 2",
            "(integer) 1",
            "(nil)",
            "none",
            "[(nil), \"0-1\"]"
        ]
    );
    let info = info(&mut client);
    assert!(
        info.starts_with("replica:0\r\n")
            && info.contains("\r\nstore_version:")
            && info.contains("\r\nconnected_clients:"),
        "{info}"
    );
    // After QUIT nothing is taken, and all before it is answered.
    let quit: [&[&[u8]]; 3] = [&[b"SET", b"a", b"5"], &[b"QUIT"], &[b"SET", b"a", b"6"]];
    client.send(&quit).unwrap();
    assert_eq!(
        [client.read().unwrap(), client.read().unwrap()],
        [Reply::Simple("OK".into()), Reply::Simple("OK".into())]
    );
    assert!(client.read().is_err());
    assert_eq!(shown(&ask(&mut memory.client(), "GET a")), "\"5\"");
}

#[test]
fn many_clients_of_one_key_share_commands() {
    let memory = Memory::start("shared", Duration::from_millis(20));
    let (clients, each) = (20, 20);
    // (one after the other they would take 400; where the machine is busy it is tried again)
    wait("400 commands in 200 turns", || {
        assert!(matches!(ask(&mut memory.client(), "DEL hot"), Reply::Integer(0 | 1)));
        let before = memory.turns();
        thread::scope(|scope| {
            for _ in 0..clients {
                scope.spawn(|| {
                    let mut client = memory.client();
                    (0..each).for_each(|_| assert!(matches!(ask(&mut client, "INCR hot"), Reply::Integer(_))));
                });
            }
        });
        let turns = memory.turns() - before;
        assert_eq!(shown(&ask(&mut memory.client(), "GET hot")), format!("\"{}\"", clients * each));
        turns <= 200
    });
}
