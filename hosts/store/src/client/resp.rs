//! The Redis protocol: commands of clients, and replies in its versions 2 and 3.
use crate::client::command_fault::CommandFault;
use crate::client::malformed_fault::MalformedFault;
use std::io::{self, Write};

const LONGEST_LINE: usize = 64 << 10;
const MOST_WORDS: usize = 1 << 16;
const LONGEST_WORD: usize = 256 << 10;
/// All words of one command together.
const LONGEST_COMMAND: usize = 1 << 20;

/// What the bytes that came begin with.
#[derive(PartialEq, Eq, Debug)]
pub enum Input {
    /// A command's words, and how many bytes it takes. An empty line or array has no words, and asks nothing.
    Command(Vec<Vec<u8>>, usize),
    /// The beginning of a command.
    Partial,
    /// These bytes are no command; what follows can't be read either.
    Fault(MalformedFault),
}

/// In which version of the protocol a client reads replies.
#[derive(Clone, Copy, PartialEq, Eq, Debug)]
pub enum Version {
    Two,
    Three,
}

/// What a client is sent.
#[derive(Clone, PartialEq, Eq, Debug)]
pub enum Reply {
    Simple(&'static str),
    Error(CommandFault),
    Integer(i64),
    Bulk(Vec<u8>),
    Nil,
    /// Nil where an array was expected.
    NilArray,
    Array(Vec<Reply>),
    /// Names with what they have. In version 2 an array of both, in turn.
    Map(Vec<(Reply, Reply)>),
}

impl Reply {
    pub fn text(text: &str) -> Reply {
        Reply::Bulk(text.as_bytes().to_vec())
    }

    /// How many bytes it takes, about.
    pub fn size(&self) -> usize {
        let within = match self {
            Reply::Bulk(bytes) => bytes.len(),
            Reply::Array(items) => items.iter().map(Reply::size).sum(),
            Reply::Map(pairs) => pairs.iter().map(|(name, item)| name.size() + item.size()).sum(),
            Reply::Simple(_) | Reply::Error(_) | Reply::Integer(_) | Reply::Nil | Reply::NilArray => 0,
        };
        size_of::<Reply>() + within
    }

    pub fn write(&self, out: &mut impl Write, version: Version) -> io::Result<()> {
        match self {
            Reply::Simple(text) => write!(out, "+{text}\r\n"),
            Reply::Error(fault) => write!(out, "-{fault}\r\n"),
            Reply::Integer(number) => write!(out, ":{number}\r\n"),
            Reply::Bulk(bytes) => {
                write!(out, "${}\r\n", bytes.len())?;
                out.write_all(bytes)?;
                out.write_all(b"\r\n")
            }
            Reply::Nil => out.write_all(if version == Version::Two { b"$-1\r\n" } else { b"_\r\n" }),
            Reply::NilArray => out.write_all(if version == Version::Two { b"*-1\r\n" } else { b"_\r\n" }),
            Reply::Array(items) => {
                write!(out, "*{}\r\n", items.len())?;
                items.iter().try_for_each(|item| item.write(out, version))
            }
            Reply::Map(pairs) => {
                match version {
                    Version::Two => write!(out, "*{}\r\n", 2 * pairs.len())?,
                    Version::Three => write!(out, "%{}\r\n", pairs.len())?,
                }
                pairs.iter().try_for_each(|(name, item)| {
                    name.write(out, version)?;
                    item.write(out, version)
                })
            }
        }
    }
}

/// Reads the command that the bytes begin with: an array of bulk strings, or an inline one.
pub fn read_command(bytes: &[u8]) -> Input {
    let mut rest = bytes;
    let words = match read_line(&mut rest, MalformedFault::LongLine) {
        Err(Stop::Partial) => return Input::Partial,
        Err(Stop::Fault(fault)) => return Input::Fault(fault),
        Ok(line) => match line.strip_prefix(b"*") {
            Some(count) => read_array(&mut rest, count),
            None => split_inline(line).ok_or(Stop::Fault(MalformedFault::Quotes)),
        },
    };
    match words {
        Ok(words) => Input::Command(words, bytes.len() - rest.len()),
        Err(Stop::Partial) => Input::Partial,
        Err(Stop::Fault(fault)) => Input::Fault(fault),
    }
}

/// Why there is no command.
enum Stop {
    Partial,
    Fault(MalformedFault),
}

/// A line without its end.
fn read_line<'a>(rest: &mut &'a [u8], too_long: MalformedFault) -> Result<&'a [u8], Stop> {
    let within = &rest[..rest.len().min(LONGEST_LINE)];
    let Some(end) = within.iter().position(|byte| *byte == b'\n') else {
        return Err(if within.len() < LONGEST_LINE { Stop::Partial } else { Stop::Fault(too_long) });
    };
    let line = &within[..end];
    *rest = &rest[end + 1..];
    Ok(line.strip_suffix(b"\r").unwrap_or(line))
}

fn number(digits: &[u8]) -> Option<i64> {
    std::str::from_utf8(digits).ok()?.parse().ok()
}

fn read_array(rest: &mut &[u8], count: &[u8]) -> Result<Vec<Vec<u8>>, Stop> {
    let Some(count) = number(count).filter(|count| *count <= MOST_WORDS as i64) else {
        return Err(Stop::Fault(MalformedFault::Words));
    };
    let mut words = Vec::new();
    let mut left = LONGEST_COMMAND;
    for _ in 0..count {
        let line = read_line(rest, MalformedFault::LongCount)?;
        let Some(length) = line.strip_prefix(b"$") else {
            return Err(Stop::Fault(MalformedFault::NoLength));
        };
        let length = number(length).and_then(|length| usize::try_from(length).ok());
        let Some(length) = length.filter(|length| *length <= LONGEST_WORD.min(left)) else {
            return Err(Stop::Fault(MalformedFault::Length));
        };
        left -= length;
        let Some((word, after)) = rest.split_at_checked(length + 2) else {
            return Err(Stop::Partial);
        };
        if &word[length..] != b"\r\n" {
            return Err(Stop::Fault(MalformedFault::NoLineEnd));
        }
        words.push(word[..length].to_vec());
        *rest = after;
    }
    Ok(words)
}

/// The words of an inline command. None where a quote isn't closed, or isn't followed by a space.
fn split_inline(line: &[u8]) -> Option<Vec<Vec<u8>>> {
    let mut words = Vec::new();
    let mut rest = line.trim_ascii();
    while let Some(first) = rest.first() {
        let word;
        (word, rest) = match first {
            b'"' => quoted(&rest[1..])?,
            b'\'' => plainly_quoted(&rest[1..])?,
            _ => {
                let end = rest.iter().position(u8::is_ascii_whitespace).unwrap_or(rest.len());
                (rest[..end].to_vec(), &rest[end..])
            }
        };
        if rest.first().is_some_and(|byte| !byte.is_ascii_whitespace()) {
            return None;
        }
        rest = rest.trim_ascii_start();
        words.push(word);
    }
    Some(words)
}

/// What stands up to the closing `"`, with escapes, and the rest.
fn quoted(mut rest: &[u8]) -> Option<(Vec<u8>, &[u8])> {
    let mut word = Vec::new();
    loop {
        let (byte, after) = match rest {
            [b'"', after @ ..] => return Some((word, after)),
            [b'\\', b'x', high, low, after @ ..] if high.is_ascii_hexdigit() && low.is_ascii_hexdigit() => {
                let digit = |byte: &u8| (*byte as char).to_digit(16).unwrap_or(0) as u8;
                (digit(high) << 4 | digit(low), after)
            }
            [b'\\', byte, after @ ..] => (unescaped(*byte), after),
            [byte, after @ ..] => (*byte, after),
            [] => return None,
        };
        word.push(byte);
        rest = after;
    }
}

fn unescaped(byte: u8) -> u8 {
    match byte {
        b'n' => b'\n',
        b'r' => b'\r',
        b't' => b'\t',
        b'a' => 7,
        b'b' => 8,
        other => other,
    }
}

/// What stands up to the closing `'`, where only `\'` is an escape, and the rest.
fn plainly_quoted(mut rest: &[u8]) -> Option<(Vec<u8>, &[u8])> {
    let mut word = Vec::new();
    loop {
        let (byte, after) = match rest {
            [b'\'', after @ ..] => return Some((word, after)),
            [b'\\', b'\'', after @ ..] => (b'\'', after),
            [byte, after @ ..] => (*byte, after),
            [] => return None,
        };
        word.push(byte);
        rest = after;
    }
}

#[cfg(test)]
mod tests {
    use super::*;

    /// The commands that bytes spell, one after the other, and what they end with.
    fn read(mut bytes: &[u8]) -> (Vec<Vec<Vec<u8>>>, Input) {
        let mut commands = Vec::new();
        loop {
            match read_command(bytes) {
                Input::Command(words, length) => {
                    commands.extend(Some(words).filter(|words| !words.is_empty()));
                    bytes = &bytes[length..];
                }
                end => return (commands, end),
            }
        }
    }

    #[test]
    fn arrays() {
        let bytes = b"*3\r\n$3\r\nSET\r\n$2\r\n\r\n\r\n$0\r\n\r\n*1\r\n$4\r\nPING\r\n";
        let expected: [&[&[u8]]; 2] = [&[b"SET", b"\r\n", b""], &[b"PING"]];
        assert_eq!(
            read(bytes),
            (expected.map(|words| words.iter().map(|word| word.to_vec()).collect()).to_vec(), Input::Partial)
        );
    }

    #[test]
    fn inline_commands() {
        let bytes = b"\r\n*0\r\n*-1\r\n  set  a b\r\nPING\nget \"a \\x41\\n\\\"\" 'b\\'\\n'\r\n";
        let expected: [&[&[u8]]; 3] = [&[b"set", b"a", b"b"], &[b"PING"], &[b"get", b"a A\n\"", b"b'\\n"]];
        assert_eq!(
            read(bytes),
            (expected.map(|words| words.iter().map(|word| word.to_vec()).collect()).to_vec(), Input::Partial)
        );
    }

    #[test]
    fn what_is_cut_off_is_no_command() {
        let bytes = b"*2\r\n$3\r\nGET\r\n$1\r\nx\r\n";
        for cut in 0..bytes.len() {
            assert_eq!(read_command(&bytes[..cut]), Input::Partial, "cut at {cut}");
        }
        assert_eq!(read_command(bytes), Input::Command(vec![b"GET".to_vec(), b"x".to_vec()], bytes.len()));
    }

    #[test]
    fn faults() {
        let long_count = [b"*1\r\n$".to_vec(), vec![b'1'; 70_000]].concat();
        let faults: [(&[u8], MalformedFault); 11] = [
            (b"*x\r\n", MalformedFault::Words),
            (b"*70000\r\n", MalformedFault::Words),
            (b"*1\r\n:1\r\n", MalformedFault::NoLength),
            (b"*1\r\n$-1\r\n", MalformedFault::Length),
            (b"*1\r\n$2000000\r\n", MalformedFault::Length),
            (b"*1\r\n$99999999999999999999\r\n", MalformedFault::Length),
            (b"*1\r\n$1\r\nabc\r\n", MalformedFault::NoLineEnd),
            (b"get \"a\r\n", MalformedFault::Quotes),
            (b"get 'a'b\r\n", MalformedFault::Quotes),
            (&[b'a'; 70_000], MalformedFault::LongLine),
            (&long_count, MalformedFault::LongCount),
        ];
        for (bytes, fault) in faults {
            assert_eq!(read_command(bytes), Input::Fault(fault), "{}", String::from_utf8_lossy(bytes));
        }
        // Words that are too long together are refused before they have come.
        let word = [format!("${LONGEST_WORD}\r\n").into_bytes(), vec![b'a'; LONGEST_WORD], b"\r\n".to_vec()].concat();
        let bytes = [b"*5\r\n".to_vec(), word.repeat(4), b"$1\r\n".to_vec()].concat();
        assert_eq!(read_command(&bytes), Input::Fault(MalformedFault::Length));
        let bytes = [b"*5\r\n".to_vec(), word.repeat(4)].concat();
        assert_eq!(read_command(&bytes), Input::Partial);
    }

    fn written(reply: &Reply, version: Version) -> String {
        let mut out = Vec::new();
        reply.write(&mut out, version).unwrap();
        String::from_utf8(out).unwrap()
    }

    #[test]
    fn replies_in_both_versions() {
        // (as Redis' page of the protocol has them)
        let pairs = Reply::Map(vec![(Reply::text("a"), Reply::Integer(1)), (Reply::text("b"), Reply::Nil)]);
        for (reply, two, three) in [
            (Reply::Simple("OK"), "+OK\r\n", "+OK\r\n"),
            (Reply::Error(CommandFault::Syntax), "-ERR syntax error\r\n", "-ERR syntax error\r\n"),
            (Reply::Integer(-1), ":-1\r\n", ":-1\r\n"),
            (Reply::text("a\r\n"), "$3\r\na\r\n\r\n", "$3\r\na\r\n\r\n"),
            (Reply::text(""), "$0\r\n\r\n", "$0\r\n\r\n"),
            (Reply::Nil, "$-1\r\n", "_\r\n"),
            (Reply::Array(vec![]), "*0\r\n", "*0\r\n"),
            (Reply::Array(vec![Reply::Nil, Reply::Integer(2)]), "*2\r\n$-1\r\n:2\r\n", "*2\r\n_\r\n:2\r\n"),
            (pairs, "*4\r\n$1\r\na\r\n:1\r\n$1\r\nb\r\n$-1\r\n", "%2\r\n$1\r\na\r\n:1\r\n$1\r\nb\r\n_\r\n"),
        ] {
            assert_eq!(written(&reply, Version::Two), two);
            assert_eq!(written(&reply, Version::Three), three);
        }
    }
}
