//! Why a client's command isn't answered by its reply.
use crate::client::malformed_fault::MalformedFault;
use crate::core::outcome::Outcome;
use crate::core::stored::{LONGEST_CONTENT, LONGEST_OWNER};
use crate::ops::manage_fault::ManageFault;
use epaxos::{Fault, LONGEST_KEY, LONGEST_TX};
use std::fmt;

/// The error that a client gets in the place of a reply.
#[derive(Clone, PartialEq, Eq, Debug)]
pub enum CommandFault {
    /// Its time is over. It may still be done.
    Unanswered,
    /// The store ends. It may still be done.
    StoreEnds,
    /// This replica lagged, and nobody knows whether it was done.
    Doubtful,
    /// It was done, and nobody knows its reply.
    Unseen,
    /// It wasn't done: no majority is reached.
    NoMajority,
    /// It wasn't done: at each try others had changed the key.
    Contended,
    /// It wasn't done: the store ends, and hadn't proposed it.
    Ending,
    /// It wasn't done: its time was over before it was proposed, since others wait before it, or the generation changes.
    Waiting,
    /// It wasn't done: so many wait before it that its time would be over.
    Crowded,
    /// It wasn't done: the map would pass what it may have.
    MapFull,
    /// It wasn't done: its time is over, and it would have had to look first.
    NotInTime,
    /// It wasn't done: the core refused it.
    Node(Fault),
    /// What somebody who runs the store has asked for isn't done.
    Managing(ManageFault),
    /// It is for operators, at this admin socket.
    ForOperators(String),
    /// It isn't for operators, and this is the admin socket.
    ForClients,
    /// It isn't an identity: 32 hexadecimal digits.
    Identity,
    /// Of a command of several keys that is done in parts, of one key or more: what befell this part, counted from 1.
    AtKey(Box<CommandFault>, usize),

    /// These bytes aren't of the Redis protocol.
    Malformed(MalformedFault),
    Unknown(String),
    /// No such subcommand of this command.
    UnknownSubcommand(&'static str, String),
    WrongCount(String),
    Syntax,
    NotAnInteger,
    Overflow,
    DecrementOverflow,
    TooLong,
    /// The time to live is out of range, in this command.
    InvalidExpire(&'static str),
    IncompatibleExpire,
    LaterAndEarlier,
    UnsupportedOption(String),
    KeyLength,
    ValueLength,
    OwnerLength,
    /// The key holds a lock, or none where one is asked for.
    WrongType,
    Cursor,
    DatabaseIndex,
    Protocol,
    NotAProtocol,
    ClientName,
    NoPassword,
    WrongPassword,
    /// The password has to be said first.
    NotKnown,
    /// All places are taken: it is asked on one for who asks how the store is.
    Full,
    /// All of these places are taken too, and the connection is closed.
    NoPlace,
    /// Clients have too much under way together.
    NoMemory,
    /// This replica doesn't take part.
    Apart,
    NoScript,
    Script,
    /// A transaction names more than so many keys.
    ManyKeys(usize),
    /// More than so many keys have a condition or are reported.
    ManyReported(usize),
    /// More than so many commands wait for EXEC.
    ManyCommands(usize),
    /// Its keys and values have too many bytes.
    LongTransaction,
    NoSuchKey,
    /// COPY to the same key.
    SameKey,
    NestedMulti,
    WatchInMulti,
    NotInMulti,
    ExecAborted,
    WithoutMulti(&'static str),
    Http,
}

impl CommandFault {
    /// The error that a client gets where this is the outcome, in the place of what was asked for.
    pub fn of(outcome: Outcome) -> CommandFault {
        match outcome {
            Outcome::Refused(fault) => CommandFault::Node(fault),
            Outcome::Alone => CommandFault::NoMajority,
            Outcome::Late => CommandFault::Waiting,
            Outcome::Crowded => CommandFault::Crowded,
            Outcome::MapFull => CommandFault::MapFull,
            Outcome::Ending => CommandFault::Ending,
            Outcome::DoneUnseen | Outcome::Doubtful => CommandFault::Doubtful,
            _ => CommandFault::StoreEnds,
        }
    }

    /// Whether the command may be done, now or later.
    pub fn may_be_done(&self) -> bool {
        match self {
            CommandFault::Unanswered | CommandFault::StoreEnds | CommandFault::Doubtful | CommandFault::Unseen => true,
            CommandFault::AtKey(fault, _) => fault.may_be_done(),
            _ => false,
        }
    }

    /// Whether it stands among what EXEC replies, and other commands of the transaction are done. Any other one that
    /// is replied before EXEC has nothing done.
    pub fn is_reported_by_exec(&self) -> bool {
        matches!(
            self,
            CommandFault::Syntax
                | CommandFault::NotAnInteger
                | CommandFault::DecrementOverflow
                | CommandFault::InvalidExpire(_)
                | CommandFault::IncompatibleExpire
                | CommandFault::LaterAndEarlier
                | CommandFault::UnsupportedOption(_)
                | CommandFault::SameKey
        )
    }
}

impl fmt::Display for CommandFault {
    fn fmt(&self, f: &mut fmt::Formatter) -> fmt::Result {
        match self {
            CommandFault::Unanswered => f.write_str("TRYAGAIN no majority has answered in time; the command may still be done"),
            CommandFault::StoreEnds => f.write_str("TRYAGAIN the store ends; the command may still be done"),
            CommandFault::Doubtful => f.write_str("TRYAGAIN this replica lagged; the command may be done"),
            CommandFault::Unseen => f.write_str("TRYAGAIN the command was done, and its reply is lost"),
            CommandFault::NoMajority => f.write_str("TRYAGAIN the command wasn't done: no majority is reached"),
            CommandFault::Contended => f.write_str("TRYAGAIN the command wasn't done: others changed the key at each try"),
            CommandFault::Waiting => f.write_str("TRYAGAIN the command wasn't done: its time was over before it was proposed"),
            CommandFault::Crowded => f.write_str("TRYAGAIN the command wasn't done: too many wait before it"),
            CommandFault::MapFull => {
                f.write_str("OOM the command wasn't done: the map has no room for it (--most-map); delete something first")
            }
            CommandFault::Ending => f.write_str("TRYAGAIN the command wasn't done: the store ends"),
            CommandFault::NotInTime => f.write_str("TRYAGAIN the command wasn't done: no majority has answered in time"),
            CommandFault::Node(fault) => match fault {
                Fault::SpaceFull => f.write_str("FULL this replica has used all of its instances; ask another one"),
                Fault::SeqExhausted | Fault::StampFull => write!(f, "FULL the core refused: {fault}"),
                Fault::Memory => write!(f, "OOM the core refused, ask again: {fault}"),
                _ => write!(f, "ERR the core refused: {fault}"),
            },
            CommandFault::Managing(fault) => write!(f, "ERR {fault}"),
            CommandFault::ForOperators(place) => {
                write!(f, "NOPERM this command is for operators only: use {place}")
            }
            CommandFault::ForClients => f.write_str(
                "ERR the admin socket takes EPAXOS MEMBERS, SEAL, REPLACE and RESIZE, INFO and PING; use the clients' port for data",
            ),
            CommandFault::Identity => f.write_str("ERR an identity has 32 hexadecimal digits"),
            CommandFault::AtKey(fault, place) => {
                write!(f, "{fault} (this is of part {place} of the keys; each is done by itself, and others may be done)")
            }
            CommandFault::Malformed(fault) => write!(f, "ERR Protocol error: {fault}"),
            CommandFault::Unknown(name) => write!(f, "ERR unknown command '{name}'"),
            CommandFault::UnknownSubcommand(name, sub) => write!(f, "ERR unknown subcommand '{sub}' of {name}"),
            CommandFault::WrongCount(name) => write!(f, "ERR wrong number of arguments for '{name}' command"),
            CommandFault::Syntax => f.write_str("ERR syntax error"),
            CommandFault::NotAnInteger => f.write_str("ERR value is not an integer or out of range"),
            CommandFault::Overflow => f.write_str("ERR increment or decrement would overflow"),
            CommandFault::DecrementOverflow => f.write_str("ERR decrement would overflow"),
            CommandFault::TooLong => write!(f, "ERR string exceeds maximum allowed size ({LONGEST_CONTENT} bytes)"),
            CommandFault::InvalidExpire(name) => write!(f, "ERR invalid expire time in '{name}' command"),
            CommandFault::IncompatibleExpire => {
                f.write_str("ERR NX and XX, GT or LT options at the same time are not compatible")
            }
            CommandFault::LaterAndEarlier => {
                f.write_str("ERR GT and LT options at the same time are not compatible")
            }
            CommandFault::KeyLength => write!(f, "ERR a key has 1 to {LONGEST_KEY} bytes"),
            CommandFault::ValueLength => write!(f, "ERR a value has at most {LONGEST_CONTENT} bytes"),
            CommandFault::UnsupportedOption(option) => write!(f, "ERR Unsupported option {option}"),
            CommandFault::OwnerLength => write!(f, "ERR an owner has 1 to {LONGEST_OWNER} bytes"),
            CommandFault::WrongType => f.write_str("WRONGTYPE Operation against a key holding the wrong kind of value"),
            CommandFault::Cursor => f.write_str("ERR invalid cursor"),
            CommandFault::DatabaseIndex => f.write_str("ERR DB index is out of range"),
            CommandFault::Protocol => f.write_str("NOPROTO unsupported protocol version"),
            CommandFault::NotAProtocol => f.write_str("ERR Protocol version is not an integer or out of range"),
            CommandFault::ClientName => {
                f.write_str("ERR Client names cannot contain spaces, newlines or special characters.")
            }
            CommandFault::NoPassword => f.write_str("ERR AUTH called without any password configured"),
            CommandFault::WrongPassword => {
                f.write_str("WRONGPASS invalid username-password pair or user is disabled.")
            }
            CommandFault::NotKnown => f.write_str("NOAUTH Authentication required."),
            CommandFault::Full => f.write_str("ERR max number of clients reached; PING and INFO are answered"),
            CommandFault::NoPlace => f.write_str("ERR max number of clients reached"),
            CommandFault::NoMemory => {
                f.write_str("OOM the command wasn't done: clients have more under way than --memory allows")
            }
            CommandFault::Apart => {
                f.write_str("TRYAGAIN this replica takes no part: it reaches no majority, or waits to join")
            }
            CommandFault::NoScript => f.write_str("NOSCRIPT No matching script. Scripts aren't supported, but for those of locks"),
            CommandFault::Script => f.write_str("ERR scripts aren't supported, but for those of locks that README lists"),
            CommandFault::ManyKeys(most) => {
                write!(f, "ERR nothing was done: at most {most} keys may be written or read at once")
            }
            CommandFault::ManyReported(most) => {
                write!(f, "ERR nothing was done: IF, IFABSENT and GET may name {most} keys at most")
            }
            CommandFault::ManyCommands(most) => write!(f, "ERR a transaction has at most {most} commands"),
            CommandFault::LongTransaction => write!(
                f,
                "ERR nothing was done: keys and values that are written or compared at once have at most {LONGEST_TX} bytes"
            ),
            CommandFault::NoSuchKey => f.write_str("ERR no such key"),
            CommandFault::SameKey => f.write_str("ERR source and destination objects are the same"),
            CommandFault::NestedMulti => f.write_str("ERR MULTI calls can not be nested"),
            CommandFault::WatchInMulti => f.write_str("ERR WATCH inside MULTI is not allowed"),
            CommandFault::NotInMulti => f.write_str("ERR Command not allowed inside a transaction"),
            CommandFault::ExecAborted => {
                f.write_str("EXECABORT Transaction discarded because of previous errors.")
            }
            CommandFault::WithoutMulti(name) => write!(f, "ERR {name} without MULTI"),
            CommandFault::Http => f.write_str("ERR this is no web server"),
        }
    }
}

impl std::error::Error for CommandFault {}
