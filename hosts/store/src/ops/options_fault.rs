//! Why the words of the command line aren't taken.
use std::ffi::OsString;
use std::fmt;

/// Why the words after the program's name are refused.
#[derive(Clone, PartialEq, Eq, Debug)]
pub enum OptionsFault {
    /// A word isn't UTF-8.
    NotText(OsString),
    /// There is no such word.
    Unknown(String),
    /// This word has no value behind it.
    NoValue(String),
    /// This word has to be there.
    Missing(&'static str),
    /// Two of the words say in different ways how to start.
    TwoStarts,
    /// The word's value isn't in its range, which goes from the least to the greatest.
    OutOfRange { word: String, value: String, least: String, most: String },
    /// There can't be so many replicas.
    Replicas(usize),
    /// This isn't HOST:PORT.
    NotAnAddress(String),
    /// Two replicas have this address.
    Twice(String),
    /// Who reaches this address could change the cluster.
    OpenAdmin(String),
    /// There is no such misbehaviour.
    Plant(String),
}

impl OptionsFault {
    /// That a word's value isn't in its range.
    pub fn out_of_range(word: &str, value: &str, least: impl fmt::Display, most: impl fmt::Display) -> OptionsFault {
        let (least, most) = (least.to_string(), most.to_string());
        OptionsFault::OutOfRange { word: word.into(), value: value.into(), least, most }
    }
}

impl fmt::Display for OptionsFault {
    fn fmt(&self, f: &mut fmt::Formatter) -> fmt::Result {
        match self {
            OptionsFault::NotText(word) => write!(f, "the word {} isn't UTF-8", word.display()),
            OptionsFault::Unknown(word) => write!(f, "unknown word {word}; --help tells the words"),
            OptionsFault::NoValue(word) => write!(f, "{word} wants a value"),
            OptionsFault::Missing(word) => write!(f, "{word} is missing; --help tells the words"),
            OptionsFault::TwoStarts => f.write_str("--new and --join are two ways of one start"),
            OptionsFault::OutOfRange { word, value, least, most } => {
                write!(f, "{word} {value}: a number from {least} to {most} is wanted")
            }
            OptionsFault::Replicas(count) => write!(f, "--peers names {count} replicas; 3, 5 or 7 are possible"),
            OptionsFault::NotAnAddress(peer) => write!(f, "--peers: {peer} isn't HOST:PORT"),
            OptionsFault::Twice(peer) => write!(f, "--peers names {peer} twice"),
            OptionsFault::OpenAdmin(address) => write!(
                f,
                "--admin {address} needs a password: add --admin-auth FILE, or give the path of a Unix socket"
            ),
            OptionsFault::Plant(name) => write!(f, "--plant {name}: not known"),
        }
    }
}

impl std::error::Error for OptionsFault {}
