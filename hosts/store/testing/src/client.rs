//! A small client of the Redis protocol, for the trial and the bench.
use std::io::{self, BufRead, BufReader, Read, Write};
use std::net::{SocketAddr, TcpStream};
use std::os::unix::net::UnixStream;
use std::path::Path;
use std::time::Duration;

/// A connection to one replica.
pub struct Client {
    reader: BufReader<Box<dyn Stream>>,
}

/// By TCP, or at a Unix socket.
trait Stream: Read + Write + Send {}

impl Stream for TcpStream {}

impl Stream for UnixStream {}

/// What a store replied.
#[derive(Clone, PartialEq, Eq, Debug)]
pub enum Reply {
    Simple(String),
    Error(String),
    Integer(i64),
    /// None is nil, in either version of the protocol.
    Bulk(Option<Vec<u8>>),
    Array(Vec<Reply>),
    Map(Vec<(Reply, Reply)>),
}

/// What an error in the place of a reply says of the command.
#[derive(Clone, Copy, PartialEq, Eq, Debug)]
pub enum Refusal {
    /// It wasn't done, and won't be: it may be asked again.
    Undone,
    /// It may be done, now or later.
    Doubtful,
}

impl Refusal {
    /// What an error of this text says, of a command that the store understands. None of an error that asking again doesn't mend.
    pub fn of(text: &str) -> Option<Refusal> {
        match text.split(' ').next() {
            Some("FULL" | "OOM") => Some(Refusal::Undone),
            Some("TRYAGAIN") if text.contains("the command wasn't done") => Some(Refusal::Undone),
            Some("TRYAGAIN") => Some(Refusal::Doubtful),
            _ => None,
        }
    }
}

impl Client {
    pub fn connect(port: u16, patience: Duration) -> io::Result<Client> {
        let stream = TcpStream::connect_timeout(&SocketAddr::from(([127, 0, 0, 1], port)), patience)?;
        stream.set_nodelay(true)?;
        stream.set_read_timeout(Some(patience))?;
        stream.set_write_timeout(Some(patience))?;
        Ok(Client { reader: BufReader::new(Box::new(stream)) })
    }

    /// Connects at a Unix socket, as operators do.
    pub fn connect_at(socket: &Path, patience: Duration) -> io::Result<Client> {
        let stream = UnixStream::connect(socket)?;
        stream.set_read_timeout(Some(patience))?;
        stream.set_write_timeout(Some(patience))?;
        Ok(Client { reader: BufReader::new(Box::new(stream)) })
    }

    /// Asks, and waits for the reply. After an error the connection is of no use.
    pub fn ask(&mut self, words: &[&[u8]]) -> io::Result<Reply> {
        self.send(&[words])?;
        self.read()
    }

    /// Sends commands, without waiting for replies.
    pub fn send(&mut self, commands: &[&[&[u8]]]) -> io::Result<()> {
        let mut bytes = Vec::new();
        for words in commands {
            bytes.extend(format!("*{}\r\n", words.len()).bytes());
            for word in *words {
                bytes.extend(format!("${}\r\n", word.len()).bytes());
                bytes.extend(*word);
                bytes.extend(b"\r\n");
            }
        }
        self.reader.get_mut().write_all(&bytes)
    }

    /// Waits for the next reply.
    pub fn read(&mut self) -> io::Result<Reply> {
        let mut line = String::new();
        self.reader.read_line(&mut line)?;
        let Some(line) = line.strip_suffix("\r\n") else { return Err(io::ErrorKind::UnexpectedEof.into()) };
        let bad = || io::Error::from(io::ErrorKind::InvalidData);
        let (kind, rest) = line.split_at_checked(1).ok_or_else(bad)?;
        let count = || rest.parse::<usize>().map_err(|_| bad());
        match kind {
            "+" => Ok(Reply::Simple(rest.into())),
            "-" => Ok(Reply::Error(rest.into())),
            ":" => Ok(Reply::Integer(rest.parse().map_err(|_| bad())?)),
            "_" => Ok(Reply::Bulk(None)),
            "$" | "*" if rest == "-1" => Ok(Reply::Bulk(None)),
            "$" => {
                let length = count()?;
                let mut bytes = vec![0; length + 2];
                self.reader.read_exact(&mut bytes)?;
                bytes.truncate(length);
                Ok(Reply::Bulk(Some(bytes)))
            }
            "*" => Ok(Reply::Array((0..count()?).map(|_| self.read()).collect::<io::Result<_>>()?)),
            "%" => {
                let pairs = (0..count()?).map(|_| Ok((self.read()?, self.read()?)));
                Ok(Reply::Map(pairs.collect::<io::Result<_>>()?))
            }
            _ => Err(bad()),
        }
    }
}
