//! A state machine of one's own.
use crate::Instance;
use std::io;

/// A state machine that is replicated: each replica's host has one, and hands it the opaque commands in the order in
/// which its replica executes them. Those with a common key have the same order everywhere, but for two that only read
/// it.
///
/// It must be deterministic: no clocks, randomness or replica-local state. It touches only what belongs to the
/// command's keys, and writes nothing where the command only reads. What it does isn't on any disk by itself: after a
/// start it is [restored](Machine::restore), and does again what the logs have since.
///
/// ```
/// use epaxos::host::{Machine, Ordered};
/// use epaxos::service::Service;
/// use epaxos::{Cluster, OwnedCommand};
/// use std::collections::BTreeMap;
/// use std::io;
///
/// /// Lists to which texts are appended, a line each: so the state is text, too.
/// #[derive(Default)]
/// struct Lists(BTreeMap<String, Vec<String>>);
///
/// impl Machine for Lists {
///     fn apply(&mut self, ordered: &Ordered) -> Vec<u8> {
///         let list = self.0.entry(String::from_utf8_lossy(ordered.first).into()).or_default();
///         if !ordered.is_reading {
///             list.push(String::from_utf8_lossy(ordered.body).into());
///         }
///         list.join(" ").into_bytes()
///     }
///
///     fn snapshot(&self) -> Vec<u8> {
///         let line = |(name, texts): (&String, &Vec<String>)| format!("{name} {}\n", texts.join(" "));
///         self.0.iter().map(line).collect::<String>().into_bytes()
///     }
///
///     fn restore(&mut self, snapshot: &[u8]) -> io::Result<()> {
///         let text = std::str::from_utf8(snapshot).map_err(io::Error::other)?;
///         let words = |line: &str| line.split(' ').map(String::from).collect::<Vec<_>>();
///         self.0 = text.lines().map(|line| (words(line)[0].clone(), words(line)[1..].to_vec())).collect();
///         Ok(())
///     }
/// }
///
/// # fn main() -> Result<(), Box<dyn std::error::Error>> {
/// let three = Service::local_with(Cluster::Three, || Lists::default())?;
/// let append = |text: &str| {
///     OwnedCommand::Opaque { is_reading: false, first: b"list".into(), second: None, body: text.into() }
/// };
/// assert_eq!(three[0].apply(append("milk"))?, b"milk");
/// assert_eq!(three[1].apply(append("bread"))?, b"milk bread");
/// # Ok(()) }
/// ```
pub trait Machine: Send + 'static {
    /// Does a command: what it replies, which goes to whoever asked.
    fn apply(&mut self, ordered: &Ordered) -> Vec<u8>;

    /// Its state, as it is once a generation has ended: it is kept beside what the next one opens with, and handed to
    /// peers that take that. The host holds the last one in memory.
    fn snapshot(&self) -> Vec<u8>;

    /// Its state is this from now on, whatever it was.
    ///
    /// # Errors
    ///
    /// Why it isn't one of its states: the host doesn't start then, or ends.
    fn restore(&mut self, snapshot: &[u8]) -> io::Result<()>;
}

/// An opaque command that was executed, for a [`Machine`].
///
/// ```
/// use epaxos::Instance;
/// use epaxos::host::Ordered;
///
/// let instance = Instance { replica: 0, number: 7 };
/// let ordered = Ordered { generation: 1, instance, is_reading: true, first: b"x", second: None, body: b"sum" };
/// # assert!(ordered.is_reading);
/// ```
#[derive(Clone, Copy, PartialEq, Eq, Debug)]
pub struct Ordered<'a> {
    /// Its generation.
    pub generation: u32,
    /// Its instance there.
    pub instance: Instance,
    /// Whether it only reads what belongs to its keys.
    pub is_reading: bool,
    /// A key that it touches.
    pub first: &'a [u8],
    /// Another one, if it touches two.
    pub second: Option<&'a [u8]>,
    /// What it says.
    pub body: &'a [u8],
}
