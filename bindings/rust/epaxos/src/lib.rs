//! A replicated key-value core without a leader, as a library: Egalitarian Paxos, proved.
//!
//! Three, five or seven replicas hold one map. Any of them takes any command; commands on a common key are executed in one order at all of them, and whatever a
//! majority has is never lost. The crate has no socket, no timer and no thread: you own those. A [`Replica`] takes what happened, and leaves a [`Ready`]:
//! bytes for your log, and, *once these are on the disk*, what to send and whom to answer. [`Ready::commit`] does both, in this order.
//!
//! ```
//! use epaxos::{Call, Cluster, Command, Event, LogFile, Patience, Replica, Waits};
//! use std::time::Instant;
//! # fn main() -> Result<(), Box<dyn std::error::Error>> {
//! # let folder = std::env::temp_dir().join(format!("epaxos-page-{}", std::process::id()));
//! # std::fs::create_dir_all(&folder)?;
//! # let path = folder.join("zero.log");
//! # let send = |_to: u8, _frame: &[u8]| ();
//! # let answer = |_client: u32, _answer: epaxos::Answer| ();
//! # let regained = || Some((1u8, 0u32));
//! # let came = [Event::Propose { call: Call::new(1, 1), command: Command::Put { key: b"x", value: b"1" } }];
//!
//! // At the first start; at each later one `let (mut file, log) = LogFile::open(&path)?` and `Replica::open(Cluster::Three, 0, &log)?`.
//! let mut file = LogFile::begin(&path)?;
//! let mut replica = Replica::new(Cluster::Three, 0)?;
//! let mut patience = Patience::new(Cluster::Three, 0, Waits::MICROSECONDS, 7)?;
//! let begun = Instant::now();
//! loop {
//!     let ready = replica.ready_with_open(64)?;
//!     let output = ready.commit(&mut file)?;      // one write and one sync for all that was taken; only then is there anything to send
//!     output.frames().for_each(|frame| send(frame.to, frame.bytes));
//!     output.receipts().for_each(|receipt| answer(receipt.client, receipt.answer));
//! #   if output.entries() > 0 { break }
//!     let open: Vec<_> = output.open().collect();
//!     let late = patience.turn(begun.elapsed().as_micros() as u64, &open, &[])?;       // what has been open for too long
//!     if let Some((peer, entries)) = regained() { // a link is up again, by which all of the first so many entries had come
//!         let again = replica.report(entries, 0)?;
//!         again.frames().filter(|frame| frame.to == peer).for_each(|frame| send(frame.to, frame.bytes));
//!     }
//!     for event in came.iter().chain(&late) {     // frames of peers, commands of clients, and what is late
//!         let _refused = replica.take(event);     // a refusal has changed nothing
//!     }
//!     replica.advance()?;                         // executes what can be executed
//! }
//! # std::fs::remove_dir_all(&folder)?;
//! # Ok(()) }
//! ```
//!
//! `examples/three.rs` is a cluster of three threads with a file each, `examples/lock.rs` a lock,
//! `examples/accounts.rs` transfers by commands over many keys, `examples/machine.rs` a replicated machine of your own.
//!
//! # What is lost on its way
//!
//! Nothing is sent again by itself. When to stop waiting for what is open is a question of time, of which the core knows nothing; [`Patience`] answers it. Ask
//! what is open a few times a second ([`Replica::ready_with_open`]; in between [`Replica::ready`] will do, without a turn), and have the replica take what
//! [`Patience::turn`] returns: it then asks the others.
//!
//! One loss leaves nothing open: that of a Commit, to a replica that has heard nothing else of its instance. It lacks the command until another one comes
//! that depends on it. So the replica that sent the Commit sends it again, by [`Replica::report`]:
//!
//! - when a link to a peer is up again, and after a start: what was sent after the entries of which the peer is sure to
//!   have all frames ([`Output::entries`] counts entries). 0 is always right, and sends all of the generation;
//! - now and then, if the network loses single frames: what was sent in the last seconds.
//!
//! A frame that comes twice does no harm; it costs its receiver an entry of its log.
//!
//! # Reads
//!
//! [`Replica::get`] looks into one replica's map, which may be old. A client's read is a [`Command::Get`], or a
//! [`Replica::read`], which takes no instance and writes nothing, once F + 1 replicas have reported what interferes
//! with it ([`Replica::interfering`]). `examples/three.rs` reads so.
//!
//! # Where the core runs
//!
//! In the program itself: the library `libepaxos.a`, with which the crate is linked as it is built. It keeps nothing that outlives it: you keep the log.
//!
//! `./epaxos --build` at the top of the repository proves and builds it, and `./epaxos --build --unproved` builds it in minutes, without its proofs;
//! [`Replica::said`] then says so. Build the crate again after that. `EPAXOS_LIBRARY` names another folder of `libepaxos.a` when the crate is built. A host in
//! another language, or one that wants the core in a process of its own, runs the program `epaxos node`.
//!
//! # What is proved, and what you owe
//!
//! Proved of the core: it is safe, it ends, running out of memory is an answer, a refused call has changed nothing, what is taken is one step of
//! the protocol, and nothing is reported of an entry that isn't among those that you said are on the disk. So no two replicas commit different commands in an
//! instance, and all execute interfering commands in one order. This crate, which carries bytes to the core and back, isn't proved. You owe:
//!
//! - The bytes of [`Ready::log`] are on the disk before there is an output: [`LogFile`] sees to it, a [`Log`] of your own has to, and whoever calls
//!   [`Ready::assume_synced`] says so. A replica never starts from an older copy of its log, and one whose log is lost doesn't come back under its number
//!   in its generation.
//! - A client's number and its request's name one command, over all starts ([`Call`]). Hand on stamps of receipts, and nothing else, as [`Call::seen`].
//! - A frame that is handled was sent. It may be lost, repeated, delayed, overtaken; nobody may forge one.
//!
//! # An audit
//!
//! An audit of the logs of all replicas, and of what clients were answered, says whether one history of one map explains them, or names the first fault. Once the
//! replicas have stopped, `epaxos collect` makes a bundle of their folders. A replica's folder has, for generation 1, the file `1/log`, and beside it
//! `1/opening`, which is what the generation opened with ([`Cluster::first_opening`]; of a later one, the very bytes that the replica was begun with). So a host
//! keeps its log there from the start, or copies it there for the audit:
//!
//! ```
//! use epaxos::{Cluster, LogFile};
//! use std::fs;
//! # let folder = std::env::temp_dir().join(format!("epaxos-audit-{}", std::process::id()));
//! # let zero = folder.join("zero");
//!
//! fs::create_dir_all(zero.join("1"))?;
//! fs::write(zero.join("1/opening"), Cluster::Three.first_opening())?;
//! let file = LogFile::begin(zero.join("1/log"))?;
//! # drop(file);
//! # fs::remove_dir_all(&folder)?;
//! # Ok::<(), std::io::Error>(())
//! ```
//!
//! and appends [`Receipt::bytes`] to a file, such as `zero/receipts`, before it answers. Then, with `epaxos` at the top of the repository,
//!
//! ```text
//! epaxos collect --generation 1 zero one two --receipts zero/receipts --receipts one/receipts --receipts two/receipts > 1.bundle
//! epaxos audit < 1.bundle
//! ```
//!
//! prints `verdict accepted`, and the history; `epaxos contents zero` prints a replica's map. `examples/three.rs` leaves such folders.
//!
//! # Generations
//!
//! A replica takes 8,990 commands in a generation. When [`State::used`] comes near, propose [`Command::Seal`]; once it is executed
//! ([`Output::is_sealed`]), [`Replica::close`] hands out the opening of the next generation, with which each replica begins anew, of another number of replicas if you like.
//! A command whose answer is [`Answer::Closed`] is asked again there. Keep the opening of generation 2 as `2/opening`, and its log as `2/log`.
//!
//! Or a replica goes on in memory, without a stop: [`Replica::succeed`] puts the next generation in its place, with the map as it is. The disk gets a
//! [`Reference`] of 82 bytes, and the opening itself when there is time, by a [`Checkpoint`], in pieces. `examples/generations.rs` is such a host.
#![deny(unsafe_code)]

mod answer;
mod bytes;
mod call;
mod checkpoint;
mod close_fault;
mod cluster;
mod command;
mod commit_fault;
mod contents;
mod event;
mod executed;
mod fault;
mod ffi;
mod followed;
mod frame;
pub mod host;
mod instance;
mod leading;
mod lent;
mod library;
mod lock;
mod log;
mod log_file;
mod open_fault;
mod open_instance;
mod out_of_range;
mod output;
mod own_log;
#[doc(hidden)]
pub mod parts;
mod past;
mod patience;
mod place;
mod proposed;
mod question;
mod reading;
mod ready;
mod receipt;
mod records;
mod reference;
mod replica;
mod report;
pub mod service;
mod setup;
pub mod sim;
mod state;
mod status;
mod succeed_fault;
mod succession;
mod sum;
mod system;
mod tx;
mod tx_builder;
mod tx_fault;
mod values;
#[cfg(test)]
mod vectors;
mod writing;

pub use answer::{Answer, AnswerOf, OwnedAnswer};
pub use bytes::Fields;
pub use call::Call;
pub use checkpoint::Checkpoint;
pub use close_fault::CloseFault;
pub use cluster::Cluster;
pub use command::{Command, CommandOf, OwnedCommand};
pub use commit_fault::CommitFault;
pub use contents::Contents;
pub use event::Event;
pub use executed::Executed;
pub use fault::Fault;
pub use frame::Frame;
pub use instance::Instance;
pub use leading::{Leading, Phase};
pub use log::Log;
pub use log_file::LogFile;
pub use open_fault::OpenFault;
pub use open_instance::OpenInstance;
pub use out_of_range::OutOfRange;
pub use output::Output;
pub use patience::{Patience, Waits};
pub use proposed::Proposed;
pub use reading::{OwnedReading, Reading, ReadingOf};
pub use ready::Ready;
pub use receipt::Receipt;
pub use reference::Reference;
pub use replica::Replica;
pub(crate) use setup::Begin;
pub use setup::Setup;
pub use state::State;
pub use succeed_fault::SucceedFault;
pub use succession::Succession;
pub use sum::Sum;
pub use tx::{Item, OwnedTx, Tx, TxOf};
pub use tx_builder::TxBuilder;
pub use tx_fault::TxFault;
pub use values::{OwnedValues, Values, ValuesOf};
pub use writing::{Writing, Written};

/// Whether the library that this program is built with was proved; one that was built with `--unproved` wasn't.
///
/// ```
/// let replica = epaxos::Replica::new(epaxos::Cluster::Three, 0)?;
/// assert_eq!(epaxos::IS_PROVED, replica.said().is_empty());
/// # Ok::<(), epaxos::OpenFault>(())
/// ```
pub const IS_PROVED: bool = !cfg!(library_is_unproved);

/// A replica proposes so many commands in a generation at most. Its numbers above are for seals.
///
/// ```
/// assert_eq!(epaxos::MOST_COMMANDS, 8_990);
/// ```
pub const MOST_COMMANDS: u16 = 8_990;

/// The greatest number of an instance. Only seals have one above [`MOST_COMMANDS`].
///
/// ```
/// assert_eq!(epaxos::MOST_INSTANCES, 9_000);
/// ```
pub const MOST_INSTANCES: u16 = 9_000;

/// A key has 1 to so many bytes.
///
/// ```
/// assert_eq!(epaxos::LONGEST_KEY, 255);
/// ```
pub const LONGEST_KEY: usize = 255;

/// A cluster has so many instances at most, and so many may be named for a [read](Replica::read).
///
/// ```
/// assert_eq!(epaxos::MOST_FOUND, 7 * usize::from(epaxos::MOST_INSTANCES));
/// ```
pub const MOST_FOUND: usize = 63_000;

/// A value has 0 to so many bytes.
///
/// ```
/// assert_eq!(epaxos::LONGEST_VALUE, 65_535);
/// ```
pub const LONGEST_VALUE: usize = 65_535;

/// A [`Tx`](Command::Tx) names 1 to so many keys.
///
/// ```
/// assert_eq!(epaxos::MOST_KEYS, 1_024);
/// ```
pub const MOST_KEYS: usize = 1_024;

/// A [`Tx`](Command::Tx) asks for so many keys at most.
///
/// ```
/// assert_eq!(epaxos::MOST_TOLD, 16);
/// ```
pub const MOST_TOLD: usize = 16;

/// A [`Tx`](Command::Tx) has so many bytes at most ([`Tx::body`]).
///
/// ```
/// // two values as long as can be, as a comparison has them
/// assert_eq!(epaxos::LONGEST_TX, 2 * (5 + epaxos::LONGEST_VALUE));
/// ```
pub const LONGEST_TX: usize = 131_080;
