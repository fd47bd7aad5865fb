//! A state machine of one's own, and what is asked of it.
use crate::OwnedCommand;
use crate::host::{Machine, Ordered};

/// A [state machine](Machine) of your own, what clients ask of it, and what has to hold of its replies:
/// [`run_machine`](super::run_machine) runs it.
///
/// Each replica has such a machine, which is restored at each start, and from each opening that is taken. One more
/// never fails, and does each command once, in the order of execution: all others have to reply what that one replies,
/// and those that have done the same commands have to have the same snapshot.
///
/// ```
/// use epaxos::OwnedCommand;
/// use epaxos::host::{Machine, Ordered};
/// use epaxos::sim::{Plan, Workload, run_machine};
/// use std::collections::BTreeMap;
/// use std::io;
///
/// /// Counters by name. A command adds one, and its reply is the sum.
/// #[derive(Clone, Default)]
/// struct Counters(BTreeMap<Vec<u8>, u8>);
///
/// impl Machine for Counters {
///     fn apply(&mut self, ordered: &Ordered) -> Vec<u8> {
///         let counter = self.0.entry(ordered.first.to_vec()).or_default();
///         *counter = counter.wrapping_add(1);
///         vec![*counter]
///     }
///
///     fn snapshot(&self) -> Vec<u8> {
///         self.0.iter().flat_map(|(name, counter)| [name[0], *counter]).collect()
///     }
///
///     fn restore(&mut self, snapshot: &[u8]) -> io::Result<()> {
///         self.0 = snapshot.chunks(2).map(|pair| (vec![pair[0]], pair[1])).collect();
///         Ok(())
///     }
/// }
///
/// /// What is asked, and what the replies have to be. By itself it has what each counter has reached.
/// #[derive(Clone, Default)]
/// struct Counting(Counters);
///
/// impl Workload for Counting {
///     fn machine(&self) -> Box<dyn Machine> {
///         Box::<Counters>::default()
///     }
///
///     fn command(&mut self, below: &mut dyn FnMut(u64) -> u64) -> OwnedCommand {
///         let first = vec![b'a' + below(3) as u8];
///         OwnedCommand::Opaque { is_reading: false, first, second: None, body: Vec::new() }
///     }
///
///     fn check(&mut self, asked: &Ordered, reply: &[u8]) -> Result<(), String> {
///         let counter = self.0.0.entry(asked.first.to_vec()).or_default();
///         *counter = counter.wrapping_add(1);
///         if reply == [*counter] { Ok(()) } else { Err(format!("{reply:?} isn't one more")) }
///     }
/// }
///
/// let (seen, failure) = run_machine(&Plan { asks: 100, ..Plan::of_seed(3) }, &Counting::default());
/// assert_eq!((seen.commands > 50, failure), (true, None));
/// ```
pub trait Workload: Send + 'static {
    /// The machine as it begins.
    fn machine(&self) -> Box<dyn Machine>;

    /// What a client asks next: an opaque command, by numbers that are drawn from the run's seed: `below(n)` is one
    /// below `n`. It may be one that was asked before.
    fn command(&mut self, below: &mut dyn FnMut(u64) -> u64) -> OwnedCommand;

    /// Holds what was replied against what was asked: each command once, as soon as a replica has executed it, and
    /// those with a common key in their order.
    ///
    /// # Errors
    ///
    /// What isn't right.
    fn check(&mut self, asked: &Ordered, reply: &[u8]) -> Result<(), String> {
        let _ = (asked, reply);
        Ok(())
    }
}
