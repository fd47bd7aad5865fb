//! A simulator of clusters: hosts, disks, a network and clients by one seed, judged.
//!
//! Three to seven [hosts](crate::host) run in one thread, over a network that delays, loses, repeats and overtakes,
//! with disks that lose what wasn't synced, clocks that run apart, and machines that lose their power at any act of
//! their disks and with calls under way, stand still, are cut off, are replaced, and come back with an older copy of
//! their disks; clusters grow and shrink. A seed gives a [`Plan`], and a plan gives the same run each time, to the
//! byte. A plan of your own has your cluster's delays, your clients and what they ask for ([`Mix`]).
//!
//! A run is judged by itself: what clients were answered is linearizable, key by key and register by register of the
//! [machine](crate::host::Machine) that each replica has; nobody is answered twice, and no command is done twice; in
//! each instance all replicas execute one command, with one answer, and those of a key in one order, over all starts;
//! an older copy of a disk is noticed; who asks a machine that reaches a majority is answered within a minute, and a
//! machine that reaches all the others is within a minute where they were; once nothing goes wrong any more, everybody
//! is answered, and all maps and all states are equal, within a bound; and where nothing goes wrong, nothing is
//! recovered. What fails is [shrunk]: fewer troubles, fewer questions; and [leave] leaves what its disks have.
//!
//! A [state machine](crate::host::Machine) of your own is run by [`run_machine`]. Disks that say that something is on
//! them and lose it ([`Plan::lying`]) are beyond what hosts promise: what notices them is counted.
//!
//! ```
//! use epaxos::sim::{Plan, run};
//!
//! let plan = Plan::of_seed(1);
//! let (seen, failure) = run(&plan);
//! assert_eq!(failure, None);
//! assert_eq!(run(&plan).0, seen); // to the byte
//! ```
//!
//! `cargo run --release --example sim -- --seeds 1000` says what was seen of so many, or shows the first one that
//! fails.
#![forbid(unsafe_code)]

mod audit;
mod book;
mod disk;
mod failure;
mod judge;
mod left;
mod mix;
mod older;
mod operator;
mod pair;
mod plan;
mod queue;
mod registers;
mod seen;
mod watched;
mod workload;
mod world;

pub use audit::Audit;
pub use failure::Failure;
pub use left::Left;
pub use mix::Mix;
pub use plan::{Age, Plan, Trouble, What};
pub use seen::Seen;
pub use workload::Workload;

use crate::host::Plant;
use book::Own;
use std::io;
use std::path::Path;
use world::World;

/// Runs a plan: what was seen, and what isn't right, if something isn't.
///
/// ```
/// use epaxos::sim::{Plan, run};
///
/// assert_eq!(run(&Plan { asks: 20, ..Plan::of_seed(2) }).1, None);
/// ```
pub fn run(plan: &Plan) -> (Seen, Option<Failure>) {
    run_planted(plan, None)
}

/// The same, with a fault that is planted, if the crate has the feature `plants`.
///
/// ```
/// use epaxos::host::Plant;
/// use epaxos::sim::{Plan, run_planted};
///
/// let (_, failure) = run_planted(&Plan { asks: 20, ..Plan::of_seed(1) }, Some(Plant::EarlyAnswer));
/// assert!(cfg!(feature = "plants") || failure.is_none());
/// ```
pub fn run_planted(plan: &Plan, plant: Option<Plant>) -> (Seen, Option<Failure>) {
    World::new(plan, plant, None).run()
}

/// The same as [`run_planted`], whose logs and receipts the program `epaxos` audits besides, generation by generation.
///
/// ```
/// use epaxos::sim::{Audit, Failure, Plan, run_audited};
///
/// fn audited(seed: u64) -> Result<u64, Failure> {
///     let audit = Audit { program: "/usr/bin/epaxos".into(), scratch: "/tmp/sim".into() };
///     let (seen, failure) = run_audited(&Plan::of_seed(seed), None, &audit);
///     failure.map_or(Ok(seen.audited), Err)
/// }
/// ```
pub fn run_audited(plan: &Plan, plant: Option<Plant>, audit: &Audit) -> (Seen, Option<Failure>) {
    World::new(plan, plant, Some(audit)).run()
}

/// Runs a plan as [`run_planted`] does, and leaves in a folder what the disks have in the end, whether it fails or not:
/// a folder for each replica, which `epaxos collect --generation` reads, a file of the receipts of each generation, and
/// `asked`, which has a line for each question, in microseconds of the run. The generations of which all replicas have
/// a log.
///
/// # Errors
///
/// That of writing.
///
/// ```
/// use epaxos::sim::{Left, Plan, leave};
///
/// # fn main() -> std::io::Result<()> {
/// let folder = std::env::temp_dir().join(format!("epaxos-left-{}", std::process::id()));
/// let left: Vec<Left> = leave(&Plan { asks: 20, ..Plan::of_seed(1) }, None, &folder)?;
/// assert!(folder.join("0").join(left[0].generation.to_string()).join("log").is_file());
/// # std::fs::remove_dir_all(&folder) }
/// ```
pub fn leave(plan: &Plan, plant: Option<Plant>, folder: &Path) -> io::Result<Vec<Left>> {
    World::new(plan, plant, None).run_into(folder)
}

/// A plan with less in it that fails in the same way: as few troubles as are needed for that, and fewer questions. The
/// plan itself, where it doesn't fail.
///
/// ```
/// use epaxos::sim::{Plan, shrunk};
///
/// let plan = Plan { asks: 20, ..Plan::of_seed(1) };
/// assert_eq!(shrunk(&plan, None), plan);
/// ```
pub fn shrunk(plan: &Plan, plant: Option<Plant>) -> Plan {
    least(plan, |plan| run_planted(plan, plant).1)
}

/// Runs a plan with state machines of your own, whose commands are all that clients ask for: neither [`Plan::keys`] nor
/// [`Plan::mix`] are looked at. The run is judged as all are, and its machines by what a [`Workload`] says of them.
///
/// ```
/// # use epaxos::host::{Machine, Ordered};
/// # use epaxos::sim::{Failure, Plan, Workload, run_machine, shrunk_machine};
/// # use epaxos::OwnedCommand;
/// # use std::io;
/// /// It replies how much it has done, and loses count where it starts again.
/// #[derive(Clone, Default)]
/// struct Forgetful(u64);
///
/// impl Machine for Forgetful {
///     fn apply(&mut self, _: &Ordered) -> Vec<u8> {
///         self.0 += 1;
///         self.0.to_be_bytes().into()
///     }
///
///     fn snapshot(&self) -> Vec<u8> {
///         Vec::new()
///     }
///
///     fn restore(&mut self, _: &[u8]) -> io::Result<()> {
///         Ok(())
///     }
/// }
///
/// impl Workload for Forgetful {
///     fn machine(&self) -> Box<dyn Machine> {
///         Box::<Forgetful>::default()
///     }
///
///     fn command(&mut self, _: &mut dyn FnMut(u64) -> u64) -> OwnedCommand {
///         OwnedCommand::Opaque { is_reading: false, first: b"all".into(), second: None, body: Vec::new() }
///     }
/// }
///
/// let failing = (1..10).map(Plan::of_seed).find(|plan| run_machine(plan, &Forgetful::default()).1.is_some()).unwrap();
/// let least = shrunk_machine(&failing, &Forgetful::default());
/// assert!(matches!(run_machine(&least, &Forgetful::default()).1, Some(Failure::Machine(_))));
/// ```
pub fn run_machine<W: Workload + Clone>(plan: &Plan, workload: &W) -> (Seen, Option<Failure>) {
    World::new(plan, None, None).with_own(Own::new(Box::new(workload.clone()))).run()
}

/// The same as [`shrunk`], with state machines of your own, as [`run_machine`] runs them.
///
/// ```
/// # use epaxos::sim::{Plan, Workload, run_machine, shrunk_machine};
/// /// What is left of the first plan that fails.
/// fn found(workload: &(impl Workload + Clone)) -> Option<Plan> {
///     let failing = (1..=1000).map(Plan::of_seed).find(|plan| run_machine(plan, workload).1.is_some())?;
///     Some(shrunk_machine(&failing, workload))
/// }
/// ```
pub fn shrunk_machine<W: Workload + Clone>(plan: &Plan, workload: &W) -> Plan {
    least(plan, |plan| run_machine(plan, workload).1)
}

/// The least plan that fails as this one does.
fn least(plan: &Plan, run: impl Fn(&Plan) -> Option<Failure>) -> Plan {
    let Some(failure) = run(plan) else { return plan.clone() };
    let fails = |plan: &Plan| run(plan).is_some_and(|it| it.kind() == failure.kind());
    let mut least = plan.clone();
    loop {
        let mut smaller = Vec::new();
        for left_out in 0..least.troubles.len() {
            let mut plan = least.clone();
            plan.troubles.remove(left_out);
            smaller.push(plan);
        }
        for (asks, clients) in
            [(least.asks / 2, least.clients), (least.asks * 3 / 4, least.clients), (least.asks, least.clients / 2)]
        {
            smaller.push(Plan { asks: asks.max(1), clients: clients.max(1), ..least.clone() });
        }
        smaller.push(Plan { lost: 0, ..least.clone() });
        smaller.push(Plan { twice: 0, ..least.clone() });
        smaller.push(Plan { late: 0, ..least.clone() });
        smaller.push(Plan { drift: 0, ..least.clone() });
        match smaller.into_iter().find(|plan| *plan != least && fails(plan)) {
            Some(plan) => least = plan,
            None => return least,
        }
    }
}
