//! Judging a round: by what the clients noted, by the receipts, and by the audit of the logs.
use crate::cluster::Cluster;
use crate::options::Options;
use crate::workers::{Note, Notes};
use std::collections::BTreeMap;
use std::path::Path;
use store::linearizable::{self, Act, Action, Operation, Verdict};
use store::receipts::receipts;

/// The faults of a round.
pub fn judge(options: &Options, cluster: &Cluster, notes: &Notes) -> Vec<String> {
    let mut faults = judge_notes(notes);
    faults.extend(judge_receipts(cluster, &notes.all).err());
    if cluster.newest() <= options.least_changes {
        faults.push(format!("there were {} generations, and more are wanted", cluster.newest()));
    }
    if options.audit {
        faults.extend(cluster.chain(&options.node).audit().err());
    }
    faults
}

/// Key by key and pair by pair, as objects are linearizable together where each of them is.
fn judge_notes(notes: &Notes) -> Vec<String> {
    let mut faults = Vec::new();
    let keys = notes.all.iter().map(|note| (note.key, note.operation));
    by_object(keys).into_iter().for_each(|(key, all)| faults.extend(judge_object(&format!("key {key}"), &all)));
    let pairs = notes.pairs.iter().map(|note| (note.pair, note.operation));
    by_object(pairs).into_iter().for_each(|(pair, all)| faults.extend(judge_object(&format!("pair {pair}"), &all)));
    faults
}

fn by_object<A>(all: impl Iterator<Item = (u64, Operation<A>)>) -> BTreeMap<u64, Vec<Operation<A>>> {
    let mut of_objects: BTreeMap<u64, Vec<Operation<A>>> = BTreeMap::new();
    all.for_each(|(object, operation)| of_objects.entry(object).or_default().push(operation));
    of_objects
}

/// What is wrong with what was told of an object.
fn judge_object<A: Act>(object: &str, operations: &[Operation<A>]) -> Option<String> {
    match linearizable::check(operations) {
        Verdict::Linearizable => None,
        Verdict::NotLinearizable => {
            Some(format!("what was told of {object} isn't linearizable ({} commands)", operations.len()))
        }
        Verdict::TooLong => Some(format!("the search for an order takes too long for {object}")),
    }
}

/// Each command that was answered has a receipt that says that it was done. (Of what was done without a reply there is
/// none.)
fn judge_receipts(cluster: &Cluster, notes: &[Note]) -> Result<(), String> {
    for replica in cluster.machines() {
        let (receipts, _) = count_receipts(cluster, replica)?;
        let is_answered = |note: &&Note| note.replica == replica && note.operation.end.is_some();
        let is_get = |note: &&Note| matches!(note.operation.action, Action::Get(_));
        let answered = notes.iter().filter(is_answered).filter(|note| !is_get(note)).count();
        if receipts == 0 && answered > 0 {
            return Err(format!("replica {replica} told of {answered} commands and has no receipt"));
        }
    }
    Ok(())
}

/// How many receipts of a replica's machines there are: of commands that were done, and that weren't.
fn count_receipts(cluster: &Cluster, replica: usize) -> Result<(usize, usize), String> {
    let (mut done, mut not) = (0, 0);
    for path in cluster.chain(Path::new("")).receipts(replica, 1..=cluster.newest()) {
        let bytes = std::fs::read(&path).map_err(|error| format!("no receipts: {error}"))?;
        let mut whole = 0;
        for receipt in receipts(&bytes) {
            whole += receipt.bytes.len();
            *if receipt.answer.is_done() { &mut done } else { &mut not } += 1;
        }
        if whole < bytes.len() {
            return Err(format!("the receipts {} end within one", path.display()));
        }
    }
    Ok((done, not))
}

/// How many proposals of a round weren't done: lost, or behind a seal.
pub fn count_lost(cluster: &Cluster) -> usize {
    cluster.machines().filter_map(|replica| count_receipts(cluster, replica).ok()).map(|(_, not)| not).sum()
}
