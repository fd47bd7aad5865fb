//! What is committed here and isn't executed: what is to be tried, and what waits for something that isn't committed.
use super::commits::Committed;
use crate::Instance;
use std::collections::{BTreeMap, HashSet};

/// The instances that aren't executed. Each is tried once it is committed, and once more for each instance that it has
/// waited for; so one that can't be executed costs nothing meanwhile.
pub struct Executions {
    /// All that was committed, executed or not.
    known: Committed,
    /// What is to be tried, in the order in which it was committed.
    due: Vec<Instance>,
    /// What waits, by what it waits for.
    waiting: BTreeMap<Instance, Vec<Instance>>,
}

impl Executions {
    /// None, of so many replicas.
    pub fn new(replicas: usize) -> Executions {
        Executions { known: Committed::new(replicas), due: Vec::new(), waiting: BTreeMap::new() }
    }

    /// It is committed: it is to be tried, with what has waited for it.
    pub fn commit(&mut self, instance: Instance) {
        if !self.known.has(instance) {
            self.known.insert(instance);
            self.due.push(instance);
            self.due.extend(self.waiting.remove(&instance).unwrap_or_default());
        }
    }

    /// Whether something is to be tried.
    pub fn is_due(&self) -> bool {
        !self.due.is_empty()
    }

    /// What is to be tried. Each that isn't executed then has to come back, by `wait` or `put_back`.
    pub fn take(&mut self) -> Vec<Instance> {
        std::mem::take(&mut self.due)
    }

    /// It waits for another one, which isn't committed.
    pub fn wait(&mut self, instance: Instance, other: Instance) {
        if self.known.has(other) {
            return self.put_back(instance);
        }
        self.waiting.entry(other).or_default().push(instance);
    }

    /// It is to be tried again.
    pub fn put_back(&mut self, instance: Instance) {
        self.due.push(instance);
    }

    /// Of what is to be tried these are executed by now.
    pub fn drop_executed(&mut self, executed: &HashSet<Instance>) {
        self.due.retain(|instance| !executed.contains(instance));
    }
}

#[cfg(test)]
mod tests {
    use super::*;

    fn of(number: u16) -> Instance {
        Instance { replica: 1, number }
    }

    #[test]
    fn each_is_tried_once_it_may_be_executed() {
        let mut it = Executions::new(3);
        [2, 1, 2].into_iter().for_each(|number| it.commit(of(number)));
        assert!(it.is_due() && it.take() == [of(2), of(1)] && !it.is_due());
        // Both wait for one that isn't committed, and a third one meanwhile does too.
        [1, 2].into_iter().for_each(|number| it.wait(of(number), of(7)));
        it.commit(of(3));
        assert_eq!(it.take(), [of(3)]);
        it.wait(of(3), of(7));
        assert!(!it.is_due());
        it.commit(of(7));
        assert_eq!(it.take(), [of(7), of(1), of(2), of(3)]);
        // It is tried again where there was no memory, and not where it was executed before another one.
        [1, 2, 3].into_iter().for_each(|number| it.put_back(of(number)));
        it.drop_executed(&[of(2)].into());
        assert_eq!(it.take(), [of(1), of(3)]);
        // What is committed isn't waited for.
        it.wait(of(1), of(7));
        assert_eq!(it.take(), [of(1)]);
    }
}
