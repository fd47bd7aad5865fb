//! Which keys are past their deadlines, after all that the host has executed.
use crate::core::deadlines::Deadlines;
use epaxos::Executed;
use epaxos::host::Observer;
use std::sync::{Arc, Mutex, MutexGuard, PoisonError};

/// The deadlines of all keys, for the host that observes them and the thread that is asked.
#[derive(Clone, Default)]
pub struct Expiring(Arc<Mutex<Deadlines>>);

impl Expiring {
    fn all(&self) -> MutexGuard<'_, Deadlines> {
        self.0.lock().unwrap_or_else(PoisonError::into_inner)
    }

    /// The keys that are past their deadlines then.
    pub fn over(&self, now: u64) -> Vec<Vec<u8>> {
        self.all().over(now).map(<[u8]>::to_vec).collect()
    }
}

impl Observer for Expiring {
    fn begin(&mut self, map: &mut dyn Iterator<Item = (&[u8], &[u8])>) {
        let mut deadlines = Deadlines::default();
        map.for_each(|(key, value)| deadlines.set(key, Some(value)));
        *self.all() = deadlines;
    }

    fn note(&mut self, executed: &Executed) {
        self.all().note(executed);
    }
}
