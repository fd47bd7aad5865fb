//! What of the generations is on the disk.
use crate::parts::place::Place;
use crate::parts::way::Way;
use crate::{Checkpoint, Reference};
use std::collections::BTreeMap;

/// What of the generations is on the disk, and what is to come there.
#[derive(Default)]
pub(super) struct Files {
    /// The last generation whose opening is there, whole, and how many bytes it has; 0 of none.
    pub(super) whole: (u32, u64),
    /// What stood for it, where its generation was begun so, and what stands for those behind it.
    own: Option<Reference>,
    references: BTreeMap<u32, Reference>,
    /// How many bytes the logs have of the generations that were left since.
    logs: BTreeMap<u32, u64>,
    /// The opening of the present generation, with what stands for it, where no file has it.
    pub(super) unwritten: Option<(Reference, Checkpoint)>,
    /// What stands for it, while what is left of the generation before is let go.
    pub(super) letting: Option<Reference>,
    /// What stands for the opening that is being written.
    pub(super) writing: Option<Reference>,
}

impl Files {
    /// The opening of this generation is there, of so many bytes, for which this stood, where something did.
    pub(super) fn keep(&mut self, generation: u32, bytes: u64, own: Option<Reference>) {
        (self.whole, self.own) = ((generation, bytes), own);
        self.logs = self.logs.split_off(&generation);
        self.references = self.references.split_off(&(generation + 1));
    }

    /// A generation was left for the one that this reference stands for.
    pub(super) fn leave(&mut self, next: Reference) {
        self.logs.insert(next.generation() - 1, next.length());
        self.references.insert(next.generation(), next);
    }

    /// What leads to the present generation: the last whole opening, and the logs since.
    pub(super) fn way(&self) -> Way {
        Way::of(self.whole, self.own, self.references.values().copied().collect())
    }

    /// Whether an opening is to be written: where the logs since the last one have so many bytes, and as many as that
    /// one. Replicas take turns, a generation each, so that a majority is always free; where the least is 0, all write
    /// each.
    pub(super) fn is_due(&self, least: u64, Place { replicas, replica }: Place) -> bool {
        let is_own = |(reference, _): &(Reference, Checkpoint)| {
            least == 0 || (reference.generation() as usize - 1) % replicas == usize::from(replica)
        };
        self.unwritten.as_ref().is_some_and(is_own) && self.logs() >= self.whole.1.max(least)
    }

    /// How many bytes of logs lead to the present generation.
    pub(super) fn logs(&self) -> u64 {
        self.logs.values().sum()
    }

    /// Whether the opening of the present generation is being written, or can be.
    pub(super) fn can_be_whole(&self) -> bool {
        self.unwritten.is_some() || self.letting.is_some() || self.writing.is_some()
    }
}
