//! What of a generation its opening doesn't have any more: how long the map is, and what was done.
use crate::parts::room::growth;
use crate::{Command, Executed, Instance};
use std::collections::HashSet;

/// What a replica has done in a generation, which the next opening has.
#[derive(Clone, Default, PartialEq, Eq, Debug)]
pub struct Tally {
    /// How many bytes all keys with their values take, as in an opening.
    pub map: u64,
    /// The instances whose commands were done.
    pub executed: HashSet<Instance>,
    /// The value of the seal, once that was done.
    pub seal: Option<Vec<u8>>,
}

impl Tally {
    /// That of a generation which begins with a map of so many bytes.
    pub fn of(map: u64) -> Tally {
        Tally { map, ..Tally::default() }
    }

    /// Something was executed.
    pub fn add(&mut self, executed: &Executed) {
        if !executed.answer.is_done() {
            return;
        }
        self.executed.insert(executed.instance);
        match &executed.command {
            Some(Command::Seal { value }) => self.seal = Some(value.to_vec()),
            Some(command) => self.map = self.map.saturating_add_signed(growth(command, &executed.answer)),
            None => {}
        }
    }
}
