//! What clients ask for.

/// What clients ask for: each kind so often, as a part of the sum of all, which is at least 1.
///
/// ```
/// use epaxos::sim::{Mix, Plan};
///
/// // nine reads and one put
/// let plan = Plan { mix: Mix { puts: 1, reads: 9, ..Mix::NONE }, ..Plan::of_seed(1) };
/// # assert_ne!(plan.mix, Mix::default());
/// ```
#[derive(Clone, Copy, PartialEq, Eq, Debug)]
pub struct Mix {
    /// A value is put.
    pub puts: u32,
    /// A key is deleted.
    pub dels: u32,
    /// A value is put where the key has none.
    pub news: u32,
    /// A read that writes nothing.
    pub reads: u32,
    /// A read that is a command.
    pub gets: u32,
    /// Two keys by one command: both are put, or one where the other has nothing.
    pub pairs: u32,
    /// The machine of each replica writes one of its registers, or only reads it.
    pub machine: u32,
}

impl Mix {
    /// Nothing of any kind, to name some from.
    ///
    /// ```
    /// use epaxos::sim::Mix;
    ///
    /// let only_gets = Mix { gets: 1, ..Mix::NONE };
    /// # assert_eq!(only_gets.puts, 0);
    /// ```
    pub const NONE: Mix = Mix { puts: 0, dels: 0, news: 0, reads: 0, gets: 0, pairs: 0, machine: 0 };
}

impl Default for Mix {
    /// Half of it writes.
    fn default() -> Mix {
        Mix { puts: 6, dels: 1, news: 1, reads: 5, gets: 1, pairs: 2, machine: 2 }
    }
}
