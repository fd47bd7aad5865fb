//! Faults that are planted.

/// Faults that are planted, so that a trial can be seen to find them. They do nothing without the feature `plants`.
/// Never for use.
///
/// ```
/// use epaxos::host::Plant;
///
/// assert_eq!(Plant::NoRecovery.to_string(), "NoRecovery");
/// ```
#[derive(Clone, Copy, PartialEq, Eq, PartialOrd, Ord, Hash, Debug)]
#[non_exhaustive]
pub enum Plant {
    /// A put is answered when it is proposed.
    EarlyAnswer,
    /// Frames and answers go out before the log is on the disk.
    BeforeSync,
    /// An older copy of the log is gone on with.
    Forgetful,
    /// The same, where peers have seen up to five entries more than it has.
    ForgetsFew,
    /// What is seen of peers is never noted.
    SeesNothing,
    /// With each proposal goes that no receipt was seen.
    SeenZero,
    /// What a generation that peers have left has done under a number of this replica is taken for what it proposed.
    TakesForOwn,
    /// Answers are waited for 100 ms, however far the peers are.
    FixedWaits,
    /// An opening that is handed lacks its last key.
    WrongOpening,
    /// A read asks one replica fewer than it has to.
    ReadFewer,
    /// A read is answered what the key has here.
    ReadLocal,
    /// A read is answered what the key had when its question was sent.
    ReadBefore,
    /// A question serves a read that was asked later.
    ReadLater,
    /// A read doesn't wait for the last instance that was found.
    ReadPartly,
    /// What interferes with a read is reported of another generation, and taken.
    ReadForeign,
    /// Of commands that were done some are taken for closed, so that they are done twice.
    DoneTwice,
    /// Of two receipts that come together each one's client gets the other's answer.
    Swapped,
    /// Some answers are sent twice.
    ToldTwice,
    /// The numbers of clients begin anew at each start.
    SameNumbers,
    /// What waits at the end of a generation is forgotten.
    ForgetsWaiting,
    /// After an opening was taken all that waits is proposed again.
    TakenTwice,
    /// Commits that are lost aren't sent again.
    NoCommitsAgain,
    /// Nothing is recovered.
    NoRecovery,
    /// Peers are greeted once, when their link opens.
    GreetsOnce,
    /// A lagging replica asks nobody for an opening.
    StaysBehind,
    /// The log of the next generation is begun before its reference is on the disk.
    LateReference,
    /// What is older is dropped before the opening is on the disk.
    DropsEarly,
    /// A machine that is replaced takes the present generation.
    JoinsEarly,
    /// What comes while the disk is at work is dropped.
    DropsWhileBusy,
    /// Of what was written by one command each client is answered what another one's key had.
    ToldAnothers,
    /// A wish is granted whoever is reached, or waits.
    ResizesAlone,
    /// The state of the machine that goes with an opening is that of later than where the generation began.
    LateSnapshot,
    /// An opening is written without the state of the machine.
    LacksMachine,
    /// With an opening of a peer the machine doesn't take the state.
    StaleMachine,
    /// Who gives up what was proposed is answered that it wasn't done.
    GivesUpProposed,
    /// A host ends before what is under way was answered.
    EndsEarly,
    /// Of what may have been done it is told that it wasn't.
    DeniesDoubtful,
    /// The last change of several isn't told to those who watch.
    LosesChange,
}

impl Plant {
    /// All of them.
    ///
    /// ```
    /// use epaxos::host::Plant;
    ///
    /// assert!(Plant::ALL.iter().all(|plant| Plant::read(&plant.to_string()) == Some(*plant)));
    /// ```
    pub const ALL: [Plant; 38] = [
        Plant::EarlyAnswer,
        Plant::BeforeSync,
        Plant::Forgetful,
        Plant::ForgetsFew,
        Plant::SeesNothing,
        Plant::SeenZero,
        Plant::TakesForOwn,
        Plant::FixedWaits,
        Plant::WrongOpening,
        Plant::ReadFewer,
        Plant::ReadLocal,
        Plant::ReadBefore,
        Plant::ReadLater,
        Plant::ReadPartly,
        Plant::ReadForeign,
        Plant::DoneTwice,
        Plant::Swapped,
        Plant::ToldTwice,
        Plant::SameNumbers,
        Plant::ForgetsWaiting,
        Plant::TakenTwice,
        Plant::NoCommitsAgain,
        Plant::NoRecovery,
        Plant::GreetsOnce,
        Plant::StaysBehind,
        Plant::LateReference,
        Plant::DropsEarly,
        Plant::JoinsEarly,
        Plant::DropsWhileBusy,
        Plant::ToldAnothers,
        Plant::ResizesAlone,
        Plant::LateSnapshot,
        Plant::LacksMachine,
        Plant::StaleMachine,
        Plant::GivesUpProposed,
        Plant::EndsEarly,
        Plant::DeniesDoubtful,
        Plant::LosesChange,
    ];

    /// That of this name, as `Display` spells it.
    ///
    /// ```
    /// use epaxos::host::Plant;
    ///
    /// assert_eq!(Plant::read("NoRecovery"), Some(Plant::NoRecovery));
    /// ```
    pub fn read(name: &str) -> Option<Plant> {
        Plant::ALL.into_iter().find(|plant| plant.to_string() == name)
    }
}

impl std::fmt::Display for Plant {
    fn fmt(&self, f: &mut std::fmt::Formatter) -> std::fmt::Result {
        write!(f, "{self:?}")
    }
}
