//! What isn't committed.
#![forbid(unsafe_code)]

use crate::bytes::Fields;
use crate::{Instance, Leading, Phase};

/// An instance that the replica knows of and hasn't committed.
///
/// ```
/// fn is_led_here(open: &epaxos::OpenInstance) -> bool {
///     open.led.is_some()
/// }
/// ```
#[derive(Clone, Copy, PartialEq, Eq, Hash, Debug)]
pub struct OpenInstance {
    /// Which one it is.
    pub instance: Instance,
    /// The first entry that is about it; none where it is known of only as what others depend on.
    pub since: Option<u32>,
    /// How far it is led here, if it is.
    pub led: Option<Leading>,
    /// The replica that your proposal of it names as the spared one, if it names one. A core doesn't report it: set it
    /// for [`Patience`](crate::Patience), which then waits for just those to which the proposal went.
    pub spared: Option<u8>,
}

impl OpenInstance {
    pub(crate) fn read(fields: &mut Fields) -> Option<OpenInstance> {
        let (instance, since) = (Instance::read(fields)?, fields.u32()?);
        let (phase, answers) = (fields.u8()?, fields.u8()?);
        let phase = match phase {
            0 => None,
            1 => Some(Phase::Proposing),
            2 => Some(Phase::Accepting),
            3 => Some(Phase::Preparing),
            _ => return None,
        };
        let led = phase.map(|phase| Leading { phase, answers });
        Some(OpenInstance { instance, since: (since > 0).then_some(since), led, spared: None })
    }
}
