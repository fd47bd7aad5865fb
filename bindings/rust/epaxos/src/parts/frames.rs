//! What the host reads of frames: a part of their headers, and nothing that it has to trust.
use crate::Instance;
use crate::ffi::{self, FrameHead};

const PRE_ACCEPT: u8 = 1;
const PRE_ACCEPT_OK: u8 = 2;
const ACCEPT: u8 = 3;
const COMMIT: u8 = 5;
const PREPARE: u8 = 6;
/// The op of a seal.
const SEAL: u8 = 9;

/// A part of a frame's header.
#[derive(Clone, Copy, PartialEq, Eq, Debug)]
pub struct Head {
    kind: u8,
    op: u8,
    /// The entry of its sender that it is of.
    pub entry: u32,
    pub instance: Instance,
    /// The counter of its ballot; 0 of a Commit.
    pub ballot: u16,
    pub dependencies: u16,
    pub generation: u32,
}

impl Head {
    /// That of a frame of a generation. None where the bytes are no beginning of one.
    pub fn read(frame: &[u8]) -> Option<Head> {
        let head = ffi::frame_head(frame)?;
        let FrameHead { kind, op, entry, ballot, dependencies, generation, .. } = head;
        let instance = Instance { replica: head.replica, number: head.number };
        Some(Head { kind, op, entry, instance, ballot, dependencies, generation })
    }

    /// Whether it says that a command, or a seal, is committed.
    pub fn is_commit(&self) -> bool {
        self.kind == COMMIT
    }

    /// Whether it asks a member of the fast quorum for its vote on a proposal.
    pub fn is_asking(&self) -> bool {
        self.kind == PRE_ACCEPT && self.ballot == 0
    }

    /// Whether it is a member's vote on a proposal, and not on what a recovery proposes anew.
    pub fn is_vote(&self) -> bool {
        self.kind == PRE_ACCEPT_OK && self.ballot == 0
    }

    /// Whether its sender begins the second phase of the slow path.
    pub fn is_accept(&self) -> bool {
        self.kind == ACCEPT
    }

    /// Whether its sender begins to recover the instance.
    pub fn is_prepare(&self) -> bool {
        self.kind == PREPARE
    }

    /// Whether its sender goes on to a phase that another one's recovery, or one more of its own, would undo: of a
    /// recovery, or the second one.
    pub fn is_past_first(&self) -> bool {
        self.is_prepare() || self.is_accept() || (self.kind == PRE_ACCEPT && self.ballot > 0)
    }

    /// Whether it is of a seal that is under way.
    pub fn is_seal_proposed(&self) -> bool {
        self.kind == PRE_ACCEPT && self.op == SEAL
    }

    /// Whether it says that a seal is committed.
    pub fn is_seal_committed(&self) -> bool {
        self.is_commit() && self.op == SEAL
    }
}

#[cfg(test)]
mod tests {
    use super::*;

    /// By the places in the table of docs/FORMATS.md, section 1.2.
    #[test]
    fn the_places_of_the_header() {
        let mut frame = vec![0; 48];
        frame[..4].copy_from_slice(&[0x45, 0x50, 3, 5]);
        frame[8..12].copy_from_slice(&[0, 0, 1, 2]);
        frame[20..23].copy_from_slice(&[2, 1, 44]);
        frame[23..25].copy_from_slice(&[7, 8]);
        frame[34] = 9;
        frame[38..40].copy_from_slice(&[3, 4]);
        frame[40..44].copy_from_slice(&[0, 0, 5, 6]);
        let head = Head::read(&frame).unwrap();
        assert_eq!((head.entry, head.ballot, head.dependencies, head.generation), (258, 1_800, 772, 1_286));
        assert_eq!(head.instance, Instance { replica: 2, number: 300 });
        assert!(head.is_seal_committed() && !head.is_seal_proposed() && head.is_commit() && !head.is_prepare());
        frame[34] = 3;
        let head = Head::read(&frame).unwrap();
        assert!(head.is_commit() && !head.is_seal_committed());
        frame[3] = 6;
        let head = Head::read(&frame).unwrap();
        assert!(head.is_prepare() && !head.is_commit());
        frame[34] = 9;
        frame[3] = 1;
        assert!(Head::read(&frame).unwrap().is_seal_proposed());
        frame[34] = 3;
        assert!(!Head::read(&frame).unwrap().is_seal_proposed());
        // (at the ballot 7.8, and at 0)
        let kinds =
            |head: &Head| [head.is_asking(), head.is_vote(), head.is_accept(), head.is_past_first()].map(u8::from);
        for (kind, later, first) in [
            (1, [0, 0, 0, 1], [1, 0, 0, 0]),
            (2, [0; 4], [0, 1, 0, 0]),
            (3, [0, 0, 1, 1], [0, 0, 1, 1]),
            (4, [0; 4], [0; 4]),
            (6, [0, 0, 0, 1], [0, 0, 0, 1]),
        ] {
            frame[3] = kind;
            assert_eq!(kinds(&Head::read(&frame).unwrap()), later);
            let mut frame = frame.clone();
            frame[23..25].fill(0);
            assert_eq!(kinds(&Head::read(&frame).unwrap()), first);
        }
        assert_eq!(Head::read(&frame[..47]), None);
        frame[2] = 2;
        assert_eq!(Head::read(&frame), None);
    }
}
