//! What is handed to peers that lag: the bytes that lead to a generation, of each peer those that were announced to it
//! first, for as long as they are there.
use crate::host::Span;
use crate::parts::messages::{LONGEST_PIECE, Message};
use crate::parts::way::Way;
use std::collections::BTreeMap;

#[derive(Default)]
pub struct Lead {
    ways: BTreeMap<u8, Way>,
}

/// A piece, of which the rest has to be read.
pub struct Piece {
    ends: (u32, u32),
    total: u64,
    offset: u64,
    front: Vec<u8>,
    /// Where the rest is.
    pub spans: Vec<Span>,
}

impl Piece {
    fn of(way: &Way, offset: u64) -> Piece {
        let offset = offset.min(way.total());
        let (front, spans) = way.piece(offset, LONGEST_PIECE);
        Piece { ends: way.ends(), total: way.total(), offset, front, spans }
    }

    /// What is sent to the peer, once this is read.
    pub fn with(self, rest: &[u8]) -> Message {
        let Piece { ends: (first, generation), total, offset, mut front, .. } = self;
        front.extend(rest);
        Message::Part { first, generation, total, offset, bytes: front }
    }
}

impl Lead {
    /// The piece at `offset` of the bytes that lead from the first of these generations to the second, where a peer was
    /// notified of them before.
    pub fn begun(&self, to: u8, ends: (u32, u32), offset: u64) -> Option<Piece> {
        self.ways.get(&to).filter(|way| way.ends() == ends).map(|way| Piece::of(way, offset))
    }

    /// A peer is handed these from now on: their first piece, or the one at `offset`, where they are those that it
    /// asks for.
    pub fn begin(&mut self, to: u8, way: Way, (ends, offset): ((u32, u32), u64)) -> Piece {
        // (after a start the same bytes may be there)
        let piece = Piece::of(&way, if way.ends() == ends { offset } else { 0 });
        self.ways.insert(to, way);
        piece
    }

    /// What was begun for a peer isn't there any more.
    pub fn lose(&mut self, to: u8) {
        self.ways.remove(&to);
    }

    /// Nobody is handed anything any more.
    pub fn end(&mut self) {
        self.ways.clear();
    }
}
