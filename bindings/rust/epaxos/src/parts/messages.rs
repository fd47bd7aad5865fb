//! What hosts send one another, on the connections of frames: how far each is, what is committed there, what interferes
//! with reads, and openings, or what leads to them, in pieces.
use crate::parts::commits::Committed;
use crate::parts::identity::Identity;
use crate::{Fields, Instance, LONGEST_KEY};

/// A frame begins with other bytes.
const MAGIC: &[u8] = b"ES";
/// An opening is handed in pieces of so many bytes at most.
pub const LONGEST_PIECE: u64 = 128 << 10;

#[derive(Clone, PartialEq, Eq, Debug)]
pub enum Message {
    /// How far the sender is.
    Hello {
        generation: u32,
        /// Whether it has executed the generation's seal.
        is_sealed: bool,
        /// The greatest number of an entry of the receiver that it saw in this generation.
        seen: u32,
    },
    /// It wants what is behind this place of the opening of this generation, or of the newest one, by 0.
    Want { generation: u32, offset: u64 },
    /// A piece of an opening, which has so many bytes in all.
    Piece { generation: u32, total: u64, offset: u64, bytes: Vec<u8> },
    /// It wants what is behind this place of the bytes that lead from the first of these generations to the second, or
    /// to the newest one, by 0.
    Follow { first: u32, generation: u32, offset: u64 },
    /// A piece of these bytes, of which there are so many.
    Part { first: u32, generation: u32, total: u64, offset: u64, bytes: Vec<u8> },
    /// What is committed at the sender in this generation.
    Committed { generation: u32, committed: Committed },
    /// It is to be answered at once: so the sender learns how far the receiver is.
    Ping(u64),
    /// The answer to the ping of this number.
    Pong(u64),
    /// It wants to know what interferes with reads of these keys in this generation.
    Ask { generation: u32, question: Question, keys: Vec<Vec<u8>> },
    /// What interferes at the sender with reads of this question's keys, from one of them on: a list for each, rising.
    Find { generation: u32, question: Question, first: u16, lists: Vec<Vec<Instance>> },
    /// Which machine the sender is, and whether it waits to be let in.
    Machine { identity: Identity, waits: bool },
}

/// Which question of a store: the start that asks it, by the number under which it proposes seals, which no other one
/// has; and which of that one's.
#[derive(Clone, Copy, PartialEq, Eq, Debug)]
pub struct Question {
    pub start: u32,
    pub number: u64,
}

impl Question {
    fn write(self, out: &mut Vec<u8>) {
        out.extend(self.start.to_be_bytes());
        out.extend(self.number.to_be_bytes());
    }

    fn read(fields: &mut Fields) -> Option<Question> {
        Some(Question { start: fields.u32()?, number: fields.u64()? })
    }
}

impl Message {
    /// Whether the bytes are a message, and no frame.
    pub fn is_one(bytes: &[u8]) -> bool {
        bytes.starts_with(MAGIC)
    }

    pub fn write(&self) -> Vec<u8> {
        // (most are short)
        let mut out = Vec::with_capacity(32);
        out.extend(MAGIC);
        match self {
            Message::Hello { generation, is_sealed, seen } => {
                out.push(1);
                out.extend(generation.to_be_bytes());
                out.push(u8::from(*is_sealed));
                out.extend(seen.to_be_bytes());
            }
            Message::Want { generation, offset } => {
                out.push(2);
                out.extend(generation.to_be_bytes());
                out.extend(offset.to_be_bytes());
            }
            Message::Piece { generation, total, offset, bytes } => {
                out.push(3);
                out.extend(generation.to_be_bytes());
                out.extend(total.to_be_bytes());
                out.extend(offset.to_be_bytes());
                out.extend(bytes);
            }
            Message::Follow { first, generation, offset } => {
                out.push(9);
                out.extend(first.to_be_bytes());
                out.extend(generation.to_be_bytes());
                out.extend(offset.to_be_bytes());
            }
            Message::Part { first, generation, total, offset, bytes } => {
                out.push(10);
                out.extend(first.to_be_bytes());
                out.extend(generation.to_be_bytes());
                out.extend(total.to_be_bytes());
                out.extend(offset.to_be_bytes());
                out.extend(bytes);
            }
            Message::Committed { generation, committed } => {
                out.push(6);
                out.extend(generation.to_be_bytes());
                committed.write(&mut out);
            }
            Message::Ping(number) => {
                out.push(7);
                out.extend(number.to_be_bytes());
            }
            Message::Pong(number) => {
                out.push(8);
                out.extend(number.to_be_bytes());
            }
            Message::Ask { generation, question, keys } => {
                out.push(11);
                out.extend(generation.to_be_bytes());
                question.write(&mut out);
                for key in keys {
                    out.push(key.len() as u8);
                    out.extend(key);
                }
            }
            Message::Find { generation, question, first, lists } => {
                out.push(12);
                out.extend(generation.to_be_bytes());
                question.write(&mut out);
                out.extend(first.to_be_bytes());
                for list in lists {
                    out.extend((list.len() as u32).to_be_bytes());
                    list.iter().for_each(|instance| out.extend(instance.bytes()));
                }
            }
            Message::Machine { identity, waits } => {
                out.push(13);
                out.extend(identity);
                out.push(u8::from(*waits));
            }
        }
        out
    }

    /// None where the bytes spell none.
    pub fn read(bytes: &[u8]) -> Option<Message> {
        let mut fields = Fields::new(bytes);
        if fields.run(MAGIC.len())? != MAGIC {
            return None;
        }
        let message = match fields.u8()? {
            1 => Message::Hello { generation: fields.u32()?, is_sealed: flag(fields.u8()?)?, seen: fields.u32()? },
            2 => Message::Want { generation: fields.u32()?, offset: fields.u64()? },
            3 => {
                let (generation, total, offset) = (fields.u32()?, fields.u64()?, fields.u64()?);
                Message::Piece { generation, total, offset, bytes: take_rest(&mut fields).to_vec() }
            }
            6 => Message::Committed { generation: fields.u32()?, committed: Committed::read(&mut fields)? },
            7 => Message::Ping(fields.u64()?),
            8 => Message::Pong(fields.u64()?),
            9 => Message::Follow { first: fields.u32()?, generation: fields.u32()?, offset: fields.u64()? },
            10 => {
                let (first, generation) = (fields.u32()?, fields.u32()?);
                let (total, offset) = (fields.u64()?, fields.u64()?);
                Message::Part { first, generation, total, offset, bytes: take_rest(&mut fields).to_vec() }
            }
            11 => {
                let (generation, question, mut keys) = (fields.u32()?, Question::read(&mut fields)?, Vec::new());
                while !fields.is_over() {
                    let length = usize::from(fields.u8()?);
                    keys.push(fields.run(length).filter(|key| (1..=LONGEST_KEY).contains(&key.len()))?.to_vec());
                }
                Message::Ask { generation, question, keys }
            }
            12 => {
                let (generation, question) = (fields.u32()?, Question::read(&mut fields)?);
                let (first, mut lists) = (fields.u16()?, Vec::new());
                while !fields.is_over() {
                    let count = fields.u32()?;
                    lists.push((0..count).map(|_| Instance::read(&mut fields)).collect::<Option<_>>()?);
                }
                Message::Find { generation, question, first, lists }
            }
            13 => Message::Machine { identity: *fields.run(16)?.first_chunk()?, waits: flag(fields.u8()?)? },
            _ => return None,
        };
        fields.is_over().then_some(message)
    }
}

/// All that is left.
fn take_rest<'a>(fields: &mut Fields<'a>) -> &'a [u8] {
    std::mem::replace(fields, Fields::new(&[])).rest()
}

fn flag(byte: u8) -> Option<bool> {
    match byte {
        0 => Some(false),
        1 => Some(true),
        _ => None,
    }
}

#[cfg(test)]
mod tests {
    use super::*;
    use crate::Instance;

    #[test]
    fn word_for_word() {
        let hello = Message::Hello { generation: 258, is_sealed: true, seen: 3 };
        let spelled = [b'E', b'S', 1, 0, 0, 1, 2, 1, 0, 0, 0, 3];
        assert_eq!(hello.write(), spelled);
        let want = Message::Want { generation: 1, offset: 2 };
        assert_eq!(want.write(), [b'E', b'S', 2, 0, 0, 0, 1, 0, 0, 0, 0, 0, 0, 0, 2]);
        let piece = Message::Piece { generation: 1, total: 9, offset: 2, bytes: vec![7, 8] };
        let head = [b'E', b'S', 3, 0, 0, 0, 1, 0, 0, 0, 0, 0, 0, 0, 9, 0, 0, 0, 0, 0, 0, 0, 2, 7, 8];
        assert_eq!(piece.write(), head);
        let follow = Message::Follow { first: 1, generation: 2, offset: 3 };
        assert_eq!(follow.write(), [b'E', b'S', 9, 0, 0, 0, 1, 0, 0, 0, 2, 0, 0, 0, 0, 0, 0, 0, 3]);
        let part = Message::Part { first: 1, generation: 2, total: 9, offset: 3, bytes: vec![7, 8] };
        let head = [b'E', b'S', 10, 0, 0, 0, 1, 0, 0, 0, 2, 0, 0, 0, 0, 0, 0, 0, 9, 0, 0, 0, 0, 0, 0, 0, 3, 7, 8];
        assert_eq!(part.write(), head);
        for message in [hello, want, piece, follow, part] {
            let bytes = message.write();
            assert!(Message::is_one(&bytes));
            assert_eq!(Message::read(&bytes), Some(message));
            for cut in 0..bytes.len() - 2 {
                assert_eq!(Message::read(&bytes[..cut]), None);
            }
        }
        let (ping, pong) = (Message::Ping(258), Message::Pong(258));
        assert_eq!(
            [&ping, &pong].map(Message::write),
            [7, 8].map(|kind| vec![b'E', b'S', kind, 0, 0, 0, 0, 0, 0, 1, 2])
        );
        let machine = Message::Machine { identity: [7; 16], waits: true };
        assert_eq!(machine.write(), [&b"ES\x0d"[..], &[7; 16], &[1]].concat());
        for message in [ping, pong, machine] {
            let bytes = message.write();
            assert_eq!(Message::read(&bytes[..bytes.len() - 1]), None);
            assert_eq!(Message::read(&bytes), Some(message));
        }
        assert_eq!(Message::read(&[&spelled[..], &[0]].concat()), None);
        assert!([4, 5, 14].iter().all(|kind| Message::read(&[b'E', b'S', *kind, 0, 0, 0, 0, 0, 0, 0, 0]).is_none()));
        let mut committed = Committed::new(2);
        committed.insert(Instance { replica: 1, number: 1 });
        let committed = Message::Committed { generation: 258, committed };
        assert_eq!(committed.write(), [b'E', b'S', 6, 0, 0, 1, 2, 2, 0, 0, 0, 0, 0, 1, 0, 0]);
        assert_eq!(Message::read(&committed.write()), Some(committed));
        let question = Question { start: 3, number: 258 };
        let ask = Message::Ask { generation: 1, question, keys: vec![b"x".to_vec(), b"yz".to_vec()] };
        let head = [0, 0, 0, 1, 0, 0, 0, 3, 0, 0, 0, 0, 0, 0, 1, 2];
        assert_eq!(ask.write(), [&b"ES\x0b"[..], &head, b"\x01x\x02yz"].concat());
        let lists = vec![vec![Instance { replica: 1, number: 258 }], vec![]];
        let find = Message::Find { generation: 1, question, first: 2, lists };
        assert_eq!(find.write(), [&b"ES\x0c"[..], &head, &[0, 2, 0, 0, 0, 1, 1, 1, 2, 0, 0, 0, 0]].concat());
        for message in [ask, find] {
            let bytes = message.write();
            assert_eq!(Message::read(&bytes[..bytes.len() - 1]), None);
            assert_eq!(Message::read(&bytes), Some(message));
        }
        assert_eq!(Message::read(&[&b"ES\x0b"[..], &head, &[0]].concat()), None);
        assert!(!Message::is_one(b"EP\x03"));
    }
}
