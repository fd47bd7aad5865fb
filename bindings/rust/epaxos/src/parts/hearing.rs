//! What a peer's host reports, of what each host goes about in the same way.
use crate::parts::messages::Message;
use crate::parts::progress::Progress;
use crate::parts::reading::Reading;
use std::time::Instant;

/// What is to be done with it.
pub enum Heard {
    /// Nothing more.
    Nothing,
    /// This is to be sent the peer.
    Answer(Vec<u8>),
    /// It is the host's to go about.
    Message(Message),
}

/// Hears what a peer's host reports.
pub fn hear<T>(progress: &mut Progress, reads: &mut Reading<T>, (from, bytes): (u8, Vec<u8>), now: Instant) -> Heard {
    let own = progress.generation.number;
    match Message::read(&bytes) {
        Some(Message::Ping(number)) => return Heard::Answer(Message::Pong(number).write()),
        Some(Message::Pong(number)) => progress.hear_pong(from, number, now),
        Some(Message::Ask { generation, .. }) if generation > own => {
            progress.others.keep_early(from, generation, bytes);
        }
        Some(Message::Find { generation, question, first, lists }) => {
            reads.hear(progress, from, (generation, question), (first, &lists));
        }
        // (of another generation's instances nothing follows)
        Some(Message::Committed { generation, .. }) if generation != own => {}
        Some(message) => return Heard::Message(message),
        None => progress.counts.refused += 1,
    }
    Heard::Nothing
}

#[cfg(test)]
mod tests {
    use super::*;
    use crate::State;
    use crate::parts::commits::Committed;
    use crate::parts::messages::Question;
    use crate::parts::place::Place;

    #[test]
    fn each_message_goes_its_way() {
        let now = Instant::now();
        let state = State { generation: 2, ..State::default() };
        let mut progress = Progress::new(Place { replicas: 3, replica: 0 }, state, 1, now).unwrap();
        let mut reads = Reading::<()>::new(3, 1, None);
        let mut hear = |message: Message| hear(&mut progress, &mut reads, (1, message.write()), now);
        let ask =
            |generation| Message::Ask { generation, question: Question { start: 1, number: 1 }, keys: Vec::new() };
        let committed = |generation| Message::Committed { generation, committed: Committed::new(3) };
        assert!(matches!(hear(Message::Ping(7)), Heard::Answer(bytes) if bytes == Message::Pong(7).write()));
        for message in [Message::Pong(7), ask(3), committed(1), committed(3)] {
            assert!(matches!(hear(message), Heard::Nothing));
        }
        let hello = Message::Hello { generation: 5, is_sealed: false, seen: 0 };
        for message in [ask(1), ask(2), committed(2), hello] {
            assert!(matches!(hear(message.clone()), Heard::Message(it) if it == message));
        }
        assert_eq!(progress.others.take_early(3), [(1, ask(3).write())]);
        let mut cut = ask(2).write();
        cut.pop();
        assert!(matches!(super::hear(&mut progress, &mut reads, (1, cut), now), Heard::Nothing));
        assert_eq!(progress.counts.refused, 1);
    }
}
