//! Pipelines of commands on two keys, which are judged as one object: what sets both, or reads both, is one command.
use crate::workers::{Notes, Outcome, Work, outcome_of, refused, value_bytes, value_in, words};
use std::sync::atomic::Ordering;
use store::linearizable::{Action, OfPair, Operation};
use store::random::Random;
use testing::client::{Client, Reply};

/// So many pairs of keys are used.
pub const PAIRS: u64 = 4;
/// So many commands are sent at once, at most.
const MOST_COMMANDS: u64 = 6;

/// What a client asked of a pair of keys and was answered.
#[derive(Clone, Debug)]
pub struct PairNote {
    pub pair: u64,
    pub operation: Operation<OfPair>,
}

/// A client sends a pipeline: what came of it, and whether the connection may be used further.
pub fn run(work: &Work, client: &mut Client, random: &mut Random, notes: &mut Notes) -> Outcome<()> {
    let pair = random.below(PAIRS);
    let actions: Vec<OfPair> = (0..2 + random.below(MOST_COMMANDS - 1)).map(|_| choose(work, random)).collect();
    send(work, client, pair, &actions, notes)
}

/// What both keys have.
pub fn look(work: &Work, client: &mut Client, pair: u64, notes: &mut Notes) -> Outcome<()> {
    send(work, client, pair, &[OfPair::Look([None; 2])], notes)
}

fn choose(work: &Work, random: &mut Random) -> OfPair {
    let value = || work.values.fetch_add(1, Ordering::Relaxed) + 1;
    let action = match random.below(8) {
        0 => return OfPair::Both([value(), value()]),
        1 | 2 => return OfPair::Look([None; 2]),
        3 | 4 => Action::Set(value()),
        5 => Action::Exchange(value(), None),
        _ => Action::Get(None),
    };
    if random.below(2) == 0 { OfPair::First(action) } else { OfPair::Second(action) }
}

/// The commands of an action, in their words.
fn commands(pair: u64, action: OfPair) -> Vec<Vec<Vec<u8>>> {
    let [first, second] = [0, 1].map(|place| format!("pair {pair}, key {place}").into_bytes());
    let word = <[u8]>::to_vec;
    match action {
        OfPair::First(action) => vec![words(&first, action)],
        OfPair::Second(action) => vec![words(&second, action)],
        OfPair::Both([one, other]) => vec![vec![word(b"MSET"), first, value_bytes(one), second, value_bytes(other)]],
        OfPair::Look(_) => {
            vec![vec![word(b"MULTI")], vec![word(b"GET"), first], vec![word(b"GET"), second], vec![word(b"EXEC")]]
        }
    }
}

/// Sends the actions at once, and notes what was answered and when; but not what surely wasn't done.
fn send(work: &Work, client: &mut Client, pair: u64, actions: &[OfPair], notes: &mut Notes) -> Outcome<()> {
    let pipeline = Some(work.pipelines.fetch_add(1, Ordering::Relaxed));
    let start = work.now();
    let all: Vec<Vec<Vec<u8>>> = actions.iter().flat_map(|action| commands(pair, *action)).collect();
    let lent: Vec<Vec<&[u8]>> = all.iter().map(|words| words.iter().map(Vec::as_slice).collect()).collect();
    let mut is_whole = client.send(&lent.iter().map(Vec::as_slice).collect::<Vec<_>>()).is_ok();
    let mut last = Outcome::Answer(());
    for action in actions {
        let replies = commands(pair, *action).len();
        let reply = (0..replies).map(|_| if is_whole { client.read().ok() } else { None }).last().flatten();
        is_whole &= reply.is_some();
        let outcome = reply.map_or(Ok(Outcome::Nothing), |reply| outcome(*action, reply));
        let outcome = outcome.unwrap_or_else(|fault| {
            notes.faults.push(fault);
            Outcome::Nothing
        });
        let (action, end) = match outcome {
            Outcome::Answer(action) => (action, Some(work.now())),
            Outcome::Nothing => (*action, None),
            Outcome::Refused => {
                last = Outcome::Refused;
                continue;
            }
        };
        if end.is_none() {
            last = Outcome::Nothing;
        }
        work.answered.fetch_add(u64::from(end.is_some()), Ordering::Relaxed);
        notes.pairs.push(PairNote { pair, operation: Operation { action, start, end, pipeline } });
    }
    last
}

/// What was answered. An error is a reply that no store may give.
fn outcome(action: OfPair, reply: Reply) -> Result<Outcome<OfPair>, String> {
    match (action, reply) {
        (_, Reply::Error(text)) => refused(&text),
        (OfPair::First(action), reply) => Ok(outcome_of(action, reply)?.map(OfPair::First)),
        (OfPair::Second(action), reply) => Ok(outcome_of(action, reply)?.map(OfPair::Second)),
        (OfPair::Both(_), Reply::Simple(text)) if text == "OK" => Ok(Outcome::Answer(action)),
        (OfPair::Look(_), Reply::Array(values)) => match <[Reply; 2]>::try_from(values) {
            Ok([Reply::Bulk(first), Reply::Bulk(second)]) => {
                Ok(Outcome::Answer(OfPair::Look([value_in(first)?, value_in(second)?])))
            }
            other => Err(format!("an answer that doesn't fit: {other:?}")),
        },
        (_, reply) => Err(format!("an answer that doesn't fit: {reply:?}")),
    }
}
