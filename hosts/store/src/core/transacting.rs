//! Transactions under way: one waits in the queue of each of its keys, in all of them since the same moment, and begins
//! once it has them all; so no two wait for one another. While it has a key nothing else is done to that from here, but
//! reads. It reads what it has to know, proposes its command, and tries again where others were first.
use crate::client::actions::Action;
use crate::client::command_fault::CommandFault;
use crate::client::replies::Combine;
use crate::client::replies::ReplyTo;
use crate::client::resp::Reply;
use crate::client::step::Step;
use crate::core::keys::{Keys, Launch, MOST_TRIES, Of, Queued, State, Turn};
use crate::core::outcome::Outcome;
use crate::core::stored;
use crate::core::transaction::{Conclusion, Plan, Proposal, Transaction, Undone};
use crate::core::view::Values;
use epaxos::host::Begun;
use epaxos::{MOST_KEYS, OwnedAnswer, OwnedValues};
use std::collections::BTreeSet;
use std::sync::Arc;

/// A transaction, and how far it is.
pub(crate) struct Transacting {
    asked: Transaction,
    to: ReplyTo,
    keys: BTreeSet<Vec<u8>>,
    /// How many of its keys others have.
    lacking: usize,
    stage: Stage,
    /// Of what it has asked: the outcome of earlier ones is nobody's.
    attempt: u64,
    /// What keys are taken to have.
    values: Values,
    /// What it replies once what was past its deadline is removed.
    reply: Option<Reply>,
    tries: usize,
    begun: Arc<Begun>,
}

enum Stage {
    Waits,
    /// So many keys are being read; after this command, which wasn't done.
    Reads(usize, Option<Proposal>),
    Proposed(Proposal),
}

impl Keys {
    /// Has a transaction done, under this number.
    pub fn transact(self: &Arc<Keys>, number: u64, asked: Transaction, to: ReplyTo) {
        let mut state = self.state();
        state.enqueue(number, asked, to);
        self.hand_on(state, None);
    }

    /// Its client waits no longer: the error that it is to get. None where it was answered already.
    pub fn withdraw_transaction(self: &Arc<Keys>, number: u64) -> Option<CommandFault> {
        let mut state = self.state();
        let transacting = state.end_transaction(number)?;
        let fault = match &transacting.stage {
            _ if transacting.reply.is_some() => CommandFault::Unseen,
            Stage::Waits => CommandFault::Waiting,
            Stage::Reads(..) => {
                transacting.begun.give_up();
                CommandFault::NotInTime
            }
            Stage::Proposed(_) if transacting.begun.give_up() => CommandFault::Waiting,
            Stage::Proposed(_) => CommandFault::Unanswered,
        };
        self.hand_on(state, None);
        Some(fault)
    }
}

impl State {
    /// Has a transaction wait for its keys.
    pub(crate) fn enqueue(&mut self, number: u64, asked: Transaction, to: ReplyTo) {
        let keys = asked.keys();
        if keys.len() > MOST_KEYS {
            return to.send(Reply::Error(CommandFault::ManyKeys(MOST_KEYS)));
        }
        let turn = Turn { transaction: number, connection: to.connection };
        for key in &keys {
            self.keys.entry(key.clone()).or_default().waiting.push_back(Queued::Turn(turn));
        }
        self.left.extend(keys.iter().cloned());
        let transacting = Transacting {
            lacking: keys.len(),
            keys,
            asked,
            to,
            stage: Stage::Waits,
            attempt: 0,
            values: Values::new(),
            reply: None,
            tries: 0,
            begun: Arc::default(),
        };
        self.transactions.insert(number, transacting);
    }

    /// A transaction has one more of its keys.
    pub(crate) fn lend(&mut self, turn: Turn) {
        let Some(transacting) = self.transactions.get_mut(&turn.transaction) else { return };
        transacting.lacking -= 1;
        if transacting.lacking == 0 {
            self.ready.push(turn.transaction);
        }
    }

    /// It has all of its keys. What they have may be known.
    pub(crate) fn begin_transaction(&mut self, number: u64) {
        let Some(transacting) = self.transactions.get_mut(&number) else { return };
        for key in &transacting.keys {
            if let Some(value) = self.known.get(key) {
                transacting.values.insert(key.clone(), value.clone());
            }
        }
        self.go_about(number);
    }

    /// Goes about a transaction by what is known.
    fn go_about(&mut self, number: u64) {
        let Some(transacting) = self.transactions.get(&number) else { return };
        match transacting.asked.plan(&transacting.values, stored::now()) {
            Err(fault) => self.fail_transaction(number, fault),
            Ok(Plan::Over(reply)) => self.answer_transaction(number, reply),
            Ok(Plan::Read(keys)) => self.read_for(number, keys, None),
            Ok(Plan::Propose(proposal)) => self.propose_transaction(number, proposal),
        }
    }

    /// Has keys read, of which all is to be known then; after a command that wasn't done.
    fn read_for(&mut self, number: u64, keys: Vec<Vec<u8>>, undone: Option<Proposal>) {
        let Some(transacting) = self.transactions.get_mut(&number) else { return };
        transacting.attempt += 1;
        transacting.stage = Stage::Reads(keys.len(), undone);
        transacting.begun = Arc::default();
        for key in keys {
            let of = Of::Transaction(number, transacting.attempt, key);
            let (connection, begun) = (transacting.to.connection, transacting.begun.clone());
            self.launches.push(Launch { of, connection, command: None, begun });
        }
    }

    fn propose_transaction(&mut self, number: u64, proposal: Proposal) {
        let Some(transacting) = self.transactions.get_mut(&number) else { return };
        transacting.attempt += 1;
        transacting.begun = Arc::default();
        let (of, begun) = (Of::Transaction(number, transacting.attempt, Vec::new()), transacting.begun.clone());
        let (connection, command) = (transacting.to.connection, Some(proposal.command.clone()));
        transacting.stage = Stage::Proposed(proposal);
        self.launches.push(Launch { of, connection, command, begun });
    }

    /// What became of what a transaction has asked.
    pub(crate) fn take_transaction(&mut self, number: u64, attempt: u64, key: Vec<u8>, outcome: Outcome) {
        let Some(transacting) = self.transactions.get_mut(&number).filter(|it| it.attempt == attempt) else { return };
        let fault = match outcome {
            Outcome::Value(value) => return self.take_value(number, key, value),
            Outcome::Done(OwnedAnswer::Done(values)) => return self.done_transaction(number, values_of(&values)),
            Outcome::Done(OwnedAnswer::Undone(values)) => return self.undone_transaction(number, values_of(&values)),
            Outcome::Done(_) => CommandFault::Doubtful,
            Outcome::DoneUnseen => match &transacting.stage {
                Stage::Proposed(proposal) if proposal.replies_blindly => {
                    return self.done_transaction(number, Vec::new());
                }
                Stage::Proposed(proposal) if proposal.required.is_empty() => CommandFault::Unseen,
                _ => CommandFault::Doubtful,
            },
            outcome => CommandFault::of(outcome),
        };
        self.fail_transaction(number, fault);
    }

    /// A key has this.
    fn take_value(&mut self, number: u64, key: Vec<u8>, value: Option<Vec<u8>>) {
        self.know(&key, value.clone());
        let Some(transacting) = self.transactions.get_mut(&number) else { return };
        transacting.values.insert(key, value);
        let Stage::Reads(left, undone) = &mut transacting.stage else { return };
        *left -= 1;
        if *left > 0 {
            return;
        }
        match undone.take() {
            None => self.go_about(number),
            Some(proposal) => self.judge_undone(number, proposal),
        }
    }

    fn done_transaction(&mut self, number: u64, reported: Vec<Option<Vec<u8>>>) {
        let Some(transacting) = self.transactions.get_mut(&number) else { return };
        let Stage::Proposed(proposal) = std::mem::replace(&mut transacting.stage, Stage::Waits) else { return };
        let conclusion = transacting.asked.done(&proposal, reported.clone());
        for (key, value) in proposal.reported.into_iter().zip(reported).chain(proposal.required).chain(proposal.written)
        {
            self.know(&key, value);
        }
        self.conclude(number, conclusion);
    }

    fn undone_transaction(&mut self, number: u64, reported: Vec<Option<Vec<u8>>>) {
        let Some(transacting) = self.transactions.get_mut(&number) else { return };
        let Stage::Proposed(proposal) = std::mem::replace(&mut transacting.stage, Stage::Waits) else { return };
        transacting.tries += 1;
        transacting.values = proposal.reported.iter().cloned().zip(reported).collect();
        if transacting.tries == MOST_TRIES {
            return self.fail_transaction(number, CommandFault::Contended);
        }
        self.judge_undone(number, proposal);
    }

    /// A command wasn't done, and of keys that are known now it is known since.
    fn judge_undone(&mut self, number: u64, proposal: Proposal) {
        let Some(transacting) = self.transactions.get(&number) else { return };
        match transacting.asked.undone(&proposal, &transacting.values) {
            Undone::Over(conclusion) => self.conclude(number, conclusion),
            Undone::Again => self.go_about(number),
            Undone::Read(keys) => self.read_for(number, keys, Some(proposal)),
        }
    }

    /// It is known what is replied: once what is past its deadline is removed, so that nobody sees it any more.
    fn conclude(&mut self, number: u64, conclusion: Conclusion) {
        let Some(transacting) = self.transactions.get_mut(&number) else { return };
        let reply = transacting.reply.take().unwrap_or(conclusion.reply);
        if conclusion.expired.is_empty() {
            return self.answer_transaction(number, reply);
        }
        let steps = conclusion.expired.keys().map(|key| Step::Act(key.clone(), Action::Tidy)).collect();
        transacting.asked = Transaction::one(Combine::All, steps);
        (transacting.reply, transacting.values) = (Some(reply), conclusion.expired);
        self.go_about(number);
    }

    fn answer_transaction(&mut self, number: u64, reply: Reply) {
        if let Some(transacting) = self.end_transaction(number) {
            transacting.to.send(reply);
        }
    }

    fn fail_transaction(&mut self, number: u64, fault: CommandFault) {
        let Some(transacting) = self.end_transaction(number) else { return };
        transacting.keys.iter().for_each(|key| _ = self.known.remove(key));
        // (what it was to do is done)
        let fault = if transacting.reply.is_some() { CommandFault::Unseen } else { fault };
        transacting.to.send(Reply::Error(fault));
    }

    /// Nothing more is done for it: its keys are free.
    fn end_transaction(&mut self, number: u64) -> Option<Transacting> {
        let transacting = self.transactions.remove(&number)?;
        for key in &transacting.keys {
            let Some(found) = self.keys.get_mut(key) else { continue };
            found.waiting.retain(|queued| !queued.is_of(number));
            found.held_by.take_if(|turn| turn.transaction == number);
            self.left.push(key.clone());
        }
        Some(transacting)
    }
}

fn values_of(values: &OwnedValues) -> Vec<Option<Vec<u8>>> {
    values.iter().map(|value| value.map(<[u8]>::to_vec)).collect()
}

#[cfg(test)]
mod tests {
    use super::*;
    use crate::client::commands::{Asked, understand};
    use crate::client::multi::{Judged, Multi};
    use crate::client::outbox::{Message, Messages};
    use crate::core::ask::{Ask, What};
    use crate::core::keys::tests::{Store, done, set, value};
    use crate::core::stored::Stored;
    use crate::core::transaction::Condition;
    use crate::map::{Map, execute};
    use crate::random::Random;
    use epaxos::{Command, Fault, OwnedCommand};
    use std::collections::BTreeMap;

    /// What EXEC does of these lines.
    fn exec(lines: &[&str]) -> Transaction {
        let mut multi = Multi::default();
        multi.judge(Asked::Multi);
        let words = |line: &str| line.split(' ').map(|word| word.as_bytes().to_vec()).collect();
        lines.iter().for_each(|line| _ = multi.judge(understand(words(line))));
        let Judged::Exec(it) = multi.judge(Asked::Exec) else { panic!() };
        it
    }

    fn watching(key: &str, value: Option<&str>, lines: &[&str]) -> Transaction {
        let mut it = exec(lines);
        it.conditions.insert(key.into(), Condition::Same(value.map(Into::into)));
        it
    }

    /// Asks on this connection; the reply comes under this number.
    fn transact(store: &Store, command: u64, it: Transaction) -> u64 {
        let number = store.keys.id();
        let to = ReplyTo::part(store.outbox.clone(), 1, command, 0);
        store.keys.transact(number, it, to);
        number
    }

    fn outcome(is_done: bool, values: &[Option<&str>]) -> Outcome {
        let values = OwnedValues::new(values.iter().copied()).unwrap();
        done(if is_done { OwnedAnswer::Done(values) } else { OwnedAnswer::Undone(values) })
    }

    fn array(replies: &[Reply]) -> Reply {
        Reply::Array(replies.to_vec())
    }

    #[test]
    fn it_has_all_its_keys_before_it_begins() {
        let store = Store::new();
        store.ask(0, "x", set("0"));
        let first = store.proposed().1;
        transact(&store, 1, exec(&["SET x 1", "SET y 1"]));
        transact(&store, 2, exec(&["DEL y", "SET z 2"]));
        // What is asked of a key later waits behind it, and what is asked of others doesn't.
        (3..5).for_each(|number| _ = store.ask(number, "y", set("3")));
        store.ask(5, "w", set("5"));
        let (command, other) = store.proposed();
        assert!(matches!(command, OwnedCommand::Put { key, .. } if key == b"w"));
        other.send(done(OwnedAnswer::Absent));
        assert!(store.is_idle() && store.replies() == [(5, Reply::Simple("OK"))]);
        first.send(done(OwnedAnswer::Absent));
        let (command, second) = store.proposed();
        assert_eq!(command, Command::tx().put(b"x", b"1").tell(b"x").put(b"y", b"1").tell(b"y").build().unwrap());
        assert!(store.is_idle());
        second.send(outcome(true, &[None, None]));
        assert_eq!(
            store.replies(),
            [(0, Reply::Simple("OK")), (1, array(&[Reply::Simple("OK"), Reply::Simple("OK")]))]
        );
        let (command, third) = store.proposed();
        assert_eq!(command, Command::tx().del(b"y").tell(b"y").put(b"z", b"2").tell(b"z").build().unwrap());
        third.send(outcome(true, &[Some("1"), None]));
        assert_eq!(store.replies(), [(2, array(&[Reply::Integer(1), Reply::Simple("OK")]))]);
        let (command, last) = store.proposed();
        assert!(matches!(command, OwnedCommand::Put { key, .. } if key == b"y"));
        last.send(done(OwnedAnswer::Absent));
        assert_eq!(store.replies(), [(3, Reply::Simple("OK")), (4, Reply::Simple("OK"))]);
        assert!(store.is_idle());
    }

    #[test]
    fn where_others_were_first_it_is_tried_again() {
        let store = Store::new();
        transact(&store, 0, exec(&["INCR x", "GET y"]));
        store.reads("x").send(value("5"));
        let (command, sender) = store.proposed();
        let of = |before: &[u8], after: &[u8]| {
            Command::tx().require(b"x", before).tell(b"x").put(b"x", after).tell(b"y").build().unwrap()
        };
        assert_eq!(command, of(b"5", b"6"));
        sender.send(outcome(false, &[Some("7"), None]));
        let (command, sender) = store.proposed();
        assert_eq!(command, of(b"7", b"8"));
        sender.send(outcome(true, &[Some("7"), Some("z")]));
        assert_eq!(store.replies(), [(0, array(&[Reply::Integer(8), Reply::text("z")]))]);
        // What is known is tried at once, and others are before it each time.
        transact(&store, 1, exec(&["INCR x", "DEL y"]));
        for number in 1..MOST_TRIES {
            store.proposed().1.send(outcome(false, &[Some(&number.to_string()), None]));
        }
        assert!(store.replies().is_empty());
        store.proposed().1.send(outcome(false, &[Some("0"), None]));
        assert_eq!(store.replies(), [(1, Reply::Error(CommandFault::Contended))]);
        assert!(store.is_idle());
    }

    #[test]
    fn a_watched_key_that_has_changed_ends_it() {
        let store = Store::new();
        transact(&store, 0, watching("x", Some("5"), &["INCR x", "SET y 1"]));
        let (command, sender) = store.proposed();
        let whole = Command::tx().require(b"x", b"5").tell(b"x").put(b"x", b"6").put(b"y", b"1").tell(b"y");
        assert_eq!(command, whole.build().unwrap());
        sender.send(outcome(false, &[Some("5"), None]));
        assert_eq!(store.replies(), [(0, Reply::NilArray)]);
        // Where another key had changed it is tried again; what isn't reported is read.
        let long = "v".repeat(2_000);
        transact(&store, 1, watching("x", Some(&long), &["APPEND y 1"]));
        store.reads("y").send(Outcome::Value(None));
        store.proposed().1.send(outcome(false, &[Some("a")]));
        store.reads("x").send(value(&long));
        let (command, sender) = store.proposed();
        assert!(matches!(command, OwnedCommand::Tx(tx) if tx.items().any(|it| it.written == Some(Some(b"a1")))));
        sender.send(outcome(false, &[Some("a")]));
        store.reads("x").send(value("other"));
        assert_eq!(store.replies(), [(1, Reply::NilArray)]);
        assert!(store.is_idle());
    }

    #[test]
    fn what_is_past_its_deadline_is_removed_before_the_reply() {
        let store = Store::new();
        transact(&store, 0, exec(&["GET x", "SET y 1"]));
        let over = Stored::Value { content: b"old".to_vec(), deadline: Some(1) }.into_bytes();
        let values = OwnedValues::new([Some(&over[..]), None]).unwrap();
        store.proposed().1.send(done(OwnedAnswer::Done(values.clone())));
        assert!(store.replies().is_empty());
        let (command, sender) = store.proposed();
        assert_eq!(command, Command::tx().require(b"x", &over).tell(b"x").del(b"x").build().unwrap());
        sender.send(done(OwnedAnswer::Done(values.clone())));
        assert_eq!(store.replies(), [(0, array(&[Reply::Nil, Reply::Simple("OK")]))]);
        // Where it isn't known to be removed, no reply says what was done.
        transact(&store, 1, exec(&["GET x", "SET y 1"]));
        store.proposed().1.send(done(OwnedAnswer::Done(values)));
        store.proposed().1.send(Outcome::Alone);
        assert_eq!(store.replies(), [(1, Reply::Error(CommandFault::Unseen))]);
        assert!(store.is_idle());
    }

    #[test]
    fn who_waits_no_longer_learns_whether_it_may_be_done() {
        let store = Store::new();
        let withdraw = |number| store.keys.withdraw_transaction(number);
        // While it waits for a key,
        store.ask(0, "x", set("0"));
        let first = store.proposed().1;
        let waits = transact(&store, 1, exec(&["SET x 1", "SET y 1"]));
        store.ask(2, "y", set("2"));
        assert!(store.is_idle());
        assert_eq!((withdraw(waits), withdraw(waits)), (Some(CommandFault::Waiting), None));
        store.proposed().1.send(done(OwnedAnswer::Absent));
        first.send(done(OwnedAnswer::Absent));
        assert_eq!(store.replies(), [(2, Reply::Simple("OK")), (0, Reply::Simple("OK"))]);
        // while it reads,
        let reads = transact(&store, 3, exec(&["INCR z", "SET y 1"]));
        let look = store.reads("z");
        assert_eq!(withdraw(reads), Some(CommandFault::NotInTime));
        assert!(look.begun().is_given_up());
        look.send(value("1"));
        assert!(store.is_idle() && store.replies().is_empty());
        // and once it was proposed. Its outcome then is nobody's.
        let proposed = transact(&store, 4, exec(&["SET y 1", "SET v 1"]));
        let sender = store.proposed().1;
        store.ask(5, "v", set("2"));
        assert_eq!(withdraw(proposed), Some(CommandFault::Unanswered));
        let next = store.proposed().1;
        sender.send(outcome(true, &[]));
        next.send(done(OwnedAnswer::Absent));
        assert_eq!(store.replies(), [(5, Reply::Simple("OK"))]);
        assert!(store.is_idle());
    }

    #[test]
    fn what_nobody_knows_and_what_is_refused() {
        let store = Store::new();
        let all: [(&[&str], Outcome, Reply); 7] = [
            (&["SET x 1", "SET y 1"], Outcome::DoneUnseen, array(&[Reply::Simple("OK"), Reply::Simple("OK")])),
            (&["SET x 1", "DEL y"], Outcome::DoneUnseen, Reply::Error(CommandFault::Unseen)),
            (&["SET x 1", "DEL y"], Outcome::Doubtful, Reply::Error(CommandFault::Doubtful)),
            (&["SET x 1"], Outcome::Refused(Fault::Memory), Reply::Error(CommandFault::Node(Fault::Memory))),
            (&["SET x 1"], Outcome::MapFull, Reply::Error(CommandFault::MapFull)),
            (&["SET x 1"], Outcome::Ending, Reply::Error(CommandFault::Ending)),
            (&["SET x 1"], Outcome::Ended, Reply::Error(CommandFault::StoreEnds)),
        ];
        for (lines, what, reply) in all {
            transact(&store, 0, exec(lines));
            store.proposed().1.send(what);
            assert_eq!(store.replies(), [(0, reply)]);
        }
        // Whether a command that required something was done nobody knows then.
        transact(&store, 1, watching("x", None, &["SET x 1"]));
        store.proposed().1.send(Outcome::DoneUnseen);
        assert_eq!(store.replies(), [(1, Reply::Error(CommandFault::Doubtful))]);
        let many = (0..1_025).map(|key| format!("GET {key}")).collect::<Vec<_>>();
        transact(&store, 2, exec(&many.iter().map(String::as_str).collect::<Vec<_>>()));
        assert_eq!(store.replies(), [(2, Reply::Error(CommandFault::ManyKeys(1_024)))]);
        assert!(store.is_idle());
    }

    /// What one connection asks of two keys, `n` being its place in the pipeline; what each part of it is replied, and
    /// what the keys have then.
    type Kind = (&'static str, fn(&mut [Option<String>; 2], &str) -> Vec<Reply>);

    fn bulk(value: &Option<String>) -> Reply {
        value.as_deref().map_or(Reply::Nil, Reply::text)
    }

    fn both(values: &[Option<String>; 2]) -> Vec<Reply> {
        values.iter().map(bulk).collect()
    }

    const KINDS: [Kind; 10] = [
        ("GET x", |keys, _| vec![bulk(&keys[0])]),
        ("MGET x y", |keys, _| both(keys)),
        ("SET x n", |keys, n| {
            keys[0] = Some(n.into());
            vec![Reply::Simple("OK")]
        }),
        ("APPEND x n", |keys, n| {
            let long = keys[0].take().unwrap_or_default() + n;
            keys[0] = Some(long.clone());
            vec![Reply::Integer(long.len() as i64)]
        }),
        ("DEL x", |keys, _| vec![Reply::Integer(keys[0].take().is_some().into())]),
        ("MSET x n y n", |keys, n| {
            *keys = [Some(n.into()), Some(n.into())];
            vec![Reply::Simple("OK")]
        }),
        ("DEL x y", |keys, _| vec![Reply::Integer(keys.iter_mut().filter_map(Option::take).count() as i64)]),
        ("COPY x y REPLACE", |keys, _| {
            let is_there = keys[0].is_some();
            keys[1] = if is_there { keys[0].clone() } else { keys[1].take() };
            vec![Reply::Integer(is_there.into())]
        }),
        ("EPAXOS TXN GET x GET y", |keys, _| vec![array(&[Reply::Integer(1), array(&both(keys))])]),
        ("EPAXOS TXN GET x SET x n DEL y", |keys, n| {
            let before = bulk(&keys[0]);
            *keys = [Some(n.into()), None];
            vec![array(&[Reply::Integer(1), array(&[before])])]
        }),
    ];

    /// Has a connection's line done, under this number: how many parts its reply has.
    fn ask(store: &Store, connection: u64, command: u64, line: &str) -> usize {
        let to = |part| ReplyTo::part(store.outbox.clone(), connection, command, part);
        match understand(line.split(' ').map(|word| word.as_bytes().to_vec()).collect()) {
            Asked::Keys(_, actions) => {
                let all = actions.into_iter().enumerate();
                all.map(|(part, (key, action))| store.keys.ask(store.keys.id(), key, action, to(part))).count()
            }
            Asked::Joint(combine, steps) => {
                store.keys.transact(store.keys.id(), Transaction::one(combine, steps), to(0));
                1
            }
            Asked::Txn(transaction) => {
                store.keys.transact(store.keys.id(), transaction, to(0));
                1
            }
            _ => panic!("{line}"),
        }
    }

    /// Does what is under way, one at a time, in any order.
    fn settle(store: &Store, map: &mut Map, random: &mut Random) {
        let mut under_way = Vec::new();
        loop {
            under_way.extend(store.come().drain(..));
            if under_way.is_empty() {
                return;
            }
            let Ask { what, reply } = under_way.swap_remove(random.below(under_way.len() as u64) as usize);
            let outcome = match what {
                What::Get(key) => Outcome::Value(map.get(&key).cloned()),
                What::Propose(command) if reply.begun().begin() => done(execute(map, &command)),
                _ => panic!(),
            };
            reply.send(outcome);
        }
    }

    #[test]
    fn a_pipeline_is_done_in_its_order() {
        let (store, mut map, mut random) = (Store::new(), Map::new(), Random::from_seed(1));
        let (mut keys, mut messages) = ([None, None], Messages::new());
        let orders = (0..50).flat_map(|_| KINDS.iter().flat_map(|first| KINDS.iter().map(move |next| [*first, *next])));
        for (round, order) in orders.enumerate() {
            for others in [false, true] {
                // (where another connection writes before it, the pipeline does so too, so that what it finds is known)
                let before = [KINDS[2]].into_iter().filter(|_| others);
                let (mut expected, mut lines) = (BTreeMap::new(), Vec::new());
                others.then(|| ask(&store, 2, 0, "SET x other"));
                for (command, (line, kind)) in (0..).zip(before.chain(order)) {
                    let n = format!("{round}-{command}");
                    lines.push(line.replace('n', &n));
                    let replies = kind(&mut keys, &n);
                    assert_eq!(ask(&store, 1, command, &lines[lines.len() - 1]), replies.len());
                    expected.extend((0..).zip(replies).map(|(part, reply)| ((1, command, part), reply)));
                }
                expected.extend(others.then_some(((2, 0, 0), Reply::Simple("OK"))));
                settle(&store, &mut map, &mut random);
                store.outbox.take(&mut messages);
                let part = |(connection, message)| match message {
                    Message::Part(command, part, reply) => ((connection, command, part), reply),
                    _ => panic!(),
                };
                assert_eq!(messages.drain(..).map(part).collect::<BTreeMap<_, _>>(), expected, "{lines:?}");
            }
        }
    }
}
