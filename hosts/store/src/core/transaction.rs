//! Several steps on several keys, done together or not at all: the command of the protocol that does them, and what
//! its answer means.
//!
//! A key that is written whatever it had, or only reported, is just that in the command. If what is written depends on
//! what a key has, that is read first, and the command is done only if the key has it still. So is what a client
//! watches, or wants to find.
use crate::client::command_fault::CommandFault;
use crate::client::replies::Combine;
use crate::client::resp::Reply;
use crate::client::step::Step;
use crate::core::stored::Stored;
use crate::core::view::{Values, View};
use epaxos::{Command, MOST_KEYS, MOST_TOLD, OwnedCommand, TxFault};
use std::collections::{BTreeMap, BTreeSet};

/// What a key is required to have is reported too, if there is room and it has at most so many bytes: so a command that
/// wasn't done needn't be followed by reads. So is what a key has that is written whatever that is, as it is then known
/// by how much the map grows.
const LONGEST_REPORTED: usize = 1_024;

/// What is asked of several keys.
#[derive(Clone, PartialEq, Eq, Debug)]
pub struct Transaction {
    pub steps: Vec<Step>,
    /// Of each reply, how many steps it is of, and how their replies make one. What is left of the steps is not
    /// replied.
    pub parts: Vec<(Combine, usize)>,
    /// What keys have to have, or nothing is done.
    pub conditions: BTreeMap<Vec<u8>, Condition>,
    pub form: Form,
}

/// What a key has to have.
#[derive(Clone, PartialEq, Eq, Debug)]
pub enum Condition {
    /// These bytes, or nothing, since they were watched.
    Same(Option<Vec<u8>>),
    /// This value, whatever deadline it has.
    Has(Vec<u8>),
    Absent,
}

/// How replies are put together.
#[derive(Clone, Copy, PartialEq, Eq, Debug)]
pub enum Form {
    /// There is one.
    One,
    /// An array of them, or nil where a watched key has changed.
    Exec,
    /// 1 or 0, and an array of them, which is sent in either case.
    Txn,
}

/// What is to be done.
pub enum Plan {
    /// These keys have to be read first.
    Read(Vec<Vec<u8>>),
    Propose(Proposal),
    /// Nothing is done, and this is replied.
    Over(Reply),
}

/// A command, and what it goes by.
pub struct Proposal {
    pub command: OwnedCommand,
    /// What keys are required to have.
    pub required: Values,
    /// The keys whose values the answer reports, rising.
    pub reported: Vec<Vec<u8>>,
    /// What keys have afterwards.
    pub written: Values,
    /// Whether all that is replied is known, whatever keys had, if it is done.
    pub replies_blindly: bool,
    /// The time by which deadlines are judged.
    pub now: u64,
}

/// What is replied, and the keys whose values were taken for gone, being past their deadlines, though nothing was
/// required of them.
pub struct Conclusion {
    pub reply: Reply,
    pub expired: Values,
}

/// What an undone command leads to.
pub enum Undone {
    Over(Conclusion),
    /// These keys have to be read.
    Read(Vec<Vec<u8>>),
    /// It is tried again, by what keys have now.
    Again,
}

impl Condition {
    /// The bytes that the key has to have, if it has this, where that is known.
    fn wanted(&self, value: Option<&Option<Vec<u8>>>, now: u64) -> Option<Vec<u8>> {
        match self {
            Condition::Same(bytes) => bytes.clone(),
            _ => match value {
                Some(value) if self.holds(value, now) => value.clone(),
                _ => self.plain(),
            },
        }
    }

    /// The bytes of a value without a deadline.
    fn plain(&self) -> Option<Vec<u8>> {
        match self {
            Condition::Has(content) => Some(Stored::value(content.clone()).into_bytes()),
            _ => None,
        }
    }

    /// Whether a key that has these bytes has it.
    fn holds(&self, value: &Option<Vec<u8>>, now: u64) -> bool {
        if let Condition::Same(bytes) = self {
            return value == bytes;
        }
        let stored = value.clone().map(Stored::read).filter(|stored| !stored.is_over(now));
        match (self, stored) {
            (Condition::Absent, stored) => stored.is_none(),
            (Condition::Has(wanted), Some(Stored::Value { content, .. })) => content == *wanted,
            _ => false,
        }
    }

    /// Whether what was watched has got past its deadline since.
    fn is_over(&self, now: u64) -> bool {
        matches!(self, Condition::Same(Some(bytes)) if Stored::read(bytes.clone()).is_over(now))
    }
}

impl Transaction {
    /// One that has one reply.
    pub fn one(combine: Combine, steps: Vec<Step>) -> Transaction {
        Transaction { parts: vec![(combine, steps.len())], steps, conditions: BTreeMap::new(), form: Form::One }
    }

    /// What is replied, if it touches no key.
    pub fn untouched(&self) -> Option<Reply> {
        let is_untouched = self.conditions.is_empty() && self.steps.iter().all(|step| step.keys().is_empty());
        is_untouched.then(|| self.reply(self.replies(&Values::new(), 0), true))
    }

    /// How many bytes its reply takes at most.
    pub fn longest_reply(&self) -> usize {
        self.steps.iter().map(Step::longest_reply).sum()
    }

    /// All that it touches.
    pub fn keys(&self) -> BTreeSet<Vec<u8>> {
        let of_steps = self.steps.iter().flat_map(Step::keys).map(<[u8]>::to_vec);
        of_steps.chain(self.conditions.keys().cloned()).collect()
    }

    /// What is to be done, if keys have these values.
    pub fn plan(&self, values: &Values, now: u64) -> Result<Plan, CommandFault> {
        if self.conditions.values().any(|condition| condition.is_over(now)) {
            return Ok(Plan::Over(Reply::NilArray));
        }
        let wanted = |(key, it): (&Vec<u8>, &Condition)| (key.clone(), it.wanted(values.get(key), now));
        let mut required: Values = self.conditions.iter().map(wanted).collect();
        let mut all = values.clone();
        all.extend(required.clone());
        let mut view = View::before(&all, now);
        required.keys().for_each(|key| _ = view.know(key));
        self.steps.iter().for_each(|step| _ = step.take(&mut view));
        let is_asked = |key: &[u8]| self.form == Form::Txn && self.conditions.contains_key(key);
        let mut reported = BTreeSet::new();
        // (more than can be reported is read first)
        for (key, seen) in &mut view.keys {
            if (seen.is_reported && !seen.is_known || is_asked(key)) && reported.len() < MOST_TOLD {
                reported.insert(key.clone());
            } else {
                seen.is_known |= seen.is_reported;
            }
        }
        let keys = view.keys;
        let is_missing = |key: &Vec<u8>| keys[key].is_known && !all.contains_key(key);
        let missing: Vec<Vec<u8>> = keys.keys().filter(|key| is_missing(key)).cloned().collect();
        if !missing.is_empty() {
            return Ok(Plan::Read(missing));
        }
        let mut written = Values::new();
        for (key, seen) in keys {
            let before = all.get(&key).filter(|_| seen.is_known);
            if let Some(value) = before {
                required.insert(key.clone(), value.clone());
                if value.as_ref().is_none_or(|value| value.len() <= LONGEST_REPORTED) && reported.len() < MOST_TOLD {
                    reported.insert(key.clone());
                }
            }
            let before = before.map(|value| value.clone().map(Stored::read));
            let live = |before: &Option<Stored>| before.clone().filter(|stored| !stored.is_over(now));
            let Some(after) = seen.current.or_else(|| before.as_ref().map(live)) else { continue };
            let is_written = before.map_or(seen.is_set, |before| before != after);
            if is_written {
                written.insert(key, after.map(Stored::into_bytes));
            }
        }
        let replies_blindly = required.is_empty() && reported.is_empty();
        let blind = written.keys().filter(|key| !required.contains_key(*key) && !reported.contains(*key));
        let blind: Vec<Vec<u8>> = blind.take(MOST_TOLD - reported.len()).cloned().collect();
        reported.extend(blind);
        let command = command(&required, &reported, &written)?;
        Ok(Plan::Propose(Proposal {
            command,
            required,
            reported: reported.into_iter().collect(),
            written,
            replies_blindly,
            now,
        }))
    }

    /// What is replied where it was done, and the answer reports this.
    pub fn done(&self, proposal: &Proposal, reported: Vec<Option<Vec<u8>>>) -> Conclusion {
        let reported: Values = proposal.reported.iter().cloned().zip(reported).collect();
        let mut values = proposal.required.clone();
        values.extend(reported.clone());
        let replies = self.replies(&values, proposal.now);
        let is_expired = |key: &Vec<u8>, value: &Option<Vec<u8>>| {
            let is_over = || value.clone().map(Stored::read).is_some_and(|stored| stored.is_over(proposal.now));
            !proposal.required.contains_key(key) && !proposal.written.contains_key(key) && is_over()
        };
        let expired = reported.into_iter().filter(|(key, value)| is_expired(key, value)).collect();
        Conclusion { reply: self.reply(replies, true), expired }
    }

    /// What it means that it wasn't done, and keys have these values by now.
    pub fn undone(&self, proposal: &Proposal, values: &Values) -> Undone {
        if self.form == Form::Txn {
            let holds = |(key, it): (&Vec<u8>, &Condition)| it.holds(values.get(key).unwrap_or(&None), proposal.now);
            if self.conditions.iter().all(holds) {
                return Undone::Again;
            }
            let is_over = |value: &Option<Vec<u8>>| {
                value.clone().map(Stored::read).is_some_and(|stored| stored.is_over(proposal.now))
            };
            let is_expired =
                |(key, value): &(&Vec<u8>, &Option<Vec<u8>>)| proposal.reported.contains(key) && is_over(value);
            let expired = values.iter().filter(is_expired).map(|(key, value)| (key.clone(), value.clone())).collect();
            return Undone::Over(Conclusion { reply: self.reply(self.replies(values, proposal.now), false), expired });
        }
        let is_changed = |(key, it): (&Vec<u8>, &Condition)| values.get(key).is_some_and(|it_has| !it.holds(it_has, 0));
        // (where nothing else is required one of these had changed)
        let is_watched = proposal.required.keys().all(|key| self.conditions.contains_key(key));
        if is_watched || self.conditions.iter().any(is_changed) {
            return Undone::Over(Conclusion { reply: Reply::NilArray, expired: Values::new() });
        }
        let missing: Vec<_> = proposal.required.keys().filter(|key| !values.contains_key(*key)).cloned().collect();
        if missing.is_empty() { Undone::Again } else { Undone::Read(missing) }
    }

    fn replies(&self, values: &Values, now: u64) -> Vec<Reply> {
        let mut view = View::after(values, now);
        self.steps.iter().map(|step| step.take(&mut view)).collect()
    }

    fn reply(&self, replies: Vec<Reply>, is_done: bool) -> Reply {
        let mut replies = replies.into_iter();
        let part = |(combine, count): &(Combine, usize)| combine.combine(replies.by_ref().take(*count).collect());
        let mut parts: Vec<Reply> = self.parts.iter().map(part).collect();
        match self.form {
            Form::One => parts.pop().unwrap_or(Reply::Nil),
            Form::Exec => Reply::Array(parts),
            Form::Txn => Reply::Array(vec![Reply::Integer(is_done.into()), Reply::Array(parts)]),
        }
    }
}

fn command(required: &Values, reported: &BTreeSet<Vec<u8>>, written: &Values) -> Result<OwnedCommand, CommandFault> {
    let mut tx = Command::tx();
    for (key, value) in required {
        tx = match value {
            Some(value) => tx.require(key, value),
            None => tx.require_absent(key),
        };
    }
    tx = reported.iter().fold(tx, |tx, key| tx.tell(key));
    for (key, value) in written {
        tx = match value {
            Some(value) => tx.put(key, value),
            None => tx.del(key),
        };
    }
    tx.build().map_err(|fault| match fault {
        TxFault::ManyKeys(_) => CommandFault::ManyKeys(MOST_KEYS),
        _ => CommandFault::LongTransaction,
    })
}

#[cfg(test)]
mod tests {
    use super::*;
    use crate::client::actions::Action;
    use crate::client::commands::{Asked, understand};
    use crate::client::multi::{Judged, Multi};
    use crate::map::{Map, execute};
    use crate::random::Random;
    use epaxos::{Item, OwnedAnswer};

    const NOW: u64 = 1_000;

    /// What EXEC does of these lines.
    fn exec(lines: &[&str]) -> Transaction {
        let words = |line: &str| line.split(' ').map(|word| word.as_bytes().to_vec()).collect();
        let mut multi = Multi::default();
        multi.judge(Asked::Multi);
        lines.iter().for_each(|line| _ = multi.judge(understand(words(line))));
        let Judged::Exec(it) = multi.judge(Asked::Exec) else { panic!() };
        it
    }

    fn known(pairs: &[(&str, Option<&str>)]) -> Values {
        pairs.iter().map(|(key, value)| (key.as_bytes().to_vec(), value.map(|it| it.as_bytes().to_vec()))).collect()
    }

    /// What a command says of each key, in words.
    fn items(plan: Plan) -> Vec<String> {
        let Plan::Propose(Proposal { command: OwnedCommand::Tx(tx), .. }) = plan else { panic!() };
        let text = |bytes: Option<&[u8]>| bytes.map_or("%".into(), |it| it.escape_ascii().to_string());
        let of = |item: Item| {
            let mut words = item.key.escape_ascii().to_string();
            item.required.into_iter().for_each(|it| words += &format!(" if {}", text(it)));
            words += if item.is_told { " get" } else { "" };
            item.written.into_iter().for_each(|it| words += &format!(" = {}", text(it)));
            words
        };
        tx.items().map(of).collect()
    }

    fn wanted(plan: Plan) -> Vec<String> {
        let Plan::Read(keys) = plan else { panic!() };
        keys.iter().map(|key| key.escape_ascii().to_string()).collect()
    }

    #[test]
    fn what_is_read_reported_and_required() {
        let nothing = Values::new();
        // What is written whatever was there is written so, and what is only reported is reported.
        let it = exec(&["SET b 1", "GET a", "GET b", "INCR b", "DEL c", "MSET d 1 e 2"]);
        assert_eq!(
            items(it.plan(&nothing, NOW).unwrap()),
            ["a get", "b get = 2", "c get = %", "d get = 1", "e get = 2"]
        );
        // (what is known makes no difference then)
        let values = known(&[("a", Some("7")), ("c", None)]);
        assert_eq!(
            items(it.plan(&values, NOW).unwrap()),
            ["a get", "b get = 2", "c get = %", "d get = 1", "e get = 2"]
        );
        // What it depends on is read, and required.
        let it = exec(&["INCR a", "GET a", "RENAME b c", "SETNX d 1", "GET e"]);
        assert_eq!(wanted(it.plan(&nothing, NOW).unwrap()), ["a", "b", "d"]);
        let values = known(&[("a", Some("7")), ("b", Some("x")), ("d", Some("y"))]);
        let all = ["a if 7 get = 8", "b if x get = %", "c get = x", "d if y get", "e get"];
        assert_eq!(items(it.plan(&values, NOW).unwrap()), all);
        // What is past its deadline is removed where it is known.
        let over = Stored::Value { content: b"old".to_vec(), deadline: Some(NOW) }.into_bytes();
        let values: Values = [(b"x".to_vec(), Some(over))].into();
        let it = exec(&["GET x", "APPEND x 1"]);
        let of = |plan| items(plan)[0].clone();
        assert!(of(it.plan(&values, NOW).unwrap()).ends_with(" get = 1"));
        let it = exec(&["GET x", "EXPIRE x 10"]);
        assert!(of(it.plan(&values, NOW).unwrap()).ends_with(" get = %"));
        // More than sixteen keys aren't reported, but read before.
        let names: Vec<String> = (10..30).map(|key| format!("GET {key}")).collect();
        let it = exec(&names.iter().map(String::as_str).collect::<Vec<_>>());
        assert_eq!(wanted(it.plan(&nothing, NOW).unwrap()), ["26", "27", "28", "29"]);
        let values = known(&[("26", None), ("27", Some("a")), ("28", None), ("29", None)]);
        let all = items(it.plan(&values, NOW).unwrap());
        assert_eq!((&all[15][..], &all[16][..], &all[17][..]), ("25 get", "26 if %", "27 if a"));
    }

    #[test]
    fn what_is_watched_is_required() {
        let mut it = exec(&["SET a 1", "GET b"]);
        it.conditions.insert(b"b".to_vec(), Condition::Same(Some(b"w".to_vec())));
        it.conditions.insert(b"c".to_vec(), Condition::Same(None));
        let Plan::Propose(proposal) = it.plan(&Values::new(), NOW).unwrap() else { panic!() };
        let replies = it.done(&proposal, vec![None, Some(b"w".to_vec()), None]).reply;
        assert_eq!(replies, Reply::Array(vec![Reply::Simple("OK"), Reply::text("w")]));
        assert_eq!(items(Plan::Propose(proposal)), ["a get = 1", "b if w get", "c if % get"]);
        // Where it wasn't done, one of them had changed, whatever they have by now.
        let Plan::Propose(proposal) = it.plan(&Values::new(), NOW).unwrap() else { panic!() };
        let Undone::Over(conclusion) = it.undone(&proposal, &known(&[("b", Some("w"))])) else { panic!() };
        assert_eq!(conclusion.reply, Reply::NilArray);
        // Where something else is required too it is looked which.
        it.steps.push(Step::Act(b"d".to_vec(), Action::Add(1)));
        let Plan::Propose(proposal) = it.plan(&known(&[("d", None)]), NOW).unwrap() else { panic!() };
        let Undone::Read(keys) = it.undone(&proposal, &known(&[("b", Some("w")), ("d", None)])) else { panic!() };
        assert_eq!(keys, [b"c"]);
        let all = known(&[("b", Some("w")), ("c", None), ("d", Some("5"))]);
        assert!(matches!(it.undone(&proposal, &all), Undone::Again));
        assert!(matches!(it.undone(&proposal, &known(&[("c", Some("1"))])), Undone::Over(_)));
        // What was there and has got past its deadline has changed.
        let over = Stored::Value { content: b"old".to_vec(), deadline: Some(NOW) }.into_bytes();
        it.conditions.insert(b"b".to_vec(), Condition::Same(Some(over)));
        assert!(matches!(it.plan(&Values::new(), NOW).unwrap(), Plan::Over(Reply::NilArray)));
    }

    #[test]
    fn conditions_are_of_contents() {
        let txn =
            |line: &str| crate::client::txn::understand(line.split(' ').map(|it| it.as_bytes().to_vec()).collect());
        let it = txn("IF a 1 IFABSENT b SET c 2 GET d DEL a").unwrap();
        let Plan::Propose(proposal) = it.plan(&Values::new(), NOW).unwrap() else { panic!() };
        let timed = Stored::Value { content: b"1".to_vec(), deadline: Some(NOW + 1) }.into_bytes();
        let over = Stored::Value { content: b"x".to_vec(), deadline: Some(NOW) }.into_bytes();
        // A value with a deadline is one, and one that is past it is none.
        let values: Values =
            [(b"a".to_vec(), Some(timed.clone())), (b"b".to_vec(), Some(over.clone())), (b"d".to_vec(), None)].into();
        assert!(matches!(it.undone(&proposal, &values), Undone::Again));
        assert_eq!(items(Plan::Propose(proposal)), ["a if 1 get = %", "b if % get", "c get = 2", "d get"]);
        let Plan::Propose(proposal) = it.plan(&values, NOW).unwrap() else { panic!() };
        assert_eq!(proposal.required, [(b"a".to_vec(), Some(timed)), (b"b".to_vec(), Some(over.clone()))].into());
        assert_eq!(proposal.written, known(&[("a", None), ("b", None), ("c", Some("2"))]));
        let conclusion = it.done(&proposal, vec![Some(b"1".to_vec()), Some(over.clone()), None, Some(over.clone())]);
        assert_eq!(conclusion.reply, Reply::Array(vec![Reply::Integer(1), Reply::Array(vec![Reply::Nil])]));
        assert_eq!(conclusion.expired, [(b"d".to_vec(), Some(over))].into());
        let values = known(&[("a", Some("1")), ("b", Some("2")), ("d", Some("3"))]);
        let Undone::Over(conclusion) = it.undone(&proposal, &values) else { panic!() };
        assert_eq!(conclusion.reply, Reply::Array(vec![Reply::Integer(0), Reply::Array(vec![Reply::text("3")])]));
    }

    /// A transaction replies and leaves what its commands would, one after the other, by themselves.
    #[test]
    fn as_one_after_the_other() {
        let lines = [
            "GET $",
            "SET $ 1",
            "SET $ 2 NX",
            "SET $ 3 XX GET",
            "INCR $",
            "APPEND $ 4",
            "DEL $ $",
            "MGET $ $",
            "GETDEL $",
            "MSET $ 5 $ 6",
            "MSETNX $ 7 $ 8",
            "RENAME $ $",
            "RENAMENX $ $",
            "COPY $ $",
            "COPY $ $ REPLACE",
            "EXISTS $ $",
            "SET $ 9 PX 100000",
            "PERSIST $",
            "STRLEN $",
            "GETSET $ a",
            "PEXPIREAT $ 1",
            "TTL $",
            "UNLINK $",
        ];
        let mut random = Random::from_seed(11);
        let (mut map, mut expected) = (Map::new(), Map::new());
        for round in 0..3_000 {
            let lines: Vec<String> = (0..1 + random.below(6))
                .map(|_| {
                    let line = lines[random.below(lines.len() as u64) as usize];
                    let words =
                        line.split(' ').map(|it| if it == "$" { format!("{}", random.below(4)) } else { it.into() });
                    words.collect::<Vec<_>>().join(" ")
                })
                .collect();
            // (a deadline counts from when the line is read: all are read in one millisecond)
            let (now, all, singles) = loop {
                let now = crate::core::stored::now();
                let all = exec(&lines.iter().map(String::as_str).collect::<Vec<_>>());
                let singles: Vec<_> = lines.iter().map(|line| exec(&[line])).collect();
                if crate::core::stored::now() == now {
                    break (now, all, singles);
                }
            };
            let one_by_one: Vec<Reply> =
                singles.iter().map(|it| played(it, &mut expected, now, &mut random)).map(only).collect();
            let replies = played(&all, &mut map, now, &mut random);
            assert_eq!(replies, Reply::Array(one_by_one), "round {round}: {lines:?}");
            assert_eq!(map, expected, "round {round}: {lines:?}");
        }
    }

    fn only(reply: Reply) -> Reply {
        let Reply::Array(mut replies) = reply else { panic!("{reply:?}") };
        replies.pop().unwrap()
    }

    /// Does it over this map: what it replies. Some of what is taken for known is wrong at first.
    fn played(it: &Transaction, map: &mut Map, now: u64, random: &mut Random) -> Reply {
        if let Some(reply) = it.untouched() {
            return reply;
        }
        let mut values: Values =
            it.keys().into_iter().filter(|_| random.below(4) == 0).map(|key| (key, None)).collect();
        for _ in 0..10 {
            match it.plan(&values, now).unwrap() {
                Plan::Over(reply) => return reply,
                Plan::Read(keys) => values.extend(keys.into_iter().map(|key| (key.clone(), map.get(&key).cloned()))),
                Plan::Propose(proposal) => {
                    let answer = execute(map, &proposal.command);
                    let (OwnedAnswer::Done(reported_values) | OwnedAnswer::Undone(reported_values)) = &answer else {
                        panic!()
                    };
                    let reported_values: Vec<_> = reported_values.iter().map(|it| it.map(<[u8]>::to_vec)).collect();
                    if let OwnedAnswer::Done(_) = answer {
                        return it.done(&proposal, reported_values).reply;
                    }
                    values = proposal.reported.iter().cloned().zip(reported_values).collect();
                    if let Undone::Read(keys) = it.undone(&proposal, &values) {
                        values.extend(keys.into_iter().map(|key| (key.clone(), map.get(&key).cloned())));
                    }
                }
            }
        }
        panic!("{:?}", it.steps)
    }
}
