//! Of one connection: what waits for EXEC since MULTI, and what is watched.
//!
//! EXEC compares the values of watched keys. A key may have been changed and changed back, and that does no harm as
//! long as the client has seen no other value meanwhile, from which it may go on: so what it reads of a watched key is
//! compared with what was there when it was watched, and what it writes to one counts as a change.
use crate::client::actions::Action;
use crate::client::command_fault::CommandFault;
use crate::client::commands::Asked;
use crate::client::replies::{Combine, Needs};
use crate::client::resp::Reply;
use crate::client::step::Step;
use crate::core::transaction::{Condition, Form, Transaction};
use crate::core::view::Values;
use std::collections::BTreeSet;

/// At most so many commands wait for one EXEC.
const MOST_QUEUED: usize = 4_096;

/// A connection's transaction.
#[derive(Default)]
pub struct Multi {
    /// None: no MULTI was sent.
    queue: Option<Queue>,
    /// What watched keys had when they were watched.
    watched: Values,
    /// Whether a watched key is known to have changed: EXEC is nil.
    has_changed: bool,
}

#[derive(Default)]
struct Queue {
    steps: Vec<Step>,
    parts: Vec<(Combine, usize)>,
    /// Whether a command couldn't be queued: so nothing is done.
    is_aborted: bool,
}

/// What is to be done of what is asked.
#[derive(PartialEq, Eq, Debug)]
pub enum Judged {
    Do(Asked),
    Reply(Reply),
    /// These keys are watched from now on.
    Watch(Vec<Vec<u8>>),
    /// Watched keys are read, among others: what they have is to be compared.
    Look(Combine, Vec<(Vec<u8>, Action)>),
    Exec(Transaction),
}

impl Multi {
    /// Whether commands wait for EXEC.
    pub fn is_open(&self) -> bool {
        self.queue.is_some()
    }

    /// What the reply to a command needs that waits for EXEC, or to EXEC. None: there was no MULTI.
    pub fn needs(&self, asked: &Asked) -> Option<Needs> {
        let queue = self.queue.as_ref()?;
        let of_exec = || queue.steps.iter().map(Step::longest_reply).sum();
        Some(Needs { parts: 1, longest: if *asked == Asked::Exec { of_exec() } else { 0 } })
    }

    pub fn is_watching(&self) -> bool {
        !self.watched.is_empty()
    }

    /// These keys are watched, and have these values. A key that was watched already keeps what it had then.
    pub fn watch(&mut self, values: Values) {
        for (key, value) in values {
            self.watched.entry(key).or_insert(value);
        }
    }

    /// Those of these keys that aren't watched yet.
    pub fn unwatched(&self, keys: Vec<Vec<u8>>) -> BTreeSet<Vec<u8>> {
        keys.into_iter().filter(|key| !self.watched.contains_key(key)).collect()
    }

    /// Keys have these values now.
    pub fn compare(&mut self, values: &Values) {
        self.has_changed |= values.iter().any(|(key, value)| self.watched.get(key).is_some_and(|it| it != value));
    }

    /// Nothing is watched.
    fn unwatch(&mut self) {
        (self.watched, self.has_changed) = (Values::new(), false);
    }

    /// Nothing waits, and nothing is watched.
    fn clear(&mut self) {
        self.queue = None;
        self.unwatch();
    }

    /// A command can't be queued.
    pub fn abort(&mut self) {
        self.queue.iter_mut().for_each(|queue| queue.is_aborted = true);
    }

    /// What is to be done of what is asked.
    pub fn judge(&mut self, asked: Asked) -> Judged {
        match asked {
            Asked::Quit | Asked::Http => Judged::Do(asked),
            Asked::Reset => {
                self.clear();
                Judged::Do(asked)
            }
            _ => self.answer(asked).unwrap_or_else(|fault| Judged::Reply(Reply::Error(fault))),
        }
    }

    fn answer(&mut self, asked: Asked) -> Result<Judged, CommandFault> {
        let Some(queue) = &mut self.queue else { return self.answer_outside(asked) };
        match asked {
            Asked::Multi => Err(CommandFault::NestedMulti),
            Asked::Watch(_) => Err(CommandFault::WatchInMulti),
            Asked::Discard => {
                self.clear();
                Ok(Judged::Reply(Reply::Simple("OK")))
            }
            Asked::Exec => self.exec(),
            asked => {
                let queued = queue.take(asked);
                queue.is_aborted |= queued.is_err();
                queued.map(|()| Judged::Reply(Reply::Simple("QUEUED")))
            }
        }
    }

    fn answer_outside(&mut self, asked: Asked) -> Result<Judged, CommandFault> {
        match asked {
            Asked::Exec => Err(CommandFault::WithoutMulti("EXEC")),
            Asked::Discard => Err(CommandFault::WithoutMulti("DISCARD")),
            Asked::Multi => {
                self.queue = Some(Queue::default());
                Ok(Judged::Reply(Reply::Simple("OK")))
            }
            Asked::Watch(keys) => Ok(Judged::Watch(keys)),
            Asked::Unwatch => {
                self.unwatch();
                Ok(Judged::Reply(Reply::Simple("OK")))
            }
            Asked::Keys(combine, actions) => {
                let mut of_watched = actions.iter().filter(|(key, _)| self.watched.contains_key(key)).peekable();
                if of_watched.peek().is_none() {
                    return Ok(Judged::Do(Asked::Keys(combine, actions)));
                }
                if of_watched.all(|(_, action)| action.only_reads()) {
                    return Ok(Judged::Look(combine, actions));
                }
                self.has_changed = true;
                Ok(Judged::Do(Asked::Keys(combine, actions)))
            }
            Asked::Joint(..) | Asked::Txn(_) => {
                let keys = match &asked {
                    Asked::Joint(_, steps) => steps.iter().flat_map(Step::keys).map(<[u8]>::to_vec).collect(),
                    Asked::Txn(transaction) => transaction.keys(),
                    _ => BTreeSet::new(),
                };
                self.has_changed |= keys.iter().any(|key| self.watched.contains_key(key));
                Ok(Judged::Do(asked))
            }
            _ => Ok(Judged::Do(asked)),
        }
    }

    fn exec(&mut self) -> Result<Judged, CommandFault> {
        let Multi { queue, watched, has_changed } = std::mem::take(self);
        let Queue { steps, parts, is_aborted } = queue.unwrap_or_default();
        if is_aborted {
            return Err(CommandFault::ExecAborted);
        }
        if has_changed {
            return Ok(Judged::Reply(Reply::NilArray));
        }
        let conditions = watched.into_iter().map(|(key, value)| (key, Condition::Same(value))).collect();
        Ok(Judged::Exec(Transaction { steps, parts, conditions, form: Form::Exec }))
    }
}

impl Queue {
    /// Queues what is asked.
    fn take(&mut self, asked: Asked) -> Result<(), CommandFault> {
        if self.parts.len() == MOST_QUEUED {
            return Err(CommandFault::ManyCommands(MOST_QUEUED));
        }
        let (combine, steps) = match asked {
            Asked::Keys(combine, actions) => {
                (combine, actions.into_iter().map(|(key, action)| Step::Act(key, action)).collect())
            }
            Asked::Joint(combine, steps) => (combine, steps),
            Asked::Ping(text) => (Combine::One, vec![Step::Reply(text.map_or(Reply::Simple("PONG"), Reply::Bulk))]),
            // (what is watched is let go of by EXEC anyway)
            Asked::Unwatch => (Combine::One, vec![Step::Reply(Reply::Simple("OK"))]),
            Asked::Answered(Reply::Error(fault)) if !fault.is_reported_by_exec() => return Err(fault),
            Asked::Answered(reply) => (Combine::One, vec![Step::Reply(reply)]),
            _ => return Err(CommandFault::NotInMulti),
        };
        self.parts.push((combine, steps.len()));
        self.steps.extend(steps);
        Ok(())
    }
}

#[cfg(test)]
mod tests {
    use super::*;
    use crate::client::actions::Action;
    use crate::client::commands::understand;

    /// What each line is answered, one after the other: a simple reply or an error as text, else what is to be done.
    fn answers(multi: &mut Multi, lines: &[&str]) -> Vec<String> {
        let words = |line: &str| line.split(' ').map(|word| word.as_bytes().to_vec()).collect();
        let text = |line: &&str| match multi.judge(understand(words(line))) {
            Judged::Reply(Reply::Simple(text)) => text.into(),
            Judged::Reply(Reply::Error(fault)) => fault.to_string(),
            Judged::Exec(it) => format!("exec of {}, {} conditions", it.parts.len(), it.conditions.len()),
            Judged::Watch(keys) => format!("watch {}", keys.len()),
            Judged::Do(_) => "do".into(),
            Judged::Look(_, actions) => format!("look at {}", actions.len()),
            Judged::Reply(other) => format!("{other:?}"),
        };
        lines.iter().map(text).collect()
    }

    const OK: &str = "OK";
    const QUEUED: &str = "QUEUED";
    const ABORTED: &str = "EXECABORT Transaction discarded because of previous errors.";

    #[test]
    fn what_follows_multi_waits_for_exec() {
        let mut multi = Multi::default();
        let lines = ["set x 0", "multi", "set x 1", "mget x y", "del x y", "ping", "echo a", "exec", "set x 2", "exec"];
        let expected = [
            "do",
            OK,
            QUEUED,
            QUEUED,
            QUEUED,
            QUEUED,
            QUEUED,
            "exec of 5, 0 conditions",
            "do",
            "ERR EXEC without MULTI",
        ];
        assert_eq!(answers(&mut multi, &lines), expected);
        let lines = ["discard", "multi", "set x 1", "discard", "multi", "reset", "multi", "quit"];
        assert_eq!(answers(&mut multi, &lines), ["ERR DISCARD without MULTI", OK, QUEUED, OK, OK, "do", OK, "do"]);
        let words = |line: &str| line.split(' ').map(|word| word.as_bytes().to_vec()).collect();
        let mut multi = Multi::default();
        let steps = ["multi", "incr x", "rename x y", "exec"].map(|line| multi.judge(understand(words(line))));
        let Judged::Exec(it) = &steps[3] else { panic!() };
        assert_eq!(it.steps[0], Step::Act(b"x".to_vec(), Action::Add(1)));
        assert_eq!((it.parts.as_slice(), it.steps.len()), ([(Combine::One, 1); 2].as_slice(), 2));
    }

    #[test]
    fn what_cannot_be_queued_aborts() {
        let in_multi = "ERR Command not allowed inside a transaction";
        for (line, fault) in [
            ("nothing", "ERR unknown command 'nothing'"),
            ("get", "ERR wrong number of arguments for 'get' command"),
            ("keys *", in_multi),
            ("info", in_multi),
            ("readonly", in_multi),
            ("client id", in_multi),
            ("select 1", "ERR DB index is out of range"),
        ] {
            let lines = ["multi", "set x 1", line, "set y 1", "exec", "get x"];
            assert_eq!(answers(&mut Multi::default(), &lines), [OK, QUEUED, fault, QUEUED, ABORTED, "do"], "{line}");
        }
        // What can't be done for its words is reported by EXEC, as Redis does it, and the others are done.
        let lines = ["multi", "incrby x a", "set x 1 foo", "exec"];
        assert_eq!(answers(&mut Multi::default(), &lines), [OK, QUEUED, QUEUED, "exec of 2, 0 conditions"]);
        let lines = ["multi", "multi", "watch x", "exec"];
        let refused = ["ERR MULTI calls can not be nested", "ERR WATCH inside MULTI is not allowed"];
        let answers = answers(&mut Multi::default(), &lines);
        assert_eq!(answers, [OK, refused[0], refused[1], "exec of 0, 0 conditions"]);
        let mut multi = Multi::default();
        multi.judge(Asked::Multi);
        (0..MOST_QUEUED).for_each(|_| _ = multi.judge(Asked::Ping(None)));
        assert_eq!(multi.judge(Asked::Ping(None)), Judged::Reply(Reply::Error(CommandFault::ManyCommands(4_096))));
        assert_eq!(multi.judge(Asked::Exec), Judged::Reply(Reply::Error(CommandFault::ExecAborted)));
    }

    #[test]
    fn what_is_watched_is_required_once() {
        let mut multi = Multi::default();
        assert_eq!(answers(&mut multi, &["watch x y"]), ["watch 2"]);
        let values = |text: &str| Values::from([(b"x".to_vec(), Some(text.into())), (b"y".to_vec(), None)]);
        multi.watch(values("1"));
        assert!(multi.is_watching() && multi.unwatched(vec![b"x".into(), b"z".into()]) == [b"z".to_vec()].into());
        multi.watch(values("2"));
        multi.judge(Asked::Multi);
        let Judged::Exec(it) = multi.judge(Asked::Exec) else { panic!() };
        let same = |text: &str| Condition::Same(Some(text.into()));
        assert_eq!(it.conditions, [(b"x".to_vec(), same("1")), (b"y".to_vec(), Condition::Same(None))].into());
        for line in ["unwatch", "reset"] {
            multi.watch(values("1"));
            assert_eq!(answers(&mut multi, &[line, "multi", "exec"])[2], "exec of 0, 0 conditions");
        }
        multi.watch(values("1"));
        assert_eq!(answers(&mut multi, &["multi", "discard", "multi", "exec"])[3], "exec of 0, 0 conditions");
        // What is read of a watched key is compared, and what is written to one is a change.
        let mut multi = Multi::default();
        multi.watch(values("1"));
        let read = ["get x", "mget z y", "ttl x", "get z", "set z 1", "multi", "exec"];
        let judged = ["look at 1", "look at 2", "look at 1", "do", "do", OK, "exec of 0, 2 conditions"];
        assert_eq!(answers(&mut multi, &read), judged);
        multi.watch(values("1"));
        multi.compare(&[(b"x".to_vec(), Some(b"1".to_vec())), (b"z".to_vec(), Some(b"2".to_vec()))].into());
        assert_eq!(answers(&mut multi, &["multi", "exec"])[1], "exec of 0, 2 conditions");
        for line in ["set x 1", "del y z", "epaxos txn set x 1", "eval nothing 0", "incr x"] {
            multi.watch(values("1"));
            let is_change = !line.starts_with("eval");
            let last = answers(&mut multi, &[line, "multi", "exec"]).remove(2);
            assert_eq!(last, if is_change { "NilArray" } else { "exec of 0, 2 conditions" }, "{line}");
        }
        multi.watch(values("1"));
        multi.compare(&[(b"y".to_vec(), Some(b"2".to_vec()))].into());
        assert_eq!(answers(&mut multi, &["multi", "nothing", "exec"])[2], ABORTED);
        multi.watch(values("1"));
        multi.compare(&[(b"y".to_vec(), Some(b"2".to_vec()))].into());
        assert_eq!(answers(&mut multi, &["unwatch", "multi", "exec"])[2], "exec of 0, 0 conditions");
        // UNWATCH in a transaction comes too late for it.
        multi.watch(values("1"));
        assert_eq!(answers(&mut multi, &["multi", "unwatch", "exec"])[2], "exec of 1, 2 conditions");
    }
}
