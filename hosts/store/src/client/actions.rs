//! What commands do to one key: a function from what lies there to what then lies there, and the reply.
use crate::client::command_fault::CommandFault;
use crate::client::resp::Reply;
use crate::core::stored::{Holder, LONGEST_CONTENT, LONGEST_OWNER, Lock, Stored};

/// What is done to a key. Deadlines are in milliseconds since 1970, by the wall clock of the replica that was asked.
#[derive(Clone, PartialEq, Eq, Debug)]
pub enum Action {
    Get,
    /// As MGET does it: nil of a lock.
    Peek,
    Length,
    Exists,
    Kind,
    /// How long it has, in this unit: -1 where it has no deadline, -2 where there is nothing.
    TimeLeft(Unit),
    /// Its deadline, in this unit; -1 and -2 likewise.
    Deadline(Unit),
    Set(Set),
    Delete,
    GetDelete,
    /// GETEX: what is there, which gets a deadline.
    GetExpire(Keep),
    Add(i64),
    Append(Vec<u8>),
    Expire {
        deadline: i64,
        only: OnlyExpire,
    },
    Persist,
    Lock {
        owner: Vec<u8>,
        deadline: u64,
    },
    Renew {
        owner: Vec<u8>,
        deadline: u64,
    },
    Unlock {
        owner: Vec<u8>,
    },
    Holder,
    /// Of a lock that is a plain value, as libraries have them: deletes it where the value is this one.
    DeleteIfEqual(Vec<u8>),
    /// Likewise: gives it a deadline.
    ExtendIfEqual {
        value: Vec<u8>,
        time: Extension,
    },
    /// Removes what is past its deadline, which every action does on its way.
    Tidy,
}

#[derive(Clone, Copy, PartialEq, Eq, Debug)]
pub enum Unit {
    Seconds,
    Milliseconds,
}

/// A SET with its options.
#[derive(Clone, PartialEq, Eq, Debug)]
pub struct Set {
    pub value: Vec<u8>,
    pub keep: Keep,
    pub only: Only,
    pub reply: SetReply,
}

/// What becomes of the deadline.
#[derive(Clone, Copy, PartialEq, Eq, Debug)]
pub enum Keep {
    /// None from now on.
    None,
    /// As it is.
    As,
    At(u64),
}

/// When a SET is done.
#[derive(Clone, PartialEq, Eq, Debug)]
pub enum Only {
    Always,
    IfAbsent,
    IfPresent,
    IfEqual(Vec<u8>),
}

/// What a SET replies: `OK` or nil, what was there before, or 1 or 0.
#[derive(Clone, Copy, PartialEq, Eq, Debug)]
pub enum SetReply {
    Ok,
    Before,
    Number,
}

/// When an EXPIRE is done. Nothing without a deadline has the latest one.
#[derive(Clone, Copy, PartialEq, Eq, Default, Debug)]
pub struct OnlyExpire {
    pub without: bool,
    pub with: bool,
    pub later: bool,
    pub earlier: bool,
}

#[derive(Clone, Copy, PartialEq, Eq, Debug)]
pub enum Extension {
    Until(i64),
    /// Where it has a deadline.
    UntilIfAny(i64),
    /// Where it has a deadline: so many milliseconds more.
    By(i64),
}

/// What lies under the key afterwards, and the reply.
type Done = (Option<Stored>, Reply);

impl Action {
    /// Whether what lies there afterwards doesn't depend on what was there before.
    pub fn is_blind(&self) -> bool {
        match self {
            // (one that replies what was there isn't done to a lock)
            Action::Set(set) => set.only == Only::Always && set.keep != Keep::As && set.reply != SetReply::Before,
            Action::Delete => true,
            _ => false,
        }
    }

    /// Whether its reply doesn't depend on what was there before either.
    pub fn replies_blindly(&self) -> bool {
        self.is_blind() && matches!(self, Action::Set(_))
    }

    /// Whether it changes nothing, unless something is past its deadline.
    pub fn only_reads(&self) -> bool {
        matches!(
            self,
            Action::Get
                | Action::Peek
                | Action::Length
                | Action::Exists
                | Action::Kind
                | Action::TimeLeft(_)
                | Action::Deadline(_)
                | Action::Holder
        )
    }

    /// How many bytes its reply takes at most.
    pub fn longest_reply(&self) -> usize {
        let tells = match self {
            Action::Get | Action::Peek | Action::GetDelete | Action::GetExpire(_) => LONGEST_CONTENT,
            Action::Set(Set { reply: SetReply::Before, .. }) => LONGEST_CONTENT,
            Action::Holder => LONGEST_OWNER + 2 * size_of::<Reply>(),
            _ => 0,
        };
        size_of::<Reply>() + tells
    }

    /// Does it at this time. What is past its deadline isn't there. Where it can't be done nothing changes.
    pub fn apply(&self, current: Option<Stored>, now: u64) -> Done {
        let current = current.filter(|stored| !stored.is_over(now));
        if self.only_reads() {
            let reply = self.read(&current, now).unwrap_or_else(Reply::Error);
            return (current, reply);
        }
        match self.write(current.clone(), now) {
            Ok(done) => done,
            Err(fault) => (current, Reply::Error(fault)),
        }
    }

    /// The reply of an action that only reads.
    fn read(&self, current: &Option<Stored>, now: u64) -> Result<Reply, CommandFault> {
        let number = |time: Result<u64, i64>, unit: &Unit| time.map_or_else(|none| none, |time| unit.rounded(time));
        Ok(match self {
            Action::Get => bulk(content(current)?),
            Action::Peek => bulk(content(current).unwrap_or(None)),
            Action::Length => Reply::Integer(content(current)?.map_or(0, <[u8]>::len) as i64),
            Action::Exists => Reply::Integer(current.is_some().into()),
            Action::Kind => Reply::Simple(current.as_ref().map_or("none", Stored::kind)),
            Action::TimeLeft(unit) => Reply::Integer(number(time_left(current, now), unit)),
            Action::Deadline(unit) => Reply::Integer(number(deadline(current), unit)),
            Action::Holder => holder(current, now)?,
            _ => Reply::Nil,
        })
    }

    /// What an action that writes does.
    fn write(&self, current: Option<Stored>, now: u64) -> Result<Done, CommandFault> {
        match self {
            Action::Set(set) => set.attempt(current),
            Action::Delete => Ok((None, Reply::Integer(current.is_some().into()))),
            Action::GetDelete => Ok((None, bulk(content(&current)?))),
            Action::GetExpire(keep) => {
                let reply = bulk(content(&current)?);
                Ok((keep.applied(current, now), reply))
            }
            Action::Add(number) => add(current, *number),
            Action::Append(more) => append(current, more),
            Action::Expire { deadline, only } => expire(current, *deadline, *only, now),
            Action::Persist => {
                let has_deadline = matches!(current, Some(Stored::Value { deadline: Some(_), .. }));
                Ok((Keep::None.applied(current, now), Reply::Integer(has_deadline.into())))
            }
            Action::Lock { owner, deadline } => take(current, owner, *deadline, now),
            Action::Renew { owner, deadline } => renew(current, owner, *deadline, now),
            Action::Unlock { owner } => unlock(current, owner, now),
            Action::DeleteIfEqual(value) => {
                if content(&current)? == Some(value) {
                    Ok((None, Reply::Integer(1)))
                } else {
                    Ok((current, Reply::Integer(0)))
                }
            }
            Action::ExtendIfEqual { value, time } => extend(current, value, *time, now),
            // (what is past its deadline is gone already)
            _ => Ok((current, Reply::Nil)),
        }
    }
}

impl Unit {
    /// This many milliseconds in the unit, rounded.
    fn rounded(self, milliseconds: u64) -> i64 {
        let number = match self {
            Unit::Seconds => milliseconds.saturating_add(500) / 1_000,
            Unit::Milliseconds => milliseconds,
        };
        i64::try_from(number).unwrap_or(i64::MAX)
    }
}

impl Keep {
    /// The value with what becomes of its deadline; nothing where that is past.
    fn applied(self, current: Option<Stored>, now: u64) -> Option<Stored> {
        let Some(Stored::Value { content, deadline }) = current else { return current };
        let deadline = match self {
            Keep::None => None,
            Keep::As => deadline,
            Keep::At(deadline) => Some(deadline),
        };
        Some(Stored::Value { content, deadline }).filter(|stored| !stored.is_over(now))
    }
}

impl Set {
    fn attempt(&self, current: Option<Stored>) -> Result<Done, CommandFault> {
        let is_met = match &self.only {
            Only::Always => true,
            Only::IfAbsent => current.is_none(),
            Only::IfPresent => current.is_some(),
            Only::IfEqual(value) => content(&current)? == Some(value),
        };
        let reply = match self.reply {
            SetReply::Ok if is_met => Reply::Simple("OK"),
            SetReply::Ok => Reply::Nil,
            SetReply::Before => bulk(content(&current)?),
            SetReply::Number => Reply::Integer(is_met.into()),
        };
        if !is_met {
            return Ok((current, reply));
        }
        let deadline = match (self.keep, &current) {
            (Keep::At(deadline), _) => Some(deadline),
            (Keep::As, Some(Stored::Value { deadline, .. })) => *deadline,
            _ => None,
        };
        Ok((Some(Stored::Value { content: self.value.clone(), deadline }), reply))
    }
}

/// The value that is there. A lock has none.
fn content(current: &Option<Stored>) -> Result<Option<&[u8]>, CommandFault> {
    match current {
        None => Ok(None),
        Some(Stored::Value { content, .. }) => Ok(Some(content)),
        Some(Stored::Lock(_)) => Err(CommandFault::WrongType),
    }
}

fn bulk(content: Option<&[u8]>) -> Reply {
    content.map_or(Reply::Nil, |content| Reply::Bulk(content.to_vec()))
}

/// The deadline, or what Redis replies in its place.
fn deadline(current: &Option<Stored>) -> Result<u64, i64> {
    match current {
        None => Err(-2),
        Some(Stored::Value { deadline, .. }) => deadline.ok_or(-1),
        Some(Stored::Lock(lock)) => lock.holder.as_ref().map(|holder| holder.deadline).ok_or(-1),
    }
}

fn time_left(current: &Option<Stored>, now: u64) -> Result<u64, i64> {
    match current {
        Some(Stored::Lock(lock)) => lock.holder_at(now).map(|holder| holder.deadline - now).ok_or(-1),
        _ => deadline(current).map(|deadline| deadline.saturating_sub(now)),
    }
}

/// A number as Redis spells it: no sign `+`, no zeros or blanks in front.
pub fn integer(bytes: &[u8]) -> Option<i64> {
    let number: i64 = std::str::from_utf8(bytes).ok()?.parse().ok()?;
    (number.to_string().as_bytes() == bytes).then_some(number)
}

fn value_with_deadline(current: Option<Stored>) -> Result<(Vec<u8>, Option<u64>), CommandFault> {
    match current {
        None => Ok((Vec::new(), None)),
        Some(Stored::Value { content, deadline }) => Ok((content, deadline)),
        Some(Stored::Lock(_)) => Err(CommandFault::WrongType),
    }
}

fn add(current: Option<Stored>, number: i64) -> Result<Done, CommandFault> {
    let is_there = current.is_some();
    let (content, deadline) = value_with_deadline(current)?;
    let before = if is_there { integer(&content).ok_or(CommandFault::NotAnInteger)? } else { 0 };
    let after = before.checked_add(number).ok_or(CommandFault::Overflow)?;
    Ok((Some(Stored::Value { content: after.to_string().into_bytes(), deadline }), Reply::Integer(after)))
}

fn append(current: Option<Stored>, more: &[u8]) -> Result<Done, CommandFault> {
    let (mut content, deadline) = value_with_deadline(current)?;
    if content.len() + more.len() > LONGEST_CONTENT {
        return Err(CommandFault::TooLong);
    }
    content.extend(more);
    let length = content.len() as i64;
    Ok((Some(Stored::Value { content, deadline }), Reply::Integer(length)))
}

fn expire(current: Option<Stored>, deadline: i64, only: OnlyExpire, now: u64) -> Result<Done, CommandFault> {
    let before = match &current {
        None => return Ok((None, Reply::Integer(0))),
        Some(Stored::Lock(_)) => return Err(CommandFault::WrongType),
        Some(Stored::Value { deadline, .. }) => *deadline,
    };
    // (a deadline before 1970 is as past as one in it)
    let deadline = u64::try_from(deadline).unwrap_or(0);
    let is_later = before.is_some_and(|before| deadline > before);
    let is_earlier = before.is_none_or(|before| deadline < before);
    let is_met = !(only.without && before.is_some()
        || only.with && before.is_none()
        || only.later && !is_later
        || only.earlier && !is_earlier);
    if !is_met {
        return Ok((current, Reply::Integer(0)));
    }
    Ok((Keep::At(deadline).applied(current, now), Reply::Integer(1)))
}

fn lock_of(current: Option<Stored>) -> Result<Option<Lock>, CommandFault> {
    match current {
        None => Ok(None),
        Some(Stored::Lock(lock)) => Ok(Some(lock)),
        Some(Stored::Value { .. }) => Err(CommandFault::WrongType),
    }
}

/// Takes a lock that nobody has, or has it on where the owner has it already, with the token that it has.
fn take(current: Option<Stored>, owner: &[u8], deadline: u64, now: u64) -> Result<Done, CommandFault> {
    let lock = lock_of(current)?.unwrap_or(Lock { token: 0, holder: None });
    let token = match lock.holder_at(now) {
        Some(holder) if holder.owner != owner => return Ok((Some(Stored::Lock(lock)), Reply::Nil)),
        Some(_) => lock.token,
        None => {
            lock.token.checked_add(1).filter(|token| i64::try_from(*token).is_ok()).ok_or(CommandFault::Overflow)?
        }
    };
    // Who has it on never has it for less long than the reply said.
    let deadline = lock.holder_at(now).map_or(deadline, |holder| holder.deadline.max(deadline));
    let holder = Some(Holder { owner: owner.to_vec(), deadline });
    Ok((Some(Stored::Lock(Lock { token, holder })), Reply::Integer(token as i64)))
}

fn renew(current: Option<Stored>, owner: &[u8], deadline: u64, now: u64) -> Result<Done, CommandFault> {
    let is_held =
        lock_of(current.clone())?.is_some_and(|lock| lock.holder_at(now).is_some_and(|holder| holder.owner == owner));
    if is_held { take(current, owner, deadline, now) } else { Ok((current, Reply::Nil)) }
}

fn unlock(current: Option<Stored>, owner: &[u8], now: u64) -> Result<Done, CommandFault> {
    let Some(lock) = lock_of(current)? else { return Ok((None, Reply::Integer(0))) };
    let is_held = lock.holder_at(now).is_some_and(|holder| holder.owner == owner);
    let lock = if is_held { Lock { holder: None, ..lock } } else { lock };
    Ok((Some(Stored::Lock(lock)), Reply::Integer(is_held.into())))
}

/// The owner, its token, and how many milliseconds it has it still; nil where nobody has it.
fn holder(current: &Option<Stored>, now: u64) -> Result<Reply, CommandFault> {
    let Some(lock) = lock_of(current.clone())? else { return Ok(Reply::Nil) };
    Ok(lock.holder_at(now).map_or(Reply::Nil, |holder| {
        let left = Unit::Milliseconds.rounded(holder.deadline - now);
        Reply::Array(vec![Reply::Bulk(holder.owner.clone()), Reply::Integer(lock.token as i64), Reply::Integer(left)])
    }))
}

fn extend(current: Option<Stored>, value: &[u8], time: Extension, now: u64) -> Result<Done, CommandFault> {
    let is_equal = content(&current)? == Some(value);
    let deadline = match (time, time_left(&current, now)) {
        _ if !is_equal => return Ok((current, Reply::Integer(0))),
        (Extension::Until(deadline), _) => deadline,
        (Extension::UntilIfAny(_) | Extension::By(_), Err(_)) => return Ok((current, Reply::Integer(0))),
        (Extension::UntilIfAny(deadline), Ok(_)) => deadline,
        (Extension::By(more), Ok(left)) => {
            let until = now.saturating_add(left);
            i64::try_from(until).unwrap_or(i64::MAX).saturating_add(more)
        }
    };
    let deadline = u64::try_from(deadline).unwrap_or(0);
    Ok((Keep::At(deadline).applied(current, now), Reply::Integer(1)))
}

#[cfg(test)]
mod tests {
    use super::*;

    const NOW: u64 = 1_000;

    /// Each thing that may lie there.
    fn all_stored() -> Vec<Option<Stored>> {
        let value = |content: &str, deadline| Some(Stored::Value { content: content.into(), deadline });
        let lock = |token, holder: Option<(&str, u64)>| {
            let holder = holder.map(|(owner, deadline)| Holder { owner: owner.into(), deadline });
            Some(Stored::Lock(Lock { token, holder }))
        };
        vec![
            None,
            value("", None),
            value("5", None),
            value("a", None),
            value("5", Some(NOW + 100)),
            value("5", Some(NOW)),
            lock(1, None),
            lock(2, Some(("me", NOW + 100))),
            lock(3, Some(("you", NOW + 100))),
            lock(4, Some(("me", NOW))),
            lock(i64::MAX as u64, None),
        ]
    }

    /// Each action, and each SET.
    fn all_actions() -> Vec<Action> {
        let mut all = vec![
            Action::Get,
            Action::Peek,
            Action::Length,
            Action::Exists,
            Action::Kind,
            Action::TimeLeft(Unit::Seconds),
            Action::Deadline(Unit::Milliseconds),
            Action::Delete,
            Action::GetDelete,
            Action::Add(1),
            Action::Append(b"1".to_vec()),
            Action::Expire { deadline: 1_200, only: OnlyExpire::default() },
            Action::Expire { deadline: -5, only: OnlyExpire { later: true, ..OnlyExpire::default() } },
            Action::Persist,
            Action::Lock { owner: b"me".to_vec(), deadline: 1_300 },
            Action::Renew { owner: b"me".to_vec(), deadline: 1_300 },
            Action::Unlock { owner: b"me".to_vec() },
            Action::Holder,
            Action::DeleteIfEqual(b"5".to_vec()),
            Action::ExtendIfEqual { value: b"5".to_vec(), time: Extension::By(10) },
            Action::Tidy,
        ];
        for keep in [Keep::None, Keep::As, Keep::At(1_500), Keep::At(NOW)] {
            all.push(Action::GetExpire(keep));
            for only in [Only::Always, Only::IfAbsent, Only::IfPresent, Only::IfEqual(b"5".to_vec())] {
                for reply in [SetReply::Ok, SetReply::Before, SetReply::Number] {
                    all.push(Action::Set(Set { value: b"7".to_vec(), keep, only: only.clone(), reply }));
                }
            }
        }
        all
    }

    #[test]
    fn what_is_blind_and_what_only_reads() {
        for action in all_actions() {
            for stored in all_stored() {
                let live = stored.clone().filter(|stored| !stored.is_over(NOW));
                let (after, reply) = action.apply(stored.clone(), NOW);
                assert!(reply.size() <= action.longest_reply(), "{action:?} of {stored:?}");
                if action.is_blind() {
                    let (blindly, blind_reply) = action.apply(None, NOW);
                    assert_eq!(after, blindly, "{action:?} of {stored:?}");
                    assert!(!action.replies_blindly() || reply == blind_reply, "{action:?} of {stored:?}");
                }
                // Who reads, and who is refused, changes nothing.
                if action.only_reads() || matches!(reply, Reply::Error(_)) {
                    assert_eq!(after, live, "{action:?} of {stored:?}");
                }
                // What is past its deadline is as if it weren't there.
                assert_eq!(action.apply(live, NOW), (after, reply), "{action:?} of {stored:?}");
            }
        }
    }

    #[test]
    fn tokens_rise_and_holders_are_alone() {
        let take = |owner: &str, deadline| Action::Lock { owner: owner.into(), deadline };
        let (first, reply) = take("a", 2_000).apply(None, NOW);
        assert_eq!(reply, Reply::Integer(1));
        assert_eq!(take("b", 3_000).apply(first.clone(), 1_999), (first.clone(), Reply::Nil));
        // Who has it already has it for no less long.
        assert_eq!(take("a", 1_500).apply(first.clone(), NOW), (first.clone(), Reply::Integer(1)));
        let (second, reply) = take("b", 3_000).apply(first, 2_000);
        assert_eq!(reply, Reply::Integer(2));
        let unlock = Action::Unlock { owner: b"a".to_vec() };
        assert_eq!(unlock.apply(second.clone(), 2_500), (second.clone(), Reply::Integer(0)));
        let renew = Action::Renew { owner: b"b".to_vec(), deadline: 4_000 };
        assert_eq!(renew.apply(second.clone(), 3_000), (second.clone(), Reply::Nil));
        let (_, reply) = renew.apply(second, 2_999);
        assert_eq!(reply, Reply::Integer(2));
        // There is no token beyond those that a client's integers hold.
        let last = Some(Stored::Lock(Lock { token: i64::MAX as u64, holder: None }));
        assert_eq!(take("a", 2_000).apply(last.clone(), NOW), (last, Reply::Error(CommandFault::Overflow)));
    }
}
