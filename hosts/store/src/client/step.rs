//! What a transaction does, one step after the other: what lies under its keys afterwards, and the replies.
use crate::client::actions::Action;
use crate::client::command_fault::CommandFault;
use crate::client::resp::Reply;
use crate::core::stored::Stored;
use crate::core::view::View;

/// What is done at once, of what was asked of several keys.
#[derive(Clone, PartialEq, Eq, Debug)]
pub enum Step {
    /// An action on a key.
    Act(Vec<u8>, Action),
    /// What one key has goes to another one.
    Carry { from: Vec<u8>, to: Vec<u8>, way: Way },
    /// Each key gets its value, if none of them has one.
    SetNew(Vec<(Vec<u8>, Vec<u8>)>),
    /// Nothing is done, and this is replied.
    Reply(Reply),
}

/// How a value goes from one key to another.
#[derive(Clone, Copy, PartialEq, Eq, Debug)]
pub enum Way {
    Rename,
    /// If the other key has nothing.
    RenameNew,
    /// The first key keeps it.
    Copy {
        replaces: bool,
    },
}

impl Step {
    /// The keys that it touches.
    pub fn keys(&self) -> Vec<&[u8]> {
        match self {
            Step::Act(key, _) => vec![key],
            Step::Carry { from, to, .. } => vec![from, to],
            Step::SetNew(pairs) => pairs.iter().map(|(key, _)| &key[..]).collect(),
            Step::Reply(_) => Vec::new(),
        }
    }

    /// How many bytes its reply takes at most.
    pub fn longest_reply(&self) -> usize {
        match self {
            Step::Act(_, action) => action.longest_reply(),
            Step::Reply(reply) => reply.size(),
            Step::Carry { .. } | Step::SetNew(_) => size_of::<Reply>(),
        }
    }

    /// Does it to what the view has: the reply.
    pub fn take(&self, view: &mut View) -> Reply {
        match self {
            Step::Act(key, action) => act(key, action, view),
            Step::Carry { from, to, way } => carry(from, to, *way, view).unwrap_or_else(Reply::Error),
            Step::SetNew(pairs) => {
                // (all are looked at, so that what isn't known yet is read at once)
                let found = pairs.iter().filter(|(key, _)| view.know(key).is_some()).count();
                if found == 0 {
                    pairs.iter().for_each(|(key, value)| view.set(key, Some(Stored::value(value.clone()))));
                }
                Reply::Integer((found == 0).into())
            }
            Step::Reply(reply) => reply.clone(),
        }
    }
}

fn act(key: &[u8], action: &Action, view: &mut View) -> Reply {
    if action.only_reads() {
        let current = view.look(key);
        return action.apply(current, view.now()).1;
    }
    if action.is_blind() {
        let current = if action.replies_blindly() { None } else { view.look(key) };
        let (after, reply) = action.apply(current, view.now());
        view.set(key, after);
        return reply;
    }
    let current = view.know(key);
    let (after, reply) = action.apply(current, view.now());
    view.set(key, after);
    reply
}

fn carry(from: &[u8], to: &[u8], way: Way, view: &mut View) -> Result<Reply, CommandFault> {
    let is_blind = matches!(way, Way::Rename | Way::Copy { replaces: true });
    let (value, is_taken) = (view.know(from), !is_blind && view.know(to).is_some());
    let is_rename = !matches!(way, Way::Copy { .. });
    let Some(value) = value else {
        return if is_rename { Err(CommandFault::NoSuchKey) } else { Ok(Reply::Integer(0)) };
    };
    // (a lock under another name would count its tokens anew)
    if matches!(value, Stored::Lock(_)) {
        return Err(CommandFault::WrongType);
    }
    if is_taken {
        return Ok(Reply::Integer(0));
    }
    if is_rename {
        view.set(from, None);
    }
    view.set(to, Some(value));
    Ok(if way == Way::Rename { Reply::Simple("OK") } else { Reply::Integer(1) })
}
