//! EPAXOS TXN: what keys have to have, what is reported of keys, and what is written, all at once.
use crate::client::actions::{Action, Keep, Only, Set, SetReply};
use crate::client::command_fault::CommandFault;
use crate::client::replies::Combine;
use crate::client::step::Step;
use crate::core::stored::LONGEST_CONTENT;
use crate::core::transaction::{Condition, Form, Transaction};
use epaxos::{LONGEST_KEY, MOST_TOLD};
use std::collections::{BTreeMap, BTreeSet};

/// Understands the words behind `EPAXOS TXN`: in any order `IF key value`, `IFABSENT key`, `GET key`, `SET key value`,
/// `DEL key`, each key with at most one condition and written at most once.
pub fn understand(words: Vec<Vec<u8>>) -> Result<Transaction, CommandFault> {
    let mut words = words.into_iter();
    let (mut conditions, mut gets, mut written) = (BTreeMap::new(), Vec::new(), BTreeMap::new());
    while let Some(word) = words.next() {
        let key = words.next().ok_or(CommandFault::Syntax)?;
        if key.is_empty() || key.len() > LONGEST_KEY {
            return Err(CommandFault::KeyLength);
        }
        let mut value = || {
            let value = words.next().ok_or(CommandFault::Syntax)?;
            if value.len() > LONGEST_CONTENT { Err(CommandFault::ValueLength) } else { Ok(value) }
        };
        let is_again = match word.to_ascii_lowercase().as_slice() {
            b"if" => conditions.insert(key, Condition::Has(value()?)).is_some(),
            b"ifabsent" => conditions.insert(key, Condition::Absent).is_some(),
            b"get" => {
                gets.push(key);
                false
            }
            b"set" => written.insert(key, set(value()?)).is_some(),
            b"del" => written.insert(key, Action::Delete).is_some(),
            _ => return Err(CommandFault::Syntax),
        };
        if is_again {
            return Err(CommandFault::Syntax);
        }
    }
    let reported: BTreeSet<&Vec<u8>> = conditions.keys().chain(&gets).collect();
    if reported.len() > MOST_TOLD {
        return Err(CommandFault::ManyReported(MOST_TOLD));
    }
    let parts = vec![(Combine::One, 1); gets.len()];
    // (what is reported is what was there before)
    let gets = gets.into_iter().map(|key| (key, Action::Get));
    let steps = gets.chain(written).map(|(key, action)| Step::Act(key, action)).collect();
    Ok(Transaction { steps, parts, conditions, form: Form::Txn })
}

fn set(value: Vec<u8>) -> Action {
    Action::Set(Set { value, keep: Keep::None, only: Only::Always, reply: SetReply::Ok })
}
