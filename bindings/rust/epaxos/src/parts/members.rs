//! Who takes part: what a seal's value says of the next generation.
//!
//! A line for each replica: its number, its identity in hexadecimal, and the address where it listens for its peers;
//! `-` where the one or the other isn't named: then who is met first is taken for it, and it is where `--peers` says.
use crate::parts::identity::{Identity, digits, identity};
use std::fmt::Write;

const FIRST_LINE: &str = "members 1";
const NONE: &str = "-";

/// Who has a number.
///
/// ```
/// assert_eq!(epaxos::host::Member::default().identity, None);
/// ```
#[derive(Clone, Default, PartialEq, Eq, Debug)]
pub struct Member {
    /// What distinguishes it from another machine with its number, where that is known.
    pub identity: Option<Identity>,
    /// Where it listens for its peers, where a seal names that.
    pub address: Option<String>,
}

/// All replicas of a generation, in their order.
#[derive(Clone, PartialEq, Eq, Debug)]
pub struct Members(pub Vec<Member>);

impl Members {
    pub fn write(&self) -> String {
        let mut text = format!("{FIRST_LINE}\n");
        for (replica, member) in self.0.iter().enumerate() {
            let identity = member.identity.as_ref().map_or(NONE.into(), digits);
            let address = member.address.as_deref().unwrap_or(NONE);
            let _ = writeln!(text, "{replica} {identity} {address}");
        }
        text
    }

    /// None where the value of a seal names no members.
    pub fn read(value: &[u8]) -> Option<Members> {
        let text = std::str::from_utf8(value).ok()?;
        let mut lines = text.lines();
        if lines.next()? != FIRST_LINE {
            return None;
        }
        let mut members = Vec::new();
        for line in lines {
            let mut words = line.split(' ');
            let (number, who, address) = (words.next()?, words.next()?, words.next()?);
            if number.parse() != Ok(members.len()) || words.next().is_some() {
                return None;
            }
            let identity = if who == NONE { None } else { Some(identity(who)?) };
            let address = (address != NONE).then(|| address.to_string());
            members.push(Member { identity, address });
        }
        Some(Members(members))
    }
}

#[cfg(test)]
mod tests {
    use super::*;

    #[test]
    fn members_are_lines() {
        let known = Member { identity: Some([1; 16]), address: Some("a:7".into()) };
        let members = Members(vec![Member::default(), known]);
        let text = format!("members 1\n0 - -\n1 {} a:7\n", "01".repeat(16));
        assert_eq!(members.write(), text);
        assert_eq!(Members::read(text.as_bytes()), Some(members));
        for other in ["", "x", "members 1\n1 - -\n", "members 1\n0 01 -\n", "members 1\n0 - - -\n"] {
            assert_eq!(Members::read(other.as_bytes()), None);
        }
    }
}
