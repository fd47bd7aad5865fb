//! The password that clients say before anything else is done for them.
use crate::life::sum::sum_of;
use crate::peer::sealed::{KeyFault, read_secret};
use epaxos::parts::mac::is_same;
use std::path::Path;

/// The name of the one user that there is, as Redis has it.
const USER: &[u8] = b"default";

/// A password, by its digest: comparing takes as long whatever is said.
#[derive(Clone)]
pub struct Password([u8; 32]);

impl Password {
    /// That of a file, without blanks at its end.
    pub fn read(path: &Path) -> Result<Password, KeyFault> {
        read_secret(path).map(|secret| Password::of(&secret))
    }

    pub fn of(secret: &[u8]) -> Password {
        Password(sum_of(secret))
    }

    /// Whether this user has said it.
    pub fn is_said(&self, user: &[u8], secret: &[u8]) -> bool {
        is_same(&self.0, &Password::of(secret).0) && user == USER
    }

    /// Whether it was said by the words of an AUTH: a password, or a user and a password.
    pub fn is_in(&self, words: &[Vec<u8>]) -> bool {
        match words {
            [secret] => self.is_said(USER, secret),
            [user, secret] => self.is_said(user, secret),
            _ => false,
        }
    }
}

#[cfg(test)]
mod tests {
    use super::*;

    #[test]
    fn what_is_said() {
        let password = Password::of(b"a long secret");
        let words = |line: &str| line.split('/').map(|word| word.as_bytes().to_vec()).collect::<Vec<_>>();
        assert!(password.is_in(&words("a long secret")) && password.is_in(&words("default/a long secret")));
        for odd in ["", "a long secre", "a long secret ", "other/a long secret", "default/x", "default/a long secret/x"]
        {
            assert!(!password.is_in(&words(odd)), "{odd}");
        }
    }
}
