//! Patterns of keys, as Redis has them: `*`, `?`, `[abc]`, `[^a]`, `[a-z]`, and `\` before a byte that stands for itself.

/// Whether the text fits the pattern.
pub fn fits(pattern: &[u8], text: &[u8]) -> bool {
    // The place of the last `*`, and what of the text is left when it stands for nothing more.
    let (mut rest, mut left) = (pattern, text);
    let mut last: Option<(&[u8], &[u8])> = None;
    loop {
        match rest.first() {
            Some(b'*') => {
                rest = &rest[1..];
                last = Some((rest, left));
                continue;
            }
            None if left.is_empty() => return true,
            _ => {}
        }
        match one(rest, left) {
            Some((after, behind)) => (rest, left) = (after, behind),
            None => match last {
                // (a `*` takes one byte more)
                Some((after, [_, behind @ ..])) => {
                    (rest, left) = (after, behind);
                    last = Some((after, behind));
                }
                _ => return false,
            },
        }
    }
}

/// What follows one byte of the text, and what fits it.
fn one<'a, 'b>(pattern: &'a [u8], text: &'b [u8]) -> Option<(&'a [u8], &'b [u8])> {
    let (byte, behind) = text.split_first()?;
    let (is_fit, after) = match pattern {
        [] => return None,
        [b'?', after @ ..] => (true, after),
        [b'[', after @ ..] => class(after, *byte),
        [b'\\', literal, after @ ..] => (literal == byte, after),
        [literal, after @ ..] => (literal == byte, after),
    };
    is_fit.then_some((after, behind))
}

/// Whether the class behind `[` has the byte, and what follows it. A class that isn't closed goes to the end.
fn class(pattern: &[u8], byte: u8) -> (bool, &[u8]) {
    let (is_negated, mut rest) = match pattern {
        [b'^', rest @ ..] => (true, rest),
        rest => (false, rest),
    };
    let mut has = false;
    loop {
        rest = match rest {
            [] => break,
            [b']', after @ ..] => {
                rest = after;
                break;
            }
            [b'\\', literal, after @ ..] => {
                has |= *literal == byte;
                after
            }
            [first, b'-', last, after @ ..] => {
                has |= (*first.min(last)..=*first.max(last)).contains(&byte);
                after
            }
            [literal, after @ ..] => {
                has |= *literal == byte;
                after
            }
        }
    }
    (has != is_negated, rest)
}

#[cfg(test)]
mod tests {
    use super::*;

    #[test]
    fn patterns() {
        // (the first lines are those of Redis' page of KEYS)
        for (pattern, fit, unfit) in [
            ("h?llo", &["hello", "hallo", "hxllo"][..], &["hllo", "heello"][..]),
            ("h*llo", &["hllo", "heeeello"], &["hell", "ahllo"]),
            ("h[ae]llo", &["hello", "hallo"], &["hillo"]),
            ("h[^e]llo", &["hallo", "hbllo"], &["hello"]),
            ("h[a-b]llo", &["hallo", "hbllo"], &["hcllo"]),
            ("*", &["", "a", "abc"], &[]),
            ("", &[""], &["a"]),
            ("a\\*", &["a*"], &["ab", "a"]),
            ("*a*b*", &["ab", "xaxbx", "aab", "abab"], &["ba", "a", "b"]),
            ("*abc", &["abc", "ababc", "abcabc"], &["abcd"]),
            ("[b-a]", &["a", "b"], &["c"]),
            ("[\\]]", &["]"], &["\\"]),
            ("?", &["a"], &["", "ab"]),
        ] {
            fit.iter().for_each(|text| assert!(fits(pattern.as_bytes(), text.as_bytes()), "{pattern} {text}"));
            unfit.iter().for_each(|text| assert!(!fits(pattern.as_bytes(), text.as_bytes()), "{pattern} {text}"));
        }
        // Many stars take no longer than the product of both lengths.
        assert!(!fits("a*".repeat(200).as_bytes(), &[b'a'; 199]));
        assert!(!fits(format!("{}b", "a*".repeat(100)).as_bytes(), &[b'a'; 10_000]));
    }
}
