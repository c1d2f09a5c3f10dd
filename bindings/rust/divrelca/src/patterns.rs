//! Patterns of OpenSSH's files: `*` stands for any text and `?` for one character. A list holds of a name that one of its patterns matches
//! and none after `!`.

/// Whether a name matches a pattern. The time is at most the product of both lengths.
pub fn matches(pattern: &str, name: &str) -> bool {
    let (pattern, name) = (pattern.as_bytes(), name.as_bytes());
    let (mut at, mut place, mut star) = (0, 0, None);
    while place < name.len() {
        match pattern.get(at) {
            Some(b'*') => {
                star = Some((at, place));
                at += 1;
            }
            Some(&it) if it == b'?' || it == name[place] => (at, place) = (at + 1, place + 1),
            _ => match star {
                Some((after, seen)) => {
                    star = Some((after, seen + 1));
                    (at, place) = (after + 1, seen + 1);
                }
                None => return false,
            },
        }
    }
    pattern[at..].iter().all(|&it| it == b'*')
}

/// Whether a list of patterns holds of a name, by a judgement of one pattern.
pub fn holds<'a>(patterns: impl IntoIterator<Item = &'a str>, matches: impl Fn(&str) -> bool) -> bool {
    let mut is_matched = false;
    for pattern in patterns {
        match pattern.strip_prefix('!') {
            Some(denied) if matches(denied) => return false,
            Some(_) => {}
            None => is_matched |= matches(pattern),
        }
    }
    is_matched
}

#[cfg(test)]
mod tests {
    use super::*;

    #[test]
    fn patterns() {
        for (pattern, name) in [("*", ""), ("a*c", "abbc"), ("?b*", "ab"), ("*.org", "a.b.org"), ("**", "x")] {
            assert!(matches(pattern, name), "{pattern} {name}");
        }
        for (pattern, name) in [("", "a"), ("a", ""), ("a?", "a"), ("*.org", "a.org.de")] {
            assert!(!matches(pattern, name), "{pattern} {name}");
        }
        assert!(!matches(&format!("{}b", "*a".repeat(5000)), &"a".repeat(5000)));
    }

    #[test]
    fn lists() {
        let of = |list: &str, name: &str| holds(list.split(' '), |it| matches(it, name));
        assert!(of("a b*", "bc") && !of("* !bc", "bc") && !of("!x", "y"));
    }
}
