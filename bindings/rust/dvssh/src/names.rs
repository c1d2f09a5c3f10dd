//! Names that go into commands, files and messages, and addresses of ports.

use std::str::FromStr;

pub type Read<T> = Result<T, String>;

/// A number of an option.
pub fn number<T: FromStr>(name: &str, value: &str) -> Read<T> {
    value.parse().map_err(|_| format!("{name} {value:?} is no number that can be taken"))
}

/// Refuses names of hosts that a shell or a terminal could read otherwise.
pub fn check_host(host: &str) -> Read<()> {
    let is_good = |it: char| it.is_ascii_alphanumeric() || ".-_:%[]".contains(it);
    if host.is_empty() || host.starts_with('-') || !host.chars().all(is_good) {
        return Err(format!("the host's name {host:?} has characters that no name has"));
    }
    Ok(())
}

/// The same of users.
pub fn check_user(user: &str) -> Read<()> {
    let is_good = |it: char| !it.is_control() && !it.is_whitespace() && !"'`\";&<>|(){}$\\*?!".contains(it);
    if user.is_empty() || user.starts_with('-') || !user.chars().all(is_good) {
        return Err(format!("the user's name {user:?} has characters that no name has"));
    }
    Ok(())
}

// An address without the brackets that one with colons has.
fn bare(address: &str) -> String {
    address.trim_start_matches('[').trim_end_matches(']').into()
}

/// HOST:PORT, with brackets around an address that has colons.
pub fn host_and_port(text: &str) -> Read<(String, u16)> {
    let (host, port) = text.rsplit_once(':').ok_or(format!("{text:?} is not HOST:PORT"))?;
    check_host(host)?;
    Ok((bare(host), number("the port", port)?))
}

/// [USER@]HOST[:PORT], also with ssh:// before it.
#[derive(Clone, Debug, PartialEq, Eq)]
pub struct Place {
    pub user: Option<String>,
    pub host: String,
    pub port: Option<u16>,
}

impl Place {
    /// A place to jump over, where a colon is that of a port.
    pub fn of_jump(text: &str) -> Read<Self> {
        let text = text.strip_prefix("ssh://").unwrap_or(text);
        let (user, rest) = text.rsplit_once('@').map_or((None, text), |(user, rest)| (Some(user.to_owned()), rest));
        let has_port = rest.contains("]:") || rest.matches(':').count() == 1;
        let (host, port) = if has_port { host_and_port(rest).map(|(host, port)| (host, Some(port)))? } else { (bare(rest), None) };
        Place { user, host, port }.checked()
    }

    /// The place to go to, where a colon is part of an address but after ssh://.
    pub fn of_word(text: &str) -> Read<Self> {
        if text.starts_with("ssh://") {
            return Place::of_jump(text.trim_end_matches('/'));
        }
        let (user, host) = text.rsplit_once('@').map_or((None, text), |(user, host)| (Some(user.to_owned()), host));
        Place { user, host: host.into(), port: None }.checked()
    }

    fn checked(self) -> Read<Self> {
        check_host(&self.host)?;
        self.user.as_deref().map_or(Ok(()), check_user)?;
        Ok(self)
    }
}

/// A port that leads to a host and a port; by SOCKS where there is none.
#[derive(Clone, Debug, PartialEq, Eq)]
pub struct Forward {
    pub bind: String,
    pub port: u16,
    pub to: Option<(String, u16)>,
}

impl Forward {
    /// [ADDRESS:]PORT, and :HOST:PORT after it where it has a target. In place of the second colon there may be a space, and addresses
    /// with colons stand in brackets.
    pub fn read(text: &str, has_target: bool) -> Read<Self> {
        let text = text.split_whitespace().collect::<Vec<_>>().join(":");
        let form = if has_target { "[ADDRESS:]PORT:HOST:PORT" } else { "[ADDRESS:]PORT" };
        let fields = fields(&text);
        let (bind, port, to) = match (&fields[..], has_target) {
            ([port], false) => ("localhost", port, None),
            ([bind, port], false) => (*bind, port, None),
            ([port, host, there], true) => ("localhost", port, Some((host, there))),
            ([bind, port, host, there], true) => (*bind, port, Some((host, there))),
            _ => return Err(format!("{text:?} is not {form}")),
        };
        let bind = if ["", "*"].contains(&bind) { "*".into() } else { bare(bind) };
        let to = match to {
            Some((host, there)) => {
                check_host(host)?;
                Some((bare(host), number("the port", there)?))
            }
            None => None,
        };
        if bind != "*" {
            check_host(&bind)?;
        }
        Ok(Forward { bind, port: number("the port", port)?, to })
    }
}

// What stands between colons, but for those in brackets.
fn fields(text: &str) -> Vec<&str> {
    let mut is_inside = false;
    let split = |it: char| {
        is_inside = (is_inside || it == '[') && it != ']';
        it == ':' && !is_inside
    };
    text.split(split).collect()
}

#[cfg(test)]
mod tests {
    use super::*;

    #[test]
    fn ports() {
        let to = |bind: &str, port, host: &str, there| Forward { bind: bind.into(), port, to: Some((host.into(), there)) };
        assert_eq!(Forward::read("8080:db:5432", true), Ok(to("localhost", 8080, "db", 5432)));
        assert_eq!(Forward::read("8080 db:5432", true), Ok(to("localhost", 8080, "db", 5432)));
        assert_eq!(Forward::read("[::2]:80:[::1]:90", true).unwrap().to, Some(("::1".into(), 90)));
        assert_eq!(Forward::read("*:80:a:90", true), Ok(to("*", 80, "a", 90)));
        assert_eq!(Forward::read("1080", false), Ok(Forward { bind: "localhost".into(), port: 1080, to: None }));
        for bad in ["80", "a:b", "80:a", "/x:/y", "80:$(id):1", ""] {
            assert!(Forward::read(bad, true).is_err(), "{bad}");
        }
    }

    #[test]
    fn places() {
        let place = |user: Option<&str>, host: &str, port| Place { user: user.map(String::from), host: host.into(), port };
        assert_eq!(Place::of_word("me@::1"), Ok(place(Some("me"), "::1", None)));
        assert_eq!(Place::of_word("ssh://me@a.org:23/"), Ok(place(Some("me"), "a.org", Some(23))));
        assert_eq!(Place::of_jump("me@a:23"), Ok(place(Some("me"), "a", Some(23))));
        assert_eq!(Place::of_jump("[::1]:23"), Ok(place(None, "::1", Some(23))));
        for bad in ["root@$(id)", "root@a;b", "-oProxyCommand=x", "a`b@host", "root@a\x1b", "@", ""] {
            assert!(Place::of_word(bad).is_err() && Place::of_jump(bad).is_err(), "{bad}");
        }
    }
}
