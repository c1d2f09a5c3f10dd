//! Keys of users in files of the form of authorized_keys, with the options before them. A line with an option that is not known lets
//! nobody in.

use crate::expiry;
use divrelca_tokio::wire::Take;
use divrelca_tokio::{keys, patterns, signatures};
use std::net::IpAddr;

/// What a user may do.
#[derive(Clone, Debug, PartialEq, Eq)]
pub struct Rights {
    /// The one command, whatever is asked for.
    pub command: Option<String>,
    pub terminal: bool,
    pub forwarding: bool,
    pub agent: bool,
    // patterns of addresses, one list for each `from`
    from: Vec<String>,
    // HOST:PORT, of which each may be *; any where there is none
    opens: Vec<(String, String)>,
    listens: Vec<(String, String)>,
    // seconds since 1970 after which the key lets nobody in
    until: Option<i64>,
}

impl Default for Rights {
    fn default() -> Self {
        Rights {
            command: None,
            terminal: true,
            forwarding: true,
            agent: true,
            from: Vec::new(),
            opens: Vec::new(),
            listens: Vec::new(),
            until: None,
        }
    }
}

/// A key as it goes over the wire, the line at which it stands, and what its user may do.
#[derive(Clone, Debug, PartialEq, Eq)]
pub struct Entry {
    pub blob: Vec<u8>,
    pub line: usize,
    pub rights: Rights,
}

impl Entry {
    /// The 32 bytes of a key of ssh-ed25519; none where it is another one.
    pub fn key(&self) -> Option<[u8; 32]> {
        keys::of_blob(&self.blob)
    }

    /// Whether it is this key, and signs under this algorithm.
    pub fn is_for(&self, algorithm: &str, blob: &[u8]) -> bool {
        self.blob == blob && Take(blob).text().map_or(false, |kind| signatures::is_of(algorithm, kind))
    }
}

// Types of keys besides ssh-ed25519.
const OTHER_KINDS: [&str; 5] =
    ["ssh-rsa", "ecdsa-sha2-nistp256", "ecdsa-sha2-nistp384", "sk-ssh-ed25519@openssh.com", "sk-ecdsa-sha2-nistp256@openssh.com"];

/// Reads a file: its keys, and the lines that let nobody in, with what is wrong there.
pub fn read(text: &[u8]) -> (Vec<Entry>, Vec<(usize, String)>) {
    let (mut entries, mut refused) = (Vec::new(), Vec::new());
    for (line, text) in text.split(|&it| it == b'\n').enumerate().map(|(at, text)| (at + 1, text)) {
        let text = String::from_utf8_lossy(text);
        let text = text.trim();
        if text.is_empty() || text.starts_with('#') {
            continue;
        }
        match entry(text) {
            Ok((blob, rights)) => entries.push(Entry { blob, line, rights }),
            Err(what) => refused.push((line, what)),
        }
    }
    (entries, refused)
}

fn entry(text: &str) -> Result<(Vec<u8>, Rights), String> {
    let mut rights = Rights::default();
    let key = match text.split_whitespace().next() {
        Some(kind) if kind.contains('=') || !is_kind(kind) => {
            let (options, key) = text.split_at(end_of_options(text)?);
            rights.read(options)?;
            key.trim()
        }
        _ => text,
    };
    if let Some(kind) = OTHER_KINDS.iter().find(|it| key.split_whitespace().next() == Some(it)) {
        return other_key(kind, key).map(|it| (it, rights)).ok_or_else(|| format!("there is no key of {kind}"));
    }
    let found = keys::authorized_keys(key.as_bytes()).map_err(|it| it.error.to_string())?;
    found.first().map(|it| (keys::to_blob(it), rights)).ok_or_else(|| "there is no key".into())
}

// The key behind the name of its type, which it has to name itself.
fn other_key(kind: &str, text: &str) -> Option<Vec<u8>> {
    let blob = base64::decode(text.split_whitespace().nth(1)?).ok()?;
    (Take(&blob).text() == Some(kind)).then_some(blob)
}

// Whether a word is the name of a type of keys.
fn is_kind(word: &str) -> bool {
    ["ssh-", "ecdsa-", "sk-"].iter().any(|it| word.starts_with(it))
}

// The first space outside of quotes.
fn end_of_options(text: &str) -> Result<usize, String> {
    let (mut is_quoted, mut before) = (false, ' ');
    for (at, it) in text.char_indices() {
        match it {
            '"' if before != '\\' => is_quoted = !is_quoted,
            ' ' | '\t' if !is_quoted => return Ok(at),
            _ => {}
        }
        before = it;
    }
    Err("there is no key behind the options".into())
}

// The options, each with its value if it has one.
fn split(options: &str) -> Vec<(String, Option<String>)> {
    let (mut all, mut name, mut value, mut is_quoted, mut before) = (Vec::new(), String::new(), None::<String>, false, ' ');
    for it in options.chars().chain([',']) {
        match it {
            '"' if before != '\\' => {
                is_quoted = !is_quoted;
                value.get_or_insert_with(String::new);
            }
            ',' if !is_quoted => all.push((std::mem::take(&mut name), value.take())),
            it if is_quoted => {
                let value = value.get_or_insert_with(String::new);
                if it == '"' {
                    value.pop(); // the backslash before it
                }
                value.push(it);
            }
            it => name.push(it),
        }
        before = it;
    }
    all
}

// HOST:PORT, or a port alone.
fn place(text: &str) -> Result<(String, String), String> {
    let (host, port) = text.rsplit_once(':').unwrap_or(("*", text));
    if port != "*" && port.parse::<u16>().is_err() {
        return Err(format!("{text:?} is no host and port"));
    }
    Ok((host.trim_start_matches('[').trim_end_matches(']').into(), port.into()))
}

fn allows(places: &[(String, String)], host: &str, port: u16) -> bool {
    let is_it = |it: &(String, String)| (it.0 == "*" || it.0.eq_ignore_ascii_case(host)) && (it.1 == "*" || it.1 == port.to_string());
    places.is_empty() || places.iter().any(is_it)
}

impl Rights {
    fn read(&mut self, options: &str) -> Result<(), String> {
        for (name, value) in split(options) {
            let low = name.trim_end_matches('=').to_ascii_lowercase();
            match (low.as_str(), value) {
                ("restrict", None) => (self.terminal, self.forwarding, self.agent) = (false, false, false),
                ("pty", None) => self.terminal = true,
                ("no-pty", None) => self.terminal = false,
                ("port-forwarding", None) => self.forwarding = true,
                ("no-port-forwarding", None) => self.forwarding = false,
                ("agent-forwarding", None) => self.agent = true,
                ("no-agent-forwarding", None) => self.agent = false,
                // of these there is nothing here
                ("no-x11-forwarding" | "no-user-rc" | "x11-forwarding" | "user-rc", None) => {}
                ("command", Some(_)) if self.command.is_some() => return Err("there are two commands".into()),
                ("command", Some(command)) => self.command = Some(command),
                ("from", Some(list)) => self.from.push(checked(list)?),
                ("permitopen", Some(value)) => self.opens.push(place(&value)?),
                ("permitlisten", Some(value)) => self.listens.push(place(&value)?),
                ("expiry-time", Some(value)) => {
                    let time = expiry::read(&value).ok_or_else(|| format!("{value:?} is no time"))?;
                    self.until = Some(self.until.map_or(time, |it| it.min(time)));
                }
                _ => return Err(format!("the option {} is not known", name.trim_end_matches('='))),
            }
        }
        Ok(())
    }

    /// Whether a user may come from there. Names of hosts match no address.
    pub fn is_from(&self, address: Option<IpAddr>) -> bool {
        let is_in = |list: &String| match address {
            Some(address) => patterns::holds(list.split(','), |it| is_of(it, address)),
            None => false,
        };
        self.from.iter().all(is_in)
    }

    /// Whether the key lets somebody in at this time, in seconds since 1970.
    pub fn is_current(&self, now: i64) -> bool {
        self.until.map_or(true, |it| now < it)
    }

    /// Whether a connection to a host and a port may be opened.
    pub fn may_open(&self, host: &str, port: u16) -> bool {
        self.forwarding && allows(&self.opens, host, port)
    }

    /// Whether a port may be listened on.
    pub fn may_listen(&self, address: &str, port: u16) -> bool {
        self.forwarding && allows(&self.listens, address, port)
    }
}

// A list of `from` whose networks are networks.
fn checked(list: String) -> Result<String, String> {
    for pattern in list.split(',').map(|it| it.trim_start_matches('!')) {
        if pattern.is_empty() || (pattern.contains('/') && network(pattern).is_none()) {
            return Err(format!("{list:?} is no list of addresses"));
        }
    }
    Ok(list)
}

// ADDRESS/BITS.
fn network(pattern: &str) -> Option<(u128, u32, bool)> {
    let (address, bits) = pattern.split_once('/')?;
    let (address, bits) = (address.parse::<IpAddr>().ok()?, bits.parse::<u32>().ok()?);
    let (number, is_v6) = number(address);
    (bits <= if is_v6 { 128 } else { 32 }).then_some((number, bits, is_v6))
}

// An address as a number of 128 bits, its own ones first.
fn number(address: IpAddr) -> (u128, bool) {
    match address {
        IpAddr::V4(it) => (u128::from(u32::from(it)) << 96, false),
        IpAddr::V6(it) => match it.to_ipv4_mapped() {
            Some(it) => (u128::from(u32::from(it)) << 96, false),
            None => (u128::from(it), true),
        },
    }
}

fn is_of(pattern: &str, address: IpAddr) -> bool {
    let (own, is_v6) = number(address);
    match network(pattern) {
        Some((number, bits, of_v6)) => of_v6 == is_v6 && (bits == 0 || (number ^ own) >> (128 - bits) == 0),
        None if is_v6 => patterns::matches(&pattern.to_ascii_lowercase(), &address.to_string()),
        None => patterns::matches(pattern, &std::net::Ipv4Addr::from((own >> 96) as u32).to_string()),
    }
}

#[cfg(test)]
mod tests {
    use super::*;

    fn rights(options: &str) -> Result<Rights, String> {
        let mut rights = Rights::default();
        rights.read(options).map(|()| rights)
    }

    fn from(list: &str, address: &str) -> bool {
        rights(&format!("from=\"{list}\"")).unwrap().is_from(Some(address.parse().unwrap()))
    }

    #[test]
    fn options() {
        let all =
            rights("command=\"echo \\\"a, b\\\"\",no-pty,permitopen=\"db:5432\",permitopen=\"[::1]:*\",permitlisten=\"8080\"").unwrap();
        assert_eq!(all.command.as_deref(), Some("echo \"a, b\""));
        assert!(!all.terminal && all.forwarding);
        assert!(all.may_open("DB", 5432) && all.may_open("::1", 7) && !all.may_open("db", 80) && !all.may_open("a", 5432));
        assert!(all.may_listen("localhost", 8080) && !all.may_listen("localhost", 80));
        let timed = rights("expiry-time=\"20200102Z\",expiry-time=\"20200101Z\"").unwrap();
        assert!(timed.is_current(1_577_836_799) && !timed.is_current(1_577_836_800) && Rights::default().is_current(i64::MAX));
        let some = rights("restrict,pty").unwrap();
        assert!(some.terminal && !some.forwarding && !some.may_open("a", 1));
        assert_eq!(rights("no-X11-forwarding,no-user-rc").unwrap(), Rights::default());
        assert!(Rights::default().agent && !some.agent && !rights("no-agent-forwarding").unwrap().agent);
        assert!(rights("restrict,agent-forwarding").unwrap().agent);
    }

    #[test]
    fn options_that_are_not_known_refuse_their_line() {
        for bad in [
            "cert-authority",
            "principals=\"a\"",
            "environment=\"A=b\"",
            "no-pty=\"x\"",
            "command",
            "tunnel=\"0\"",
            "expiry-time",
            "expiry-time=\"20201301\"",
            "from=\"10.0.0.0/33\"",
            "from=\"\"",
            "permitopen=\"a:b\"",
            "command=\"a\",command=\"b\"",
            "no-pty,,pty",
            "",
        ] {
            assert!(rights(bad).is_err(), "{bad}");
        }
        assert!(rights("cert-authority").unwrap_err().contains("cert-authority"));
    }

    #[test]
    fn addresses() {
        assert!(from("10.0.0.0/8", "10.1.2.3") && !from("10.0.0.0/8", "11.1.2.3") && from("10.0.0.0/8", "::ffff:10.1.2.3"));
        assert!(from("10.0.0.*,192.168.1.?", "192.168.1.7") && !from("192.168.1.?", "192.168.1.17"));
        assert!(!from("*,!10.0.0.1", "10.0.0.1") && from("*,!10.0.0.1", "10.0.0.2") && !from("!10.0.0.1", "10.0.0.2"));
        assert!(from("2001:db8::/32", "2001:db8:1::1") && !from("2001:db8::/32", "2001:db9::1") && from("::1", "::1"));
        assert!(!from("0.0.0.0/0", "::1") && from("0.0.0.0/0", "1.2.3.4") && !from("example.org", "1.2.3.4"));
        assert!(!rights("from=\"*\"").unwrap().is_from(None) && Rights::default().is_from(None));
        let both = rights("from=\"10.*\",from=\"*.1\"").unwrap();
        assert!(both.is_from(Some("10.0.0.1".parse().unwrap())) && !both.is_from(Some("10.0.0.2".parse().unwrap())));
    }

    #[test]
    fn keys_of_other_types() {
        let line = |kind: &str, blob: &[u8]| format!("{kind} {} me", base64::encode(blob));
        let blob = [&[0, 0, 0, 7], &b"ssh-rsa"[..], &[0, 0, 0, 1, 3]].concat();
        assert_eq!(entry(&line("ssh-rsa", &blob)), Ok((blob.clone(), Rights::default())));
        assert!(entry(&format!("restrict {}", line("ssh-rsa", &blob))).unwrap().1 != Rights::default());
        let (entries, refused) = read(line("ssh-rsa", &blob).as_bytes());
        assert!(refused.is_empty() && entries[0].key().is_none());
        assert!(entries[0].is_for("rsa-sha2-512", &blob) && entries[0].is_for("rsa-sha2-256", &blob));
        assert!(!entries[0].is_for("ssh-rsa", &blob) && !entries[0].is_for("rsa-sha2-512", &blob[1..]));
        for bad in [line("ssh-rsa", &blob[1..]), line("ssh-rsa", b""), line("sk-ssh-ed25519@openssh.com", &blob), "ssh-rsa".into(), "ssh-rsa !".into()] {
            assert!(entry(&bad).unwrap_err().starts_with("there is no key of "), "{bad}");
        }
        assert!(entry(&line("ssh-dss", &blob)).is_err());
    }

    #[test]
    fn ends_of_options() {
        assert_eq!(end_of_options("command=\"a b\" ssh-ed25519 x"), Ok(13));
        assert_eq!(end_of_options("command=\"a \\\" b\" k"), Ok(16));
        assert!(end_of_options("command=\"a b k").is_err() && end_of_options("restrict").is_err());
    }
}
