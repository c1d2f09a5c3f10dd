//! The words of OpenSSH's ssh: each is taken, or taken without effect, or refused by name.

use crate::connect::expand;
use crate::file;
use crate::names::{number, Forward, Place, Read};
use divrelca_tokio::Ciphers;
use std::collections::{HashSet, VecDeque};
use std::ffi::OsString;
use std::os::unix::ffi::OsStrExt;
use std::time::Duration;

pub const USAGE: &str = "usage: dvssh [-246AaCfknNqsTtVvxy] [-c CIPHERS] [-D [ADDRESS:]PORT] [-E LOG] [-F CONFIG] [-i KEY] \
     [-J HOST,..] [-L [ADDRESS:]PORT:HOST:PORT] [-l USER] [-o NAME=VALUE] [-p PORT] [-R [ADDRESS:]PORT:HOST:PORT] [-W HOST:PORT] \
     [USER@]HOST [COMMAND..]";

#[derive(Clone, Copy, Debug, Default, PartialEq, Eq)]
pub enum Terminal {
    #[default]
    Auto,
    No,
    Yes,
    Force,
}

/// What the words say.
/// Whether a host of which no key is known may be connected to (StrictHostKeyChecking). One that is known by another key never is.
#[derive(Clone, Copy, Debug, PartialEq, Eq)]
pub enum HostCheck {
    /// Never.
    Known,
    /// Where a person at the terminal says yes.
    Ask,
    /// Always, and its key is noted.
    New,
}

#[derive(Debug)]
pub struct Words {
    pub host: String,
    pub host_name: Option<String>,
    pub host_key_alias: Option<String>,
    pub user: Option<String>,
    pub port: Option<u16>,
    pub keys: Vec<String>,
    pub known_hosts: Option<Vec<String>>,
    pub host_check: HostCheck,
    pub global_known_hosts: Option<Vec<String>>,
    pub proxy: Option<String>,
    pub jumps: Vec<Place>,
    pub variables: Vec<(String, String)>,
    pub is_v6: Option<bool>,
    pub terminal: Terminal,
    pub ciphers: Ciphers,
    pub is_subsystem: bool,
    pub is_batch: bool,
    pub is_background: bool,
    pub no_input: bool,
    pub no_command: bool,
    pub no_key: bool,
    /// Whether the agent's keys are offered only if a file of `keys` names them.
    pub named_keys_only: bool,
    pub no_password: bool,
    pub prompts: u32,
    pub verbose: u32,
    pub log: Option<String>,
    pub connect_timeout: Option<Duration>,
    pub alive_interval: Option<Duration>,
    pub alive_count: u32,
    pub carries_to: Option<(String, u16)>,
    pub local_forwards: Vec<Forward>,
    pub remote_forwards: Vec<Forward>,
    pub needs_forwards: bool,
    pub clears_forwards: bool,
    pub forwards_agent: bool,
    pub agent: Option<String>,
    pub command: Vec<u8>,
    config: Option<String>,
    pub(crate) seen: HashSet<String>,
}

impl Default for Words {
    fn default() -> Self {
        Words {
            host: String::new(),
            host_name: None,
            host_key_alias: None,
            user: None,
            port: None,
            keys: Vec::new(),
            known_hosts: None,
            host_check: HostCheck::Ask,
            global_known_hosts: None,
            proxy: None,
            jumps: Vec::new(),
            variables: Vec::new(),
            is_v6: None,
            terminal: Terminal::Auto,
            ciphers: Ciphers::Both,
            is_subsystem: false,
            is_batch: false,
            is_background: false,
            no_input: false,
            no_command: false,
            no_key: false,
            named_keys_only: false,
            no_password: false,
            prompts: 3,
            verbose: 0,
            log: None,
            connect_timeout: None,
            alive_interval: None,
            alive_count: 3,
            carries_to: None,
            local_forwards: Vec::new(),
            remote_forwards: Vec::new(),
            needs_forwards: false,
            clears_forwards: false,
            forwards_agent: false,
            agent: None,
            command: Vec::new(),
            config: None,
            seen: HashSet::new(),
        }
    }
}

impl Words {
    pub fn port(&self) -> u16 {
        self.port.unwrap_or(22)
    }

    /// The socket of the user's agent, where there is one: as IdentityAgent says, else that of the environment.
    pub fn agent(&self) -> Option<OsString> {
        let found = match self.agent.as_deref() {
            Some(it) if it.eq_ignore_ascii_case("none") => None,
            None | Some("SSH_AUTH_SOCK") => std::env::var_os("SSH_AUTH_SOCK"),
            Some(it) => match it.strip_prefix('$') {
                Some(name) => std::env::var_os(name.trim_start_matches('{').trim_end_matches('}')),
                None => Some(expand(it).into()),
            },
        };
        found.filter(|it| !it.is_empty())
    }

    fn set_flag(&mut self, flag: char) -> Read<()> {
        match flag {
            '4' => self.is_v6 = Some(false),
            '6' => self.is_v6 = Some(true),
            'A' | 'a' => {
                self.forwards_agent = flag == 'A';
                self.seen.insert("forwardagent".into());
            }
            'N' => self.no_command = true,
            'T' => self.terminal = Terminal::No,
            'f' => (self.is_background, self.no_input) = (true, true),
            'n' => self.no_input = true,
            's' => self.is_subsystem = true,
            't' => self.terminal = if self.terminal == Terminal::Yes { Terminal::Force } else { Terminal::Yes },
            'v' => self.verbose += 1,
            // no X11, no GSSAPI, no compression, no master, no other protocol and no system log is there
            '2' | 'C' | 'M' | 'k' | 'q' | 'x' | 'y' => {}
            _ => return Err(format!("the option -{flag} is not known")),
        }
        Ok(())
    }

    fn set_value(&mut self, flag: char, value: &str) -> Read<()> {
        match flag {
            'D' => self.local_forwards.push(Forward::read(value, false)?),
            'E' => self.log = Some(value.into()),
            'F' => self.config = (!["none", "/dev/null"].contains(&value)).then(|| value.into()),
            'J' => self.set_option("ProxyJump", value)?,
            'L' => self.local_forwards.push(Forward::read(value, true)?),
            'R' => self.remote_forwards.push(Forward::read(value, true)?),
            'W' => self.carries_to = Some(crate::names::host_and_port(value)?),
            'c' => self.set_option("Ciphers", value)?,
            'i' => self.keys.push(value.into()),
            'l' => self.set_option("User", value)?,
            'o' => self.read_option(value)?,
            'p' => {
                self.port.get_or_insert(number("the port", value)?);
            }
            'S' | 'e' => {} // no master is there, and no escapes
            _ => return Err(format!("the option -{flag} {value} is not known")),
        }
        Ok(())
    }

    // The words that begin with a minus, as getopt takes them; whether `--` ended them.
    fn read_flags(&mut self, all: &mut VecDeque<OsString>) -> Read<bool> {
        while let Some(word) = all.front().filter(|it| it.len() > 1 && it.as_bytes().starts_with(b"-")) {
            let word = word.to_str().ok_or("a word is not of UTF-8")?.to_owned();
            all.pop_front();
            if word == "--" {
                return Ok(true);
            }
            let mut rest = word[1..].chars();
            while let Some(flag) = rest.next() {
                if !"BDEFIJLOPQRSWbceilmopw".contains(flag) {
                    self.set_flag(flag)?;
                    continue;
                }
                let value = match rest.as_str() {
                    "" => all.pop_front().and_then(|it| it.into_string().ok()).ok_or(format!("the option -{flag} has no value"))?,
                    value => value.to_owned(),
                };
                self.set_value(flag, &value)?;
                break;
            }
        }
        Ok(false)
    }

    /// Reads the words, and the configuration that they name. As with OpenSSH's client, options may stand after the host too, and the
    /// first value of a name counts.
    pub fn read(all: impl IntoIterator<Item = OsString>) -> Read<Words> {
        let (mut words, mut all) = (Words::default(), all.into_iter().collect::<VecDeque<_>>());
        let is_ended = words.read_flags(&mut all)?;
        let host = all.pop_front().ok_or(USAGE)?.into_string().map_err(|_| "the host is not of UTF-8")?;
        let place = Place::of_word(&host)?;
        words.host = place.host;
        words.user = words.user.or(place.user);
        words.port = words.port.or(place.port);
        if !is_ended {
            words.read_flags(&mut all)?;
        }
        words.command = all.iter().map(|it| it.as_bytes()).collect::<Vec<_>>().join(&b' ');
        if let Some(path) = words.config.take() {
            file::read(&mut words, &path)?;
        }
        if words.clears_forwards {
            (words.local_forwards, words.remote_forwards) = (Vec::new(), Vec::new());
        }
        if words.is_background && words.command.is_empty() && !words.no_command {
            return Err("-f wants a command, or -N".into());
        }
        Ok(words)
    }
}

#[cfg(test)]
mod tests {
    use super::*;

    fn read(line: &str) -> Read<Words> {
        Words::read(line.split(' ').map(OsString::from))
    }

    #[test]
    fn words_of_tools() {
        for line in [
            "-o SendEnv=GIT_PROTOCOL git@host git-upload-pack 'x'",
            "-l root host rsync --server -vlogDtpre.iLsfxC . x",
            "-oForwardX11=no -oPermitLocalCommand=no -oClearAllForwardings=yes -s -- host sftp",
            "-x -a -oClearAllForwardings=yes -2 -s root@host sftp",
            "-C -o ControlMaster=auto -o ControlPersist=60s -o KbdInteractiveAuthentication=no -o PreferredAuthentications=publickey \
             -o PasswordAuthentication=no -o User=\"root\" -o ConnectTimeout=10 -o ControlPath=\"/x\" host /bin/sh",
            "-n -tt -S none -o ProxyCommand=none host -- mosh-server new",
            "-T -e none -- host -l root sh -c x",
            "-f -N -L 1:a:2 -o ServerAliveInterval=30 -o ServerAliveCountMax=3 -o ExitOnForwardFailure=yes host",
            "-o LogLevel=ERROR -o NumberOfPasswordPrompts=1 -o StrictHostKeyChecking=no -o UserKnownHostsFile=/dev/null host x",
            "-o IdentityAgent=none -o IdentitiesOnly=yes host x",
            "-v -T -D 51234 -o ConnectTimeout=15 host bash",
            "-E /tmp/log -q -y -k -4 host",
        ] {
            assert!(read(line).is_ok(), "{line}: {:?}", read(line));
        }
        assert_eq!(read("-T -- host -l root").unwrap().command, b"-l root");
        assert_eq!(read("-T host -l root sh -c x").unwrap().command, b"sh -c x");
    }

    #[test]
    fn the_first_value_counts() {
        let words = read("-p 23 -o Port=24 -l a -o User=b c@host -o HostName=x -o HostName=y").unwrap();
        assert_eq!((words.port(), words.user.as_deref(), words.host_name.as_deref()), (23, Some("a"), Some("x")));
        let words = read("-o User=b c@host -i k -o IdentityFile=l").unwrap();
        assert_eq!((words.user.as_deref(), words.keys), (Some("b"), vec!["k".into(), "l".into()]));
        let words = read("-J me@a,b:23 host").unwrap();
        assert_eq!((words.jumps.len(), words.jumps[1].port), (2, Some(23)));
    }

    #[test]
    fn agents() {
        for (line, forwards) in [
            ("host", false),
            ("-A host", true),
            ("-a host", false),
            ("-A -a host", false),
            ("-a -A host", true),
            ("-A -o ForwardAgent=no host", true),
            ("-o ForwardAgent=yes host", true),
            ("-o ForwardAgent=no -o ForwardAgent=yes host", false),
        ] {
            assert_eq!(read(line).unwrap().forwards_agent, forwards, "{line}");
        }
        let agent = |line| read(line).unwrap().agent();
        assert_eq!(agent("-o IdentityAgent=/a/b host"), Some("/a/b".into()));
        assert_eq!(agent("-o IdentityAgent=none host"), None);
        assert_eq!(agent("-o IdentityAgent=$DVSSH_NO_SUCH_VARIABLE host"), None);
        assert_eq!(agent("-o IdentityAgent=$PATH host"), std::env::var_os("PATH"));
        assert_eq!(agent("-o IdentityAgent=SSH_AUTH_SOCK host"), agent("host"));
    }

    #[test]
    fn words_that_are_refused_by_name() {
        for (line, named) in [
            ("-g host", "-g"),
            ("-w 1 host", "-w"),
            ("-o MACs=x host", "MACs"),
            ("-o ForwardX11=yes host", "ForwardX11"),
            ("-o ForwardAgent=/agent host", "ForwardAgent"),
            ("-o Tunnel=yes host", "Tunnel"),
            ("-R 1080 host", "1080"),
            ("-f host", "-f"),
        ] {
            assert!(read(line).unwrap_err().contains(named), "{line}");
        }
        for line in ["root@$(id)", "-- -oProxyCommand=x", "-l $(id) host", "-o HostName=a|b host", "-J a;b host", "-L 1:$(id):2 host"] {
            assert!(read(line).is_err(), "{line}");
        }
    }
}
