//! What -o and a configuration file name.

use crate::names::{check_host, check_user, number, Forward, Place, Read};
use crate::words::{HostCheck, Terminal, Words};
use divrelca_tokio::{patterns, Ciphers};
use std::time::Duration;

// Options without effect, whatever they say: there is nothing of the kind here, or it is done anyway.
const WITHOUT_EFFECT: [&str; 28] = [
    "addkeystoagent",
    "canonicalizehostname",
    "challengeresponseauthentication",
    "checkhostip",
    "compression",
    "connectionattempts",
    "controlmaster",
    "controlpath",
    "controlpersist",
    "escapechar",
    "fingerprinthash",
    "gssapiauthentication",
    "gssapidelegatecredentials",
    "hashknownhosts",
    "hostbasedauthentication",
    "hostkeyalgorithms",
    "ipqos",
    "kbdinteractiveauthentication",
    "kexalgorithms",
    "loglevel",
    "logverbose",
    "nohostauthenticationforlocalhost",
    "pubkeyacceptedalgorithms",
    "rekeylimit",
    "streamlocalbindunlink",
    "tcpkeepalive",
    "updatehostkeys",
    "visualhostkey",
];
// Options that are taken where they say no.
const NEVER: [&str; 8] = [
    "forwardx11",
    "forwardx11trusted",
    "gatewayports",
    "permitlocalcommand",
    "proxyusefdpass",
    "remotecommand",
    "tunnel",
    "verifyhostkeydns",
];
// Options of which each value counts.
const EACH: [&str; 6] = ["dynamicforward", "identityfile", "localforward", "remoteforward", "sendenv", "setenv"];

fn flag(name: &str, value: &str) -> Read<bool> {
    match value.to_ascii_lowercase().as_str() {
        "yes" | "true" => Ok(true),
        "no" | "false" => Ok(false),
        _ => Err(unknown(name, value)),
    }
}

fn unknown(name: &str, value: &str) -> String {
    format!("the option {name}={value} is not known")
}

// Seconds, or a number with a unit; none where it is 0.
fn seconds(name: &str, value: &str) -> Read<Option<Duration>> {
    let (count, unit) = match value.char_indices().next_back() {
        Some((at, 's' | 'S')) => (&value[..at], 1),
        Some((at, 'm' | 'M')) => (&value[..at], 60),
        Some((at, 'h' | 'H')) => (&value[..at], 3600),
        _ => (value, 1),
    };
    let count: u32 = number(name, count)?;
    Ok(Some(Duration::from_secs(u64::from(count) * unit)).filter(|it| !it.is_zero()))
}

fn files(value: &str) -> Vec<String> {
    value.split_whitespace().filter(|it| *it != "none").map(String::from).collect()
}

impl Words {
    /// NAME=VALUE or NAME VALUE.
    pub fn read_option(&mut self, word: &str) -> Read<()> {
        let at = word.find(['=', ' ', '\t']).ok_or(format!("the option {word:?} has no value"))?;
        let value = word[at..].trim_start_matches([' ', '\t']).trim_start_matches('=').trim().trim_matches('"');
        if value.is_empty() {
            return Err(format!("the option {word:?} has no value"));
        }
        self.set_option(&word[..at], value)
    }

    /// Sets an option. The first value of a name counts, as with OpenSSH.
    pub fn set_option(&mut self, name: &str, value: &str) -> Read<()> {
        let low = name.to_ascii_lowercase();
        if !EACH.contains(&low.as_str()) && !self.seen.insert(low.clone()) {
            return Ok(());
        }
        if self.set_place(&low, name, value)? || self.set_login(&low, name, value)? || self.set_session(&low, name, value)? {
            return Ok(());
        }
        let is_no = ["no", "none", "ask", "false"].contains(&value.to_ascii_lowercase().as_str());
        if WITHOUT_EFFECT.contains(&low.as_str()) || (NEVER.contains(&low.as_str()) && is_no) {
            return Ok(());
        }
        Err(unknown(name, value))
    }

    // Where to go, and by which way.
    fn set_place(&mut self, low: &str, name: &str, value: &str) -> Read<bool> {
        match low {
            "port" => {
                self.port.get_or_insert(number(name, value)?);
            }
            "hostname" => {
                check_host(value)?;
                self.host_name = Some(value.into());
            }
            "hostkeyalias" => {
                check_host(value)?;
                self.host_key_alias = Some(value.into());
            }
            "userknownhostsfile" => self.known_hosts = Some(files(value)),
            "stricthostkeychecking" => {
                self.host_check = match value.to_ascii_lowercase().as_str() {
                    "yes" => HostCheck::Known,
                    "ask" => HostCheck::Ask,
                    "accept-new" | "no" | "off" => HostCheck::New,
                    _ => return Err(unknown(name, value)),
                }
            }
            "globalknownhostsfile" => self.global_known_hosts = Some(files(value)),
            "proxycommand" if value.eq_ignore_ascii_case("none") => {}
            "proxycommand" if self.jumps.is_empty() => self.proxy = Some(value.into()),
            "proxyjump" if value.eq_ignore_ascii_case("none") => {}
            "proxyjump" if self.proxy.is_none() => self.jumps = value.split(',').map(Place::of_jump).collect::<Read<_>>()?,
            "proxycommand" | "proxyjump" => {} // the first of both counts
            "ciphers" => self.ciphers = ciphers(value)?,
            "connecttimeout" => self.connect_timeout = seconds(name, value)?,
            "serveraliveinterval" => self.alive_interval = seconds(name, value)?,
            "serveralivecountmax" => self.alive_count = number(name, value)?,
            "addressfamily" => {
                self.is_v6 = match value.to_ascii_lowercase().as_str() {
                    "any" => self.is_v6,
                    "inet" => Some(false),
                    "inet6" => Some(true),
                    _ => return Err(unknown(name, value)),
                }
            }
            _ => return Ok(false),
        }
        Ok(true)
    }

    // Who comes in, and by what.
    fn set_login(&mut self, low: &str, name: &str, value: &str) -> Read<bool> {
        match low {
            "user" => {
                check_user(value)?;
                self.user.get_or_insert(value.into());
            }
            "identityfile" => self.keys.push(value.into()),
            "identitiesonly" => self.named_keys_only = flag(name, value)?,
            "batchmode" => self.is_batch = flag(name, value)?,
            "passwordauthentication" => self.no_password |= !flag(name, value)?,
            "pubkeyauthentication" => self.no_key |= !flag(name, value)?,
            "preferredauthentications" => {
                let has = |method| value.split(',').any(|it| it == method);
                (self.no_key, self.no_password) = (self.no_key || !has("publickey"), self.no_password || !has("password"));
            }
            "numberofpasswordprompts" => self.prompts = number(name, value)?,
            _ => return Ok(false),
        }
        Ok(true)
    }

    // What is done there.
    fn set_session(&mut self, low: &str, name: &str, value: &str) -> Read<bool> {
        match low {
            "requesttty" => {
                self.terminal = match value.to_ascii_lowercase().as_str() {
                    "auto" => Terminal::Auto,
                    "no" => Terminal::No,
                    "yes" => Terminal::Yes,
                    "force" => Terminal::Force,
                    _ => return Err(unknown(name, value)),
                }
            }
            "sessiontype" => match value.to_ascii_lowercase().as_str() {
                "default" => {}
                "none" => self.no_command = true,
                "subsystem" => self.is_subsystem = true,
                _ => return Err(unknown(name, value)),
            },
            "stdinnull" => self.no_input |= flag(name, value)?,
            "forkafterauthentication" if !flag(name, value)? => {}
            "forkafterauthentication" => (self.is_background, self.no_input) = (true, true),
            "exitonforwardfailure" => self.needs_forwards = flag(name, value)?,
            "clearallforwardings" => self.clears_forwards = flag(name, value)?,
            "forwardagent" => self.forwards_agent = flag(name, value)?,
            "identityagent" => self.agent = Some(value.into()),
            "localforward" => self.local_forwards.push(Forward::read(value, true)?),
            "dynamicforward" => self.local_forwards.push(Forward::read(value, false)?),
            "remoteforward" => self.remote_forwards.push(Forward::read(value, true)?),
            "sendenv" => {
                let own = std::env::vars_os().filter_map(|(name, value)| Some((name.into_string().ok()?, value.into_string().ok()?)));
                let is_sent = |name: &str| patterns::holds(value.split_whitespace(), |it| patterns::matches(it, name));
                self.variables.extend(own.filter(|it| is_sent(&it.0)));
            }
            "setenv" => {
                let (name, value) = value.split_once('=').ok_or(format!("SetEnv {value:?} has no value"))?;
                self.variables.push((name.into(), value.into()));
            }
            _ => return Ok(false),
        }
        Ok(true)
    }
}

fn ciphers(value: &str) -> Read<Ciphers> {
    let has = |name| value.split(',').any(|it| it == name);
    match (has("aes128-gcm@openssh.com"), has("aes256-gcm@openssh.com")) {
        (true, true) => Ok(Ciphers::Both),
        (true, false) => Ok(Ciphers::Aes128),
        (false, true) => Ok(Ciphers::Aes256),
        _ => Err(format!("the ciphers {value} are not there")),
    }
}

#[cfg(test)]
mod tests {
    use super::*;

    #[test]
    fn forms_of_an_option() {
        for word in ["ForwardX11 no", "Port = 7", "Port=7", "port\t7", "ConnectTimeout=1m"] {
            assert_eq!(Words::default().read_option(word), Ok(()), "{word}");
        }
        assert!(Words::default().read_option("Port").is_err() && Words::default().read_option("Port=").is_err());
        assert_eq!(seconds("x", "2m"), Ok(Some(Duration::from_secs(120))));
        assert_eq!(seconds("x", "0"), Ok(None));
    }
}
