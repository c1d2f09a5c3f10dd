//! The keys that are offered to a server: those of the agent, and that of a file.

use crate::connect::{expand, home};
use crate::log::say;
use crate::words::Words;
use divrelca_tokio::client::{Connection, Outcome};
use divrelca_tokio::{keys, Agent, AgentKey, Error};
use std::io;
use std::os::unix::fs::MetadataExt;
use zeroize::Zeroizing;

/// What a user is let in by.
pub struct Identities {
    agent: Option<Agent>,
    held: Vec<AgentKey>,
    /// The seed of the key of a file.
    pub seed: Option<Zeroizing<[u8; 32]>>,
}

impl Identities {
    /// Those that the words name. An agent that does not answer is passed over, which -v tells.
    pub async fn of(words: &Words) -> Self {
        let agent = if words.no_key { None } else { words.agent().map(Agent::new) };
        let mut held = Vec::new();
        if let Some(agent) = &agent {
            match agent.keys().await {
                Ok(keys) => held = keys.into_iter().filter(|it| it.algorithm().is_some()).collect(),
                Err(error) if words.verbose > 0 => say(&format!("the agent: {error}")),
                Err(_) => {}
            }
        }
        let named: Vec<Vec<u8>> = words.keys.iter().filter_map(|it| public_blob(&expand(it))).collect();
        if words.named_keys_only {
            held.retain(|it| named.contains(&it.blob));
        }
        // those that a file names are offered first, as OpenSSH does
        held.sort_by_key(|it| !named.contains(&it.blob));
        let is_held = |blob: &[u8]| held.iter().any(|it| it.blob == blob);
        let seed = user_seed(words, &is_held);
        Identities { agent, held, seed }
    }

    /// Logs in by one key after the other, as long as the server would look at one.
    pub async fn log_in(&self, connection: &Connection, user: &str, mut outcome: Outcome) -> Result<Outcome, Error> {
        for key in &self.held {
            let agent = match &self.agent {
                Some(agent) if outcome.allows("publickey") => agent,
                _ => break,
            };
            outcome = match connection.login_by_agent(user, agent, key).await {
                Ok(found) => found,
                Err(error @ (Error::Io(_) | Error::Library(_))) => {
                    say(&format!("the agent does not sign with {}: {error}", plain(&key.comment)));
                    outcome
                }
                Err(error) => return Err(error),
            };
        }
        if self.seed.is_some() && outcome.allows("publickey") {
            outcome = connection.login_key(user).await?;
        }
        Ok(outcome)
    }
}

fn plain(comment: &str) -> String {
    comment.chars().map(|it| if it.is_control() { '\u{fffd}' } else { it }).collect()
}

// The public key of a key file: in the file beside it, or in the file itself, as it goes over the wire.
fn public_blob(file: &str) -> Option<Vec<u8>> {
    let beside = std::fs::read_to_string(format!("{file}.pub")).or_else(|_| std::fs::read_to_string(file)).ok()?;
    base64::decode(beside.split_whitespace().nth(1)?).ok()
}

// The first key that can be used and that the agent does not hold. One that others may read is none.
fn user_seed(words: &Words, is_held: &dyn Fn(&[u8]) -> bool) -> Option<Zeroizing<[u8; 32]>> {
    if words.no_key {
        return None;
    }
    let by_default = [home("id_ed25519")];
    for file in if words.keys.is_empty() { &by_default[..] } else { &words.keys[..] } {
        let path = expand(file);
        if public_blob(&path).map_or(false, |blob| is_held(&blob)) {
            continue;
        }
        match read_key(&path) {
            Ok(seed) => return Some(seed),
            Err(Unread::Missing) if words.keys.is_empty() => {}
            Err(Unread::Missing) => say(&format!("{file}: there is no such file")),
            Err(Unread::Bad(why)) => say(&format!("{file}: {why}")),
        }
    }
    None
}

enum Unread {
    Missing,
    Bad(String),
}

fn read_key(file: &str) -> Result<Zeroizing<[u8; 32]>, Unread> {
    let bad = |error: io::Error| if error.kind() == io::ErrorKind::NotFound { Unread::Missing } else { Unread::Bad(error.to_string()) };
    let about = std::fs::metadata(file).map_err(bad)?;
    if about.mode() & 0o077 != 0 && about.uid() == nix::unistd::getuid().as_raw() && about.is_file() {
        return Err(Unread::Bad(format!("others may read this key (its mode is {:04o}), so it is not used", about.mode() & 0o7777)));
    }
    let text = std::fs::read(file).map(Zeroizing::new).map_err(bad)?;
    keys::private_key(&text).map(|it| Zeroizing::new(it.0)).map_err(|error| Unread::Bad(error.to_string()))
}
