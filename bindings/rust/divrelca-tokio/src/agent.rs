//! A client of an `ssh-agent`, which holds keys of any algorithm and signs with them: draft-ietf-sshm-ssh-agent, as OpenSSH's agent speaks it.

use divrelca::wire::{Put, Take};
use std::fmt;
use std::io::{Error, ErrorKind, Result};
use std::path::{Path, PathBuf};
use tokio::io::{AsyncReadExt, AsyncWriteExt};
use tokio::net::UnixStream;

const REQUEST_IDENTITIES: u8 = 11;
const IDENTITIES_ANSWER: u8 = 12;
const SIGN_REQUEST: u8 = 13;
const SIGN_RESPONSE: u8 = 14;
const RSA_SHA2_256: u32 = 2;
const RSA_SHA2_512: u32 = 4;
// The most bytes of an answer that are read: those that OpenSSH's agent sends at most.
const LONGEST: u32 = 1 << 18;

/// An agent at a socket. Each call makes a connection of its own. An agent may ask its user before it signs, which takes time.
#[derive(Clone, Debug)]
pub struct Agent(PathBuf);

/// A key that an agent holds.
#[derive(Clone, PartialEq, Eq)]
pub struct AgentKey {
    /// The public key, as it goes over the wire.
    pub blob: Vec<u8>,
    /// What its owner calls it.
    pub comment: String,
}

impl fmt::Debug for AgentKey {
    fn fmt(&self, f: &mut fmt::Formatter<'_>) -> fmt::Result {
        f.debug_struct("AgentKey").field("comment", &self.comment).field("algorithm", &self.algorithm()).finish_non_exhaustive()
    }
}

impl AgentKey {
    /// The algorithm under which it is offered: the type of the key, and of a key of RSA `rsa-sha2-512` (RFC 8332). None where it has no type.
    pub fn algorithm(&self) -> Option<&str> {
        match Take(&self.blob).text()? {
            "" => None,
            "ssh-rsa" => Some("rsa-sha2-512"),
            "ssh-rsa-cert-v01@openssh.com" => Some("rsa-sha2-512-cert-v01@openssh.com"),
            name => Some(name),
        }
    }
}

fn bad(what: &'static str) -> Error {
    Error::new(ErrorKind::InvalidData, what)
}

impl Agent {
    /// The agent at this socket.
    pub fn new(path: impl AsRef<Path>) -> Self {
        Agent(path.as_ref().to_owned())
    }

    /// The agent that `SSH_AUTH_SOCK` names, where it names one.
    pub fn of_environment() -> Option<Self> {
        std::env::var_os("SSH_AUTH_SOCK").filter(|it| !it.is_empty()).map(Agent::new)
    }

    /// The keys that it holds, in its order.
    ///
    /// # Errors
    /// Where there is no agent, or it refuses, or answers something else.
    pub async fn keys(&self) -> Result<Vec<AgentKey>> {
        let answer = self.ask(vec![REQUEST_IDENTITIES], IDENTITIES_ANSWER).await?;
        let (mut rest, mut keys) = (Take(&answer), Vec::new());
        for _ in 0..rest.number().ok_or_else(|| bad("the agent answers no list of keys"))? {
            match (rest.string(), rest.string()) {
                (Some(blob), Some(comment)) => {
                    keys.push(AgentKey { blob: blob.into(), comment: String::from_utf8_lossy(comment).into() });
                }
                _ => return Err(bad("the agent answers no list of keys")),
            }
        }
        Ok(keys)
    }

    /// The signature of a text by a key, which is given as it goes over the wire, under this algorithm.
    ///
    /// # Errors
    /// Where there is no agent, or it refuses, or answers something else.
    pub async fn sign(&self, key: &[u8], algorithm: &str, text: &[u8]) -> Result<Vec<u8>> {
        let flags = match algorithm {
            it if it.starts_with("rsa-sha2-512") => RSA_SHA2_512,
            it if it.starts_with("rsa-sha2-256") => RSA_SHA2_256,
            _ => 0,
        };
        let mut request = vec![SIGN_REQUEST];
        request.extend(Put::new().string(key).string(text).number(flags).done());
        let answer = self.ask(request, SIGN_RESPONSE).await?;
        let mut rest = Take(&answer);
        rest.string().filter(|_| rest.0.is_empty()).map(<[u8]>::to_vec).ok_or_else(|| bad("the agent answers no signature"))
    }

    // The body of the answer, which has to be of this kind.
    async fn ask(&self, request: Vec<u8>, wanted: u8) -> Result<Vec<u8>> {
        let mut there = UnixStream::connect(&self.0).await?;
        there.write_all(&Put::new().string(request).done()).await?;
        let count = there.read_u32().await?;
        if count == 0 || count > LONGEST {
            return Err(bad("the agent answers too much, or nothing"));
        }
        let mut answer = vec![0; count as usize];
        there.read_exact(&mut answer).await?;
        if answer.remove(0) != wanted {
            return Err(Error::new(ErrorKind::PermissionDenied, "the agent refuses"));
        }
        Ok(answer)
    }
}
