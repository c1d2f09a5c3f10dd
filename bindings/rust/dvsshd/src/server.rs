//! Who is let in, and what is done on a connection.

use crate::authorized::{self, Entry, Rights};
use crate::descriptor::MostDescriptors;
use crate::expiry;
use crate::forward::{self, Ports};
use crate::log::say;
use crate::session::{Account, Between, Session};
use crate::words::Words;
use crate::{Failure, Handler};
use divrelca_tokio::server::{Config, Connection, Credential, Rejected, Served, Shown};
use divrelca_tokio::{decide, keys, signatures, Decide, Keepalive, Methods, Offer, Question};
use ring::constant_time::verify_slices_are_equal;
use ring::digest::{digest, SHA256};
use std::ffi::{OsStr, OsString};
use std::net::SocketAddr;
use std::sync::Arc;
use std::time::Duration;
use tokio::task::JoinSet;
use tokio::time::timeout;
use zeroize::Zeroizing;

// Channels of one connection: sessions and connections to ports.
const MOST_CHANNELS: usize = 256;

pub struct Server {
    account: Arc<Account>,
    // without the keys of authorized_keys
    config: Config,
    authorized_keys: Option<OsString>,
    is_verbose: bool,
}

fn read(file: &OsStr) -> Result<Zeroizing<Vec<u8>>, Failure> {
    std::fs::read(file).map(Zeroizing::new).map_err(|error| format!("{}: {error}", file.to_string_lossy()).into())
}

// The first line of a file.
fn password(file: &OsStr) -> Result<Credential, Failure> {
    let text = read(file)?;
    match text.split(|it| matches!(it, b'\r' | b'\n')).next() {
        Some(line) if !line.is_empty() => Ok(Credential::password(line)),
        _ => Err(format!("{}: there is no password on its first line", file.to_string_lossy()).into()),
    }
}

// Answers what is asked of a user with these keys and these passwords.
fn decides(name: String, entries: Vec<Entry>, users: Vec<(String, Credential)>) -> Decide {
    let answer = move |question: &Question| match question {
        Question::Key { user, algorithm, key } => *user == name.as_bytes() && entries.iter().any(|it| it.is_for(algorithm, key)),
        Question::Password { user, password } => {
            *user == name.as_bytes() && users.iter().any(|it| matches!(&it.1, Credential::Password(word) if is_same(word, password)))
        }
        other => signatures::answer(other).unwrap_or(false),
    };
    decide(move |question| std::future::ready(answer(&question)))
}

// In a time that does not depend on where they differ.
fn is_same(one: &[u8], other: &[u8]) -> bool {
    let [one, other] = [one, other].map(|it| digest(&SHA256, it));
    verify_slices_are_equal(one.as_ref(), other.as_ref()).is_ok()
}

impl Server {
    pub fn new(words: &Words) -> Result<Self, Failure> {
        let me = nix::unistd::User::from_uid(nix::unistd::getuid())?.ok_or("no account of this user")?;
        let name = words.user.clone().unwrap_or(me.name);
        let file = &words.host_key;
        let (seed, _) = keys::private_key(&read(file)?).map_err(|error| format!("{}: {error}", file.to_string_lossy()))?;
        let mut config = Config::new(seed);
        config.grace = Duration::from_secs(words.grace);
        config.keepalive = Some(Keepalive { every: Duration::from_secs(words.keepalive.clamp(1, 1_000_000)), most: 3 });
        (config.channels, config.listens) = (MOST_CHANNELS, true);
        if let Some(file) = &words.password_file {
            config.users.push((name.clone(), password(file)?));
        }
        let (sftp_server, most_descriptors) = (words.sftp_server.clone(), MostDescriptors::raise()?);
        let account = Account { name, home: me.dir.into(), shell: me.shell.into(), sftp_server, most_descriptors };
        let (authorized_keys, is_verbose) = (words.authorized_keys.clone(), words.is_verbose);
        let server = Server { account: Arc::new(account), config, authorized_keys, is_verbose };
        if let Some(file) = &words.authorized_keys {
            if server.read_keys(file, true)?.is_empty() && words.password_file.is_none() {
                return Err(format!("{}: there is no key that lets the user in", file.to_string_lossy()).into());
            }
        }
        Ok(server)
    }

    fn read_keys(&self, file: &OsStr, tells: bool) -> Result<Vec<Entry>, Failure> {
        let (entries, refused) = authorized::read(&read(file)?);
        for (line, what) in refused.iter().take(if tells { usize::MAX } else { 0 }) {
            say(&format!("{}, line {line}, lets nobody in: {what}", file.to_string_lossy()));
        }
        Ok(entries)
    }

    // The keys that let somebody in now who comes from there, as the file stands now.
    fn entries(&self, peer: Option<SocketAddr>) -> Vec<Entry> {
        let file = match &self.authorized_keys {
            Some(file) => file,
            None => return Vec::new(),
        };
        match self.read_keys(file, false) {
            Ok(entries) => {
                let (now, address) = (expiry::now(), peer.map(|it| it.ip()));
                entries.into_iter().filter(|it| it.rights.is_from(address) && it.rights.is_current(now)).collect()
            }
            Err(error) => {
                say(&error.to_string());
                Vec::new()
            }
        }
    }

    /// What the server for this peer is made of.
    pub fn config_for(&self, peer: Option<SocketAddr>) -> Arc<Config> {
        let (mut config, entries) = (self.config.clone(), self.entries(peer));
        let of_key = |it: &Entry| Some((self.account.name.clone(), Credential::Key(it.key()?)));
        let keys: Option<Vec<_>> = entries.iter().map(of_key).collect();
        match keys {
            Some(keys) => config.users.extend(keys),
            // of a user who is known nothing is asked, so all is: the library knows no other keys
            None => {
                config.methods = Some(if config.users.is_empty() { Methods::Key } else { Methods::Both });
                config.user_algorithms = signatures::ALGORITHMS.into();
                config.authorize = Some(decides(self.account.name.clone(), entries, std::mem::take(&mut config.users)));
            }
        }
        Arc::new(config)
    }

    // What the user may do, and what the log says of the credential. None where the key's line is gone meanwhile.
    fn rights(&self, connection: &Connection, peer: Option<SocketAddr>) -> Option<(Rights, String)> {
        match connection.shown() {
            Shown::Key(key) => {
                let entry = self.entries(peer).into_iter().find(|it| it.key() == Some(*key))?;
                Some((entry.rights, format!("the key of line {}", entry.line)))
            }
            Shown::OtherKey(blob) => {
                let entry = self.entries(peer).into_iter().find(|it| it.blob == *blob)?;
                Some((entry.rights, format!("the key of line {}", entry.line)))
            }
            _ => Some((Rights::default(), "a password".into())),
        }
    }

    /// Serves a connection to its end. `place` has the addresses of the client and of this end.
    pub async fn serve_all(&self, connection: Connection, place: Option<(SocketAddr, SocketAddr)>) {
        let who = place.map_or("standard input".into(), |it| it.0.to_string());
        let (rights, by) = match self.rights(&connection, place.map(|it| it.0)) {
            Some(found) => found,
            None => return say(&format!("{who}: the key of {} is not there any more", connection.user())),
        };
        say(&format!("{who}: {} is let in by {by}", connection.user()));
        let text = |it: SocketAddr| [it.ip().to_string(), it.port().to_string()];
        let [client, here] =
            place.map_or([["UNKNOWN".into(), "65535".into()], ["UNKNOWN".into(), "65535".into()]], |it| [text(it.0), text(it.1)]);
        let ([client, client_port], [here, port]) = (client, here);
        let between = Between { rights, addresses: [client, client_port, here, port] };
        self.hear(&connection, between, &who).await;
    }

    async fn hear(&self, connection: &Connection, between: Between, who: &str) {
        let (mut sessions, mut ports) = (JoinSet::new(), Ports::default());
        let why = loop {
            tokio::select! {
                offer = connection.next_channel() => match offer {
                    Ok(offer) => self.take(offer, connection, &between, who, &mut sessions),
                    Err(why) => break why,
                },
                Ok(asked) = connection.next_listen() => ports.hear(asked, connection, &between.rights).await,
                Some(_) = sessions.join_next() => {}
            }
        };
        say(&format!("{who}: gone: {why}"));
        // their commands are hung up; those that stay are nobody's
        let _ = timeout(Duration::from_secs(2), async { while sessions.join_next().await.is_some() {} }).await;
        sessions.detach_all();
    }

    fn take(&self, offer: Offer, connection: &Connection, between: &Between, who: &str, sessions: &mut JoinSet<()>) {
        let (who, between, account, is_verbose) = (who.to_owned(), between.clone(), self.account.clone(), self.is_verbose);
        if is_verbose {
            say(&format!("{who}: a channel of type {}", offer.kind()));
        }
        match offer.kind() {
            "session" => {
                let channel = match offer.confirm() {
                    Ok(channel) => channel,
                    Err(_) => return,
                };
                let connection = connection.clone();
                sessions.spawn(async move {
                    if let Err(error) = Session::new(channel, &account, between, connection).serve().await {
                        say(&format!("{who}: a session: {error}"));
                    }
                });
            }
            "direct-tcpip" => drop(sessions.spawn(forward::direct(offer, between.rights, who))),
            _ => offer.refuse(3),
        }
    }
}

impl Handler for Server {
    fn config(&self, peer: SocketAddr) -> Arc<Config> {
        self.config_for(Some(peer))
    }

    fn serve(&self, connection: Connection, here: SocketAddr, peer: SocketAddr) -> Served<'_> {
        Box::pin(self.serve_all(connection, Some((peer, here))))
    }

    fn rejected(&self, peer: SocketAddr, why: &Rejected) {
        reject(&peer.to_string(), why);
    }
}

/// Says that nobody was let in, and what was tried.
pub fn reject(who: &str, rejected: &Rejected) {
    let tried = rejected.tried.iter().map(|it| {
        let by = match &it.shown {
            Shown::Key(_) | Shown::OtherKey(_) | Shown::Probe(_) => "publickey",
            Shown::Password => "password",
            Shown::Other(name) => name,
            _ => "none",
        };
        format!("{} by {by}", it.user.escape_ascii())
    });
    say(&format!("{who}: nobody is let in: {}; tried: [{}]", rejected.why, tried.collect::<Vec<_>>().join(", ")));
}
