//! The way to the server, and the login there.

use crate::hosts;
use crate::identities::Identities;
use crate::log::{say, show_banner};
use crate::names::Place;
use crate::terminal;
use crate::words::{HostCheck, Words};
use crate::Failure;
use divrelca_tokio::client::{self, Config, Connection, Outcome};
use divrelca_tokio::{keys, Joined, Keepalive};
use std::io;
use std::process::Stdio;
use std::time::Duration;
use tokio::io::{AsyncRead, AsyncWrite};
use tokio::net::{lookup_host, TcpStream};
use tokio::process::{Child, ChildStdin, ChildStdout, Command};
use zeroize::Zeroizing;

const MOST_SKIPPED: usize = 3;

/// A host to log in at, and what is known of it.
struct Target {
    user: String,
    /// The name for known_hosts.
    name: String,
    /// The name to connect to.
    address: String,
    port: u16,
}

/// A file of the folder for SSH in the home folder.
pub fn home(file: &str) -> String {
    std::env::var("HOME").map(|it| format!("{it}/.ssh/{file}")).unwrap_or_default()
}

/// A file's name, with ~ and %d for the home folder.
pub fn expand(file: &str) -> String {
    match (std::env::var("HOME"), file.strip_prefix("~/").or_else(|| file.strip_prefix("%d/"))) {
        (Ok(home), Some(rest)) => format!("{home}/{rest}"),
        _ => file.into(),
    }
}

fn bare(host: &str) -> &str {
    host.trim_start_matches('[').trim_end_matches(']')
}

/// The name of the user who runs this.
pub fn my_name() -> Result<String, Failure> {
    Ok(nix::unistd::User::from_uid(nix::unistd::getuid())?.ok_or("no name of the user: -l has one")?.name)
}

impl Target {
    fn of_words(words: &Words) -> Result<Self, Failure> {
        let user = words.user.clone().map_or_else(my_name, Ok)?;
        let address = words.host_name.as_ref().unwrap_or(&words.host).clone();
        let name = words.host_key_alias.clone().unwrap_or_else(|| named(&address, words.port()));
        Ok(Target { user, name, address, port: words.port() })
    }

    fn of_jump(jump: &Place) -> Result<Self, Failure> {
        let (user, port) = (jump.user.clone().map_or_else(my_name, Ok)?, jump.port.unwrap_or(22));
        Ok(Target { user, name: named(&jump.host, port), address: jump.host.clone(), port })
    }

    // What the words say of the host's keys. Lines that are passed over are told where no key is found.
    fn config(&self, words: &Words, seed: &Option<Zeroizing<[u8; 32]>>) -> Result<Config, Failure> {
        let mut files = words.known_hosts.clone().unwrap_or_else(|| vec![home("known_hosts"), home("known_hosts2")]);
        files.extend(words.global_known_hosts.clone().unwrap_or_else(|| vec!["/etc/ssh/ssh_known_hosts".into()]));
        let mut all = Vec::new();
        for file in files.iter().map(|it| expand(it)) {
            match std::fs::read(&file) {
                Ok(text) => all.push(text),
                Err(error) if error.kind() == io::ErrorKind::NotFound => {}
                Err(error) => return Err(format!("{file}: {error}").into()),
            }
        }
        let text = all.join(&b'\n');
        let found = keys::known_host_keys(&text, &self.name);
        let is_new = matches!(&found, Err(it) if it.is_no_key());
        if found.is_err() || words.verbose > 0 {
            for skipped in keys::skipped_hosts(&text, &self.name).take(MOST_SKIPPED) {
                say(&format!("a line of {} is passed over: {skipped}", files.join(" ")));
            }
        }
        let asks = match words.host_check {
            HostCheck::Known => false,
            HostCheck::Ask => !words.is_batch && terminal::is_there(),
            HostCheck::New => true,
        };
        let mut config = match found {
            Err(_) if is_new && asks => Config::new([]),
            found => Config::new(found.map_err(|error| format!("{} in {}: {error}", self.name, files.join(" ")))?),
        };
        if config.host_keys.is_empty() {
            config.trust = Some(hosts::trust(words.host_check, self.name.clone(), expand(&files[0]), &text));
        }
        (config.user_seed, config.ciphers) = (seed.clone(), words.ciphers);
        config.keepalive = words.alive_interval.map(|every| Keepalive { every, most: words.alive_count });
        Ok(config)
    }
}

fn named(host: &str, port: u16) -> String {
    match port {
        22 => bare(host).to_ascii_lowercase(),
        port => format!("[{}]:{port}", bare(host).to_ascii_lowercase()),
    }
}

fn by_proxy(command: &str, words: &Words, target: &Target) -> Result<(Child, Joined<ChildStdout, ChildStdin>), Failure> {
    let mut filled = String::from("exec ");
    let mut rest = command.chars();
    while let Some(next) = rest.next() {
        match (next, if next == '%' { rest.next() } else { None }) {
            ('%', Some('h')) => filled += bare(&target.address),
            ('%', Some('n')) => filled += bare(&words.host),
            ('%', Some('p')) => filled += &target.port.to_string(),
            ('%', Some('r')) => filled += &target.user,
            ('%', Some('%')) => filled.push('%'),
            ('%', other) => return Err(format!("ProxyCommand: %{} is not known", other.unwrap_or(' ')).into()),
            _ => filled.push(next),
        }
    }
    let mut child = Command::new("/bin/sh").arg("-c").arg(filled).stdin(Stdio::piped()).stdout(Stdio::piped()).spawn()?;
    match (child.stdout.take(), child.stdin.take()) {
        (Some(out), Some(into)) => Ok((child, Joined(out, into))),
        _ => Err("no pipes".into()),
    }
}

async fn dial(words: &Words, target: &Target) -> Result<TcpStream, Failure> {
    let mut last = String::from("no address");
    let addresses = lookup_host((bare(&target.address), target.port)).await;
    for address in addresses.map_err(|error| format!("{}: {error}", target.address))? {
        if words.is_v6.map_or(false, |is_v6| is_v6 != address.is_ipv6()) {
            continue;
        }
        match TcpStream::connect(address).await {
            Ok(socket) => {
                socket.set_nodelay(true)?;
                return Ok(socket);
            }
            Err(error) => last = error.to_string(),
        }
    }
    Err(format!("{} port {}: {last}", target.address, target.port).into())
}

struct Way<'a> {
    words: &'a Words,
    by: Identities,
}

impl Way<'_> {
    // Exchanges keys within the time for a connection, and logs in, which may take longer.
    async fn log_in<S, F>(&self, target: &Target, socket: F) -> Result<Connection, Failure>
    where
        S: AsyncRead + AsyncWrite + Unpin + Send + 'static,
        F: std::future::Future<Output = Result<S, Failure>>,
    {
        let config = target.config(self.words, &self.by.seed)?;
        let shake = async { Ok::<_, Failure>(client::handshake(socket.await?, &config).await?) };
        let within = self.words.connect_timeout.unwrap_or(Duration::from_secs(1 << 30));
        let connection =
            tokio::time::timeout(within, shake).await.map_err(|_| format!("{}: the connection took too long", target.address))??;
        log_in(&connection, self.words, target, &self.by).await?;
        Ok(connection)
    }

    // The first connection, by the proxy's command or by its address.
    async fn first(&self, target: &Target) -> Result<Connection, Failure> {
        match &self.words.proxy {
            Some(command) => {
                let (mut child, pipes) = by_proxy(command, self.words, target)?;
                tokio::spawn(async move { child.wait().await });
                self.log_in(target, async { Ok(pipes) }).await
            }
            None => self.log_in(target, dial(self.words, target)).await,
        }
    }
}

/// Connects to the host of the words, over those of -J, and logs in. The words are those of each login.
pub async fn connect(words: &Words) -> Result<Connection, Failure> {
    let way = Way { words, by: Identities::of(words).await };
    let mut targets = words.jumps.iter().map(Target::of_jump).collect::<Result<Vec<_>, _>>()?;
    targets.push(Target::of_words(words)?);
    let mut connection = way.first(&targets[0]).await?;
    for target in &targets[1..] {
        let before = connection.clone();
        let over = async move { Ok(before.direct(bare(&target.address), target.port).await?.data()) };
        connection = way.log_in(target, over).await?;
    }
    Ok(connection)
}

async fn log_in(connection: &Connection, words: &Words, target: &Target, by: &Identities) -> Result<(), Failure> {
    let user = target.user.as_str();
    let mut outcome = connection.login_none(user).await?;
    show_banner(&connection.take_banner());
    outcome = by.log_in(connection, user, outcome).await?;
    let given = std::env::var("DVSSH_PASSWORD").ok().map(Zeroizing::new);
    let tries = match (&given, words.is_batch) {
        (Some(_), _) => 1,
        (None, true) => 0,
        (None, false) => words.prompts,
    };
    for _ in 0..tries {
        if words.no_password || !outcome.allows("password") {
            break;
        }
        let word = match &given {
            Some(word) => word.clone(),
            None => terminal::password(&format!("{user}@{}'s password: ", target.address)).await?,
        };
        outcome = connection.login_password(user, &word).await?;
    }
    match outcome {
        Outcome::LetIn => Ok(()),
        Outcome::Failed(methods) => Err(format!("{user}@{} is not let in; methods that can go on: {methods}", target.address).into()),
        other => Err(format!("{user}@{} is not let in: {other:?}", target.address).into()),
    }
}
