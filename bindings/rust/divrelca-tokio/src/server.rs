//! A server.

use crate::driver::{start, Handle};
use crate::polls::poll_fn;
use crate::state::State;
use crate::table::{Listens, Login, Table};
use crate::{plain, Channel, Decide, Error, Keepalive, Offer, Result};
use divrelca::wire::Put;
use divrelca::{Ciphers, Material, Methods, Server, ServerSettings, User};
use std::fmt;
use std::sync::Arc;
use std::task::Poll;
use std::time::Duration;
use tokio::io::{AsyncRead, AsyncWrite};
use tokio::sync::oneshot;
use tokio::time::timeout;
use zeroize::Zeroizing;

pub use crate::client::Forwarded;
pub use crate::serve::{serve, Handler, Limits, Served};

/// What lets a user in.
#[derive(Clone)]
#[non_exhaustive]
pub enum Credential {
    /// A signature by this public key of ssh-ed25519.
    Key([u8; 32]),
    /// This password.
    Password(Zeroizing<Vec<u8>>),
}

impl Credential {
    /// A password.
    pub fn password(word: impl Into<Vec<u8>>) -> Self {
        Credential::Password(Zeroizing::new(word.into()))
    }
}

impl fmt::Debug for Credential {
    fn fmt(&self, f: &mut fmt::Formatter<'_>) -> fmt::Result {
        lent(self).fmt(f)
    }
}

/// Finds what lets the user of a name in, where a client asks by the method `none` first. It is called by the connection's task.
pub type Lookup = Arc<dyn Fn(&str) -> Vec<Credential> + Send + Sync>;

/// What a server is made of. `new` has the defaults, and each field can be set then.
#[derive(Clone)]
#[non_exhaustive]
pub struct Config {
    /// The seed of the host key.
    pub host_seed: Zeroizing<[u8; 32]>,
    /// Users, by name; one may stand here several times.
    pub users: Vec<(String, Credential)>,
    /// Finds users besides these.
    pub lookup: Option<Lookup>,
    /// Decides on each password and each key of a user who is not among them, in its own time; and on the signature by each key that is not of
    /// ssh-ed25519: `signatures::answer` does, with the feature `ring`.
    pub authorize: Option<Decide>,
    /// The names of the algorithms of users' keys, with commas, of which clients are told; none are told where there are none.
    pub user_algorithms: String,
    /// Which methods are named and taken; where nothing is said, those by which somebody can come in.
    pub methods: Option<Methods>,
    /// Which encryptions are offered.
    pub ciphers: Ciphers,
    /// After so many packets sent under one key keys are exchanged: 64 to 2^31.
    pub epoch_limit: u32,
    /// How many requests for authentication may fail: 1 to 20.
    pub tries: u32,
    /// How long the login may take.
    pub grace: Duration,
    /// Whether a silent client is asked for a sign of life.
    pub keepalive: Option<Keepalive>,
    /// Channels of one connection, among them those that are closed and still held.
    pub channels: usize,
    /// Whether clients may ask for ports: `Connection::next_listen` has to be called then.
    pub listens: bool,
}

impl Config {
    /// A server with the key of this seed and nobody to let in.
    pub fn new(host_seed: [u8; 32]) -> Self {
        Config {
            host_seed: Zeroizing::new(host_seed),
            users: Vec::new(),
            lookup: None,
            authorize: None,
            user_algorithms: String::new(),
            methods: None,
            ciphers: Ciphers::Both,
            epoch_limit: 1 << 20,
            tries: 6,
            grace: Duration::from_secs(120),
            keepalive: Some(Keepalive { every: Duration::from_secs(60), most: 3 }),
            channels: 64,
            listens: false,
        }
    }

    fn asks_nobody(&self) -> bool {
        self.lookup.is_none() && self.authorize.is_none()
    }

    fn methods(&self) -> Methods {
        if let Some(methods) = self.methods {
            return methods;
        }
        let has_key = self.users.iter().any(|it| matches!(it.1, Credential::Key(_)));
        let has_word = self.users.iter().any(|it| matches!(it.1, Credential::Password(_)));
        match (has_key, has_word) {
            (true, false) if self.asks_nobody() => Methods::Key,
            (false, true) if self.asks_nobody() => Methods::Password,
            _ => Methods::Both,
        }
    }
}

impl fmt::Debug for Config {
    fn fmt(&self, f: &mut fmt::Formatter<'_>) -> fmt::Result {
        let mut shown = f.debug_struct("Config");
        shown.field("users", &self.users).field("looks_up", &self.lookup.is_some()).field("authorizes", &self.authorize.is_some());
        shown.field("ciphers", &self.ciphers);
        shown.field("tries", &self.tries).field("grace", &self.grace).field("keepalive", &self.keepalive);
        shown.field("channels", &self.channels).field("listens", &self.listens).finish_non_exhaustive()
    }
}

/// What a user showed.
#[derive(Clone, Debug, PartialEq, Eq)]
#[non_exhaustive]
pub enum Shown {
    /// Nothing.
    Nothing,
    /// A signature by this key of ssh-ed25519.
    Key([u8; 32]),
    /// A signature by this key of another type, as it goes over the wire.
    OtherKey(Vec<u8>),
    /// A password.
    Password,
    /// A key without a signature, as the peer sent it.
    Probe(Vec<u8>),
    /// Something by the method of this name.
    Other(String),
}

impl Shown {
    pub(crate) fn of(shown: divrelca::Shown<'_>) -> Self {
        match shown {
            divrelca::Shown::Key(blob) => divrelca::keys::of_blob(blob).map_or_else(|| Shown::OtherKey(blob.into()), Shown::Key),
            divrelca::Shown::Probe(blob) => Shown::Probe(blob.into()),
            divrelca::Shown::Password => Shown::Password,
            divrelca::Shown::Other(name) => Shown::Other(plain(name)),
            _ => Shown::Nothing,
        }
    }
}

/// A request for authentication that let nobody in. The name is as the peer gave it.
#[derive(Clone, Debug, PartialEq, Eq)]
pub struct Attempt {
    /// The user's name.
    pub user: Vec<u8>,
    /// What was shown.
    pub shown: Shown,
}

/// Why nobody was let in, and what was tried.
#[derive(Debug)]
pub struct Rejected {
    /// Why the connection ended.
    pub why: Error,
    /// What was tried, without requests by the method `none`.
    pub tried: Vec<Attempt>,
}

impl From<Error> for Rejected {
    fn from(why: Error) -> Self {
        Rejected { why, tried: Vec::new() }
    }
}

impl fmt::Display for Rejected {
    fn fmt(&self, f: &mut fmt::Formatter<'_>) -> fmt::Result {
        write!(f, "nobody is let in: {}", self.why)
    }
}

impl std::error::Error for Rejected {
    fn source(&self) -> Option<&(dyn std::error::Error + 'static)> {
        Some(&self.why)
    }
}

/// A connection with a user who is let in.
#[derive(Clone, Debug)]
pub struct Connection {
    handle: Arc<Handle>,
    user: String,
    shown: Shown,
}

/// Exchanges keys over a stream, and lets a user in.
///
/// # Errors
/// Where nobody was let in, or not in time.
pub async fn accept<S>(socket: S, config: &Config) -> std::result::Result<Connection, Rejected>
where
    S: AsyncRead + AsyncWrite + Unpin + Send + 'static,
{
    let (handle, hears) = begin(socket, config)?;
    let outcome = timeout(config.grace, hears).await;
    let tried = std::mem::take(&mut handle.link.lock().table.tried);
    match outcome {
        Ok(Ok(Login::LetIn(user, shown))) => Ok(Connection { handle: Arc::new(handle), user: plain(&user), shown }),
        Err(_) => Err(Rejected { why: Error::Silent, tried }),
        Ok(_) => Err(Rejected { why: handle.why_over(), tried }),
    }
}

fn begin<S>(socket: S, config: &Config) -> Result<(Handle, oneshot::Receiver<Login>)>
where
    S: AsyncRead + AsyncWrite + Unpin + Send + 'static,
{
    let mut padding = [0; 32];
    getrandom::getrandom(&mut padding)?;
    let users: Vec<User<'_>> = config.users.iter().map(|(name, login)| User { name: name.as_bytes(), login: lent(login) }).collect();
    let mut settings = ServerSettings::new(&config.host_seed, &users);
    (settings.software, settings.tries, settings.methods) = (b"Divrelca_tokio", config.tries, config.methods());
    (settings.ciphers, settings.epoch_limit) = (config.ciphers, config.epoch_limit);
    settings.user_algorithms = config.user_algorithms.as_bytes();
    let end = Server::new(&settings, &Material::random()?, &padding)?;
    let (login, hears) = oneshot::channel();
    let mut table = Table { most_channels: config.channels, login: Some(login), ..Table::default() };
    (table.takes_channels, table.takes_listens) = (true, config.listens);
    let state = State::new(end.into(), table, config.lookup.clone(), config.authorize.clone())?;
    Ok((start(socket, state, config.keepalive), hears))
}

pub(crate) fn lent(login: &Credential) -> divrelca::Login<'_> {
    match login {
        Credential::Key(key) => divrelca::Login::Key(key),
        Credential::Password(word) => divrelca::Login::Password(word),
    }
}

impl Connection {
    /// Who is let in.
    pub fn user(&self) -> &str {
        &self.user
    }

    /// By what: a key is the one whose signature was verified.
    pub fn shown(&self) -> &Shown {
        &self.shown
    }

    /// The next channel that the peer opens.
    ///
    /// # Errors
    /// Where the connection is over.
    pub async fn next_channel(&self) -> Result<Offer> {
        Offer::next(&self.handle).await
    }

    /// The next request to listen on a port, where the configuration takes them.
    ///
    /// # Errors
    /// Where the connection is over.
    pub async fn next_listen(&self) -> Result<Listen> {
        let asked = poll_fn(|cx| {
            let mut state = self.handle.link.lock();
            if let Some(asked) = state.table.listens.pop_front() {
                return Poll::Ready(Ok::<_, Error>(asked));
            }
            state.check()?;
            state.table.listener = Some(cx.waker().clone());
            Poll::Pending
        });
        Ok(Listen { handle: self.handle.clone(), asked: asked.await? })
    }

    /// Opens a channel to the client for a connection that came to a port on which it asked to listen.
    ///
    /// # Errors
    /// Where the client refuses it, or the connection is over.
    pub async fn forwarded(&self, from: &Forwarded) -> Result<Channel> {
        let rest = Put::new().string(&from.host).number(from.port.into()).string(&from.origin).number(from.origin_port.into());
        self.handle.open("forwarded-tcpip", rest.done()).await
    }

    /// Opens a channel to the client's agent, which the client offered by the request `auth-agent-req@openssh.com` on a session.
    ///
    /// # Errors
    /// Where the client refuses it, or the connection is over.
    pub async fn agent(&self) -> Result<Channel> {
        self.handle.open("auth-agent@openssh.com", Vec::new()).await
    }

    /// Says good-bye, and waits until that is written.
    pub async fn close(&self) {
        self.handle.close().await;
    }
}

/// The client asks that this end listens on a port, or no longer. One that is dropped is refused.
pub struct Listen {
    handle: Arc<Handle>,
    asked: Listens,
}

impl fmt::Debug for Listen {
    fn fmt(&self, f: &mut fmt::Formatter<'_>) -> fmt::Result {
        f.debug_struct("Listen").field("address", &self.asked.address).field("port", &self.asked.port).finish_non_exhaustive()
    }
}

impl Listen {
    /// Whether it shall begin, and not end.
    pub fn begins(&self) -> bool {
        self.asked.begins
    }

    /// The address, as the client gives it: "" and "localhost" have the meanings of RFC 4254, 7.1.
    pub fn address(&self) -> &str {
        &self.asked.address
    }

    /// The port; 0 stands for any.
    pub fn port(&self) -> Option<u16> {
        self.asked.port.try_into().ok()
    }

    /// Says that it is done, and on which port.
    pub fn done(mut self, port: u16) {
        let rest = if self.asked.port == 0 { Put::new().number(port.into()).done() } else { Vec::new() };
        self.send(Some(rest));
    }

    fn send(&mut self, answer: Option<Vec<u8>>) {
        if let Some(owed) = self.asked.owed.take() {
            let mut state = self.handle.link.lock();
            state.table.owed.answer(owed, answer);
            let _ = state.reply_global();
            state.kick();
        }
    }
}

impl Drop for Listen {
    fn drop(&mut self) {
        self.send(None);
    }
}
